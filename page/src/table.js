// The table of records, and its filter by answer.
import { Answer, MEANINGS } from "../../bindings/js/header.js";
import { byId, count, element } from "./elements.js";
import { typeName } from "./vbk.js";

const NARROW = "narrow";

function kept(file, wanted) {
  if (wanted === "all") return file.records;
  if (wanted === NARROW) return file.narrow;
  return file.records.filter((record) => String(record.answer) === wanted);
}

export function showFilter(file) {
  const numbers = [...new Set(file.records.map((record) => record.answer))].sort((a, b) => a - b);
  const choices = [["all", `all (${count(file.records.length)})`]];
  for (const number of numbers) choices.push([String(number), `${number}: ${MEANINGS[number]} (${count(kept(file, String(number)).length)})`]);
  if (file.narrow.length > 0) choices.push([NARROW, `leaves 16 bits (${count(file.narrow.length)})`]);
  byId("filter").replaceChildren(...choices.map(([value, text]) => element("option", { value, textContent: text })));
}

function cells(record) {
  const known = record.x !== undefined;
  return [
    known ? `${record.x}, ${record.y}` : "",
    record.side > 0 ? `${record.side} by ${record.side}` : known ? `number ${record.size}` : "",
    known ? typeName(record) : "",
    known ? `${record.dc}, ${record.ac}` : "",
  ].map((text) => element("td", { textContent: text }));
}

function row(record, chosen, open) {
  const button = element("button", { type: "button", textContent: record.index });
  button.setAttribute("aria-label", `record ${record.index}`);
  button.addEventListener("click", () => open(record, true));
  const refused = record.answer !== Answer.Done;
  const answer = element("td", { className: "answer", textContent: refused ? `refused, ${record.answer}: ${MEANINGS[record.answer]}` : "done" });
  if (record.engine === Answer.Narrow) answer.append(element("span", { className: "mark", textContent: ", leaves 16 bits" }));
  const made = element("tr", { className: `${refused ? "refused" : ""} ${record === chosen ? "chosen" : ""}` }, element("td", {}, button), ...cells(record), answer);
  made.dataset.index = record.index;
  return made;
}

// As many rows as can be seen stand at once; the others follow in turns, so that a large file appears without waiting for them.
const FIRST = 60;
let filling = null;

export function showRows(file, chosen, open) {
  const left = kept(file, byId("filter").value || "all").slice();
  clearTimeout(filling);
  byId("rows").replaceChildren();
  const more = () => {
    byId("rows").append(...left.splice(0, FIRST).map((record) => row(record, chosen(), open)));
    byId("rows").dataset.left = left.length;
    if (left.length > 0) filling = setTimeout(more);
  };
  more();
}

export function showRow(chosen) {
  for (const one of byId("rows").children) one.classList.toggle("chosen", Number(one.dataset.index) === chosen.index);
}
