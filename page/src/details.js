// One record: its numbers, its answer in words, its tokens and residual as heat maps, and which of its rows are live.
import { Answer, MEANINGS } from "../../bindings/js/header.js";
import { each, inside } from "./blocks.js";
import { greatest, grey, painted, signed } from "./colours.js";
import { byId, count, element } from "./elements.js";
import { typeName } from "./vbk.js";

const answered = (answer) => `${answer}: ${MEANINGS[answer]}`;

function facts(record, within) {
  const said = [["Answer", answered(record.answer)]];
  if (record.x === undefined) return said;
  said.push(["Place", `column ${record.x}, row ${record.y}`]);
  said.push(["Size", record.side > 0 ? `${record.side} by ${record.side}` : `size number ${record.size}, which there is not`]);
  said.push(["Transform", typeName(record)], ["Quantizers", `DC ${record.dc}, AC ${record.ac}`]);
  if (record.lossless > 1) said.push(["Lossless byte", String(record.lossless)]);
  if (record.tokens) said.push(["Tokens", `${count(record.tokens.filter((token) => token !== 0).length)} of ${count(record.tokens.length)} are not 0`]);
  if (within) said.push(["Live rows", liveRows(record, within)], ["32-bit engine", answered(record.engine)]);
  return said;
}

function liveRows(record, { rows, first, last, summary, transforms }) {
  const bits = summary.toString(2).padStart(record.side, "0");
  if (rows === 0) return "none";
  return `${rows} of ${record.side}, first ${first}, last ${last}; bits ${bits} (row 0 at the right); ${transforms} row ${transforms === 1 ? "transform" : "transforms"}`;
}

function bits(record, within) {
  const column = element("div", { className: "bits", title: "live rows" });
  column.style.gridTemplateRows = `repeat(${record.side}, 1fr)`;
  for (let i = 0; i < record.side; i++) column.append(element("i", { className: (within.summary >>> i) & 1 ? "live" : "" }));
  return column;
}

/** A square of numbers; the one under the pointer is told below it. */
function map(title, side, values, colour, beside = []) {
  const canvas = painted(element("canvas"), side, side, values, colour);
  canvas.style.width = canvas.style.height = `${Math.max(side * 6, 160)}px`;
  canvas.setAttribute("role", "img");
  canvas.setAttribute("aria-label", title);
  const told = element("div", { className: "mono quiet", textContent: " " });
  canvas.addEventListener("pointermove", (event) => {
    const at = (offset) => Math.max(0, Math.min(side - 1, Math.floor((offset * side) / canvas.clientWidth)));
    const [i, j] = [at(event.offsetY), at(event.offsetX)];
    told.textContent = `row ${i}, column ${j}: ${values[i * side + j]}`;
  });
  return element("figure", {}, element("figcaption", { textContent: title }), element("div", { className: "map" }, ...beside, canvas), told);
}

/** The block's samples of a plane; 0 where it lies outside. */
function cut(file, record, samples) {
  const values = new Array(record.side * record.side).fill(0);
  each(file.run, record, (place, k) => (values[k] = samples[place]));
  return values;
}

function maps(file, record, within) {
  const tokens = Array.from(record.tokens);
  const most = greatest(tokens);
  const found = [map(`Tokens, at most ${count(most)}`, record.side, tokens, signed(most), within ? [bits(record, within)] : [])];
  if (!within) return found;
  const reach = greatest(within.residual);
  found.push(map(`Residual, at most ${count(reach)}`, record.side, within.residual, signed(reach)));
  if (record.engine !== Answer.Narrow) return found;
  const shade = grey(file.run.depth);
  found.push(map("Our samples", record.side, cut(file, record, file.run.samples), shade));
  found.push(map("Illustration: 16 bits that wrap", record.side, cut(file, record, file.wrapped), shade));
  return found;
}

/** The numbers as text, for who cannot see or point at the maps. */
function numbers(record) {
  const lines = Array.from({ length: record.side }, (_, i) => Array.from(record.tokens.subarray(i * record.side, (i + 1) * record.side)).join(" "));
  return element("details", {}, element("summary", { textContent: "Tokens as numbers" }), element("pre", { className: "scroll mono", textContent: lines.join("\n") }));
}

export function showDetails(library, file, record) {
  byId("details").hidden = false;
  byId("details-title").textContent = `Record ${record.index}`;
  const within = record.answer === Answer.Done ? inside(library, record) : null;
  byId("facts").replaceChildren(...facts(record, within).flatMap(([name, words]) => [element("dt", { textContent: name }), element("dd", { textContent: words })]));
  byId("maps").replaceChildren(...(record.tokens ? [...maps(file, record, within), numbers(record)] : []));
}
