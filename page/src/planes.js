// The planes of a file side by side: sharp pixels at any zoom, the blocks' outlines, and the sample under the pointer or the keyboard's place.
import { Answer } from "../../bindings/js/header.js";
import { greatest, grey, painted, signed } from "./colours.js";
import { byId, count, element, svg } from "./elements.js";

/** What is shown: a name, its numbers, and how one is coloured. */
function views(file) {
  const { run, before } = file;
  const change = Array.from(run.samples, (sample, k) => sample - before[k]);
  const shade = grey(run.depth);
  const shown = [
    { id: "before", title: "Before", values: before, colour: shade },
    { id: "after", title: "After", values: run.samples, colour: shade },
    { id: "difference", title: `Difference (blue −${count(greatest(change))}, red +${count(greatest(change))})`, values: change, colour: signed(greatest(change)) },
  ];
  if (file.wrapped) shown.push({ id: "wrapped", title: "Illustration: 16 bits that wrap", values: file.wrapped, colour: shade });
  return shown;
}

function kind(record) {
  if (record.answer !== Answer.Done) return "refused";
  return record.engine === Answer.Narrow ? "narrow" : "done";
}

/** The outlines of all blocks of a kind in one path: a thousand elements would take longer than all else. */
function outlines(all, of) {
  const path = all.map(({ x, y, side }) => `M${x} ${y}h${side}v${side}h${-side}z`).join("");
  return svg("path", { d: path, class: `block ${of}` });
}

function overlay(file, chosen) {
  const { width, height } = file.run;
  const sheet = svg("svg", { viewBox: `0 0 ${width} ${height}`, preserveAspectRatio: "none", "aria-hidden": "true" });
  const inPlane = file.records.filter((record) => record.side > 0 && record.x < width && record.y < height);
  for (const of of ["done", "refused", "narrow"]) sheet.append(outlines(inPlane.filter((record) => kind(record) === of), of));
  sheet.append(outlines(inPlane.filter((record) => record === chosen), "chosen"));
  sheet.append(svg("rect", { class: "cursor", width: 0, height: 0 }));
  return sheet;
}

/** The last record that covers a sample; one that is done before one that is not. */
function under(file, x, y) {
  const all = file.records.filter((one) => one.x <= x && x < one.x + one.side && one.y <= y && y < one.y + one.side);
  return all.filter((one) => one.answer === Answer.Done).at(-1) ?? all.at(-1);
}

function told(file, x, y) {
  const place = y * file.run.width + x;
  const [before, after] = [file.before[place], file.run.samples[place]];
  const change = after - before;
  const record = under(file, x, y);
  return (
    `column ${x}, row ${y}: ${before} before, ${after} after (${change > 0 ? "+" : ""}${change})` +
    (file.wrapped ? `, ${file.wrapped[place]} with 16 bits that wrap` : "") +
    (record ? `; record ${record.index}` : "")
  );
}

function pointed(file, x, y) {
  byId("sample").textContent = told(file, x, y);
  for (const cursor of document.querySelectorAll("rect.cursor"))
    for (const [key, value] of Object.entries({ x, y, width: 1, height: 1 })) cursor.setAttribute(key, value);
}

const STEPS = { ArrowLeft: [-1, 0], ArrowRight: [1, 0], ArrowUp: [0, -1], ArrowDown: [0, 1] };

/** Pointer and keyboard over one plane. */
function listened(sheet, file, open) {
  const { width, height } = file.run;
  let at = [0, 0];
  const within = (value, size) => Math.max(0, Math.min(size - 1, value));
  const place = (event) => {
    const box = sheet.getBoundingClientRect();
    const across = ((event.clientX - box.left) * width) / box.width;
    const down = ((event.clientY - box.top) * height) / box.height;
    return [within(Math.floor(across), width), within(Math.floor(down), height)];
  };
  const go = (to) => {
    at = to;
    pointed(file, ...at);
  };
  const chosen = () => {
    const record = under(file, ...at);
    if (record) open(record);
  };
  sheet.addEventListener("pointermove", (event) => go(place(event)));
  sheet.addEventListener("click", (event) => {
    go(place(event));
    chosen();
  });
  sheet.addEventListener("focus", () => pointed(file, ...at));
  sheet.addEventListener("keydown", (event) => {
    const step = STEPS[event.key];
    if (step) go([within(at[0] + step[0], width), within(at[1] + step[1], height)]);
    else if (event.key === "Enter") chosen();
    else return;
    event.preventDefault();
  });
}

function figure(file, view, chosen, open) {
  const { width, height } = file.run;
  // the numbers behind the pixels stay with them, for the page's test
  const canvas = painted(element("canvas", { id: view.id, numbers: view.values }), width, height, view.values, view.colour);
  const sheet = element("div", { className: "sheet", tabIndex: 0 }, canvas, overlay(file, chosen));
  sheet.setAttribute("role", "img");
  sheet.setAttribute("aria-label", `${view.title}: ${width} by ${height} samples`);
  listened(sheet, file, open);
  return element("figure", {}, element("figcaption", { textContent: view.title }), element("div", { className: "view" }, sheet));
}

export function showPlanes(file, chosen, open) {
  byId("planes").replaceChildren(...views(file).map((view) => figure(file, view, chosen, open)));
  byId("sample").textContent = "";
  zoomed(file);
}

/** Another record is chosen: the outlines are drawn again, and the planes stay. */
export function showChosen(file, chosen) {
  for (const sheet of document.querySelectorAll("#planes .sheet")) sheet.querySelector("svg").replaceWith(overlay(file, chosen));
}

/** Every plane at the zoom of the slider. */
export function zoomed(file) {
  const zoom = Number(byId("zoom").value);
  for (const canvas of document.querySelectorAll("#planes canvas")) {
    canvas.style.width = `${file.run.width * zoom}px`;
    canvas.style.height = `${file.run.height * zoom}px`;
    canvas.parentElement.style.width = canvas.style.width;
  }
  byId("planes").classList.toggle("hidden", !byId("outlines").checked);
}

/** A zoom at which the planes stand side by side, or one below the other where the page is narrow. */
export function fit(file) {
  const room = byId("planes").clientWidth || 600;
  const beside = room < 600 ? 1 : file.wrapped ? 4 : 3;
  const zoom = Math.floor((room / beside - 20) / file.run.width);
  byId("zoom").value = Math.max(1, Math.min(24, zoom));
}
