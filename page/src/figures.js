// Counts of a file: token classes as bars, and the samples written against the plane's area.
import { CLASSES } from "../../bindings/js/header.js";
import { byId, count, element } from "./elements.js";

const NAMES = ["0", "1", "2", "3", "4", "5 to 6", "7 to 10", "11 to 18", "19 to 34", "35 to 66", "67 and up"];

function bars(size, counts, sums, most) {
  const grid = element("div", { className: "bars" }, ...["magnitude", "", "count", "sum"].map((text) => element("b", { textContent: text })));
  NAMES.forEach((name, k) => {
    const bar = element("div", { className: "bar" });
    bar.style.width = `${counts[k] === 0 ? 0 : 2 + (98 * Math.log1p(counts[k])) / Math.log1p(most)}%`;
    const number = (value) => element("span", { className: "number", textContent: count(value) });
    grid.append(element("span", { textContent: name }), element("div", {}, bar), number(counts[k]), number(sums[k]));
  });
  return element("div", {}, element("h3", { textContent: `${4 << size} by ${4 << size}` }), grid);
}

export function showClasses({ report }) {
  const part = (list, size) => list.subarray(size * CLASSES, (size + 1) * CLASSES);
  const most = Math.max(...report.counts);
  const sizes = [0, 1, 2, 3].filter((size) => part(report.counts, size).some((one) => one > 0));
  const shown = sizes.map((size) => bars(size, part(report.counts, size), part(report.sums, size), most));
  byId("classes").replaceChildren(...(shown.length > 0 ? shown : [element("p", { textContent: "No record is done." })]));
}

export function showTouched({ run, covered }) {
  const area = run.width * run.height;
  const inner = element("div");
  inner.style.width = `${(100 * covered) / area}%`;
  const percent = ((100 * covered) / area).toFixed(1);
  byId("touched").replaceChildren(
    element("div", { className: "meter" }, inner),
    element("p", { textContent: `${count(run.touched)} samples were written (T), in a plane of ${count(area)}. ${count(covered)} of its samples, ${percent} %, lie under a block that is done.` }),
  );
}
