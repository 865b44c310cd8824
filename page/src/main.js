// The page: files come in by choice, drop or example, and one of them is shown.
import { Answer, MEANINGS, VERSION } from "../../bindings/js/header.js";
import { load } from "../../bindings/js/bracetwill.js";
import { total } from "../../bindings/js/digest.js";
import { opened } from "./blocks.js";
import { showDetails } from "./details.js";
import { byId, count, element } from "./elements.js";
import { showClasses, showTouched } from "./figures.js";
import { fit, showChosen, showPlanes, zoomed } from "./planes.js";
import { showFilter, showRow, showRows } from "./table.js";

// put in by page/build: the modules and the examples in base 64, the worker's text, and the digest that every host prints
const PARTS = globalThis.bracetwillParts;
const MOST = 65536;

const bytesOf = (text) => Uint8Array.from(atob(text), (letter) => letter.charCodeAt(0));
const files = [];
let library;
let shown = null;
let chosen = null;

function tell(words) {
  byId("message").textContent = words;
  byId("message").classList.toggle("told", words !== "");
}

function open(record, jump = false) {
  chosen = record;
  showDetails(library, shown, record);
  showChosen(shown, record);
  showRow(record);
  if (jump) byId("details").focus();
}

function summary({ run, records, name }) {
  const refused = records.filter((record) => record.answer !== Answer.Done).length;
  const some = refused === 0 ? "all are done" : `${count(refused)} refused`;
  return `${name}: ${run.width} by ${run.height} samples of ${run.depth} bits; ${count(records.length)} ${records.length === 1 ? "record" : "records"}, ${some}; T ${count(run.touched)}.`;
}

function showEdge(file) {
  byId("edge").hidden = file.narrow.length === 0;
  if (file.narrow.length === 0) return;
  const deep = file.run.depth > 8 ? " The 32-bit engine is meant for depth 8; at this depth no decoder would try 16 bits." : "";
  byId("edge-words").textContent =
    `The 32-bit engine refuses ${file.narrow.length === 1 ? "one block" : `${count(file.narrow.length)} blocks`} with answer ${Answer.Narrow}: a number on the way does not fit 16 bits. ` +
    "Our samples are right all the same. Beside them stands what a decoder whose 16-bit numbers wrap would have shown: an illustration that this page computes." + deep;
  const buttons = file.narrow.slice(0, 40).map((record) => {
    const button = element("button", { type: "button", textContent: `record ${record.index}` });
    button.addEventListener("click", () => open(record, true));
    return button;
  });
  byId("edge-blocks").replaceChildren(...buttons);
}

function show(file) {
  shown = file;
  chosen = null;
  const good = file.run.answer === Answer.Done;
  tell(good ? "" : `${file.name} cannot be read as a VBK file. Answer ${file.run.answer}: ${MEANINGS[file.run.answer]}.`);
  byId("shown").hidden = !good;
  byId("printed").hidden = false;
  byId("details").hidden = true;
  byId("copied").textContent = "";
  byId("text").value = file.run.text;
  byId("text").scrollTop = 0;
  for (const button of byId("files").querySelectorAll("button")) button.setAttribute("aria-pressed", String(button.file === file));
  if (!good) return;
  byId("summary").textContent = summary(file);
  fit(file);
  showPlanes(file, chosen, open);
  showEdge(file);
  showFilter(file);
  showRows(file, () => chosen, open);
  showClasses(file);
  showTouched(file);
  if (file.narrow.length > 0) open(file.narrow[0]);
}

/** A file is opened and shown; how long that took stands in the page for its test. */
function take(name, bytes) {
  const began = performance.now();
  const file = opened(library, name, bytes);
  files.push(file);
  const button = element("button", { type: "button", textContent: name });
  button.file = file;
  button.addEventListener("click", () => show(file));
  byId("files").append(button);
  byId("files").hidden = false;
  show(file);
  byId("shown").getBoundingClientRect();
  document.body.dataset.milliseconds = performance.now() - began;
  document.body.dataset.taken = files.length;
}

async function takeAll(list) {
  for (const one of list) {
    try {
      // one byte past the limit is enough to be refused for its length
      take(one.name, new Uint8Array(await one.slice(0, MOST).arrayBuffer()));
    } catch (failure) {
      tell(`${one.name} could not be read: ${failure.message}`);
    }
  }
}

/** The planes fit the page again where its width is another one. */
function refit() {
  let width = innerWidth;
  addEventListener("resize", () => {
    if (innerWidth === width || shown?.run.answer !== Answer.Done) return;
    width = innerWidth;
    fit(shown);
    zoomed(shown);
  });
}

function listen() {
  refit();
  byId("input").addEventListener("change", (event) => takeAll([...event.target.files]));
  byId("zoom").addEventListener("input", () => zoomed(shown));
  byId("outlines").addEventListener("change", () => zoomed(shown));
  byId("filter").addEventListener("change", () => showRows(shown, () => chosen, open));
  byId("copy").addEventListener("click", copy);
  addEventListener("dragover", (event) => {
    event.preventDefault();
    document.body.classList.add("over");
  });
  addEventListener("dragleave", () => document.body.classList.remove("over"));
  addEventListener("drop", (event) => {
    event.preventDefault();
    document.body.classList.remove("over");
    takeAll([...event.dataTransfer.files]);
  });
}

async function copy() {
  try {
    await navigator.clipboard.writeText(byId("text").value);
    byId("copied").textContent = "copied";
  } catch {
    byId("text").select();
    byId("copied").textContent = "the text is selected: copy it with the keyboard";
  }
}

function offer() {
  for (const [name, text] of Object.entries(PARTS.examples)) {
    const button = element("button", { type: "button", textContent: name });
    button.addEventListener("click", () => take(name, bytesOf(text)));
    byId("examples").append(button);
  }
}

/** The digest of this browser, beside the one that every other host printed. */
function compare() {
  const address = URL.createObjectURL(new Blob([PARTS.worker], { type: "text/javascript" }));
  const worker = new Worker(address);
  const end = (words) => {
    byId("digest").textContent = words;
    worker.terminate();
    URL.revokeObjectURL(address);
  };
  worker.onmessage = ({ data }) => {
    const printed = total(data);
    end(`This browser printed ${printed}, ${printed === PARTS.digest ? "as every other host did" : `and not ${PARTS.digest} as other hosts did: do not trust it`}.`);
  };
  worker.onerror = (event) => {
    event.preventDefault();
    end("The digest could not be computed here.");
  };
  worker.postMessage(bytesOf(PARTS.digestModule));
}

async function start() {
  byId("version").textContent = `Bracetwill ${VERSION}`;
  try {
    library = await load(bytesOf(PARTS.module));
  } catch (failure) {
    tell(`This browser cannot run the library: ${failure.message}`);
    return;
  }
  listen();
  offer();
  document.body.dataset.taken = 0;
  compare();
}

start();
