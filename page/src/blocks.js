// What the page shows of a file: the library's run, and for each record its coefficients, residual, rows and the 32-bit engine's answer.
import { ENTRIES, Answer } from "../../bindings/js/header.js";
import { records, samplesBefore } from "./vbk.js";
import { inverse, wrap16 } from "./wrap.js";

/** All of a file, from its name and bytes. */
export function opened(library, name, bytes) {
  const run = library.run(bytes);
  const file = { name, bytes, run, records: [] };
  if (run.answer !== Answer.Done) return file;
  file.before = samplesBefore(bytes, run.width * run.height);
  file.records = records(bytes, run.width * run.height, run.answers);
  for (const record of file.records) if (record.answer === Answer.Done) record.engine = engine(library, record);
  file.narrow = file.records.filter((record) => record.engine === Answer.Narrow);
  file.report = report(library, file);
  file.covered = covered(file);
  if (file.narrow.length > 0) file.wrapped = wrapped(library, file);
  return file;
}

/** Tokens times their quantizers, halved toward zero at 32 by 32. */
export function coefficients(record) {
  const values = Array.from(record.tokens, (token, k) => token * (k === 0 ? record.dc : record.ac));
  return record.size === 3 ? values.map((value) => Math.trunc(value / 2)) : values;
}

const lent = (values) => BigInt64Array.from(values, BigInt);

function engine(library, record) {
  return library.inverseTransform2d32(lent(coefficients(record)), record.size + 2, record.txType, record.lossless === 1);
}

/** What the details show of a record that is done. */
export function inside(library, record) {
  const block = lent(coefficients(record));
  const summary = new Uint32Array(1);
  const transforms = new Uint32Array(1);
  library.rowSummary(block, record.size + 2, summary);
  library.inverseTransform2dRows(block, record.size + 2, record.txType, record.lossless === 1, transforms);
  return {
    residual: Array.from(block, Number),
    summary: summary[0],
    rows: library.rowCount(summary[0]),
    first: library.firstRow(summary[0]),
    last: library.lastRow(summary[0]),
    transforms: transforms[0],
  };
}

function reconstruct(library, { run }, record, samples, ...more) {
  const { width, height, depth } = run;
  const tokens = lent(record.tokens);
  const name = more.length === 0 ? "reconstructBlock" : "reconstructBlockReport";
  library[name](samples, width, height, width, record.x, record.y, record.size, tokens, record.dc, record.ac, record.txType, record.lossless === 1, depth, ...more);
}

/** Counts and sums of the token classes over all records that are done. */
function report(library, file) {
  const counts = new Uint32Array(ENTRIES);
  const sums = new BigUint64Array(ENTRIES);
  const samples = file.before.slice();
  for (const record of file.records) if (record.answer === Answer.Done) reconstruct(library, file, record, samples, counts, sums);
  return { counts, sums };
}

/** How many samples lie under a block that is done. */
function covered({ run, records: all }) {
  const under = new Uint8Array(run.width * run.height);
  for (const record of all) if (record.answer === Answer.Done) each(run, record, (place) => (under[place] = 1));
  return under.reduce((sum, one) => sum + one, 0);
}

/** Every sample of a block that lies in the plane: its place there, and in the block. */
export function each({ width, height }, record, what) {
  for (let i = 0; i < record.side && record.y + i < height; i++)
    for (let j = 0; j < record.side && record.x + j < width; j++) what((record.y + i) * width + record.x + j, i * record.side + j);
}

/** The plane of a decoder whose 16-bit intermediates wrap: other blocks are the library's. An illustration. */
function wrapped(library, file) {
  const samples = file.before.slice();
  const most = 2 ** file.run.depth - 1;
  for (const record of file.records) {
    if (record.answer !== Answer.Done) continue;
    if (record.engine !== Answer.Narrow) {
      reconstruct(library, file, record, samples);
      continue;
    }
    const residual = inverse(coefficients(record), record.size + 2, record.txType, record.lossless === 1, wrap16);
    each(file.run, record, (place, k) => (samples[place] = Math.max(0, Math.min(most, samples[place] + residual[k]))));
  }
  return samples;
}
