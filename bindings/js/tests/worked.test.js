// The worked numbers of docs/REFERENCE.md and docs of the header, and what JavaScript adds: types of arguments, memory, files.
import assert from "node:assert/strict";
import { readFileSync } from "node:fs";
import test from "node:test";
import * as bracetwill from "../../../target/js/bracetwill.js";

const { Answer, ENTRIES, load, meaning } = bracetwill;
const library = await load();
const example = (name) => readFileSync(new URL(`../../../examples/${name}`, import.meta.url));
const block = (length, at = {}) => {
  const made = new BigInt64Array(length);
  for (const [place, value] of Object.entries(at)) made[place] = BigInt(value);
  return made;
};

test("DC-only blocks of 4 by 4", () => {
  for (const [coefficient, residual] of [[16, 1n], [14, 0n], [-16, 0n], [32, 1n]]) {
    for (const call of ["inverseTransform2d", "inverseTransform2dReference", "inverseTransform2d32"]) {
      const list = block(16, { 0: coefficient });
      assert.equal(library[call](list, 2, 0, false), Answer.Done);
      assert.ok(list.every((number) => number === residual), `${call} of ${coefficient}`);
    }
  }
});

test("the row that turned a decoder over is refused with 18 and stays", () => {
  const list = block(1024);
  [1, 1, 2, 2, 2, 2, 2, 2, 2, 3, 3, 4, 4, 6, 11, 32].forEach((token, k) => (list[2 * k + 1] = BigInt(token * 914)));
  const before = list.slice();
  assert.equal(library.inverseTransform2d32(list, 5, 0, false), Answer.Narrow);
  assert.deepEqual(list, before);
  assert.equal(library.inverseTransform2d(list, 5, 0, false), Answer.Done);
});

test("dequantized values of 32 by 32 are halved toward zero", () => {
  for (const [token, coefficient] of [[5, 17n], [-5, -17n]]) {
    const list = block(1024);
    const summary = new Uint32Array(1);
    assert.equal(library.replaceToken(list, summary, 3, 1023, token, 7, 7, 8), Answer.Done);
    assert.equal(list[1023], coefficient);
    assert.equal(summary[0], 0x80000000);
  }
});

test("a block over the edge writes two rows of two samples", () => {
  const samples = new Uint16Array(8 * 5).fill(100);
  assert.equal(library.reconstructBlock(samples, 6, 5, 8, 4, 3, 0, block(16, { 0: 5 }), 4, 4, 0, true, 8), Answer.Done);
  assert.deepEqual([...samples.keys()].filter((k) => samples[k] !== 100), [28, 29, 36, 37]);
});

test("the report", () => {
  const counts = new Uint32Array(ENTRIES);
  const sums = new BigUint64Array(ENTRIES);
  const words = [8, 4, 8, 4, 0, 0, block(16, { 0: 5 }), 4, 4, 0, true, 8, counts, sums];
  assert.equal(library.reconstructBlockReport(new Uint16Array(32), ...words), Answer.Done);
  assert.deepEqual([counts[0], counts[5], sums[5]], [15, 1, 5n]);
});

test("rows of a summary", () => {
  const summary = new Uint32Array(1);
  assert.equal(library.rowSummary(block(16, { 0: 40, 9: -12 }), 2, summary), Answer.Done);
  assert.deepEqual([summary[0], library.rowCount(5), library.firstRow(5), library.lastRow(5)], [5, 2, 0, 2]);
  assert.deepEqual([library.rowCount(0), library.firstRow(0), library.lastRow(0)], [0, -1, -1]);
  const rows = new Uint32Array(1);
  assert.equal(library.inverseTransform2dRows(block(16, { 0: 40, 9: -12 }), 2, 0, false, rows), Answer.Done);
  assert.equal(rows[0], 2);
});

test("the forward transforms", () => {
  const flat = new BigInt64Array(16).fill(100n);
  assert.equal(library.forwardDct2d(flat, 2), Answer.Done);
  assert.deepEqual([...flat], [3200n, ...Array(15).fill(0n)]);
  const lossless = BigInt64Array.from({ length: 16 }, (_, k) => BigInt(10 * k - 75));
  const source = lossless.slice();
  assert.equal(library.forwardWht2d(lossless), Answer.Done);
  const samples = new Uint16Array(16).fill(100);
  assert.equal(library.reconstructBlock(samples, 4, 4, 4, 0, 0, 0, lossless, 4, 4, 0, true, 8), Answer.Done);
  assert.deepEqual([...samples], [...source].map((number) => 100 + Number(number)));
});

test("the quantizers and their two rules", () => {
  const coefficients = () => BigInt64Array.from([2n, 3n, 6n, 7n]);
  for (const [rule, want] of [[1, [0n, 1n, 1n, 2n]], [2, [1n, 1n, 2n, 2n]]]) {
    const list = coefficients();
    assert.equal(library.quantizeBlockRule(list, 4, 4, 0, 8, rule), Answer.Done);
    assert.deepEqual([...list], want);
  }
  const list = coefficients();
  assert.equal(library.quantizeBlockRule(list, 4, 4, 0, 8, 3), Answer.Rule);
  assert.equal(library.quantizeBlockTx(list, 4, 4, 0, 12), Answer.Retired);
  assert.deepEqual(list, coefficients());
  assert.equal(library.quantizeBlock(list, 4, 4), Answer.Done);
  assert.deepEqual([8, 10, 12, 9].map((depth) => library.maxCodeableCoef(depth)), [16450, 65602, 262210, 0]);
});

test("the examples: text, samples and touched count of blockrun", () => {
  for (const name of ["worked", "kinds", "cut", "refused", "short", "turned"]) {
    const text = example(`${name}.txt`).toString();
    const told = library.run(example(`${name}.vbk`));
    assert.equal(told.text, text, name);
    if (told.answer !== Answer.Done) continue;
    assert.deepEqual(told.text.match(/^S .*$/gm).join(" ").match(/\d+/g).map(Number), [...told.samples]);
    assert.deepEqual(told.text.match(/^B .*$/gm).map((line) => Number(line.split(" ")[2])), [...told.answers]);
    assert.equal(told.text.match(/^T (\d+)$/m)[1], String(told.touched));
  }
});

test("a file that is made is read", () => {
  const record = { x: 0, y: 0, size: 0, txType: 0, lossless: 1, dc: 4, ac: 4, tokens: [5, ...Array(15).fill(0)] };
  const file = { depth: 8, width: 4, height: 4, samples: Array(16).fill(100), records: [record] };
  const { answer, bytes } = library.make(file);
  assert.equal(answer, Answer.Done);
  assert.deepEqual(Buffer.from(bytes), example("worked.vbk"));
  assert.deepEqual(library.make({ ...file, depth: 12 }), { answer: Answer.Retired, bytes: new Uint8Array(0) });
});

test("a header that is refused", () => {
  const told = library.run(new Uint8Array(0));
  assert.deepEqual([told.answer, told.text, told.samples.length, told.answers.length], [Answer.CutShort, "E 12\n", 0, 0]);
  assert.equal(library.run(new Uint8Array(65536)).text, "E 13\n");
});

test("a whole number out of its type's range is answered as one out of range", () => {
  const list = block(16);
  for (const type of [256, -1, 2 ** 40, -(2n ** 70n)]) assert.equal(library.inverseTransform2d(list, 2, type, false), Answer.TxType, String(type));
  for (const n of [-1, 2 ** 32 + 2, 2n ** 64n + 2n]) assert.equal(library.inverseTransform2d(list, n, 0, false), Answer.Size, String(n));
  for (const dc of [2 ** 32 + 4, -(2 ** 32) + 4]) assert.equal(library.quantizeBlock(list, dc, 4), Answer.Quantizer, String(dc));
  const samples = new Uint16Array(16).fill(7);
  const at = (x, y) => library.reconstructBlock(samples, 4, 4, 4, x, y, 0, block(16, { 0: 50 }), 4, 4, 0, true, 8);
  for (const far of [2 ** 32, 2n ** 64n, -1]) assert.deepEqual([at(far, 0), at(0, far)], [Answer.Done, Answer.Done]);
  assert.ok(samples.every((sample) => sample === 7));
  const token = (value) => library.replaceToken(block(16), new Uint32Array(1), 0, 0, value, 4, 4, 8);
  for (const value of [2n ** 64n, -(2n ** 64n) + 1n, 1e300]) assert.equal(token(value), Answer.Token, String(value));
});

test("what is no whole number or no such list is a TypeError, and the library goes on", () => {
  const list = block(16);
  const wrong = [
    () => library.inverseTransform2d(list, 2.5, 0, false),
    () => library.inverseTransform2d(list, NaN, 0, false),
    () => library.inverseTransform2d(list, "2", 0, false),
    () => library.inverseTransform2d(list, 2, 0, 1),
    () => library.inverseTransform2d(new Int32Array(16), 2, 0, false),
    () => library.inverseTransform2d([...list], 2, 0, false),
    () => library.inverseTransform2d(list, 2, 0),
    () => library.rowSummary(list, 2, new Uint32Array(0)),
    () => library.run("VBK"),
  ];
  for (const call of wrong) assert.throws(call, TypeError);
  assert.equal(library.inverseTransform2d(list, 2, 0, false), Answer.Done);
});

test("memory is grown for a large plane and given back", async () => {
  const own = await load();
  assert.equal(own.memory, 0);
  own.rowCount(1);
  const small = own.memory;
  const samples = new Uint16Array(4096 * 4096).fill(9);
  assert.equal(own.reconstructBlock(samples, 4096, 4096, 4096, 4092, 4092, 0, block(16, { 0: 5 }), 4, 4, 0, true, 8), Answer.Done);
  assert.deepEqual([samples[0], samples[samples.length - 1]], [9, 10]);
  assert.equal(own.memory, 0);
  own.rowCount(1);
  assert.equal(own.memory, small);
  assert.ok(small <= 1 << 20);
});

test("lists are views into larger buffers, and nothing beside them moves", () => {
  const buffer = new BigInt64Array(20).fill(3n);
  const list = buffer.subarray(2, 18).fill(0n);
  list[0] = 16n;
  assert.equal(library.inverseTransform2d(list, 2, 0, false), Answer.Done);
  assert.deepEqual([...buffer], [3n, 3n, ...Array(16).fill(1n), 3n, 3n]);
});

test("the module imports nothing, and exports the calls of the header", async () => {
  const module = await WebAssembly.compile(readFileSync(new URL("../../../target/js/bracetwill.wasm", import.meta.url)));
  assert.deepEqual(WebAssembly.Module.imports(module), []);
  const header = readFileSync(new URL("../../../include/bracetwill.h", import.meta.url), "utf8");
  const declared = [...header.matchAll(/^BRACETWILL_NODISCARD\n\w+ (bracetwill_\w+)\(/gm)].map((part) => part[1]);
  const exported = WebAssembly.Module.exports(module).map((part) => part.name);
  assert.deepEqual(exported.filter((name) => name.startsWith("bracetwill_")).sort(), declared.sort());
  assert.deepEqual(exported.filter((name) => !name.startsWith("bracetwill_")).sort(), ["__heap_base", "memory"]);
});

test("the answers in words", () => {
  assert.equal(meaning(0), "done");
  assert.equal(meaning(18), "a number of the recursive process leaves 16 bits (the 32-bit engine alone)");
  assert.equal(meaning(99), "no answer has this number");
  assert.equal(bracetwill.VERSION, readFileSync(new URL("../../../VERSION", import.meta.url), "utf8").trim());
});
