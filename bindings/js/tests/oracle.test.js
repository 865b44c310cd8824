// The Rust's stored answers: the gate's list, and a thousand random calls of each kind.
import assert from "node:assert/strict";
import test from "node:test";
import { load } from "../../../target/js/bracetwill.js";
import { KINDS, calls } from "./line.js";

const library = await load();
const whole = (list) => Array.from(list, BigInt);

// Each gives the outcome's numbers and lists as the line has them.
const inPlace = (name) => (values, [list]) => ({ numbers: [library[name](list, ...values)], lists: [list] });
const driver = (name) => ([n, type, lossless], [list]) => ({ numbers: [library[name](list, n, type, lossless !== 0n)], lists: [list] });

function reconstruct(name, [x, y, size, type, lossless, depth, dc, ac, width, height, stride], [tokens, samples, ...report]) {
  const answer = library[name](samples, width, height, stride, x, y, size, tokens, dc, ac, type, lossless !== 0n, depth, ...report);
  return { numbers: [answer], lists: [samples, ...report] };
}

function file([bytes]) {
  const told = library.run(bytes);
  return { numbers: [told.answer, told.touched], lists: [told.answers, told.samples] };
}

function summary([n], [list, room]) {
  const answer = library.rowSummary(list, n, room);
  return { numbers: [answer, library.rowCount(room[0]), library.firstRow(room[0]), library.lastRow(room[0])], lists: [room] };
}

function rows([n, type, lossless], [list]) {
  const room = new Uint32Array(1);
  const answer = library.inverseTransform2dRows(list, n, type, lossless !== 0n, room);
  return { numbers: [answer, room[0]], lists: [list] };
}

function write(values, lists) {
  const length = new Uint32Array(1);
  const answer = library.vbkWrite(...values, ...lists, length);
  return { numbers: [answer, length[0]], lists: [lists.at(-1)] };
}

const ASK = {
  20: driver("inverseTransform2d"),
  21: driver("inverseTransform2dReference"),
  22: (values, lists) => reconstruct("reconstructBlock", values, lists),
  23: inPlace("forwardWht2d"),
  24: inPlace("quantizeBlockTx"),
  25: inPlace("quantizeBlock"),
  26: ([depth]) => ({ numbers: [library.maxCodeableCoef(depth)], lists: [] }),
  30: (_, lists) => file(lists),
  31: (values, lists) => reconstruct("reconstructBlockReport", values, lists),
  32: summary,
  33: ([size, place, token, dc, ac, depth], [list, room]) => ({ numbers: [library.replaceToken(list, room, size, place, token, dc, ac, depth)], lists: [list, room] }),
  34: rows,
  35: write,
  37: driver("inverseTransform2d32"),
  38: inPlace("forwardDct2d"),
  39: inPlace("quantizeBlockRule"),
};

// Of the lent lists, those that an outcome shows, in order: what `-1` stands for.
const SHOWN = { 22: [1], 31: [1, 2, 3], 32: [1], 35: [10] };

function alike(call) {
  const before = call.lists.map((list) => list.slice());
  const got = ASK[call.kind](call.arguments, call.lists);
  assert.deepEqual(whole(got.numbers), call.numbers, call.line);
  const shown = SHOWN[call.kind] ?? [...call.lists.keys()];
  const want = call.outcome.map((list, k) => list ?? whole(before[shown[k]]));
  assert.deepEqual(got.lists.map(whole), want, call.line);
}

for (const [name, least] of [["crates/replay/stdin", 1], ["bindings/js/cases.txt.gz", 990]]) {
  const found = calls(name);
  for (const kind of Object.keys(KINDS)) {
    test(`${name}: ${KINDS[kind].call}`, (t) => {
      assert.ok(found[kind].length >= least, `${found[kind].length} lines`);
      found[kind].forEach(alike);
      t.diagnostic(`cases ${found[kind].length}`);
    });
  }
}

test("a line with another answer is found", () => {
  const [call] = calls("crates/replay/stdin")[20].filter((one) => one.outcome[0] !== null);
  call.outcome[0][0] += 1n;
  assert.throws(() => alike(call));
});
