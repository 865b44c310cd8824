// The page's own transform, which its illustration uses: with numbers that are not cut it is the library's, for every size and type.
import assert from "node:assert/strict";
import test from "node:test";
import { Answer, load } from "../../target/js/bracetwill.js";
import { inverse, uncut, wrap16 } from "../src/wrap.js";

const library = await load();
let state = 39;
const draw = (bound) => {
  state = (Math.imul(state, 1664525) + 1013904223) >>> 0;
  return Math.floor((state / 2 ** 32) * (2 * bound + 1)) - bound;
};
const block = (n, bound) => Array.from({ length: 4 ** n }, () => (draw(3) > 0 ? draw(bound) : 0));
const lent = (values) => BigInt64Array.from(values, BigInt);

for (const [n, type, lossless] of [2, 3, 4].flatMap((n) => [0, 1, 2, 3].map((type) => [n, type, false])).concat([[5, 0, false], [2, 0, true]])) {
  test(`n ${n}, type ${type}, lossless ${lossless}`, () => {
    for (const bound of [10, 900, 20000, 2000000]) {
      for (let k = 0; k < 20; k++) {
        const values = block(n, bound);
        const list = lent(values);
        assert.equal(library.inverseTransform2d(list, n, type, lossless), Answer.Done);
        const want = Array.from(list, Number);
        assert.deepEqual(inverse(values, n, type, lossless, uncut), want);
        // where no number leaves 16 bits, wrapping changes nothing
        if (library.inverseTransform2d32(lent(values), n, type, lossless) === Answer.Done) assert.deepEqual(inverse(values, n, type, lossless, wrap16), want);
      }
    }
  });
}

test("a number that wraps", () => {
  assert.deepEqual([32767, 32768, -32768, -32769, 65536, -33573].map(wrap16), [32767, -32768, -32768, 32767, 0, 31963]);
});

test("the block that turned a decoder over is another one with 16 bits that wrap", () => {
  const values = new Array(1024).fill(0);
  [1, 1, 2, 2, 2, 2, 2, 2, 2, 3, 3, 4, 4, 6, 11, 32].forEach((token, k) => (values[2 * k + 1] = token * 914));
  assert.notDeepEqual(inverse(values, 5, 0, false, wrap16), inverse(values, 5, 0, false, uncut));
});
