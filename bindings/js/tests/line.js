// Lines of oracle/README.md: one call and its outcome.
import { readFileSync } from "node:fs";
import { gunzipSync } from "node:zlib";

/** How many arguments each kind has, its lent lists by type, and how many numbers its outcome begins with. */
export const KINDS = {
  20: { call: "inverseTransform2d", arguments: 3, lists: ["i64"], numbers: 1 },
  21: { call: "inverseTransform2dReference", arguments: 3, lists: ["i64"], numbers: 1 },
  22: { call: "reconstructBlock", arguments: 11, lists: ["i64", "u16"], numbers: 1 },
  23: { call: "forwardWht2d", arguments: 0, lists: ["i64"], numbers: 1 },
  24: { call: "quantizeBlockTx", arguments: 4, lists: ["i64"], numbers: 1 },
  25: { call: "quantizeBlock", arguments: 2, lists: ["i64"], numbers: 1 },
  26: { call: "maxCodeableCoef", arguments: 1, lists: [], numbers: 1 },
  30: { call: "replay", arguments: 0, lists: ["u8"], numbers: 2 },
  31: { call: "reconstructBlockReport", arguments: 11, lists: ["i64", "u16", "u32", "u64"], numbers: 1 },
  32: { call: "rowSummary", arguments: 1, lists: ["i64", "u32"], numbers: 4 },
  33: { call: "replaceToken", arguments: 6, lists: ["i64", "u32"], numbers: 1 },
  34: { call: "inverseTransform2dRows", arguments: 3, lists: ["i64"], numbers: 2 },
  35: { call: "vbkWrite", arguments: 3, lists: ["u16", "u16", "u16", "u8", "u8", "u8", "u16", "u16", "u32", "i32", "u8"], numbers: 2 },
  37: { call: "inverseTransform2d32", arguments: 3, lists: ["i64"], numbers: 1 },
  38: { call: "forwardDct2d", arguments: 1, lists: ["i64"], numbers: 1 },
  39: { call: "quantizeBlockRule", arguments: 5, lists: ["i64"], numbers: 1 },
};

const ARRAYS = { u8: Uint8Array, u16: Uint16Array, u32: Uint32Array, i32: Int32Array, i64: BigInt64Array, u64: BigUint64Array };

class Words {
  constructor(line) {
    this.words = line.split(" ");
    this.at = 0;
  }

  number() {
    return BigInt(this.words[this.at++]);
  }

  numbers(count) {
    return Array.from({ length: count }, () => this.number());
  }

  /** Its numbers; null for -1, a list that holds what it held. */
  list() {
    const length = Number(this.number());
    if (length < 0) return null;
    const found = [];
    while (found.length < length) {
      const [count, value] = this.words[this.at].includes("*") ? this.words[this.at].split("*") : ["1", this.words[this.at]];
      found.push(...Array(Number(count)).fill(BigInt(value)));
      this.at++;
    }
    return found;
  }

  rest() {
    const found = [];
    while (this.at < this.words.length) found.push(this.list());
    return found;
  }
}

const typed = (type, numbers) => ARRAYS[type].from(numbers, type.endsWith("64") ? undefined : Number);

/** A call as it is made: its kind, arguments, lent lists, and the outcome's numbers and lists. */
function parsed(line) {
  const words = new Words(line);
  const kind = Number(words.number());
  const of = KINDS[kind];
  const values = words.numbers(of.arguments);
  const lists = of.lists.map((type) => typed(type, words.list()));
  return { kind, line, arguments: values, lists, numbers: words.numbers(of.numbers), outcome: words.rest() };
}

/** The calls of a list, by their kind. */
export function calls(name) {
  const bytes = readFileSync(new URL(`../../../${name}`, import.meta.url));
  const text = (name.endsWith(".gz") ? gunzipSync(bytes) : bytes).toString();
  const found = {};
  for (const line of text.split("\n")) {
    const kind = line.split(" ", 1)[0];
    if (kind in KINDS) (found[kind] ??= []).push(parsed(line));
  }
  return found;
}
