// The cases of bindings/c/test.c: the test itself, compiled for WebAssembly, with every call of the header handed to the JavaScript.
import assert from "node:assert/strict";
import { readFileSync } from "node:fs";
import test from "node:test";
import { CALLS, load } from "../../../target/js/bracetwill.js";

const ARRAYS = { u8: Uint8Array, u16: Uint16Array, u32: Uint32Array, i32: Int32Array, i64: BigInt64Array, u64: BigUint64Array, usize: Uint32Array };
const library = await load();

/** A number as C passes it: 32 bits without a sign for all but the quantizers and the numbers of 64 bits. */
const number = (value, type) => (type === "bool" ? (value & 255) !== 0 : type === "i32" || type === "i64" ? value : type === "u8" ? value & 255 : type === "u16" ? value & 65535 : value >>> 0);

/** What C hands over, as the arguments in JavaScript: lists are views of the test's own memory. */
function handed(takes, words, memory) {
  let k = 0;
  return takes.map((parameter) => {
    if (parameter.number !== undefined) return number(words[k++], parameter.number);
    const at = words[k++];
    return new ARRAYS[parameter.list](memory.buffer, at, parameter.length ?? words[k++]);
  });
}

/** printf with %s, %u and %lld. */
function printed(memory, at, more) {
  const text = (from) => Buffer.from(memory.buffer, from, new Uint8Array(memory.buffer).indexOf(0, from) - from).toString();
  const view = new DataView(memory.buffer);
  return text(at).replace(/%(s|u|lld)/g, (_, kind) => {
    if (kind === "lld") more = (more + 7) & ~7;
    const value = kind === "s" ? text(view.getUint32(more, true)) : kind === "u" ? view.getUint32(more, true) : view.getBigInt64(more, true);
    more += kind === "lld" ? 8 : 4;
    return String(value);
  });
}

test("the C test over the JavaScript", (t) => {
  let memory;
  let text = "";
  const env = { printf: (at, more) => ((text += printed(memory, at, more)), 0) };
  for (const [name, described] of Object.entries(CALLS)) {
    env[described.symbol] = (...words) => {
      const answer = library[name](...handed(described.takes, words, memory));
      return described.gives === "i64" ? BigInt(answer) : answer;
    };
  }
  const module = new WebAssembly.Module(readFileSync(new URL("../../../target/js-test/test-c.wasm", import.meta.url)));
  const asked = WebAssembly.Module.imports(module).map((part) => part.name);
  assert.deepEqual(asked.sort(), ["printf", ...Object.values(CALLS).map((described) => described.symbol)].sort());
  const { exports } = new WebAssembly.Instance(module, { env });
  memory = exports.memory;
  exports.run();
  const last = text.trim().split("\n").at(-1);
  assert.match(last, /^\d+ passed, 0 failed$/, text);
  t.diagnostic(`cases ${last.split(" ")[0]}`);
});
