// Bracetwill in JavaScript: every call of include/bracetwill.h over its WebAssembly module, which imports nothing. README.md has an example.
import { CALLS, MEANINGS } from "./header.js";
import { Lender, given } from "./lend.js";
import { make, run } from "./files.js";

export * from "./header.js";

export function meaning(answer) {
  return MEANINGS[answer] ?? "no answer has this number";
}

export class Bracetwill {
  #lender;

  constructor(module) {
    this.#lender = new Lender(module);
    for (const [name, described] of Object.entries(CALLS)) {
      this[name] = (...values) => given(this.#lender.call(described, values), described.gives);
    }
  }

  run(file) {
    return run(this, file);
  }

  make(file) {
    return make(this, file);
  }

  get memory() {
    return this.#lender.bytes;
  }
}

async function fetched(address) {
  if (address.protocol === "file:" && globalThis.process?.versions?.node) {
    const { readFile } = await import("node:fs/promises");
    return readFile(address);
  }
  const reply = await fetch(address);
  if (!reply.ok) throw new Error(`${address} is not there: status ${reply.status}`);
  return reply.arrayBuffer();
}

export async function compiled(source) {
  if (source instanceof WebAssembly.Module) return source;
  const named = typeof source === "string" || source instanceof URL;
  return WebAssembly.compile(named ? await fetched(new URL(source, import.meta.url)) : source);
}

export async function load(source = "bracetwill.wasm") {
  return new Bracetwill(await compiled(source));
}
