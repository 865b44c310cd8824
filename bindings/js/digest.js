// The program digest in JavaScript: its module reads a line and writes its text, and asks for nothing else.
import { compiled } from "./bracetwill.js";

/** What `./digest SEED COUNT` prints. */
export async function digest(source = "digest.wasm", seed = 1, count = 10000) {
  const input = new TextEncoder().encode(`${seed} ${count}\n`);
  const text = new TextDecoder();
  let read = 0;
  let printed = "";
  let memory;
  const env = {
    read(_, at, most) {
      const part = input.subarray(read, read + Number(most));
      new Uint8Array(memory.buffer).set(part, at);
      read += part.length;
      return BigInt(part.length);
    },
    write(_, at, count) {
      printed += text.decode(new Uint8Array(memory.buffer, at, Number(count)), { stream: true });
      return count;
    },
  };
  const instance = new WebAssembly.Instance(await compiled(source), { env });
  memory = instance.exports.memory;
  instance.exports.main();
  return printed;
}

/** The one number of it. */
export function total(printed) {
  return printed.trim().split("\n").at(-1).split(/ +/)[1];
}
