// The module's memory: lists are copied in for a call, and those that are written to are copied back.
const ARRAYS = {
  u8: Uint8Array,
  u16: Uint16Array,
  u32: Uint32Array,
  i32: Int32Array,
  i64: BigInt64Array,
  u64: BigUint64Array,
  usize: Uint32Array,
};
const BITS = { u8: 8, u16: 16, u32: 32, usize: 32, i32: 32, i64: 64, u64: 64 };
const PAGE = 65536;
// A call that needs more has an instance of its own afterwards dropped, because a memory grows but never shrinks.
const KEPT = 64 * PAGE;

/** A number of this type. One out of range becomes the type's greatest, below a signed type's range its least: each is refused as it would be. */
export function whole(value, type, name) {
  if (!Number.isInteger(value) && typeof value !== "bigint") throw new TypeError(`${name} is not a whole number`);
  // what every type of its width holds needs no look at the ends
  const usual = typeof value === "number" && value >= 0 && value < 128;
  if (usual && BITS[type] < 64) return value;
  const within = held(BigInt(value), BITS[type], type[0] === "i");
  return BITS[type] === 64 ? within : Number(within);
}

function held(number, bits, signed) {
  const most = (1n << BigInt(signed ? bits - 1 : bits)) - 1n;
  if (number > most || (number < 0n && !signed)) return most;
  return number < -most - 1n ? -most - 1n : number;
}

function truth(value, name) {
  if (typeof value !== "boolean") throw new TypeError(`${name} is not true or false`);
  return value ? 1 : 0;
}

function checked(value, parameter) {
  const kind = ARRAYS[parameter.list];
  if (!(value instanceof kind)) throw new TypeError(`${parameter.name} is not a ${kind.name}`);
  if (parameter.length !== undefined && value.length !== parameter.length)
    throw new TypeError(`${parameter.name} has ${value.length} numbers and not ${parameter.length}`);
  return value;
}

export class Lender {
  #module;
  #exports = null;

  constructor(module) {
    this.#module = module;
  }

  get bytes() {
    return this.#exports === null ? 0 : this.#exports.memory.buffer.byteLength;
  }

  /** One call: its description, and its arguments in their order. */
  call(described, values) {
    const { symbol, takes } = described;
    if (values.length !== takes.length) throw new TypeError(`${symbol} takes ${takes.length} arguments and not ${values.length}`);
    const lists = [];
    this.#exports ??= new WebAssembly.Instance(this.#module).exports;
    let end = this.#exports.__heap_base.value;
    const words = takes.flatMap((parameter, k) => {
      if (parameter.number === "bool") return [truth(values[k], parameter.name)];
      if (parameter.number !== undefined) return [whole(values[k], parameter.number, parameter.name)];
      const list = checked(values[k], parameter);
      const at = (end + 7) & ~7;
      end = at + list.byteLength;
      lists.push({ list, at, kind: ARRAYS[parameter.list], written: parameter.written });
      return parameter.length === undefined ? [at, list.length] : [at];
    });
    try {
      return this.#made(symbol, words, lists, end);
    } catch (failure) {
      this.#exports = null;
      throw failure;
    } finally {
      if (this.bytes > KEPT) this.#exports = null;
    }
  }

  #made(symbol, words, lists, end) {
    const { memory } = this.#exports;
    const missing = end - memory.buffer.byteLength;
    if (missing > 0) memory.grow(Math.ceil(missing / PAGE));
    const place = ({ kind, list, at }) => new kind(memory.buffer, at, list.length);
    for (const lent of lists) place(lent).set(lent.list);
    const given = this.#exports[symbol](...words);
    for (const lent of lists) if (lent.written) lent.list.set(place(lent));
    return given;
  }
}

/** What a call gives, as a number: an answer or a length without a sign, a row, or a limit. */
export function given(value, type) {
  if (type === "u32" || type === "usize") return value >>> 0;
  return Number(value);
}
