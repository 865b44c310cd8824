// A VBK file's parts for showing. Whether they are good is the library's to say: its answers are handed in.

const RECORD_HEAD = 11;

/** The samples before the first record. */
export function samplesBefore(bytes, count) {
  const view = new DataView(bytes.buffer, bytes.byteOffset, bytes.byteLength);
  return Uint16Array.from({ length: count }, (_, k) => view.getUint16(10 + 2 * k, true));
}

/** The records up to where the reading ends, one for each answer. A record that is cut short has no tokens, or not even its numbers. */
export function records(bytes, area, answers) {
  const view = new DataView(bytes.buffer, bytes.byteOffset, bytes.byteLength);
  let at = 10 + 2 * area;
  return Array.from(answers, (answer, index) => {
    const record = { index, answer, at, ...head(view, at) };
    const count = record.size <= 3 ? 16 << (2 * record.size) : 0;
    const first = at + RECORD_HEAD;
    at = first + 4 * count;
    if (count > 0 && at <= bytes.length) record.tokens = Int32Array.from({ length: count }, (_, k) => view.getInt32(first + 4 * k, true));
    return record;
  });
}

function head(view, at) {
  if (at + RECORD_HEAD > view.byteLength) return { side: 0 };
  const size = view.getUint8(at + 4);
  return {
    x: view.getUint16(at, true),
    y: view.getUint16(at + 2, true),
    size,
    side: size <= 3 ? 4 << size : 0,
    txType: view.getUint8(at + 5),
    lossless: view.getUint8(at + 6),
    dc: view.getUint16(at + 7, true),
    ac: view.getUint16(at + 9, true),
  };
}

export const TYPES = ["DCT, DCT", "ADST columns, DCT rows", "DCT columns, ADST rows", "ADST, ADST"];

export function typeName(record) {
  if (record.lossless === 1) return "lossless WHT";
  return TYPES[record.txType] ?? `type ${record.txType}`;
}
