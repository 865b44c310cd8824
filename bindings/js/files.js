// VBK files with rooms that hold any of them.
import { ANSWERS_ROOM, FIGURES, FILE_LIMIT, SAMPLES_ROOM, TEXT_ROOM } from "./header.js";

export function run(library, file) {
  const samples = new Uint16Array(SAMPLES_ROOM);
  const answers = new Uint8Array(ANSWERS_ROOM);
  const figures = new BigUint64Array(FIGURES);
  const out = new Uint8Array(TEXT_ROOM);
  const answer = library.replay(file, samples, answers, figures);
  const length = library.blockrun(file, new Uint16Array(SAMPLES_ROOM), new Uint8Array(ANSWERS_ROOM), out);
  const [depth, width, height, records, touched] = Array.from(figures, Number);
  return {
    answer,
    depth,
    width,
    height,
    samples: samples.slice(0, width * height),
    answers: answers.slice(0, records),
    touched,
    text: new TextDecoder().decode(out.subarray(0, length)),
  };
}

export function make(library, { depth, width, height, samples, records }) {
  const of = (kind, name) => kind.from(records, (record) => record[name]);
  const tokens = Int32Array.from(records.flatMap((record) => Array.from(record.tokens)));
  const out = new Uint8Array(FILE_LIMIT);
  const length = new Uint32Array(1);
  const answer = library.vbkWrite(
    depth,
    width,
    height,
    Uint16Array.from(samples),
    of(Uint16Array, "x"),
    of(Uint16Array, "y"),
    of(Uint8Array, "size"),
    of(Uint8Array, "txType"),
    of(Uint8Array, "lossless"),
    of(Uint16Array, "dc"),
    of(Uint16Array, "ac"),
    Uint32Array.from(records, (record) => record.tokens.length),
    tokens,
    out,
    length,
  );
  return { answer, bytes: out.slice(0, length[0]) };
}
