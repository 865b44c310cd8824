/** Bracetwill in JavaScript. README.md has an example. */

/** A whole number. One that the call's type does not hold is answered as a number out of range; what is no whole number is a TypeError. */
export type Whole = number | bigint;

/** Where the module comes from: its address, its bytes, or the module itself. Without one it is bracetwill.wasm beside bracetwill.js. */
export type Source = string | URL | BufferSource | WebAssembly.Module;

/** Compiles the module. */
export function load(source?: Source): Promise<Bracetwill>;

/** An answer in words. */
export function meaning(answer: number): string;

export const VERSION: string;

/* made by bindings/write from answers.txt */
export const COEF_LIMIT: 2147483648;
export const WHT_LIMIT: 8388608;
export const RESIDUAL_LIMIT: 4095;
export const QUANT_LIMIT: 32767;
export const SIDE_LIMIT: 65535;
export const LIST_LIMIT: 1024;
export const FILE_LIMIT: 65535;
export const SAMPLES_ROOM: 4096;
export const ANSWERS_ROOM: 874;
export const TEXT_ROOM: 45040;
export const CLASSES: 11;
export const ENTRIES: 44;
export const DCT_DCT: 0;
export const ADST_DCT: 1;
export const DCT_ADST: 2;
export const ADST_ADST: 3;
export const FIGURE_DEPTH: 0;
export const FIGURE_WIDTH: 1;
export const FIGURE_HEIGHT: 2;
export const FIGURE_RECORDS: 3;
export const FIGURE_TOUCHED: 4;
export const FIGURES: 5;
export const Answer: {
  /** done */
  readonly Done: 0;
  /** bit depth is not 8, 10 or 12 */
  readonly Depth: 1;
  /** size number above 3 (for the 2D drivers and the forward DCT: n outside 2 to 5) */
  readonly Size: 2;
  /** lossless with a size other than 4 by 4 */
  readonly LosslessSize: 3;
  /** not lossless, and a tx_type above 3, or 32 by 32 with a tx_type other than 0 */
  readonly TxType: 4;
  /** a quantizer outside 1 to 32,767 */
  readonly Quantizer: 5;
  /** a list has the wrong length */
  readonly Length: 6;
  /** plane width, height or stride above 65,535, stride below the width, or samples not exactly stride times height */
  readonly Plane: 7;
  /** a token's magnitude above the depth's codeable limit (16,450, 65,602 and 262,210) */
  readonly Token: 8;
  /** a coefficient beyond its limit (2^31; for the forward WHT 2^23; for the forward DCT a residual, 4,095) */
  readonly Coefficient: 9;
  /** VBK: the mark is not there */
  readonly Mark: 10;
  /** VBK: version is not 1 */
  readonly Version: 11;
  /** VBK: header, samples or a record cut short */
  readonly CutShort: 12;
  /** VBK: file above 65,535 bytes, or width times height not 1 to 4,096 */
  readonly TooLarge: 13;
  /** VBK: a record's lossless byte above 1 */
  readonly LosslessByte: 14;
  /** the block takes the total of all counts past 4,294,967,295, or a class sum is above its count times 262,210 */
  readonly Report: 15;
  /** the place is at or past the block's end */
  readonly Place: 16;
  /** the buffer is too short for the file */
  readonly Room: 17;
  /** a number of the recursive process leaves 16 bits (the 32-bit engine alone) */
  readonly Narrow: 18;
  /** the quantizer's rule is not 1 or 2 (the call with a rule alone) */
  readonly Rule: 19;
  /** depth 12 is read but no longer written (the quantizers and the VBK writer) */
  readonly Retired: 20;
};
/* end */

/** What a run over a VBK file leaves. Where the header is refused, answer says why, text is its line, and the rest is empty. */
export interface Run {
  answer: number;
  depth: number;
  width: number;
  height: number;
  /** the plane afterwards, row by row */
  samples: Uint16Array;
  /** each record's answer */
  answers: Uint8Array;
  /** samples written, as blockrun's line T */
  touched: number;
  /** what blockrun prints */
  text: string;
}

export interface VbkRecord {
  x: number;
  y: number;
  size: number;
  txType: number;
  lossless: number;
  dc: number;
  ac: number;
  tokens: ArrayLike<number>;
}

export interface VbkFile {
  depth: number;
  width: number;
  height: number;
  samples: ArrayLike<number>;
  records: VbkRecord[];
}

/**
 * Every call of the header by its name there, with lists as typed arrays. A list that is written to is changed in place; under a refusal it
 * stays. The number given is the answer, 0 for done, or the call's value. Two lists of one call that share memory are copied apart first.
 */
/* made by bindings/write from include/bracetwill.h */
export interface Calls {
  /** The inverse transform of a block, in place. n is 2 to 5 and n0 = 2^n; the block's n0 * n0 coefficients stand row by row at the front of
   * the list and become the residual. What lies past them is not looked at and stays. tx_type is not looked at when lossless is set.
   * Answers 0, 2 (n), 3, 4, 6 (fewer than n0 * n0), 9. */
  inverseTransform2d(block: BigInt64Array, n: Whole, txType: Whole, lossless: boolean): number;
  /** The same by the specification's recursive processes: the same answer and the same block always, more slowly. */
  inverseTransform2dReference(block: BigInt64Array, n: Whole, txType: Whole, lossless: boolean): number;
  /** The summary of a block of n0 rows, n0 = 2^n and n 2 to 5, whose n0 * n0 coefficients stand row by row at the front of the list; what lies
   * past them is not looked at. Any coefficient is taken. Answers 0, 2 (n), 6 (fewer than n0 * n0); under a refusal *summary stays. */
  rowSummary(block: BigInt64Array, n: Whole, summary: Uint32Array): number;
  /** How many rows hold anything, from the summary alone: 0 to 32. Any number is taken. */
  rowCount(summary: Whole): number;
  /** The first row that holds anything, 0 to 31; -1 where the summary is empty and there is none. */
  firstRow(summary: Whole): number;
  /** The last row that holds anything, 0 to 31; -1 where the summary is empty and there is none. */
  lastRow(summary: Whole): number;
  /** One token of a dequantized block is another: its coefficient goes to its place, and the bit of that row is worked out again; every other
   * coefficient and every other bit stays, whatever it was. So the summary of a block stays its summary. tx_sz is 0 to 3 for 4, 8, 16 and 32;
   * dc_quant is for place 0, ac_quant for all others. Answers, the first of them that applies: 0, 1, 2, 5, 6 (not n0 * n0 coefficients),
   * 16 (place at or past n0 * n0), 8, 9. 8 and 9 are of the new token alone. */
  replaceToken(block: BigInt64Array, summary: Uint32Array, txSz: Whole, place: Whole, token: Whole, dcQuant: Whole, acQuant: Whole, bitDepth: Whole): number;
  /** bracetwill_inverse_transform_2d, which besides says how many rows it transformed: those that hold a number that is not 0, lossless too, and 0
   * where nothing but the coefficient at place 0 can be other than 0, tx_type is 0 and lossless is not set. Answers as
   * bracetwill_inverse_transform_2d; under a refusal *rows stays. */
  inverseTransform2dRows(block: BigInt64Array, n: Whole, txType: Whole, lossless: boolean, rows: Uint32Array): number;
  /** bracetwill_inverse_transform_2d with no number wider than 32 bits on the way, for blocks of depth 8: where every coefficient, and every
   * number that the recursive process loads into T or stores there, in rows and then in columns, lies in -32768 to 32767, the same answer and
   * the same block. Elsewhere, where no number of the driver's applies, 18, and the block stays: nothing wraps.
   * Answers 0, 2 (n), 3, 4, 6 (fewer than n0 * n0), 9, 18. */
  inverseTransform2d32(block: BigInt64Array, n: Whole, txType: Whole, lossless: boolean): number;
  /** A block's tokens are dequantized and transformed, and the residual is added to the samples at column x and row y and on, each clipped to
   * the depth, cut to the plane. Samples stand row by row, stride * height of them: that of row y and column x is number y * stride + x. What
   * lies past the width in a row is padding: it is not looked at and stays; without padding the stride is the width. tx_sz is 0 to 3 for 4, 8,
   * 16 and 32; tokens are n0 * n0.
   * dc_quant is for token 0, ac_quant for all others. x and y are any number: a block outside the plane is done, and writes nothing.
   * Answers 0 to 9. */
  reconstructBlock(samples: Uint16Array, width: Whole, height: Whole, stride: Whole, x: Whole, y: Whole, txSz: Whole, tokens: BigInt64Array, dcQuant: Whole, acQuant: Whole, txType: Whole, lossless: boolean, bitDepth: Whole): number;
  /** bracetwill_reconstruct_block with a report beside it: where it is done, each of the block's n0 * n0 tokens, also of those that the plane
   * cuts off, adds 1 to the count and its magnitude to the sum of its size and class; nothing else of the report moves. Both lists hold
   * BRACETWILL_ENTRIES numbers, zeros at first. Answers 0 to 9, and after them 15, of the report as it was lent: its counts and the block's
   * tokens are more than 4294967295 in all, or one of the 44 sums is above its count times 262210. */
  reconstructBlockReport(samples: Uint16Array, width: Whole, height: Whole, stride: Whole, x: Whole, y: Whole, txSz: Whole, tokens: BigInt64Array, dcQuant: Whole, acQuant: Whole, txType: Whole, lossless: boolean, bitDepth: Whole, counts: Uint32Array, sums: BigUint64Array): number;
  /** The forward WHT of 16 numbers, in place. Answers 0, 6 (not 16), 9 (beyond BRACETWILL_WHT_LIMIT). */
  forwardWht2d(block: BigInt64Array): number;
  /** The forward DCT of 2^n by 2^n residuals, in place and in whole numbers: the coefficients that bracetwill_inverse_transform_2d takes at type 0.
   * Answers 0, 2, 6 (not 2^n times 2^n numbers), 9 (beyond BRACETWILL_RESIDUAL_LIMIT). */
  forwardDct2d(block: BigInt64Array, n: Whole): number;
  /** Coefficients become tokens, in place: 0 to 1024 of them, dc_quant for the first and ac_quant for all others. An exact half goes toward
   * zero. Answers 0, 1, 20 (depth 12, which is for reading only), 2, 5, 6, 9. */
  quantizeBlockTx(coefs: BigInt64Array, dcQuant: Whole, acQuant: Whole, txSz: Whole, bitDepth: Whole): number;
  /** The same at a small size and depth 8. Answers 0, 5, 6, 9. */
  quantizeBlock(coefs: BigInt64Array, dcQuant: Whole, acQuant: Whole): number;
  /** bracetwill_quantize_block_tx by a rule: 1 sends an exact half toward zero, as the two calls above do, and 2 away from it, as the
   * recorder's firmware 2 does. Answers 19 (another rule), before all others; then 0, 1, 20 (depth 12), 2, 5, 6, 9. */
  quantizeBlockRule(coefs: BigInt64Array, dcQuant: Whole, acQuant: Whole, txSz: Whole, bitDepth: Whole, rule: Whole): number;
  /** The codeable limit of a depth, the greatest magnitude of a token; 0 for a depth that is not 8, 10 or 12. That of depth 12, which is for
   * reading only, is 262210 as before. */
  maxCodeableCoef(bitDepth: Whole): number;
  /** A run over the bytes of a VBK file: the plane afterwards at the front of samples, row by row, each record's answer at the front of
   * answers, the figures at the front of figures; what lies past them stays. Each of the three rooms may be larger than is needed.
   * Answers 0, 1, 6 (fewer than BRACETWILL_SAMPLES_ROOM samples, BRACETWILL_ANSWERS_ROOM answers or BRACETWILL_FIGURES figures),
   * 10, 11, 12, 13. A record's answer is 0, 2 to 5, 8, 9, 12 or 14. */
  replay(file: Uint8Array, samples: Uint16Array, answers: Uint8Array, figures: BigUint64Array): number;
  /** A run and its text, the lines of the program blockrun: the text at the front of out, its length handed back; no zero byte ends it.
   * A header that is refused has the line `E number`. The plane and the records' answers are left as by bracetwill_replay.
   * Gives 0, and changes nothing, where out has fewer than BRACETWILL_TEXT_ROOM bytes or another room is too short as above. */
  blockrun(file: Uint8Array, samples: Uint16Array, answers: Uint8Array, out: Uint8Array): number;
  /** Writes a VBK file at the front of out: header, samples, and the records in the order given. One list for each number of a record, one
   * entry a record; record k takes the next counts[k] of the tokens, row by row, which must be 16, 64, 256 or 1024 by its size:
   *
   *     record        0        1        2
   *     xs         [  0   |    4   |    8  ]   uint16_t, and so ys, dcs, acs (the DC and AC quantizers)
   *     sizes      [  0   |    1   |    0  ]   uint8_t, and so tx_types, lossless (0 or 1)
   *     counts     [ 16   |   64   |   16  ]   uint32_t
   *     tokens     [ t0 .. t15 | t16 .. t79 | t80 .. t95 ]   int32_t, all records' tokens one after another
   *     samples    [ row 0 | row 1 | .. ]      uint16_t, width times height of them
   *
   * Done, the file's length is written to length[0], and the bytes of out past it stay. What reconstruction would refuse is written all the
   * same: any place, type, quantizer and token. A file takes 10 + 2 * samples_len + 11 * xs_len + 4 * tokens_len bytes; a room of
   * BRACETWILL_FILE_LIMIT bytes holds any. Answers 0, 1 (depth), 20 (depth 12, which is for reading only), 2 (a size above 3), 6 (samples_len is
   * not width times height, a record's count is not that of its size, lists of records of different lengths, or counts that do not add up
   * to tokens_len), 13 (width times height not 1 to 4096, or a file above BRACETWILL_FILE_LIMIT bytes), 14 (a lossless byte above 1), 17
   * (out is too short). */
  vbkWrite(depth: Whole, width: Whole, height: Whole, samples: Uint16Array, xs: Uint16Array, ys: Uint16Array, sizes: Uint8Array, txTypes: Uint8Array, lossless: Uint8Array, dcs: Uint16Array, acs: Uint16Array, counts: Uint32Array, tokens: Int32Array, out: Uint8Array, length: Uint32Array): number;
}
/* end */

export interface Bracetwill extends Calls {
  /** A run over the bytes of a VBK file, in rooms of its own. */
  run(file: Uint8Array): Run;
  /** The bytes of a VBK file; the answer where it is refused, with no byte. */
  make(file: VbkFile): { answer: number; bytes: Uint8Array };
  /** How many bytes of memory the module holds at the moment. */
  readonly memory: number;
}
