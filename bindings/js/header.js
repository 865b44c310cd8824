// Made by bindings/write from include/bracetwill.h, answers.txt and VERSION.
export const VERSION = "0.3.0";

export const COEF_LIMIT = 2147483648;
export const WHT_LIMIT = 8388608;
export const RESIDUAL_LIMIT = 4095;
export const QUANT_LIMIT = 32767;
export const SIDE_LIMIT = 65535;
export const LIST_LIMIT = 1024;
export const FILE_LIMIT = 65535;
export const SAMPLES_ROOM = 4096;
export const ANSWERS_ROOM = 874;
export const TEXT_ROOM = 45040;
export const CLASSES = 11;
export const ENTRIES = 44;
export const DCT_DCT = 0;
export const ADST_DCT = 1;
export const DCT_ADST = 2;
export const ADST_ADST = 3;
export const FIGURE_DEPTH = 0;
export const FIGURE_WIDTH = 1;
export const FIGURE_HEIGHT = 2;
export const FIGURE_RECORDS = 3;
export const FIGURE_TOUCHED = 4;
export const FIGURES = 5;

export const Answer = Object.freeze({
  Done: 0,
  Depth: 1,
  Size: 2,
  LosslessSize: 3,
  TxType: 4,
  Quantizer: 5,
  Length: 6,
  Plane: 7,
  Token: 8,
  Coefficient: 9,
  Mark: 10,
  Version: 11,
  CutShort: 12,
  TooLarge: 13,
  LosslessByte: 14,
  Report: 15,
  Place: 16,
  Room: 17,
  Narrow: 18,
  Rule: 19,
  Retired: 20,
});

export const MEANINGS = Object.freeze([
  "done",
  "bit depth is not 8, 10 or 12",
  "size number above 3 (for the 2D drivers and the forward DCT: n outside 2 to 5)",
  "lossless with a size other than 4 by 4",
  "not lossless, and a tx_type above 3, or 32 by 32 with a tx_type other than 0",
  "a quantizer outside 1 to 32,767",
  "a list has the wrong length",
  "plane width, height or stride above 65,535, stride below the width, or samples not exactly stride times height",
  "a token's magnitude above the depth's codeable limit (16,450, 65,602 and 262,210)",
  "a coefficient beyond its limit (2^31; for the forward WHT 2^23; for the forward DCT a residual, 4,095)",
  "VBK: the mark is not there",
  "VBK: version is not 1",
  "VBK: header, samples or a record cut short",
  "VBK: file above 65,535 bytes, or width times height not 1 to 4,096",
  "VBK: a record's lossless byte above 1",
  "the block takes the total of all counts past 4,294,967,295, or a class sum is above its count times 262,210",
  "the place is at or past the block's end",
  "the buffer is too short for the file",
  "a number of the recursive process leaves 16 bits (the 32-bit engine alone)",
  "the quantizer's rule is not 1 or 2 (the call with a rule alone)",
  "depth 12 is read but no longer written (the quantizers and the VBK writer)",
]);

// A call: its name in C, the type that it gives, and what it takes: numbers, and lists, some of them written to and some of a fixed length.
export const CALLS = Object.freeze({
  inverseTransform2d: {
    symbol: "bracetwill_inverse_transform_2d",
    gives: "u32",
    takes: [
      { name: "block", list: "i64", written: true },
      { name: "n", number: "u32" },
      { name: "txType", number: "u8" },
      { name: "lossless", number: "bool" },
    ],
  },
  inverseTransform2dReference: {
    symbol: "bracetwill_inverse_transform_2d_reference",
    gives: "u32",
    takes: [
      { name: "block", list: "i64", written: true },
      { name: "n", number: "u32" },
      { name: "txType", number: "u8" },
      { name: "lossless", number: "bool" },
    ],
  },
  rowSummary: {
    symbol: "bracetwill_row_summary",
    gives: "u32",
    takes: [
      { name: "block", list: "i64", written: false },
      { name: "n", number: "u32" },
      { name: "summary", list: "u32", written: true, length: 1 },
    ],
  },
  rowCount: {
    symbol: "bracetwill_row_count",
    gives: "u32",
    takes: [
      { name: "summary", number: "u32" },
    ],
  },
  firstRow: {
    symbol: "bracetwill_first_row",
    gives: "i32",
    takes: [
      { name: "summary", number: "u32" },
    ],
  },
  lastRow: {
    symbol: "bracetwill_last_row",
    gives: "i32",
    takes: [
      { name: "summary", number: "u32" },
    ],
  },
  replaceToken: {
    symbol: "bracetwill_replace_token",
    gives: "u32",
    takes: [
      { name: "block", list: "i64", written: true },
      { name: "summary", list: "u32", written: true, length: 1 },
      { name: "txSz", number: "u32" },
      { name: "place", number: "usize" },
      { name: "token", number: "i64" },
      { name: "dcQuant", number: "i32" },
      { name: "acQuant", number: "i32" },
      { name: "bitDepth", number: "u32" },
    ],
  },
  inverseTransform2dRows: {
    symbol: "bracetwill_inverse_transform_2d_rows",
    gives: "u32",
    takes: [
      { name: "block", list: "i64", written: true },
      { name: "n", number: "u32" },
      { name: "txType", number: "u8" },
      { name: "lossless", number: "bool" },
      { name: "rows", list: "u32", written: true, length: 1 },
    ],
  },
  inverseTransform2d32: {
    symbol: "bracetwill_inverse_transform_2d_32",
    gives: "u32",
    takes: [
      { name: "block", list: "i64", written: true },
      { name: "n", number: "u32" },
      { name: "txType", number: "u8" },
      { name: "lossless", number: "bool" },
    ],
  },
  reconstructBlock: {
    symbol: "bracetwill_reconstruct_block",
    gives: "u32",
    takes: [
      { name: "samples", list: "u16", written: true },
      { name: "width", number: "usize" },
      { name: "height", number: "usize" },
      { name: "stride", number: "usize" },
      { name: "x", number: "usize" },
      { name: "y", number: "usize" },
      { name: "txSz", number: "u32" },
      { name: "tokens", list: "i64", written: false },
      { name: "dcQuant", number: "i32" },
      { name: "acQuant", number: "i32" },
      { name: "txType", number: "u8" },
      { name: "lossless", number: "bool" },
      { name: "bitDepth", number: "u32" },
    ],
  },
  reconstructBlockReport: {
    symbol: "bracetwill_reconstruct_block_report",
    gives: "u32",
    takes: [
      { name: "samples", list: "u16", written: true },
      { name: "width", number: "usize" },
      { name: "height", number: "usize" },
      { name: "stride", number: "usize" },
      { name: "x", number: "usize" },
      { name: "y", number: "usize" },
      { name: "txSz", number: "u32" },
      { name: "tokens", list: "i64", written: false },
      { name: "dcQuant", number: "i32" },
      { name: "acQuant", number: "i32" },
      { name: "txType", number: "u8" },
      { name: "lossless", number: "bool" },
      { name: "bitDepth", number: "u32" },
      { name: "counts", list: "u32", written: true, length: 44 },
      { name: "sums", list: "u64", written: true, length: 44 },
    ],
  },
  forwardWht2d: {
    symbol: "bracetwill_forward_wht_2d",
    gives: "u32",
    takes: [
      { name: "block", list: "i64", written: true },
    ],
  },
  forwardDct2d: {
    symbol: "bracetwill_forward_dct_2d",
    gives: "u32",
    takes: [
      { name: "block", list: "i64", written: true },
      { name: "n", number: "u32" },
    ],
  },
  quantizeBlockTx: {
    symbol: "bracetwill_quantize_block_tx",
    gives: "u32",
    takes: [
      { name: "coefs", list: "i64", written: true },
      { name: "dcQuant", number: "i32" },
      { name: "acQuant", number: "i32" },
      { name: "txSz", number: "u32" },
      { name: "bitDepth", number: "u32" },
    ],
  },
  quantizeBlock: {
    symbol: "bracetwill_quantize_block",
    gives: "u32",
    takes: [
      { name: "coefs", list: "i64", written: true },
      { name: "dcQuant", number: "i32" },
      { name: "acQuant", number: "i32" },
    ],
  },
  quantizeBlockRule: {
    symbol: "bracetwill_quantize_block_rule",
    gives: "u32",
    takes: [
      { name: "coefs", list: "i64", written: true },
      { name: "dcQuant", number: "i32" },
      { name: "acQuant", number: "i32" },
      { name: "txSz", number: "u32" },
      { name: "bitDepth", number: "u32" },
      { name: "rule", number: "u32" },
    ],
  },
  maxCodeableCoef: {
    symbol: "bracetwill_max_codeable_coef",
    gives: "i64",
    takes: [
      { name: "bitDepth", number: "u32" },
    ],
  },
  replay: {
    symbol: "bracetwill_replay",
    gives: "u32",
    takes: [
      { name: "file", list: "u8", written: false },
      { name: "samples", list: "u16", written: true },
      { name: "answers", list: "u8", written: true },
      { name: "figures", list: "u64", written: true },
    ],
  },
  blockrun: {
    symbol: "bracetwill_blockrun",
    gives: "usize",
    takes: [
      { name: "file", list: "u8", written: false },
      { name: "samples", list: "u16", written: true },
      { name: "answers", list: "u8", written: true },
      { name: "out", list: "u8", written: true },
    ],
  },
  vbkWrite: {
    symbol: "bracetwill_vbk_write",
    gives: "u32",
    takes: [
      { name: "depth", number: "u8" },
      { name: "width", number: "u16" },
      { name: "height", number: "u16" },
      { name: "samples", list: "u16", written: false },
      { name: "xs", list: "u16", written: false },
      { name: "ys", list: "u16", written: false },
      { name: "sizes", list: "u8", written: false },
      { name: "txTypes", list: "u8", written: false },
      { name: "lossless", list: "u8", written: false },
      { name: "dcs", list: "u16", written: false },
      { name: "acs", list: "u16", written: false },
      { name: "counts", list: "u32", written: false },
      { name: "tokens", list: "i32", written: false },
      { name: "out", list: "u8", written: true },
      { name: "length", list: "usize", written: true, length: 1 },
    ],
  },
});
