/* Bracetwill: the residual path of VP9, for C and C++. Link with libbracetwill.a, x86-64 code that `bindings/archive` proves and writes; it
 * needs nothing but memcpy and memset. bindings/README.md has the commands; `bindings/install PREFIX` puts header and archive in place.
 *
 * Every call ends, on every input, with an answer that is fixed beforehand: it has no state, takes no memory of its own but stack, prints
 * nothing and calls nobody. Calls may run at the same time in several threads where what they are lent is not shared.
 *
 * Numbers are never the caller's fault: any value of a number is answered, and a refusal leaves all that was lent as it was. What C has to
 * see to is the memory. A list is handed over as a pointer and then how many numbers lie there:
 *  - the pointer is aligned for its type and points to that many numbers, all of them set; where there are none it may be NULL;
 *  - a list that is not const is written to, and shares no memory with any other list of the same call;
 *  - a pointer with no length behind it points to one number, or to as many as stand in its brackets, and is never NULL.
 *
 * What the numbers are:
 *  - tokens and coefficients of a block stand in raster order, row by row, and not in scan order: a decoder that reads them in scan order
 *    puts each at its place first;
 *  - quantizers are the multipliers, the numbers that the tables dc_qlookup and ac_qlookup hold, and not indexes into these tables;
 *  - samples are 16 bit at every depth, 8 included.
 *
 * A type is passed as the number that C makes of it: 256 for a uint8_t is 0 before the call begins. Compile with -Wconversion. */
#ifndef BRACETWILL_H
#define BRACETWILL_H

#include <stdbool.h>
#include <stddef.h>
#include <stdint.h>

/* made by bindings/write from VERSION */
#define BRACETWILL_VERSION_MAJOR 0
#define BRACETWILL_VERSION_MINOR 3
#define BRACETWILL_VERSION_PATCH 0
#define BRACETWILL_VERSION_STRING "0.3.0"
/* end */

/* An answer that is not looked at is a warning: a refused call has written nothing. */
#if defined(__cplusplus) && __cplusplus >= 201703L
#define BRACETWILL_NODISCARD [[nodiscard]]
#elif !defined(__cplusplus) && defined(__STDC_VERSION__) && __STDC_VERSION__ >= 202000L
#define BRACETWILL_NODISCARD [[nodiscard]]
#elif defined(__GNUC__)
#define BRACETWILL_NODISCARD __attribute__((warn_unused_result))
#else
#define BRACETWILL_NODISCARD
#endif

#ifdef __cplusplus
extern "C" {
#endif

/* made by bindings/write from answers.txt */
/* The answers. A call gives the lowest number that applies, over the whole input, but that 16 comes before 8. A VBK file has an order of its
 * own, and the first check that fails is its answer: the header 13 (bytes), 12 (fewer than 10), 10, 11, 1, 13 (width times height), 12
 * (samples); a record 12 (fewer than 11 bytes), 2, 12 (tokens), 14, then that of the reconstruction. docs/REFERENCE.md has every number. */
enum bracetwill_answer {
  BRACETWILL_ANSWER_DONE = 0,
  BRACETWILL_ANSWER_DEPTH = 1,
  BRACETWILL_ANSWER_SIZE = 2,
  BRACETWILL_ANSWER_LOSSLESS_SIZE = 3,
  BRACETWILL_ANSWER_TX_TYPE = 4,
  BRACETWILL_ANSWER_QUANTIZER = 5,
  BRACETWILL_ANSWER_LENGTH = 6,
  BRACETWILL_ANSWER_PLANE = 7,
  BRACETWILL_ANSWER_TOKEN = 8,
  BRACETWILL_ANSWER_COEFFICIENT = 9,
  BRACETWILL_ANSWER_MARK = 10,
  BRACETWILL_ANSWER_VERSION = 11,
  BRACETWILL_ANSWER_CUT_SHORT = 12,
  BRACETWILL_ANSWER_TOO_LARGE = 13,
  BRACETWILL_ANSWER_LOSSLESS_BYTE = 14,
  BRACETWILL_ANSWER_REPORT = 15,
  BRACETWILL_ANSWER_PLACE = 16,
  BRACETWILL_ANSWER_ROOM = 17,
  BRACETWILL_ANSWER_NARROW = 18,
  BRACETWILL_ANSWER_RULE = 19,
  BRACETWILL_ANSWER_RETIRED = 20
};

/* An answer in words, the same that every other part of the product says; never NULL. */
static inline const char *bracetwill_answer_meaning(uint32_t answer) {
  switch (answer) {
  case BRACETWILL_ANSWER_DONE: return "done";
  case BRACETWILL_ANSWER_DEPTH: return "bit depth is not 8, 10 or 12";
  case BRACETWILL_ANSWER_SIZE: return "size number above 3 (for the 2D drivers and the forward DCT: n outside 2 to 5)";
  case BRACETWILL_ANSWER_LOSSLESS_SIZE: return "lossless with a size other than 4 by 4";
  case BRACETWILL_ANSWER_TX_TYPE: return "not lossless, and a tx_type above 3, or 32 by 32 with a tx_type other than 0";
  case BRACETWILL_ANSWER_QUANTIZER: return "a quantizer outside 1 to 32,767";
  case BRACETWILL_ANSWER_LENGTH: return "a list has the wrong length";
  case BRACETWILL_ANSWER_PLANE: return "plane width, height or stride above 65,535, stride below the width, or samples not exactly stride times height";
  case BRACETWILL_ANSWER_TOKEN: return "a token's magnitude above the depth's codeable limit (16,450, 65,602 and 262,210)";
  case BRACETWILL_ANSWER_COEFFICIENT: return "a coefficient beyond its limit (2^31; for the forward WHT 2^23; for the forward DCT a residual, 4,095)";
  case BRACETWILL_ANSWER_MARK: return "VBK: the mark is not there";
  case BRACETWILL_ANSWER_VERSION: return "VBK: version is not 1";
  case BRACETWILL_ANSWER_CUT_SHORT: return "VBK: header, samples or a record cut short";
  case BRACETWILL_ANSWER_TOO_LARGE: return "VBK: file above 65,535 bytes, or width times height not 1 to 4,096";
  case BRACETWILL_ANSWER_LOSSLESS_BYTE: return "VBK: a record's lossless byte above 1";
  case BRACETWILL_ANSWER_REPORT: return "the block takes the total of all counts past 4,294,967,295, or a class sum is above its count times 262,210";
  case BRACETWILL_ANSWER_PLACE: return "the place is at or past the block's end";
  case BRACETWILL_ANSWER_ROOM: return "the buffer is too short for the file";
  case BRACETWILL_ANSWER_NARROW: return "a number of the recursive process leaves 16 bits (the 32-bit engine alone)";
  case BRACETWILL_ANSWER_RULE: return "the quantizer's rule is not 1 or 2 (the call with a rule alone)";
  case BRACETWILL_ANSWER_RETIRED: return "depth 12 is read but no longer written (the quantizers and the VBK writer)";
  default: return "no answer has this number";
  }
}
/* end */

/* Limits, magnitudes included. */
#define BRACETWILL_COEF_LIMIT INT64_C(2147483648) /* dequantized values, the 2D driver's input, the quantizer's input */
#define BRACETWILL_WHT_LIMIT INT64_C(8388608)    /* the forward WHT's input */
#define BRACETWILL_RESIDUAL_LIMIT INT64_C(4095)  /* the forward DCT's input */
#define BRACETWILL_QUANT_LIMIT 32767             /* a quantizer is 1 to this */
#define BRACETWILL_SIDE_LIMIT 65535              /* a plane's width, height and stride */
#define BRACETWILL_LIST_LIMIT 1024               /* numbers that the quantizer takes */
#define BRACETWILL_FILE_LIMIT 65535              /* bytes of a VBK file */

/* Rooms that hold what any VBK file leaves. */
#define BRACETWILL_SAMPLES_ROOM 4096 /* samples */
#define BRACETWILL_ANSWERS_ROOM 874  /* answers, one a record */
#define BRACETWILL_TEXT_ROOM 45040   /* bytes of text */

/* The transform types: the letters are the columns' transform and the rows' transform. */
enum bracetwill_tx_type {
  BRACETWILL_DCT_DCT = 0,
  BRACETWILL_ADST_DCT = 1,
  BRACETWILL_DCT_ADST = 2,
  BRACETWILL_ADST_ADST = 3
};

/* The inverse transform of a block, in place. n is 2 to 5 and n0 = 2^n; the block's n0 * n0 coefficients stand row by row at the front of
 * the list and become the residual. What lies past them is not looked at and stays. tx_type is not looked at when lossless is set.
 * Answers 0, 2 (n), 3, 4, 6 (fewer than n0 * n0), 9. */
BRACETWILL_NODISCARD
uint32_t bracetwill_inverse_transform_2d(int64_t *block, size_t block_len, uint32_t n, uint8_t tx_type, bool lossless);

/* The same by the specification's recursive processes: the same answer and the same block always, more slowly. */
BRACETWILL_NODISCARD
uint32_t bracetwill_inverse_transform_2d_reference(int64_t *block, size_t block_len, uint32_t n, uint8_t tx_type, bool lossless);

/* A row summary is 32 bits beside a block of coefficients: bit i is set when row i holds a number that is not 0, and no other bit is set. */

/* The summary of a block of n0 rows, n0 = 2^n and n 2 to 5, whose n0 * n0 coefficients stand row by row at the front of the list; what lies
 * past them is not looked at. Any coefficient is taken. Answers 0, 2 (n), 6 (fewer than n0 * n0); under a refusal *summary stays. */
BRACETWILL_NODISCARD
uint32_t bracetwill_row_summary(const int64_t *block, size_t block_len, uint32_t n, uint32_t *summary);

/* How many rows hold anything, from the summary alone: 0 to 32. Any number is taken. */
BRACETWILL_NODISCARD
uint32_t bracetwill_row_count(uint32_t summary);

/* The first row that holds anything, 0 to 31; -1 where the summary is empty and there is none. */
BRACETWILL_NODISCARD
int32_t bracetwill_first_row(uint32_t summary);

/* The last row that holds anything, 0 to 31; -1 where the summary is empty and there is none. */
BRACETWILL_NODISCARD
int32_t bracetwill_last_row(uint32_t summary);

/* One token of a dequantized block is another: its coefficient goes to its place, and the bit of that row is worked out again; every other
 * coefficient and every other bit stays, whatever it was. So the summary of a block stays its summary. tx_sz is 0 to 3 for 4, 8, 16 and 32;
 * dc_quant is for place 0, ac_quant for all others. Answers, the first of them that applies: 0, 1, 2, 5, 6 (not n0 * n0 coefficients),
 * 16 (place at or past n0 * n0), 8, 9. 8 and 9 are of the new token alone. */
BRACETWILL_NODISCARD
uint32_t bracetwill_replace_token(int64_t *block, size_t block_len, uint32_t *summary, uint32_t tx_sz, size_t place, int64_t token,
                                  int32_t dc_quant, int32_t ac_quant, uint32_t bit_depth);

/* bracetwill_inverse_transform_2d, which besides says how many rows it transformed: those that hold a number that is not 0, lossless too, and 0
 * where nothing but the coefficient at place 0 can be other than 0, tx_type is 0 and lossless is not set. Answers as
 * bracetwill_inverse_transform_2d; under a refusal *rows stays. */
BRACETWILL_NODISCARD
uint32_t bracetwill_inverse_transform_2d_rows(int64_t *block, size_t block_len, uint32_t n, uint8_t tx_type, bool lossless, uint32_t *rows);

/* bracetwill_inverse_transform_2d with no number wider than 32 bits on the way, for blocks of depth 8: where every coefficient, and every
 * number that the recursive process loads into T or stores there, in rows and then in columns, lies in -32768 to 32767, the same answer and
 * the same block. Elsewhere, where no number of the driver's applies, 18, and the block stays: nothing wraps.
 * Answers 0, 2 (n), 3, 4, 6 (fewer than n0 * n0), 9, 18. */
BRACETWILL_NODISCARD
uint32_t bracetwill_inverse_transform_2d_32(int64_t *block, size_t block_len, uint32_t n, uint8_t tx_type, bool lossless);

/* A block's tokens are dequantized and transformed, and the residual is added to the samples at column x and row y and on, each clipped to
 * the depth, cut to the plane. Samples stand row by row, stride * height of them: that of row y and column x is number y * stride + x. What
 * lies past the width in a row is padding: it is not looked at and stays; without padding the stride is the width. tx_sz is 0 to 3 for 4, 8,
 * 16 and 32; tokens are n0 * n0.
 * dc_quant is for token 0, ac_quant for all others. x and y are any number: a block outside the plane is done, and writes nothing.
 * Answers 0 to 9. */
BRACETWILL_NODISCARD
uint32_t bracetwill_reconstruct_block(uint16_t *samples, size_t samples_len, size_t width, size_t height, size_t stride, size_t x, size_t y,
                                      uint32_t tx_sz, const int64_t *tokens, size_t tokens_len, int32_t dc_quant, int32_t ac_quant,
                                      uint8_t tx_type, bool lossless, uint32_t bit_depth);

/* How many classes of magnitudes there are, 0, 1, 2, 3, 4, 5 to 6, 7 to 10, 11 to 18, 19 to 34, 35 to 66, 67 and up, and how many entries each
 * list of a report has: that of size number s and class c, counted from 0, is s * BRACETWILL_CLASSES + c. */
#define BRACETWILL_CLASSES 11
#define BRACETWILL_ENTRIES 44

/* bracetwill_reconstruct_block with a report beside it: where it is done, each of the block's n0 * n0 tokens, also of those that the plane
 * cuts off, adds 1 to the count and its magnitude to the sum of its size and class; nothing else of the report moves. Both lists hold
 * BRACETWILL_ENTRIES numbers, zeros at first. Answers 0 to 9, and after them 15, of the report as it was lent: its counts and the block's
 * tokens are more than 4294967295 in all, or one of the 44 sums is above its count times 262210. */
BRACETWILL_NODISCARD
uint32_t bracetwill_reconstruct_block_report(uint16_t *samples, size_t samples_len, size_t width, size_t height, size_t stride, size_t x,
                                             size_t y, uint32_t tx_sz, const int64_t *tokens, size_t tokens_len, int32_t dc_quant,
                                             int32_t ac_quant, uint8_t tx_type, bool lossless, uint32_t bit_depth,
                                             uint32_t counts[44], uint64_t sums[44]);

/* The forward WHT of 16 numbers, in place. Answers 0, 6 (not 16), 9 (beyond BRACETWILL_WHT_LIMIT). */
BRACETWILL_NODISCARD
uint32_t bracetwill_forward_wht_2d(int64_t *block, size_t block_len);

/* The forward DCT of 2^n by 2^n residuals, in place and in whole numbers: the coefficients that bracetwill_inverse_transform_2d takes at type 0.
 * Answers 0, 2, 6 (not 2^n times 2^n numbers), 9 (beyond BRACETWILL_RESIDUAL_LIMIT). */
BRACETWILL_NODISCARD
uint32_t bracetwill_forward_dct_2d(int64_t *block, size_t block_len, uint32_t n);

/* Coefficients become tokens, in place: 0 to 1024 of them, dc_quant for the first and ac_quant for all others. An exact half goes toward
 * zero. Answers 0, 1, 20 (depth 12, which is for reading only), 2, 5, 6, 9. */
BRACETWILL_NODISCARD
uint32_t bracetwill_quantize_block_tx(int64_t *coefs, size_t coefs_len, int32_t dc_quant, int32_t ac_quant, uint32_t tx_sz,
                                      uint32_t bit_depth);

/* The same at a small size and depth 8. Answers 0, 5, 6, 9. */
BRACETWILL_NODISCARD
uint32_t bracetwill_quantize_block(int64_t *coefs, size_t coefs_len, int32_t dc_quant, int32_t ac_quant);

/* bracetwill_quantize_block_tx by a rule: 1 sends an exact half toward zero, as the two calls above do, and 2 away from it, as the
 * recorder's firmware 2 does. Answers 19 (another rule), before all others; then 0, 1, 20 (depth 12), 2, 5, 6, 9. */
BRACETWILL_NODISCARD
uint32_t bracetwill_quantize_block_rule(int64_t *coefs, size_t coefs_len, int32_t dc_quant, int32_t ac_quant, uint32_t tx_sz,
                                        uint32_t bit_depth, uint32_t rule);

/* The codeable limit of a depth, the greatest magnitude of a token; 0 for a depth that is not 8, 10 or 12. That of depth 12, which is for
 * reading only, is 262210 as before. */
BRACETWILL_NODISCARD
int64_t bracetwill_max_codeable_coef(uint32_t bit_depth);

/* What a run over a VBK file tells of itself: the places of its figures. */
enum bracetwill_figure {
  BRACETWILL_FIGURE_DEPTH = 0,
  BRACETWILL_FIGURE_WIDTH = 1,
  BRACETWILL_FIGURE_HEIGHT = 2,
  BRACETWILL_FIGURE_RECORDS = 3, /* how many records were read */
  BRACETWILL_FIGURE_TOUCHED = 4, /* the touched count: samples written */
  BRACETWILL_FIGURES = 5         /* how many figures there are */
};

/* A run over the bytes of a VBK file: the plane afterwards at the front of samples, row by row, each record's answer at the front of
 * answers, the figures at the front of figures; what lies past them stays. Each of the three rooms may be larger than is needed.
 * Answers 0, 1, 6 (fewer than BRACETWILL_SAMPLES_ROOM samples, BRACETWILL_ANSWERS_ROOM answers or BRACETWILL_FIGURES figures),
 * 10, 11, 12, 13. A record's answer is 0, 2 to 5, 8, 9, 12 or 14. */
BRACETWILL_NODISCARD
uint32_t bracetwill_replay(const uint8_t *file, size_t file_len, uint16_t *samples, size_t samples_len, uint8_t *answers,
                           size_t answers_len, uint64_t *figures, size_t figures_len);

/* A run and its text, the lines of the program blockrun: the text at the front of out, its length handed back; no zero byte ends it.
 * A header that is refused has the line `E number`. The plane and the records' answers are left as by bracetwill_replay.
 * Gives 0, and changes nothing, where out has fewer than BRACETWILL_TEXT_ROOM bytes or another room is too short as above. */
BRACETWILL_NODISCARD
size_t bracetwill_blockrun(const uint8_t *file, size_t file_len, uint16_t *samples, size_t samples_len, uint8_t *answers,
                           size_t answers_len, uint8_t *out, size_t out_len);

/* Writes a VBK file at the front of out: header, samples, and the records in the order given. One list for each number of a record, one
 * entry a record; record k takes the next counts[k] of the tokens, row by row, which must be 16, 64, 256 or 1024 by its size:
 *
 *     record        0        1        2
 *     xs         [  0   |    4   |    8  ]   uint16_t, and so ys, dcs, acs (the DC and AC quantizers)
 *     sizes      [  0   |    1   |    0  ]   uint8_t, and so tx_types, lossless (0 or 1)
 *     counts     [ 16   |   64   |   16  ]   uint32_t
 *     tokens     [ t0 .. t15 | t16 .. t79 | t80 .. t95 ]   int32_t, all records' tokens one after another
 *     samples    [ row 0 | row 1 | .. ]      uint16_t, width times height of them
 *
 * Done, the file's length is written to length[0], and the bytes of out past it stay. What reconstruction would refuse is written all the
 * same: any place, type, quantizer and token. A file takes 10 + 2 * samples_len + 11 * xs_len + 4 * tokens_len bytes; a room of
 * BRACETWILL_FILE_LIMIT bytes holds any. Answers 0, 1 (depth), 20 (depth 12, which is for reading only), 2 (a size above 3), 6 (samples_len is
 * not width times height, a record's count is not that of its size, lists of records of different lengths, or counts that do not add up
 * to tokens_len), 13 (width times height not 1 to 4096, or a file above BRACETWILL_FILE_LIMIT bytes), 14 (a lossless byte above 1), 17
 * (out is too short). */
BRACETWILL_NODISCARD
uint32_t bracetwill_vbk_write(uint8_t depth, uint16_t width, uint16_t height, const uint16_t *samples, size_t samples_len,
                              const uint16_t *xs, size_t xs_len, const uint16_t *ys, size_t ys_len, const uint8_t *sizes,
                              size_t sizes_len, const uint8_t *tx_types, size_t tx_types_len, const uint8_t *lossless,
                              size_t lossless_len, const uint16_t *dcs, size_t dcs_len, const uint16_t *acs, size_t acs_len,
                              const uint32_t *counts, size_t counts_len, const int32_t *tokens, size_t tokens_len, uint8_t *out,
                              size_t out_len, size_t length[1]);

#ifdef __cplusplus
}
#endif

#endif
