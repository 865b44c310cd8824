/* A lossless block into a plane of 100s, and back: the source that the forward WHT was given comes out of reconstruction. Then the same with a
 * report of its tokens beside it; then which rows of a block of coefficients hold anything, and how many of them are transformed; then the block
 * as a VBK file, written and run. */
#include "bracetwill.h"
#include <stdio.h>

/* The answer in words, where it is a refusal. */
static int refused(const char *call, uint32_t answer) {
  if (answer == BRACETWILL_ANSWER_DONE) return 0;
  fprintf(stderr, "%s: answer %u, %s\n", call, (unsigned)answer, bracetwill_answer_meaning(answer));
  return 1;
}

int main(void) {
  uint16_t plane[8 * 4];
  for (int k = 0; k < 8 * 4; k++) plane[k] = 100;

  /* a source block, less the 100s that the plane holds */
  int64_t block[16];
  for (int k = 0; k < 16; k++) block[k] = 10 * k - 75;
  if (refused("forward WHT", bracetwill_forward_wht_2d(block, 16))) return 1;

  /* lossless: the coefficients are tokens at quantizer 4, of which the inverse takes a quarter */
  if (refused("reconstruction", bracetwill_reconstruct_block(plane, 8 * 4, 8, 4, 8, 4, 0, 0, block, 16, 4, 4, BRACETWILL_DCT_DCT, true, 8)))
    return 1;
  for (int y = 0; y < 4; y++) {
    for (int x = 0; x < 8; x++) printf("%4d", plane[y * 8 + x]);
    printf("\n");
  }

  /* the same again; then a line for each class that has tokens: size number, class, how many, and the sum of their magnitudes */
  uint32_t counts[BRACETWILL_ENTRIES] = {0};
  uint64_t sums[BRACETWILL_ENTRIES] = {0};
  if (refused("report", bracetwill_reconstruct_block_report(plane, 8 * 4, 8, 4, 8, 4, 0, 0, block, 16, 4, 4, BRACETWILL_DCT_DCT, true, 8, counts, sums)))
    return 1;
  for (int class = 0; class < BRACETWILL_CLASSES; class++)
    if (counts[class] != 0) printf("C 0 %d %u %u\n", class, (unsigned)counts[class], (unsigned)sums[class]);

  /* coefficients in rows 0 and 2; then the token of place 9, in row 2, is 0, and the summary follows without another scan of the block */
  int64_t rows[16] = {40, 8};
  uint32_t summary, transforms;
  rows[9] = -12;
  if (refused("summary", bracetwill_row_summary(rows, 16, 2, &summary))) return 1;
  printf("rows %u, first %d, last %d\n", (unsigned)bracetwill_row_count(summary), (int)bracetwill_first_row(summary), (int)bracetwill_last_row(summary));
  if (refused("replacement", bracetwill_replace_token(rows, 16, &summary, 0, 9, 0, 8, 4, 8))) return 1;
  printf("rows %u, first %d, last %d\n", (unsigned)bracetwill_row_count(summary), (int)bracetwill_first_row(summary), (int)bracetwill_last_row(summary));
  if (refused("driver", bracetwill_inverse_transform_2d_rows(rows, 16, 2, BRACETWILL_DCT_DCT, false, &transforms))) return 1;
  printf("row transforms %u\n", (unsigned)transforms);

  /* the lossless block in a VBK file: a plane of 100s and one record; then a run over the file's bytes */
  const uint16_t xs[1] = {4}, ys[1] = {0}, dcs[1] = {4}, acs[1] = {4};
  const uint8_t sizes[1] = {0}, types[1] = {BRACETWILL_DCT_DCT}, lossless[1] = {1};
  const uint32_t brings[1] = {16};
  int32_t tokens[16];
  uint16_t hundreds[8 * 4];
  static uint8_t file[BRACETWILL_FILE_LIMIT], answers[BRACETWILL_ANSWERS_ROOM];
  static uint16_t shown[BRACETWILL_SAMPLES_ROOM];
  uint64_t figures[BRACETWILL_FIGURES];
  size_t length[1];
  for (int k = 0; k < 16; k++) tokens[k] = (int32_t)block[k];
  for (int k = 0; k < 8 * 4; k++) hundreds[k] = 100;
  if (refused("writing", bracetwill_vbk_write(8, 8, 4, hundreds, 8 * 4, xs, 1, ys, 1, sizes, 1, types, 1, lossless, 1, dcs, 1, acs, 1, brings, 1,
                                              tokens, 16, file, sizeof file, length)))
    return 1;
  if (refused("run", bracetwill_replay(file, length[0], shown, BRACETWILL_SAMPLES_ROOM, answers, BRACETWILL_ANSWERS_ROOM, figures, BRACETWILL_FIGURES)))
    return 1;
  printf("file of %u bytes: record answered %u, samples written %u, the last is %u\n", (unsigned)length[0], (unsigned)answers[0],
         (unsigned)figures[BRACETWILL_FIGURE_TOUCHED], (unsigned)shown[8 * 4 - 1]);

  /* the block of above at a depth that there is not is refused, as it must be: the plane stays */
  const uint32_t answer = bracetwill_reconstruct_block(plane, 8 * 4, 8, 4, 8, 4, 0, 0, block, 16, 4, 4, BRACETWILL_DCT_DCT, true, 9);
  printf("at depth 9: answer %u, %s; the plane's first sample is still %u\n", (unsigned)answer, bracetwill_answer_meaning(answer), (unsigned)plane[0]);
  return answer != BRACETWILL_ANSWER_DEPTH;
}
