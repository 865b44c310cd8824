/* Our reconstruct_block beside libvpx's inverse transforms for deep samples, on the same blocks: first the samples are compared, then ns a
 * block is printed, least of many rounds that take turns. libvpx gets the coefficients and neither dequantizes nor checks; ours does both. */
#include <stdio.h>
#include <stdlib.h>
#include <string.h>
#include <time.h>

#include "bracetwill.h"

enum { DEPTH = 10, BLOCKS = 256, MOST = 1024 };

/* libvpx's own, by their names in its archive; a coefficient is 32 bits there where it is built for deep samples */
typedef void inverse_add(const int32_t *input, uint16_t *dest, int stride, int depth);
typedef void hybrid_add(const int32_t *input, uint16_t *dest, int stride, int tx_type, int depth);
inverse_add vpx_highbd_idct4x4_16_add_c, vpx_highbd_idct8x8_64_add_c, vpx_highbd_idct16x16_256_add_c, vpx_highbd_idct32x32_1024_add_c;
inverse_add vpx_highbd_iwht4x4_16_add_c;
hybrid_add vp9_highbd_iht4x4_16_add_c, vp9_highbd_iht8x8_64_add_c;
void vp9_highbd_iht16x16_256_add_c(const int32_t *input, uint16_t *dest, int stride, int tx_type, int depth);
#ifdef __x86_64__
inverse_add vpx_highbd_idct4x4_16_add_sse4_1, vpx_highbd_idct8x8_64_add_sse4_1, vpx_highbd_idct16x16_256_add_sse4_1,
    vpx_highbd_idct32x32_1024_add_sse4_1;
static inverse_add *const fast[4] = {vpx_highbd_idct4x4_16_add_sse4_1, vpx_highbd_idct8x8_64_add_sse4_1,
                                     vpx_highbd_idct16x16_256_add_sse4_1, vpx_highbd_idct32x32_1024_add_sse4_1};
#else
static inverse_add *const fast[4] = {NULL, NULL, NULL, NULL};
#endif
static inverse_add *const dct[4] = {vpx_highbd_idct4x4_16_add_c, vpx_highbd_idct8x8_64_add_c, vpx_highbd_idct16x16_256_add_c,
                                    vpx_highbd_idct32x32_1024_add_c};
static hybrid_add *const hybrid[3] = {vp9_highbd_iht4x4_16_add_c, vp9_highbd_iht8x8_64_add_c, vp9_highbd_iht16x16_256_add_c};

static uint64_t state = UINT64_C(0x9e3779b97f4a7c15);
static uint64_t next(void) {
  state ^= state << 13;
  state ^= state >> 7;
  state ^= state << 17;
  return state;
}

struct kind {
  uint32_t size;
  uint8_t type;
  bool lossless;
};

static int64_t tokens[BLOCKS][MOST];
static int32_t coefs[BLOCKS][MOST];
static uint16_t plane[MOST], ours[MOST], theirs[MOST];

static void run_libvpx(struct kind k, inverse_add *plain, int b, uint16_t *dest) {
  int side = 4 << k.size;
  if (plain) plain(coefs[b], dest, side, DEPTH);
  else hybrid[k.size](coefs[b], dest, side, k.type, DEPTH);
}

static uint32_t run_ours(struct kind k, int b, uint16_t *samples) {
  size_t side = (size_t)4 << k.size;
  return bracetwill_reconstruct_block(samples, side * side, side, side, side, 0, 0, k.size, tokens[b], side * side, 4, 4, k.type, k.lossless, DEPTH);
}

static double now(void) {
  struct timespec t;
  clock_gettime(CLOCK_MONOTONIC, &t);
  return (double)t.tv_sec * 1e9 + (double)t.tv_nsec;
}

/* ns a block: side 0 is ours, 1 libvpx's C, 2 its SSE4.1 */
static void measure(struct kind k, int rounds, inverse_add *plain, inverse_add *quick, double least[3]) {
  least[0] = least[1] = least[2] = 1e18;
  for (int r = 0; r < rounds; r++) {
    for (int s = 0; s < 3; s++) {
      if (s == 2 && !quick) continue;
      memcpy(ours, plane, sizeof ours);
      double t = now();
      for (int b = 0; b < BLOCKS; b++) {
        if (s == 0) run_ours(k, b, ours);
        else run_libvpx(k, s == 1 ? plain : quick, b, ours);
      }
      t = (now() - t) / BLOCKS;
      if (t < least[s]) least[s] = t;
    }
  }
}

int main(int argc, char **argv) {
  int rounds = argc > 1 ? atoi(argv[1]) : 200;
  long compared = 0, differ = 0;
  printf("block            ours ns  libvpx C ns  ratio   SSE4.1 ns  ratio\n");
  for (uint32_t size = 0; size < 4; size++) {
    for (uint8_t type = 0; type < 5; type++) { /* 4 stands for lossless */
      struct kind k = {size, type == 4 ? 0 : type, type == 4};
      if ((size == 3 && type != 0) || (size != 0 && type == 4)) continue;
      int count = 16 << (2 * size);
      inverse_add *plain = type == 4 ? vpx_highbd_iwht4x4_16_add_c : type == 0 ? dct[size] : NULL;
      inverse_add *quick = type == 0 ? fast[size] : NULL;
      for (int round = 0; round < 40; round++) {
        for (int b = 0; b < BLOCKS; b++) {
          for (int i = 0; i < count; i++) {
            tokens[b][i] = (int64_t)(next() % 257) - 128;
            coefs[b][i] = (int32_t)(tokens[b][i] * 4 / (size == 3 ? 2 : 1));
          }
        }
        for (int i = 0; i < count; i++) plane[i] = (uint16_t)(next() % (1 << DEPTH));
        for (int b = 0; b < BLOCKS; b++) {
          memcpy(ours, plane, sizeof ours);
          memcpy(theirs, plane, sizeof theirs);
          uint32_t answer = run_ours(k, b, ours);
          run_libvpx(k, plain, b, theirs);
          compared++;
          if (answer != 0 || memcmp(ours, theirs, (size_t)count * sizeof *ours) != 0) differ++;
        }
      }
      double least[3];
      measure(k, rounds, plain, quick, least);
      printf("%2d x %-2d type %-4.4s %8.1f %12.1f %6.2f", 4 << size, 4 << size, type == 4 ? "wht" : (char[]){(char)('0' + type), 0}, least[0],
             least[1], least[0] / least[1]);
      if (quick) printf(" %11.1f %6.2f", least[2], least[0] / least[2]);
      printf("\n");
    }
  }
  printf("%ld blocks compared with libvpx, %ld differ\n", compared, differ);
  return differ != 0;
}
