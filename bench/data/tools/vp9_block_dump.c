#include <stdio.h>
#include <stdlib.h>
#include <string.h>

#include "vp9/decoder/vp9_block_dump.h"

static FILE *out;
static int asked, wide;
static int32_t tokens[1024];
static uint16_t places[1024];
static int live;
static int quant[2];
static uint8_t head[14];
static uint8_t before[2048], after[2048];
static int side, deep;

static void ask(void) {
  if (!asked) {
    const char *name = getenv("VP9_BLOCK_DUMP");
    const char *w = getenv("VP9_BLOCK_DUMP_16");
    asked = 1;
    wide = w && *w == '1';
    if (name) {
      out = fopen(name, "wb");
      if (!out) abort();
      setvbuf(out, NULL, _IOFBF, 1 << 20);
      fwrite("VP9BLK1\n", 1, 8, out);
    }
  }
}

int vp9_dump_wide(void) {
  ask();
  return wide;
}

void vp9_dump_quantizers(const int16_t *dequant) {
  quant[0] = dequant[0];
  quant[1] = dequant[1];
  while (live > 0) tokens[places[--live]] = 0;
}

void vp9_dump_token(int place, int magnitude, int negative) {
  tokens[place] = negative ? -magnitude : magnitude;
  places[live++] = (uint16_t)place;
}

static void u16(uint8_t *p, unsigned v) {
  p[0] = (uint8_t)v;
  p[1] = (uint8_t)(v >> 8);
}

/* samples of depth 8 take a byte, others two */
static int take(const MACROBLOCKD *xd, uint8_t *to, const uint8_t *dst,
                int stride) {
  int r, c, n = 0;
#if CONFIG_VP9_HIGHBITDEPTH
  if (xd->cur_buf->flags & YV12_FLAG_HIGHBITDEPTH) {
    const uint16_t *d = CONVERT_TO_SHORTPTR(dst);
    for (r = 0; r < side; r++)
      for (c = 0; c < side; c++) {
        to[n++] = (uint8_t)d[r * stride + c];
        if (deep) to[n++] = (uint8_t)(d[r * stride + c] >> 8);
      }
    return n;
  }
#else
  (void)xd;
#endif
  for (r = 0; r < side; r++)
    for (c = 0; c < side; c++) to[n++] = dst[r * stride + c];
  return n;
}

void vp9_dump_before(const MACROBLOCKD *xd, int plane, int inter, int tx_type,
                     TX_SIZE tx_size, const uint8_t *dst, int stride, int eob) {
  const tran_low_t *dq = xd->plane[plane].dqcoeff;
  int i, bad = 0, depth = 8, path = 0;
  ask();
  if (!out) return;
#if CONFIG_VP9_HIGHBITDEPTH
  depth = xd->bd;
  path = (xd->cur_buf->flags & YV12_FLAG_HIGHBITDEPTH) != 0;
#endif
  side = 4 << tx_size;
  deep = depth > 8;
  /* the decoder's coefficients against the specification's arithmetic over the tokens */
  for (i = 0; i < side * side; i++)
    if ((int64_t)tokens[i] * quant[i > 0] / (tx_size == TX_32X32 ? 2 : 1) !=
        dq[i])
      bad = 1;
  head[0] = (uint8_t)depth;
  head[1] = (uint8_t)((xd->lossless ? 1 : 0) | (inter ? 2 : 0) |
                      (path ? 4 : 0) | (bad ? 8 : 0));
  head[2] = (uint8_t)tx_size;
  head[3] = (uint8_t)(tx_size == TX_32X32 ? 0 : tx_type);
  head[4] = (uint8_t)plane;
  head[5] = 0;
  u16(head + 6, (unsigned)eob);
  u16(head + 8, (unsigned)quant[0]);
  u16(head + 10, (unsigned)quant[1]);
  u16(head + 12, (unsigned)live);
  take(xd, before, dst, stride);
}

void vp9_dump_after(const MACROBLOCKD *xd, const uint8_t *dst, int stride) {
  int i, n;
  if (!out) return;
  n = take(xd, after, dst, stride);
  fwrite(head, 1, sizeof head, out);
  for (i = 0; i < live; i++) {
    uint8_t t[6];
    const uint32_t v = (uint32_t)tokens[places[i]];
    u16(t, places[i]);
    u16(t + 2, v & 0xffff);
    u16(t + 4, v >> 16);
    fwrite(t, 1, 6, out);
  }
  fwrite(before, 1, (size_t)n, out);
  fwrite(after, 1, (size_t)n, out);
}
