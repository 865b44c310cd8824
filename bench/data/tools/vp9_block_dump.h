/* Every transform block that the decoder adds to its prediction, written to the file that VP9_BLOCK_DUMP names:
 * its tokens, its quantizers, the prediction and the samples afterwards. One decoding thread only (--threads=1, no row-mt).
 * VP9_BLOCK_DUMP_16=1: depth 8 is decoded in 16-bit buffers, by the functions for deep samples. The format: bench/data/README.md. */
#ifndef VPX_VP9_DECODER_VP9_BLOCK_DUMP_H_
#define VPX_VP9_DECODER_VP9_BLOCK_DUMP_H_

#include "vp9/common/vp9_blockd.h"

int vp9_dump_wide(void);
void vp9_dump_quantizers(const int16_t *dequant);
void vp9_dump_token(int place, int magnitude, int negative);
void vp9_dump_before(const MACROBLOCKD *xd, int plane, int inter, int tx_type,
                     TX_SIZE tx_size, const uint8_t *dst, int stride, int eob);
void vp9_dump_after(const MACROBLOCKD *xd, const uint8_t *dst, int stride);

#endif
