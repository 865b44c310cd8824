/* Every exported call from C: values of docs/REFERENCE.md, every number that each call can give, and what was lent afterwards.
 * printf is declared here, so that nothing is needed but the compiler's own headers and a C library to link with. */
#include "bracetwill.h"

int printf(const char *format, ...);

static unsigned passed, failed;

static void check(bool ok, const char *what, long long a, long long b) {
  if (ok) {
    passed++;
    return;
  }
  failed++;
  printf("FAILED: %s (%lld, %lld)\n", what, a, b);
}

static bool same(const void *a, const void *b, size_t bytes) {
  const unsigned char *p = (const unsigned char *)a, *q = (const unsigned char *)b;
  for (size_t k = 0; k < bytes; k++)
    if (p[k] != q[k]) return false;
  return true;
}

static void copy(void *to, const void *from, size_t bytes) {
  for (size_t k = 0; k < bytes; k++) ((unsigned char *)to)[k] = ((const unsigned char *)from)[k];
}

static void equal(long long got, long long want, const char *what) { check(got == want, what, got, want); }

/* Numbers of a list that are lent, and past them others that no call may reach. */
enum { MOST = 1200 };
static int64_t list[MOST], before[MOST];

/* Small numbers everywhere, with a value at a place. */
static void filled(size_t place, int64_t value) {
  for (size_t k = 0; k < MOST; k++) list[k] = (int64_t)(k * 37 % 101) - 50;
  list[place] = value;
  copy(before, list, sizeof list);
}

static void zeros(void) {
  for (size_t k = 0; k < MOST; k++) list[k] = 0;
}

typedef uint32_t driver(int64_t *, size_t, uint32_t, uint8_t, bool);

static void driver_refused(driver *call, size_t len, uint32_t n, uint8_t type, bool lossless, size_t place, int64_t value, uint32_t want, const char *what) {
  filled(place, value);
  equal(call(list, len, n, type, lossless), want, what);
  check(same(list, before, sizeof list), what, -1, (long long)n);
}

/* The 2D drivers: 2, 3, 4, 6 and 9, the lowest first. */
static void drivers_refuse(driver *call) {
  const int64_t beyond = BRACETWILL_COEF_LIMIT + 1;
  const uint32_t sizes[] = {0, 1, 6, 7, UINT32_MAX};
  for (size_t k = 0; k < 5; k++) driver_refused(call, 1024, sizes[k], 9, true, 0, beyond, BRACETWILL_ANSWER_SIZE, "driver: n");
  for (uint32_t n = 3; n <= 5; n++) driver_refused(call, 0, n, 9, true, 0, beyond, BRACETWILL_ANSWER_LOSSLESS_SIZE, "driver: lossless");
  for (uint32_t n = 2; n <= 5; n++) {
    const size_t count = (size_t)1 << (2 * n);
    driver_refused(call, 0, n, 4, false, 0, beyond, BRACETWILL_ANSWER_TX_TYPE, "driver: type 4");
    driver_refused(call, 0, n, 255, false, 0, beyond, BRACETWILL_ANSWER_TX_TYPE, "driver: type 255");
    driver_refused(call, count - 1, n, 0, false, 0, beyond, BRACETWILL_ANSWER_LENGTH, "driver: one short");
    driver_refused(call, count, n, 0, false, count - 1, beyond, BRACETWILL_ANSWER_COEFFICIENT, "driver: last beyond");
    driver_refused(call, count, n, 0, false, 0, -beyond, BRACETWILL_ANSWER_COEFFICIENT, "driver: first beyond");
    driver_refused(call, MOST, n, 0, false, 1, INT64_MIN, BRACETWILL_ANSWER_COEFFICIENT, "driver: the least number");
  }
  for (uint8_t type = 1; type <= 3; type++) driver_refused(call, 1024, 5, type, false, 0, 0, BRACETWILL_ANSWER_TX_TYPE, "driver: ADST at 32 by 32");
  equal(call(NULL, 0, 2, 0, false), BRACETWILL_ANSWER_LENGTH, "driver: no list");
}

/* The 32-bit engine: one number at the ends of 16 bits and one past them; the block that turned a decoder over. */
static void engine32(void) {
  static int64_t other[MOST];
  const int64_t ends[][2] = {{32767, BRACETWILL_ANSWER_DONE}, {-32768, BRACETWILL_ANSWER_DONE}, {32768, BRACETWILL_ANSWER_NARROW}, {-32769, BRACETWILL_ANSWER_NARROW}};
  for (uint32_t n = 2; n <= 5; n++)
    for (size_t e = 0; e < 4; e++) {
      zeros();
      list[0] = ends[e][0];
      copy(other, list, sizeof list);
      equal(bracetwill_inverse_transform_2d_32(list, MOST, n, 0, false), (uint32_t)ends[e][1], "engine32: the ends of 16 bits");
      if (ends[e][1] == 0) equal(bracetwill_inverse_transform_2d(other, MOST, n, 0, false), BRACETWILL_ANSWER_DONE, "engine32: the driver");
      check(same(list, other, sizeof list), "engine32: the block", (long long)n, (long long)e);
    }
  const int64_t tokens[] = {1, 1, 2, 2, 2, 2, 2, 2, 2, 3, 3, 4, 4, 6, 11, 32};
  zeros();
  for (size_t k = 0; k < 16; k++) list[2 * k + 1] = tokens[k] * 1828 / 2;
  copy(other, list, sizeof list);
  equal(bracetwill_inverse_transform_2d_32(list, 1024, 5, 0, false), BRACETWILL_ANSWER_NARROW, "engine32: a wrapped edge");
  check(same(list, other, sizeof list), "engine32: as lent", 0, 0);
}

/* DC-only blocks: 16 gives 1, 14 gives 0, -16 gives 0, 32 gives 1. */
static void drivers_known(driver *call) {
  const int64_t of[][2] = {{16, 1}, {14, 0}, {-16, 0}, {32, 1}};
  for (size_t c = 0; c < 4; c++) {
    filled(0, of[c][0]);
    for (size_t k = 1; k < 16; k++) list[k] = 0;
    equal(call(list, MOST, 2, 0, false), BRACETWILL_ANSWER_DONE, "driver: DC only");
    for (size_t k = 0; k < 16; k++) equal(list[k], of[c][1], "driver: DC only, a residual");
    check(same(list + 16, before + 16, sizeof list - 16 * sizeof *list), "driver: past the block", 0, 0);
  }
  /* lossless, 20: the rows take a quarter, 5, and so (3, 2, 2, 2), of which the columns make 2 and 1 */
  zeros();
  list[0] = 20;
  equal(call(list, 16, 2, 255, true), BRACETWILL_ANSWER_DONE, "driver: lossless");
  for (size_t k = 0; k < 16; k++) equal(list[k], k == 0 ? 2 : 1, "driver: lossless, a residual");
  /* the limit itself is taken */
  zeros();
  list[0] = BRACETWILL_COEF_LIMIT;
  list[1023] = -BRACETWILL_COEF_LIMIT;
  equal(call(list, 1024, 5, 0, false), BRACETWILL_ANSWER_DONE, "driver: the limit");
}

/* The two drivers give one block, for every size and type. */
static void drivers_agree(void) {
  static int64_t other[MOST];
  for (uint32_t n = 2; n <= 5; n++)
    for (uint8_t type = 0; type < (n == 5 ? 1 : 4); type++)
      for (size_t place = 0; place < 16; place++) {
        filled(place, 1000 * (int64_t)place - 7000);
        copy(other, list, sizeof list);
        equal(bracetwill_inverse_transform_2d(list, MOST, n, type, false), BRACETWILL_ANSWER_DONE, "agree: fast");
        equal(bracetwill_inverse_transform_2d_reference(other, MOST, n, type, false), BRACETWILL_ANSWER_DONE, "agree: reference");
        check(same(list, other, sizeof list), "agree: the block", (long long)n, (long long)type);
      }
}

/* The driver that counts its row transforms, as the others are called: under a refusal the room for the number stays. */
static uint32_t row_transforms;

static uint32_t driver_rows(int64_t *block, size_t len, uint32_t n, uint8_t type, bool lossless) {
  row_transforms = 777;
  const uint32_t answer = bracetwill_inverse_transform_2d_rows(block, len, n, type, lossless, &row_transforms);
  check((row_transforms == 777) == (answer != BRACETWILL_ANSWER_DONE), "rows: under a refusal the number stays", row_transforms, answer);
  return answer;
}

/* The numbers in these rows, in a column of each. */
static void rows_of(uint32_t n, uint32_t rows, size_t column, int64_t value) {
  zeros();
  for (size_t i = 0; i < (size_t)1 << n; i++)
    if (rows >> i & 1) list[(i << n) + column] = value;
}

/* Every row alone, none, all, the lower half; of four rows every pattern. */
static uint32_t pattern(uint32_t n, uint32_t k) {
  const uint32_t side = UINT32_C(1) << n, all = UINT32_MAX >> (32 - side);
  if (n == 2) return k;
  return k < side ? UINT32_C(1) << k : k == side ? 0 : k == side + 1 ? all : all >> side / 2;
}

static uint32_t patterns(uint32_t n) { return n == 2 ? 16 : (UINT32_C(1) << n) + 3; }

/* What a summary says of itself is what its bits show one after the other. */
static void summary_says(uint32_t summary) {
  int count = 0, first = -1, last = -1;
  for (int i = 0; i < 32; i++)
    if (summary >> i & 1) {
      count++;
      if (first < 0) first = i;
      last = i;
    }
  equal(bracetwill_row_count(summary), count, "summary: how many rows");
  equal(bracetwill_first_row(summary), first, "summary: the first row");
  equal(bracetwill_last_row(summary), last, "summary: the last row");
}

static void summary_refused(const int64_t *block, size_t len, uint32_t n, uint32_t want, const char *what) {
  uint32_t summary = 0xa5a5a5a5;
  equal(bracetwill_row_summary(block, len, n, &summary), want, what);
  equal(summary, 0xa5a5a5a5, what);
}

/* The rows of a block, and as many row transforms: 0 of a block that place 0 alone can be live in. */
static void summaries(void) {
  for (uint32_t n = 2; n <= 5; n++) {
    const size_t side = (size_t)1 << n, count = side << n;
    for (uint32_t k = 0; k < patterns(n); k++)
      for (size_t column = 0; column < side; column += side - 1) {
        const uint32_t rows = pattern(n, k);
        uint32_t summary = ~rows;
        rows_of(n, rows, column, column == 0 ? 9 : INT64_MIN);
        list[count] = 1;
        equal(bracetwill_row_summary(list, count + column, n, &summary), BRACETWILL_ANSWER_DONE, "summary: done");
        equal(summary, rows, "summary: the bits");
        summary_says(summary);
        for (uint8_t type = 0; type < (n == 5 ? 1 : 4); type++) {
          rows_of(n, rows, column, 9);
          const bool alone = type == 0 && (rows == 0 || (rows == 1 && column == 0));
          equal(driver_rows(list, count, n, type, false), BRACETWILL_ANSWER_DONE, "rows: done");
          equal(row_transforms, alone ? 0 : bracetwill_row_count(rows), "rows: how many");
        }
        if (n != 2) continue;
        rows_of(n, rows, column, 9);
        equal(driver_rows(list, count, n, 255, true), BRACETWILL_ANSWER_DONE, "rows: lossless, done");
        equal(row_transforms, bracetwill_row_count(rows), "rows: lossless, how many");
      }
    summary_refused(list, count - 1, n, BRACETWILL_ANSWER_LENGTH, "summary: one short");
  }
  const uint32_t sizes[] = {0, 1, 6, 7, 32, UINT32_MAX};
  for (size_t k = 0; k < 6; k++) summary_refused(list, 0, sizes[k], BRACETWILL_ANSWER_SIZE, "summary: n");
  summary_refused(NULL, 0, 2, BRACETWILL_ANSWER_LENGTH, "summary: no list");
  for (int i = 0; i < 32; i++) {
    summary_says(UINT32_C(1) << i);
    summary_says(UINT32_MAX >> i);
    summary_says(UINT32_MAX << i);
    summary_says(~(UINT32_C(1) << i));
  }
  summary_says(0);
}

/* What a replacement is handed beside the block. */
struct replacement {
  size_t block_len;
  uint32_t tx_sz;
  size_t place;
  int64_t token;
  int32_t dc_quant, ac_quant;
  uint32_t bit_depth;
};

static uint32_t replace(struct replacement c, uint32_t *summary) {
  return bracetwill_replace_token(list, c.block_len, summary, c.tx_sz, c.place, c.token, c.dc_quant, c.ac_quant, c.bit_depth);
}

/* The coefficient in its place, that row's bit anew, and nothing else. */
static void replaced(struct replacement c, uint32_t summary, int64_t coefficient, uint32_t want, const char *what) {
  copy(before, list, sizeof list);
  before[c.place] = coefficient;
  equal(replace(c, &summary), BRACETWILL_ANSWER_DONE, what);
  check(same(list, before, sizeof list), what, -1, (long long)c.place);
  check(summary == want, what, summary, want);
}

static void replace_refused(struct replacement c, uint32_t want, const char *what) {
  uint32_t summary = 0x5a5a5a5a;
  filled(0, INT64_MAX);
  equal(replace(c, &summary), want, what);
  check(same(list, before, sizeof list), what, -1, 0);
  equal(summary, 0x5a5a5a5a, what);
}

static void replacements(void) {
  for (uint32_t size = 0; size <= 3; size++) {
    const uint32_t n = size + 2;
    const size_t side = (size_t)1 << n, count = side << n;
    const size_t places[] = {0, side - 1, count - side, count - 1};
    for (size_t k = 0; k < 4; k++) {
      const uint32_t bit = UINT32_C(1) << places[k] / side;
      struct replacement c = {count, size, places[k], 6, 5, 7, 8};
      const int64_t coefficient = 6 * (places[k] == 0 ? 5 : 7) / (size == 3 ? 2 : 1);
      zeros();
      replaced(c, 0, coefficient, bit, "replace: a row that was empty");
      /* a summary that is not the block's own: every other bit stays, whatever it was */
      replaced(c, UINT32_MAX, coefficient, UINT32_MAX, "replace: the row's bit stays set");
      replaced(c, ~bit, coefficient, UINT32_MAX, "replace: the row's bit alone is set");
      c.token = 0;
      replaced(c, UINT32_MAX, 0, ~bit, "replace: a row that becomes empty");
      replaced(c, bit, 0, 0, "replace: zero for zero");
      list[places[k] ^ 1] = -1;
      replaced(c, 0, 0, bit, "replace: a row that holds another number");
      /* a token that is not 0 with a coefficient that is */
      zeros();
      c.token = -1;
      c.dc_quant = c.ac_quant = 1;
      replaced(c, bit, size == 3 ? 0 : -1, size == 3 ? 0 : bit, "replace: the summary is of coefficients");
      uint32_t afresh = 0;
      equal(bracetwill_row_summary(list, count, n, &afresh), BRACETWILL_ANSWER_DONE, "replace: afresh");
      equal(afresh, size == 3 ? 0 : bit, "replace: the summary worked out afresh");
    }
  }
}

/* Each number alone, and each before the next in the order 1, 2, 5, 6, 16, 8, 9. */
static void replace_refuses(void) {
  struct replacement c = {16, 0, 15, 65539, 1, 32767, 12};
  replace_refused(c, BRACETWILL_ANSWER_COEFFICIENT, "replace: AC beyond");
  c.token = -262211;
  replace_refused(c, BRACETWILL_ANSWER_TOKEN, "replace: token before coefficient");
  c.token = INT64_MIN;
  replace_refused(c, BRACETWILL_ANSWER_TOKEN, "replace: the least number");
  c.place = 16;
  replace_refused(c, BRACETWILL_ANSWER_PLACE, "replace: place before token");
  c.place = SIZE_MAX;
  replace_refused(c, BRACETWILL_ANSWER_PLACE, "replace: the greatest place");
  c.block_len = 15;
  replace_refused(c, BRACETWILL_ANSWER_LENGTH, "replace: one short, before place");
  c.block_len = 17;
  replace_refused(c, BRACETWILL_ANSWER_LENGTH, "replace: one more");
  c.ac_quant = 0;
  replace_refused(c, BRACETWILL_ANSWER_QUANTIZER, "replace: AC 0 before length");
  c.tx_sz = 4;
  replace_refused(c, BRACETWILL_ANSWER_SIZE, "replace: size before quantizer");
  c.bit_depth = 9;
  replace_refused(c, BRACETWILL_ANSWER_DEPTH, "replace: depth before size");
  const struct replacement good = {16, 0, 0, 131072, 16384, 1, 12};
  c = good;
  c.token = 131073;
  replace_refused(c, BRACETWILL_ANSWER_COEFFICIENT, "replace: DC beyond, alone");
  c = good;
  c.token = 262211;
  replace_refused(c, BRACETWILL_ANSWER_TOKEN, "replace: token alone");
  c = good;
  c.place = 16;
  replace_refused(c, BRACETWILL_ANSWER_PLACE, "replace: place alone");
  c = good;
  c.block_len = 64;
  replace_refused(c, BRACETWILL_ANSWER_LENGTH, "replace: length alone");
  c = good;
  c.ac_quant = 32768;
  replace_refused(c, BRACETWILL_ANSWER_QUANTIZER, "replace: a quantizer that is not this place's");
  c = good;
  c.tx_sz = UINT32_MAX;
  replace_refused(c, BRACETWILL_ANSWER_SIZE, "replace: size alone");
  c = good;
  c.bit_depth = 0;
  replace_refused(c, BRACETWILL_ANSWER_DEPTH, "replace: depth alone");
  /* the limit is taken, the other quantizer is not asked, and what else the block holds is not either */
  filled(1, INT64_MAX);
  c = good;
  c.ac_quant = 32767;
  replaced(c, 0, BRACETWILL_COEF_LIMIT, 1, "replace: the limit");
}

/* What reconstruction is handed. */
struct call {
  size_t samples_len, width, height, stride, x, y;
  uint32_t tx_sz;
  size_t tokens_len;
  int32_t dc_quant, ac_quant;
  uint8_t tx_type;
  bool lossless;
  uint32_t bit_depth;
};

enum { SAMPLES = 65536 + 64 };
static uint16_t samples[SAMPLES], samples_before[SAMPLES];

static uint32_t reconstruct(struct call c) {
  return bracetwill_reconstruct_block(samples, c.samples_len, c.width, c.height, c.stride, c.x, c.y, c.tx_sz, list, c.tokens_len, c.dc_quant,
                                      c.ac_quant, c.tx_type, c.lossless, c.bit_depth);
}

static void plane_of(uint16_t value) {
  for (size_t k = 0; k < SAMPLES; k++) samples[k] = value;
  copy(samples_before, samples, sizeof samples);
}

static void reconstruct_refused(struct call c, size_t place, int64_t token, uint32_t want, const char *what) {
  plane_of(4000);
  filled(place, token);
  equal(reconstruct(c), want, what);
  check(same(samples, samples_before, sizeof samples), what, -1, 0);
  check(same(list, before, sizeof list), what, -2, 0);
}

/* 1 to 9, the lowest first: each call is made worse in the place of a lower number than those of the calls before it. */
static void reconstruct_refuses(void) {
  const struct call good = {48, 8, 6, 8, 1, 1, 0, 16, 4, 4, 0, false, 8};
  struct call c = good;
  c.ac_quant = 32767;
  c.bit_depth = 12;
  reconstruct_refused(c, 15, 65539, BRACETWILL_ANSWER_COEFFICIENT, "reconstruction: coefficient");
  reconstruct_refused(c, 15, 262211, BRACETWILL_ANSWER_TOKEN, "reconstruction: token at 12");
  c.bit_depth = 8;
  reconstruct_refused(c, 15, 16451, BRACETWILL_ANSWER_TOKEN, "reconstruction: token");
  reconstruct_refused(c, 15, INT64_MIN, BRACETWILL_ANSWER_TOKEN, "reconstruction: the least token");
  c.samples_len = 47;
  reconstruct_refused(c, 15, 16451, BRACETWILL_ANSWER_PLANE, "reconstruction: one sample short");
  c.samples_len = 49;
  reconstruct_refused(c, 15, 16451, BRACETWILL_ANSWER_PLANE, "reconstruction: one sample more");
  c.tokens_len = 15;
  reconstruct_refused(c, 15, 16451, BRACETWILL_ANSWER_LENGTH, "reconstruction: one token short");
  c.tokens_len = 17;
  reconstruct_refused(c, 15, 16451, BRACETWILL_ANSWER_LENGTH, "reconstruction: one token more");
  c.dc_quant = 0;
  reconstruct_refused(c, 15, 16451, BRACETWILL_ANSWER_QUANTIZER, "reconstruction: DC quantizer 0");
  c.dc_quant = BRACETWILL_QUANT_LIMIT + 1;
  reconstruct_refused(c, 15, 16451, BRACETWILL_ANSWER_QUANTIZER, "reconstruction: DC quantizer 32768");
  c.dc_quant = 4;
  c.ac_quant = INT32_MIN;
  reconstruct_refused(c, 15, 16451, BRACETWILL_ANSWER_QUANTIZER, "reconstruction: AC quantizer");
  c.tx_type = 4;
  reconstruct_refused(c, 15, 16451, BRACETWILL_ANSWER_TX_TYPE, "reconstruction: type");
  c.tx_sz = 3;
  c.tx_type = 1;
  reconstruct_refused(c, 15, 16451, BRACETWILL_ANSWER_TX_TYPE, "reconstruction: ADST at 32 by 32");
  c.lossless = true;
  reconstruct_refused(c, 15, 16451, BRACETWILL_ANSWER_LOSSLESS_SIZE, "reconstruction: lossless");
  c.tx_sz = 4;
  reconstruct_refused(c, 15, 16451, BRACETWILL_ANSWER_SIZE, "reconstruction: size");
  c.bit_depth = 9;
  reconstruct_refused(c, 15, 16451, BRACETWILL_ANSWER_DEPTH, "reconstruction: depth");
  c = good;
  c.width = c.stride = BRACETWILL_SIDE_LIMIT + 1;
  c.height = 1;
  c.samples_len = BRACETWILL_SIDE_LIMIT + 1;
  reconstruct_refused(c, 0, 0, BRACETWILL_ANSWER_PLANE, "reconstruction: width above its limit");
  c.width = c.stride = 1;
  c.height = BRACETWILL_SIDE_LIMIT + 1;
  reconstruct_refused(c, 0, 0, BRACETWILL_ANSWER_PLANE, "reconstruction: height above its limit");
  c.width = c.height = c.stride = SIZE_MAX / 2 + 1;
  c.samples_len = 0;
  reconstruct_refused(c, 0, 0, BRACETWILL_ANSWER_PLANE, "reconstruction: stride times height wraps to 0");
  c = good;
  c.stride = 7;
  c.samples_len = 42;
  reconstruct_refused(c, 0, 0, BRACETWILL_ANSWER_PLANE, "reconstruction: stride below the width");
  c.stride = 9;
  c.samples_len = 48;
  reconstruct_refused(c, 0, 0, BRACETWILL_ANSWER_PLANE, "reconstruction: width times height samples, and padded lines");
  c.stride = BRACETWILL_SIDE_LIMIT + 1;
  c.height = 1;
  c.samples_len = BRACETWILL_SIDE_LIMIT + 1;
  reconstruct_refused(c, 0, 0, BRACETWILL_ANSWER_PLANE, "reconstruction: stride above its limit");
  equal(bracetwill_reconstruct_block(NULL, 0, 0, 0, 0, 0, 0, 0, NULL, 0, 4, 4, 0, false, 8), BRACETWILL_ANSWER_LENGTH, "reconstruction: no lists");
}

/* What stands at each limit is taken. */
static void reconstruct_takes(void) {
  struct call c = {36, 6, 6, 6, 0, 0, 0, 16, 1, 8159, 0, false, 8};
  plane_of(100);
  zeros();
  list[15] = 16450;
  equal(reconstruct(c), BRACETWILL_ANSWER_DONE, "reconstruction: 134215550");
  c.ac_quant = 8160;
  equal(reconstruct(c), BRACETWILL_ANSWER_DONE, "reconstruction: 8160");
  c.bit_depth = 12;
  c.ac_quant = 32767;
  list[15] = 65536;
  equal(reconstruct(c), BRACETWILL_ANSWER_DONE, "reconstruction: 65536 at 32767");
  list[15] = 65539;
  equal(reconstruct(c), BRACETWILL_ANSWER_COEFFICIENT, "reconstruction: 65539 at 32767");
  c.ac_quant = 16384;
  list[15] = -131072;
  equal(reconstruct(c), BRACETWILL_ANSWER_DONE, "reconstruction: the limit");
  list[15] = -131073;
  equal(reconstruct(c), BRACETWILL_ANSWER_COEFFICIENT, "reconstruction: past the limit");
  c.tx_sz = 3;
  c.tokens_len = 1024;
  c.bit_depth = 8;
  list[15] = 16450;
  c.ac_quant = 16318;
  equal(reconstruct(c), BRACETWILL_ANSWER_DONE, "reconstruction: 16318 at 32 by 32");
  c.ac_quant = 16319;
  equal(reconstruct(c), BRACETWILL_ANSWER_DONE, "reconstruction: 16319 at 32 by 32");
  c.bit_depth = 12;
  c.ac_quant = 16384;
  list[15] = 262144;
  equal(reconstruct(c), BRACETWILL_ANSWER_DONE, "reconstruction: the limit at 32 by 32");
  list[15] = 262145;
  equal(reconstruct(c), BRACETWILL_ANSWER_COEFFICIENT, "reconstruction: past the limit at 32 by 32");
  const struct call widest = {65535, 65535, 1, 65535, 65533, 0, 0, 16, 4, 4, 0, true, 8};
  plane_of(100);
  zeros();
  list[0] = 5;
  equal(reconstruct(widest), BRACETWILL_ANSWER_DONE, "reconstruction: the widest plane");
  samples_before[65533] = 102;
  samples_before[65534] = 101;
  check(same(samples, samples_before, sizeof samples), "reconstruction: the widest plane's end", 0, 0);
  /* a plane of 3 by 2 in lines of 5, cut at its right edge: the padding stays */
  const struct call padded = {10, 3, 2, 5, 2, 0, 0, 16, 4, 4, 0, true, 8};
  plane_of(100);
  equal(reconstruct(padded), BRACETWILL_ANSWER_DONE, "reconstruction: padded lines");
  samples_before[2] = 102;
  samples_before[7] = 101;
  check(same(samples, samples_before, sizeof samples), "reconstruction: padded lines, every sample", 0, 0);
  const struct call longest = {65535, 1, 1, 65535, 0, 0, 0, 16, 4, 4, 0, true, 8};
  equal(reconstruct(longest), BRACETWILL_ANSWER_DONE, "reconstruction: the longest line");
  const struct call padding = {10, 0, 2, 5, 0, 0, 0, 16, 4, 4, 0, true, 8};
  plane_of(100);
  equal(reconstruct(padding), BRACETWILL_ANSWER_DONE, "reconstruction: lines of padding alone");
  check(same(samples, samples_before, sizeof samples), "reconstruction: lines of padding alone, every sample", 0, 0);
  const struct call flat = {0, 5, 0, 65535, 0, 0, 0, 16, 4, 4, 0, true, 8};
  equal(reconstruct(flat), BRACETWILL_ANSWER_DONE, "reconstruction: no line");
  const struct call none = {0, 0, 65535, 0, 0, 0, 0, 16, 4, 4, 0, true, 8};
  equal(reconstruct(none), BRACETWILL_ANSWER_DONE, "reconstruction: no sample");
  equal(bracetwill_reconstruct_block(NULL, 0, 0, 0, 0, 7, 7, 0, list, 16, 4, 4, 0, true, 8), BRACETWILL_ANSWER_DONE, "reconstruction: no plane");
}

/* A plane of 6 by 5: at (4, 3) two rows and two columns are written, at x = 6 none. */
static void reconstruct_cut(void) {
  struct call c = {30, 6, 5, 6, 4, 3, 0, 16, 4, 4, 9, true, 8};
  plane_of(100);
  zeros();
  list[0] = 5;
  equal(reconstruct(c), BRACETWILL_ANSWER_DONE, "cut: done");
  samples_before[3 * 6 + 4] = 102;
  samples_before[3 * 6 + 5] = samples_before[4 * 6 + 4] = samples_before[4 * 6 + 5] = 101;
  check(same(samples, samples_before, sizeof samples), "cut: the plane", 0, 0);
  c.x = 6;
  equal(reconstruct(c), BRACETWILL_ANSWER_DONE, "cut: at the right edge");
  c.x = SIZE_MAX;
  c.y = SIZE_MAX;
  equal(reconstruct(c), BRACETWILL_ANSWER_DONE, "cut: far out");
  check(same(samples, samples_before, sizeof samples), "cut: the plane stays", 0, 0);
}

/* Samples are clipped to the depth, above its range too, where the residual is zero. */
static void reconstruct_clips(void) {
  const uint32_t depths[] = {8, 10, 12};
  const uint16_t tops[] = {255, 1023, 4095};
  for (size_t d = 0; d < 3; d++) {
    struct call c = {16, 4, 4, 4, 0, 0, 0, 16, 4, 4, 0, false, depths[d]};
    plane_of(65535);
    zeros();
    equal(reconstruct(c), BRACETWILL_ANSWER_DONE, "clip: zero residual");
    for (size_t k = 0; k < 16; k++) equal(samples[k], tops[d], "clip: a sample");
    equal(samples[16], 65535, "clip: past the plane");
    list[0] = -16450;
    c.dc_quant = 100;
    equal(reconstruct(c), BRACETWILL_ANSWER_DONE, "clip: below zero");
    for (size_t k = 0; k < 16; k++) equal(samples[k], 0, "clip: a sample of 0");
  }
}

/* A report between margins that no call may reach. */
struct report {
  uint32_t front, counts[BRACETWILL_ENTRIES], back;
  uint64_t first, sums[BRACETWILL_ENTRIES], last;
};
static struct report report, report_before;

static uint32_t reported(struct call c) {
  copy(&report_before, &report, sizeof report);
  return bracetwill_reconstruct_block_report(samples, c.samples_len, c.width, c.height, c.stride, c.x, c.y, c.tx_sz, list, c.tokens_len, c.dc_quant,
                                             c.ac_quant, c.tx_type, c.lossless, c.bit_depth, report.counts, report.sums);
}

static void report_of(uint32_t count, uint64_t sum) {
  for (size_t k = 0; k < BRACETWILL_ENTRIES; k++) {
    report.counts[k] = count;
    report.sums[k] = sum;
  }
}

static void report_refused(struct call c, uint32_t want, const char *what) {
  plane_of(100);
  equal(reported(c), want, what);
  check(same(samples, samples_before, sizeof samples), what, -1, 0);
  check(same(&report, &report_before, sizeof report), what, -2, 0);
}

/* Every edge of a class, at every size, counts in its own entry; the block may lie outside the plane. */
static void report_counts(void) {
  const int64_t least[BRACETWILL_CLASSES + 1] = {0, 1, 2, 3, 4, 5, 7, 11, 19, 35, 67, 262211};
  for (uint32_t size = 0; size <= 3; size++)
    for (size_t class = 0; class < BRACETWILL_CLASSES; class++)
      for (int end = 0; end <= 1; end++) {
        const size_t count = (size_t)16 << (2 * size), at = size * BRACETWILL_CLASSES + class, none = size * BRACETWILL_CLASSES;
        const struct call c = {16, 4, 4, 4, end ? 4 : 1, 0, size, count, 1, 1, 0, false, 12};
        const int64_t token = end ? least[class + 1] - 1 : least[class];
        plane_of(100);
        zeros();
        list[count - 1] = -token;
        report_of(3, 3);
        equal(reported(c), BRACETWILL_ANSWER_DONE, "report: done");
        for (size_t k = 0; k < BRACETWILL_ENTRIES; k++) {
          equal(report.counts[k], 3 + (k == at ? 1 : 0) + (k == none ? (long long)count - 1 : 0), "report: a count");
          equal((long long)report.sums[k], 3 + (k == at ? token : 0), "report: a sum");
        }
        equal(report.front + report.back + (long long)(report.first + report.last), 0, "report: margins");
      }
}

/* 15, after every number of reconstruction: the total with the block's tokens, and each sum. */
static void report_refuses(void) {
  const struct call good = {48, 8, 6, 8, 1, 1, 0, 16, 4, 4, 0, false, 8};
  struct call c = good;
  filled(0, 0);
  for (size_t k = 0; k < BRACETWILL_ENTRIES; k++) {
    report_of(0, 0);
    report.counts[k] = UINT32_MAX - 15;
    report_refused(good, BRACETWILL_ANSWER_REPORT, "report: one past the total");
    report.counts[k]--;
    plane_of(100);
    equal(reported(good), BRACETWILL_ANSWER_DONE, "report: the greatest total");
    report_of(7, 7 * UINT64_C(262210));
    report.sums[k]++;
    report_refused(good, BRACETWILL_ANSWER_REPORT, "report: one past a sum");
    report.sums[k] = UINT64_MAX;
    report_refused(good, BRACETWILL_ANSWER_REPORT, "report: the greatest number as a sum");
    report.sums[k] = 7 * UINT64_C(262210);
    equal(reported(good), BRACETWILL_ANSWER_DONE, "report: every sum at its limit");
  }
  report_of(UINT32_MAX, 0);
  report_refused(good, BRACETWILL_ANSWER_REPORT, "report: every count at its greatest");
  c.tokens_len = 15;
  report_refused(c, BRACETWILL_ANSWER_LENGTH, "report: one token short comes first");
  c = good;
  list[15] = 16451;
  report_refused(c, BRACETWILL_ANSWER_TOKEN, "report: a token comes first");
  list[15] = 65539;
  c.bit_depth = 12;
  c.ac_quant = 32767;
  report_refused(c, BRACETWILL_ANSWER_COEFFICIENT, "report: a coefficient comes first");
  c.bit_depth = 9;
  report_refused(c, BRACETWILL_ANSWER_DEPTH, "report: the depth comes first");
}

/* At 32 by 32 the product is halved toward zero: token 801 at 7 is 2803 and -801 is -2803, as the driver shows. */
static void reconstruct_halves(void) {
  for (int sign = -1; sign <= 1; sign += 2) {
    const struct call c = {1024, 32, 32, 32, 0, 0, 3, 1024, 7, 1, 0, false, 8};
    plane_of(100);
    zeros();
    list[0] = 801 * sign;
    equal(reconstruct(c), BRACETWILL_ANSWER_DONE, "halves: reconstruction");
    list[0] = 2803 * sign;
    equal(bracetwill_inverse_transform_2d(list, 1024, 5, 0, false), BRACETWILL_ANSWER_DONE, "halves: driver");
    check(list[0] != 0, "halves: a residual", (long long)list[0], 0);
    for (size_t k = 0; k < 1024; k++) equal(samples[k], 100 + list[k], "halves: a sample");
  }
}

static void forward_wht(void) {
  zeros();
  list[0] = 5;
  list[16] = 77;
  equal(bracetwill_forward_wht_2d(list, 16), BRACETWILL_ANSWER_DONE, "forward WHT");
  for (size_t k = 0; k < 16; k++) equal(list[k], k == 0 ? 2 : 1, "forward WHT: a number");
  equal(list[16], 77, "forward WHT: past the block");
  const size_t lens[] = {0, 15, 17, MOST};
  for (size_t k = 0; k < 4; k++) {
    filled(0, BRACETWILL_WHT_LIMIT + 1);
    equal(bracetwill_forward_wht_2d(list, lens[k]), BRACETWILL_ANSWER_LENGTH, "forward WHT: length");
    check(same(list, before, sizeof list), "forward WHT: length, unchanged", 0, 0);
  }
  const int64_t beyond[] = {BRACETWILL_WHT_LIMIT + 1, -BRACETWILL_WHT_LIMIT - 1, INT64_MAX, INT64_MIN};
  for (size_t k = 0; k < 4; k++) {
    filled(15, beyond[k]);
    equal(bracetwill_forward_wht_2d(list, 16), BRACETWILL_ANSWER_COEFFICIENT, "forward WHT: beyond");
    check(same(list, before, sizeof list), "forward WHT: beyond, unchanged", 0, 0);
  }
  filled(15, BRACETWILL_WHT_LIMIT);
  equal(bracetwill_forward_wht_2d(list, 16), BRACETWILL_ANSWER_DONE, "forward WHT: the limit");
}

/* Flat blocks have one coefficient; every number of the answers, and each limit on both its sides. */
static void forward_dct(void) {
  const int64_t flat[][3] = {{2, 100, 3200}, {2, 4095, 131035}, {3, 100, 6400}, {4, -1, -128}, {5, 100, 12799}};
  for (size_t f = 0; f < 5; f++) {
    const uint32_t n = (uint32_t)flat[f][0];
    const size_t count = (size_t)1 << (2 * n);
    zeros();
    for (size_t k = 0; k < count; k++) list[k] = flat[f][1];
    if (count < MOST) list[count] = 77;
    equal(bracetwill_forward_dct_2d(list, count, n), BRACETWILL_ANSWER_DONE, "forward DCT");
    for (size_t k = 0; k < count; k++) equal(list[k], k == 0 ? flat[f][2] : 0, "forward DCT: a coefficient");
    if (count < MOST) equal(list[count], 77, "forward DCT: past the block");
  }
  const uint32_t sizes[] = {0, 1, 6, 32, UINT32_MAX};
  for (size_t k = 0; k < 5; k++) {
    filled(15, BRACETWILL_RESIDUAL_LIMIT + 1);
    equal(bracetwill_forward_dct_2d(list, 17, sizes[k]), BRACETWILL_ANSWER_SIZE, "forward DCT: size");
    check(same(list, before, sizeof list), "forward DCT: size, unchanged", 0, 0);
  }
  for (uint32_t n = 2; n <= 5; n++) {
    const size_t count = (size_t)1 << (2 * n);
    const size_t lens[] = {0, count - 1, count == MOST ? count - 2 : count + 1};
    for (size_t k = 0; k < 3; k++) {
      filled(0, BRACETWILL_RESIDUAL_LIMIT + 1);
      equal(bracetwill_forward_dct_2d(list, lens[k], n), BRACETWILL_ANSWER_LENGTH, "forward DCT: length");
      check(same(list, before, sizeof list), "forward DCT: length, unchanged", 0, 0);
    }
    const int64_t beyond[] = {BRACETWILL_RESIDUAL_LIMIT + 1, -BRACETWILL_RESIDUAL_LIMIT - 1, INT64_MAX, INT64_MIN};
    for (size_t k = 0; k < 4; k++) {
      filled(count - 1, beyond[k]);
      equal(bracetwill_forward_dct_2d(list, count, n), BRACETWILL_ANSWER_COEFFICIENT, "forward DCT: beyond");
      check(same(list, before, sizeof list), "forward DCT: beyond, unchanged", 0, 0);
    }
    filled(count - 1, -BRACETWILL_RESIDUAL_LIMIT);
    equal(bracetwill_forward_dct_2d(list, count, n), BRACETWILL_ANSWER_DONE, "forward DCT: the limit");
  }
}

static void quantize_refused(size_t len, int32_t dc, int32_t ac, uint32_t size, uint32_t depth, int64_t value, uint32_t want, const char *what) {
  filled(len == 0 ? 0 : len - 1, value);
  equal(bracetwill_quantize_block_tx(list, len, dc, ac, size, depth), want, what);
  check(same(list, before, sizeof list), what, -1, 0);
  /* the short call has no size and no depth to refuse */
  if (size > 3 || (depth != 8 && depth != 10)) return;
  equal(bracetwill_quantize_block(list, len, dc, ac), want, what);
  check(same(list, before, sizeof list), what, -2, 0);
}

static void rule_refused(size_t len, int32_t dc, uint32_t size, uint32_t depth, uint32_t rule, int64_t value, uint32_t want, const char *what) {
  filled(len - 1, value);
  equal(bracetwill_quantize_block_rule(list, len, dc, 1, size, depth, rule), want, what);
  check(same(list, before, sizeof list), what, -1, 0);
}

static void rules(void) {
  const int64_t beyond = BRACETWILL_COEF_LIMIT + 1;
  const int64_t of[][3] = {{2, 0, 1}, {3, 1, 1}, {6, 1, 2}, {7, 2, 2}, {-2, 0, -1}, {-6, -1, -2}};
  for (uint32_t rule = 1; rule <= 2; rule++) {
    for (size_t k = 0; k < 6; k++) list[k] = of[k][0];
    equal(bracetwill_quantize_block_rule(list, 6, 4, 4, 0, 8, rule), BRACETWILL_ANSWER_DONE, "quantizer 4 by a rule");
    for (size_t k = 0; k < 6; k++) equal(list[k], of[k][rule], "quantizer 4 by a rule: a token");
    list[0] = 1;
    list[1] = 2;
    equal(bracetwill_quantize_block_rule(list, 2, 4, 3, 3, 10, rule), BRACETWILL_ANSWER_DONE, "by a rule at 32 by 32");
    equal(list[0], rule == 2, "by a rule at 32 by 32, quantizer 4");
    equal(list[1], 1, "by a rule at 32 by 32, quantizer 3");
    equal(bracetwill_quantize_block_rule(NULL, 0, 1, 1, 3, 8, rule), BRACETWILL_ANSWER_DONE, "by a rule: no list");
    rule_refused(16, 1, 0, 8, rule, beyond, BRACETWILL_ANSWER_COEFFICIENT, "by a rule: beyond");
    rule_refused(BRACETWILL_LIST_LIMIT + 1, 1, 0, 8, rule, beyond, BRACETWILL_ANSWER_LENGTH, "by a rule: length");
    rule_refused(BRACETWILL_LIST_LIMIT + 1, 0, 0, 8, rule, beyond, BRACETWILL_ANSWER_QUANTIZER, "by a rule: DC 0");
    rule_refused(BRACETWILL_LIST_LIMIT + 1, 0, 4, 8, rule, beyond, BRACETWILL_ANSWER_SIZE, "by a rule: size");
    rule_refused(BRACETWILL_LIST_LIMIT + 1, 0, 4, 9, rule, beyond, BRACETWILL_ANSWER_DEPTH, "by a rule: depth");
    rule_refused(BRACETWILL_LIST_LIMIT + 1, 0, 4, 12, rule, beyond, BRACETWILL_ANSWER_RETIRED, "by a rule: depth 12");
  }
  const uint32_t no_rules[] = {0, 3, 257, UINT32_MAX};
  for (size_t k = 0; k < 4; k++) {
    rule_refused(16, 1, 0, 8, no_rules[k], 0, BRACETWILL_ANSWER_RULE, "no rule");
    rule_refused(BRACETWILL_LIST_LIMIT + 1, 0, 4, 9, no_rules[k], beyond, BRACETWILL_ANSWER_RULE, "no rule: before all others");
    rule_refused(16, 1, 0, 12, no_rules[k], 0, BRACETWILL_ANSWER_RULE, "no rule: before depth 12");
  }
}

static void quantizers(void) {
  const int64_t beyond = BRACETWILL_COEF_LIMIT + 1;
  const int64_t of[][2] = {{2, 0}, {3, 1}, {6, 1}, {7, 2}, {-2, 0}, {-3, -1}, {-6, -1}, {-7, -2}};
  for (size_t k = 0; k < 8; k++) list[k] = of[k][0];
  equal(bracetwill_quantize_block(list, 8, 4, 4), BRACETWILL_ANSWER_DONE, "quantizer 4");
  for (size_t k = 0; k < 8; k++) equal(list[k], of[k][1], "quantizer 4: a token");
  list[0] = list[1] = 2;
  equal(bracetwill_quantize_block_tx(list, 2, 3, 5, 3, 8), BRACETWILL_ANSWER_DONE, "quantizer 3 at 32 by 32");
  equal(list[0], 1, "quantizer 3 at 32 by 32: token 0 is of the DC quantizer");
  equal(list[1], 1, "quantizer 5 at 32 by 32");
  list[0] = list[1] = 9;
  equal(bracetwill_quantize_block_tx(list, 2, 3, 5, 0, 10), BRACETWILL_ANSWER_DONE, "DC and AC");
  equal(list[0], 3, "DC: a token");
  equal(list[1], 2, "AC: a token");
  const uint32_t depths[] = {8, 10};
  for (size_t d = 0; d < 2; d++) {
    list[0] = BRACETWILL_COEF_LIMIT;
    list[1] = -BRACETWILL_COEF_LIMIT;
    equal(bracetwill_quantize_block_tx(list, 2, 1, 1, 0, depths[d]), BRACETWILL_ANSWER_DONE, "quantizer: the limit");
    equal(list[0], bracetwill_max_codeable_coef(depths[d]), "quantizer: the cap");
    equal(list[1], -bracetwill_max_codeable_coef(depths[d]), "quantizer: the cap below zero");
  }
  equal(bracetwill_quantize_block(NULL, 0, 1, 1), BRACETWILL_ANSWER_DONE, "quantizer: no list");
  equal(bracetwill_quantize_block_tx(NULL, 0, 1, 1, 3, 10), BRACETWILL_ANSWER_DONE, "quantizer: no list, any size");
  quantize_refused(16, 1, 1, 0, 8, beyond, BRACETWILL_ANSWER_COEFFICIENT, "quantizer: beyond");
  quantize_refused(BRACETWILL_LIST_LIMIT, 1, 1, 3, 10, -beyond, BRACETWILL_ANSWER_COEFFICIENT, "quantizer: last beyond");
  quantize_refused(BRACETWILL_LIST_LIMIT, 1, 1, 3, 10, INT64_MIN, BRACETWILL_ANSWER_COEFFICIENT, "quantizer: the least number");
  quantize_refused(BRACETWILL_LIST_LIMIT + 1, 1, 1, 0, 8, beyond, BRACETWILL_ANSWER_LENGTH, "quantizer: length");
  quantize_refused(BRACETWILL_LIST_LIMIT + 1, 0, 1, 0, 8, beyond, BRACETWILL_ANSWER_QUANTIZER, "quantizer: DC 0");
  quantize_refused(BRACETWILL_LIST_LIMIT + 1, 1, 32768, 0, 8, beyond, BRACETWILL_ANSWER_QUANTIZER, "quantizer: AC 32768");
  quantize_refused(0, INT32_MIN, INT32_MAX, 0, 8, 0, BRACETWILL_ANSWER_QUANTIZER, "quantizer: of no list");
  quantize_refused(BRACETWILL_LIST_LIMIT + 1, 0, 0, 4, 8, beyond, BRACETWILL_ANSWER_SIZE, "quantizer: size");
  quantize_refused(BRACETWILL_LIST_LIMIT + 1, 0, 0, 4, 9, beyond, BRACETWILL_ANSWER_DEPTH, "quantizer: depth");
  quantize_refused(BRACETWILL_LIST_LIMIT + 1, 0, 0, 4, 11, beyond, BRACETWILL_ANSWER_DEPTH, "quantizer: depth 11");
  quantize_refused(BRACETWILL_LIST_LIMIT + 1, 0, 0, 4, 12, beyond, BRACETWILL_ANSWER_RETIRED, "quantizer: depth 12 before all but 19");
  quantize_refused(16, 1, 1, 0, 12, 0, BRACETWILL_ANSWER_RETIRED, "quantizer: depth 12 alone");
  equal(bracetwill_max_codeable_coef(8), 16450, "codeable limit at 8");
  equal(bracetwill_max_codeable_coef(10), 65602, "codeable limit at 10");
  equal(bracetwill_max_codeable_coef(12), 262210, "codeable limit at 12");
  const uint32_t no_depths[] = {0, 7, 9, 11, 13, 57, 64, UINT32_MAX};
  for (size_t k = 0; k < 8; k++) equal(bracetwill_max_codeable_coef(no_depths[k]), 0, "codeable limit of no depth");
}

/* A VBK file, built byte by byte. */
static uint8_t file[70000];
static size_t file_len;

static void u8(unsigned v) { file[file_len++] = (uint8_t)v; }
static void u16(unsigned v) {
  u8(v & 255);
  u8(v >> 8);
}

static void header(unsigned depth, unsigned width, unsigned height) {
  file_len = 0;
  u8('V');
  u8('B');
  u8('K');
  u16(1);
  u8(depth);
  u16(width);
  u16(height);
  for (unsigned k = 0; k < width * height; k++) u16(100);
}

/* A record at (0, 0), token `first` and zeros. */
static void record(unsigned size, unsigned type, unsigned lossless, unsigned dc, unsigned ac, int32_t first) {
  u16(0);
  u16(0);
  u8(size);
  u8(type);
  u8(lossless);
  u16(dc);
  u16(ac);
  for (unsigned k = 0; k < 16u << (2 * size); k++) {
    const uint32_t token = k == 0 ? (uint32_t)first : 0;
    u16(token & 65535);
    u16(token >> 16);
  }
}

/* The listing of docs/REFERENCE.md. */
static void listing(void) {
  header(8, 4, 4);
  record(0, 0, 1, 4, 4, 5);
}

static uint8_t answers[BRACETWILL_ANSWERS_ROOM + 8];
static uint64_t figures[BRACETWILL_FIGURES + 3];
static uint8_t text[BRACETWILL_TEXT_ROOM + 8];

static void rooms(void) {
  plane_of(7);
  for (size_t k = 0; k < sizeof answers; k++) answers[k] = 200;
  for (size_t k = 0; k < BRACETWILL_FIGURES + 3; k++) figures[k] = 1000 + k;
  for (size_t k = 0; k < sizeof text; k++) text[k] = '#';
}

/* Samples, answers and figures past the first of each are as `rooms` left them. */
static bool kept(size_t of_samples, size_t of_answers, size_t of_figures, size_t of_text) {
  for (size_t k = of_samples; k < SAMPLES; k++)
    if (samples[k] != 7) return false;
  for (size_t k = of_answers; k < sizeof answers; k++)
    if (answers[k] != 200) return false;
  for (size_t k = of_figures; k < BRACETWILL_FIGURES + 3; k++)
    if (figures[k] != 1000 + k) return false;
  for (size_t k = of_text; k < sizeof text; k++)
    if (text[k] != '#') return false;
  return true;
}

static uint32_t replay(void) {
  return bracetwill_replay(file, file_len, samples, BRACETWILL_SAMPLES_ROOM, answers, BRACETWILL_ANSWERS_ROOM, figures, BRACETWILL_FIGURES);
}

static size_t blockrun(void) {
  return bracetwill_blockrun(file, file_len, samples, BRACETWILL_SAMPLES_ROOM, answers, BRACETWILL_ANSWERS_ROOM, text, BRACETWILL_TEXT_ROOM);
}

static size_t length(const char *s) {
  size_t n = 0;
  while (s[n] != 0) n++;
  return n;
}

static void prints(const char *want, size_t of_samples, size_t of_answers, const char *what) {
  rooms();
  equal((long long)blockrun(), (long long)length(want), what);
  check(same(text, want, length(want)), what, -1, 0);
  check(kept(of_samples, of_answers, 0, length(want)), what, -2, 0);
}

/* A file whose header is refused: the run's answer, and the text `E number`. */
static void header_refused(uint32_t want, const char *what) {
  rooms();
  equal(replay(), want, what);
  check(kept(0, 0, 0, 0), what, -1, 0);
  const char one[] = {'E', ' ', (char)('0' + want % 10), '\n', 0};
  const char two[] = {'E', ' ', '1', (char)('0' + want % 10), '\n', 0};
  prints(want < 10 ? one : two, 0, 0, what);
}

static void headers_refused(void) {
  listing();
  file_len = BRACETWILL_FILE_LIMIT + 1;
  header_refused(BRACETWILL_ANSWER_TOO_LARGE, "VBK: 65536 bytes");
  listing();
  file_len = 9;
  header_refused(BRACETWILL_ANSWER_CUT_SHORT, "VBK: 9 bytes");
  file_len = 0;
  header_refused(BRACETWILL_ANSWER_CUT_SHORT, "VBK: no byte");
  for (size_t k = 0; k < 3; k++) {
    listing();
    file[k] ^= 32;
    header_refused(BRACETWILL_ANSWER_MARK, "VBK: mark");
  }
  listing();
  file[4] = 1;
  header_refused(BRACETWILL_ANSWER_VERSION, "VBK: version");
  header(9, 4, 4);
  header_refused(BRACETWILL_ANSWER_DEPTH, "VBK: depth");
  header(8, 0, 4);
  header_refused(BRACETWILL_ANSWER_TOO_LARGE, "VBK: no sample");
  header(8, 4097, 1);
  header_refused(BRACETWILL_ANSWER_TOO_LARGE, "VBK: 4097 samples");
  header(8, 4, 4);
  file_len--;
  header_refused(BRACETWILL_ANSWER_CUT_SHORT, "VBK: samples cut short");
  rooms();
  equal(bracetwill_replay(NULL, 0, samples, BRACETWILL_SAMPLES_ROOM, answers, BRACETWILL_ANSWERS_ROOM, figures, BRACETWILL_FIGURES),
        BRACETWILL_ANSWER_CUT_SHORT, "VBK: no file");
}

static void rooms_refused(void) {
  const size_t full[3] = {BRACETWILL_SAMPLES_ROOM, BRACETWILL_ANSWERS_ROOM, BRACETWILL_FIGURES};
  for (size_t r = 0; r < 3; r++)
    for (size_t less = 0; less < 2; less++) {
      size_t room[3];
      copy(room, full, sizeof room);
      room[r] = less == 0 ? full[r] - 1 : 0;
      listing();
      rooms();
      equal(bracetwill_replay(file, file_len, samples, room[0], answers, room[1], figures, room[2]), BRACETWILL_ANSWER_LENGTH, "room of a run");
      check(kept(0, 0, 0, 0), "room of a run: unchanged", (long long)r, 0);
      const size_t bytes = r < 2 ? BRACETWILL_TEXT_ROOM : less == 0 ? BRACETWILL_TEXT_ROOM - 1 : 0;
      equal((long long)bracetwill_blockrun(file, file_len, samples, room[0], answers, room[1], text, bytes), 0, "room of a text");
      check(kept(0, 0, 0, 0), "room of a text: unchanged", (long long)r, 0);
    }
}

static void listing_runs(void) {
  listing();
  rooms();
  equal(replay(), BRACETWILL_ANSWER_DONE, "listing: done");
  for (size_t k = 0; k < 16; k++) equal(samples[k], k == 0 ? 102 : 101, "listing: a sample");
  equal(answers[0], 0, "listing: the record's answer");
  const uint64_t want[BRACETWILL_FIGURES] = {8, 4, 4, 1, 16};
  for (size_t k = 0; k < BRACETWILL_FIGURES; k++) equal((long long)figures[k], (long long)want[k], "listing: a figure");
  check(kept(16, 1, BRACETWILL_FIGURES, 0), "listing: the rest stays", 0, 0);
  prints("VBK 1 8 4 4\nB 0 0\nS 102 101 101 101\nS 101 101 101 101\nS 101 101 101 101\nS 101 101 101 101\nT 16\n", 16, 1, "listing: the text");
  /* rooms larger than is needed do the same */
  rooms();
  equal(bracetwill_replay(file, file_len, samples, SAMPLES, answers, sizeof answers, figures, BRACETWILL_FIGURES + 3), BRACETWILL_ANSWER_DONE, "large rooms");
  check(kept(16, 1, BRACETWILL_FIGURES, 0), "large rooms: the rest stays", 0, 0);
}

/* Every answer that a record can have; reading goes on after all but the last. */
static void records_answered(void) {
  header(12, 1, 1);
  const uint8_t want[] = {0, 14, 3, 4, 4, 5, 5, 8, 9, 0, 12};
  record(0, 9, 1, 4, 4, 4);
  record(0, 0, 2, 4, 4, 0);
  record(1, 0, 1, 4, 4, 0);
  record(0, 4, 0, 4, 4, 0);
  record(3, 1, 0, 4, 4, 0);
  record(0, 0, 0, 0, 4, 0);
  record(0, 0, 0, 4, 32768, 0);
  record(0, 0, 0, 4, 4, -262211);
  record(0, 0, 0, 32767, 1, 65539);
  record(3, 0, 0, 4, 4, 0);
  record(0, 0, 1, 4, 4, 0);
  file_len--;
  rooms();
  equal(replay(), BRACETWILL_ANSWER_DONE, "records: done");
  equal((long long)figures[BRACETWILL_FIGURE_RECORDS], sizeof want, "records: how many");
  equal((long long)figures[BRACETWILL_FIGURE_TOUCHED], 1 + 1, "records: the touched count");
  for (size_t k = 0; k < sizeof want; k++) equal(answers[k], want[k], "records: an answer");
  check(kept(1, sizeof want, BRACETWILL_FIGURES, 0), "records: the rest stays", 0, 0);
  header(8, 1, 1);
  record(4, 0, 0, 4, 4, 0);
  record(0, 0, 0, 4, 4, 0);
  prints("VBK 1 8 1 1\nB 0 2\nS 100\nT 0\n", 1, 1, "records: a size above 3 ends the reading");
  header(8, 1, 1);
  for (size_t k = 0; k < 10; k++) u8(0);
  prints("VBK 1 8 1 1\nB 0 12\nS 100\nT 0\n", 1, 1, "records: 10 bytes");
}

static void meanings(void) {
  const char *none = bracetwill_answer_meaning(UINT32_MAX);
  for (uint32_t k = 0; k <= BRACETWILL_ANSWER_ROOM; k++)
    for (uint32_t j = 0; j <= BRACETWILL_ANSWER_ROOM + 1; j++) {
      const char *a = bracetwill_answer_meaning(k), *b = bracetwill_answer_meaning(j);
      if (length(a) == length(none) && same(a, none, length(a))) continue; /* numbers may have gaps */
      const bool alike = length(a) == length(b) && same(a, b, length(a));
      check(alike == (k == j), "each number has its own meaning", k, j);
    }
}

/* A clip of two records, 4 by 4 and 8 by 8, between margins in the buffer. */
struct writing {
  uint8_t depth;
  uint16_t width, height;
  size_t samples_len, xs_len, ys_len, sizes_len, tx_types_len, lossless_len, dcs_len, acs_len, counts_len, tokens_len, out_len;
};
static uint16_t clip_samples[70000], clip_xs[20], clip_ys[20], clip_dcs[20], clip_acs[20];
static uint8_t clip_sizes[20], clip_types[20], clip_lossless[20], clip_out[70000], clip_before[70000];
static uint32_t clip_counts[20];
static int32_t clip_tokens[20000];
static size_t clip_length[3];
enum { CLIP_BYTES = 10 + 2 * 6 + 11 * 2 + 4 * 80 };

static struct writing clip(void) {
  const struct writing c = {8, 3, 2, 6, 2, 2, 2, 2, 2, 2, 2, 2, 80, CLIP_BYTES};
  for (size_t k = 0; k < 20; k++) {
    clip_xs[k] = (uint16_t)(258 + k);
    clip_ys[k] = 65535;
    clip_sizes[k] = (uint8_t)(k % 2);
    clip_types[k] = 9;
    clip_lossless[k] = 1;
    clip_dcs[k] = 0;
    clip_acs[k] = 772;
    clip_counts[k] = k % 2 ? 64 : 16;
  }
  for (size_t k = 0; k < 20000; k++) clip_tokens[k] = k % 2 ? -2 : 16909060;
  for (size_t k = 0; k < 70000; k++) clip_samples[k] = (uint16_t)(k + 511);
  for (size_t k = 0; k < sizeof clip_out; k++) clip_out[k] = 170;
  clip_length[0] = clip_length[1] = clip_length[2] = 77;
  return c;
}

static uint32_t clip_written(struct writing c) {
  copy(clip_before, clip_out, sizeof clip_out);
  return bracetwill_vbk_write(c.depth, c.width, c.height, clip_samples, c.samples_len, clip_xs, c.xs_len, clip_ys, c.ys_len, clip_sizes,
                              c.sizes_len, clip_types, c.tx_types_len, clip_lossless, c.lossless_len, clip_dcs, c.dcs_len, clip_acs,
                              c.acs_len, clip_counts, c.counts_len, clip_tokens, c.tokens_len, clip_out + 8, c.out_len, clip_length + 1);
}

static void clip_refused(struct writing c, uint32_t want, const char *what) {
  equal(clip_written(c), want, what);
  check(same(clip_out, clip_before, sizeof clip_out), what, -1, 0);
  equal((long long)(clip_length[0] + clip_length[1] + clip_length[2]), 3 * 77, what);
}

/* Done: every byte, the length, what lies past; and the file runs. */
static void clip_takes(void) {
  struct writing c = clip();
  c.out_len = CLIP_BYTES + 3;
  equal(clip_written(c), BRACETWILL_ANSWER_DONE, "writing: done");
  equal((long long)clip_length[1], CLIP_BYTES, "writing: length");
  equal((long long)(clip_length[0] + clip_length[2]), 2 * 77, "writing: beside the length");
  const uint8_t front[] = {'V', 'B', 'K', 1, 0, 8, 3, 0, 2, 0, 255, 1, 0, 2}, head[] = {2, 1, 255, 255, 0, 9, 1, 0, 0, 4, 3, 4, 3, 2, 1, 254, 255, 255, 255};
  check(same(clip_out + 8, front, sizeof front), "writing: the header", -1, 0);
  check(same(clip_out + 8 + 22, head, sizeof head), "writing: the first record", -1, 0);
  for (size_t k = 0; k < 8; k++) equal(clip_out[k], 170, "writing: before the buffer");
  for (size_t k = 8 + CLIP_BYTES; k < sizeof clip_out; k++) equal(clip_out[k], 170, "writing: past the file");
  c = clip();
  c.out_len = CLIP_BYTES;
  equal(clip_written(c), BRACETWILL_ANSWER_DONE, "writing: a buffer that just holds it");
}

static void clip_refuses(void) {
  struct writing c = clip();
  c.depth = 9;
  clip_refused(c, BRACETWILL_ANSWER_DEPTH, "writing: depth");
  c.depth = 12;
  clip_refused(c, BRACETWILL_ANSWER_RETIRED, "writing: depth 12");
  clip_sizes[1] = 4;
  clip_refused(c, BRACETWILL_ANSWER_RETIRED, "writing: depth 12 before size");
  c.depth = 11;
  clip_refused(c, BRACETWILL_ANSWER_DEPTH, "writing: depth 11");
  c = clip();
  clip_sizes[1] = 4;
  clip_refused(c, BRACETWILL_ANSWER_SIZE, "writing: size");
  c = clip();
  size_t *const lengths[] = {&c.samples_len, &c.xs_len, &c.ys_len, &c.sizes_len, &c.tx_types_len, &c.lossless_len, &c.dcs_len, &c.acs_len, &c.counts_len, &c.tokens_len};
  for (size_t k = 0; k < sizeof lengths / sizeof *lengths; k++)
    for (int more = 0; more <= 1; more++) {
      c = clip();
      *lengths[k] += more ? 1 : (size_t)-1;
      clip_refused(c, BRACETWILL_ANSWER_LENGTH, "writing: one list shorter or longer");
    }
  c = clip();
  clip_counts[0] = 64;
  clip_counts[1] = 16;
  clip_refused(c, BRACETWILL_ANSWER_LENGTH, "writing: counts of other sizes");
  c = clip();
  c.width = 0;
  c.samples_len = 0;
  clip_refused(c, BRACETWILL_ANSWER_TOO_LARGE, "writing: no sample");
  c = clip();
  c.width = 4097;
  c.height = 1;
  c.samples_len = 4097;
  c.out_len = 65000;
  clip_refused(c, BRACETWILL_ANSWER_TOO_LARGE, "writing: samples");
  c = clip();
  for (size_t k = 0; k < 16; k++) {
    clip_sizes[k] = 3;
    clip_counts[k] = 1024;
  }
  c.xs_len = c.ys_len = c.sizes_len = c.tx_types_len = c.lossless_len = c.dcs_len = c.acs_len = c.counts_len = 16;
  c.tokens_len = 16384;
  c.out_len = 69000;
  clip_refused(c, BRACETWILL_ANSWER_TOO_LARGE, "writing: the file");
  c = clip();
  clip_lossless[1] = 2;
  clip_refused(c, BRACETWILL_ANSWER_LOSSLESS_BYTE, "writing: lossless byte");
  c = clip();
  c.out_len = CLIP_BYTES - 1;
  clip_refused(c, BRACETWILL_ANSWER_ROOM, "writing: the buffer");
  c = clip();
  c.out_len = 0;
  clip_lossless[0] = 255;
  clip_refused(c, BRACETWILL_ANSWER_LOSSLESS_BYTE, "writing: lossless byte before the buffer");
}

/* Garbage above an argument narrower than 32 bits: a calling convention may leave there what it likes. So each call that has one is made as if it
 * took 32 bits; volatile, so that the compiler cannot see through it. */
enum { GARBAGE = 0x5A5A5A00 };

typedef uint32_t wide_driver(int64_t *, size_t, uint32_t, uint32_t, uint32_t);
typedef uint32_t wide_rows(int64_t *, size_t, uint32_t, uint32_t, uint32_t, uint32_t *);
typedef uint32_t wide_reconstruct(uint16_t *, size_t, size_t, size_t, size_t, size_t, size_t, uint32_t, const int64_t *, size_t, int32_t,
                                  int32_t, uint32_t, uint32_t, uint32_t);
typedef uint32_t wide_report(uint16_t *, size_t, size_t, size_t, size_t, size_t, size_t, uint32_t, const int64_t *, size_t, int32_t, int32_t,
                             uint32_t, uint32_t, uint32_t, uint32_t *, uint64_t *);
typedef uint32_t wide_write(uint32_t, uint32_t, uint32_t, const uint16_t *, size_t, const uint16_t *, size_t, const uint16_t *, size_t,
                            const uint8_t *, size_t, const uint8_t *, size_t, const uint8_t *, size_t, const uint16_t *, size_t,
                            const uint16_t *, size_t, const uint32_t *, size_t, const int32_t *, size_t, uint8_t *, size_t, size_t *);

static void wide_drivers(driver *narrow) {
  wide_driver *volatile call = (wide_driver *)(void (*)(void))narrow;
  for (uint32_t type = 0; type < 5; type++)
    for (uint32_t lossless = 0; lossless < 2; lossless++) {
      filled(3, 77);
      uint32_t want = narrow(list, 16, 2, (uint8_t)type, lossless != 0);
      copy(before, list, sizeof list);
      for (size_t k = 0; k < MOST; k++) list[k] = (int64_t)(k * 37 % 101) - 50;
      list[3] = 77;
      equal(call(list, 16, 2, GARBAGE | type, GARBAGE | lossless), want, "garbage: driver");
      check(same(list, before, sizeof list), "garbage: driver, the block", (long long)type, (long long)lossless);
    }
}

static void wide_arguments(void) {
  static uint16_t plane[16], want[16];
  static uint32_t rows, counts[BRACETWILL_ENTRIES];
  static uint64_t sums[BRACETWILL_ENTRIES];
  static uint8_t file[128];
  static const uint8_t size = 0, type = 3, lossless = 1;
  static const uint16_t zero = 0, quant = 4;
  static const uint32_t sixteen = 16;
  static const int32_t tokens[16] = {5};
  size_t length = 0;
  wide_drivers(bracetwill_inverse_transform_2d);
  wide_drivers(bracetwill_inverse_transform_2d_reference);
  wide_drivers(bracetwill_inverse_transform_2d_32);
  wide_rows *volatile call_rows = (wide_rows *)(void (*)(void))bracetwill_inverse_transform_2d_rows;
  zeros();
  list[5] = 9;
  equal(call_rows(list, 16, 2, GARBAGE | 1, GARBAGE, &rows), BRACETWILL_ANSWER_DONE, "garbage: rows");
  equal(rows, 1, "garbage: the number of rows");
  wide_reconstruct *volatile call = (wide_reconstruct *)(void (*)(void))bracetwill_reconstruct_block;
  wide_report *volatile call_report = (wide_report *)(void (*)(void))bracetwill_reconstruct_block_report;
  for (uint32_t is_lossless = 0; is_lossless < 2; is_lossless++)
    for (uint32_t tx_type = 0; tx_type < 4; tx_type++) {
      filled(0, 12);
      for (size_t k = 0; k < 16; k++) plane[k] = want[k] = 100;
      equal(bracetwill_reconstruct_block(want, 16, 4, 4, 4, 0, 0, 0, list, 16, 4, 4, (uint8_t)tx_type, is_lossless != 0, 8), 0, "garbage: plain");
      equal(call(plane, 16, 4, 4, 4, 0, 0, 0, list, 16, 4, 4, GARBAGE | tx_type, GARBAGE | is_lossless, 8), 0, "garbage: reconstruction");
      check(same(plane, want, sizeof plane), "garbage: samples", (long long)tx_type, (long long)is_lossless);
      for (size_t k = 0; k < 16; k++) plane[k] = 100;
      equal(call_report(plane, 16, 4, 4, 4, 0, 0, 0, list, 16, 4, 4, GARBAGE | tx_type, GARBAGE | is_lossless, 8, counts, sums), 0, "garbage: report");
      check(same(plane, want, sizeof plane), "garbage: samples beside a report", (long long)tx_type, (long long)is_lossless);
    }
  wide_write *volatile call_write = (wide_write *)(void (*)(void))bracetwill_vbk_write;
  uint16_t one = 7;
  equal(call_write(GARBAGE | 8, 0x5A5A0000 | 1, 0x5A5A0000 | 1, &one, 1, &zero, 1, &zero, 1, &size, 1, &type, 1, &lossless, 1, &quant, 1, &quant, 1,
                   &sixteen, 1, tokens, 16, file, sizeof file, &length),
        BRACETWILL_ANSWER_DONE, "garbage: writer");
  equal((long long)length, 87, "garbage: the file's length");
}

int main(void) {
  drivers_refuse(bracetwill_inverse_transform_2d);
  drivers_refuse(bracetwill_inverse_transform_2d_reference);
  drivers_refuse(driver_rows);
  drivers_refuse(bracetwill_inverse_transform_2d_32);
  engine32();
  drivers_known(bracetwill_inverse_transform_2d);
  drivers_known(bracetwill_inverse_transform_2d_reference);
  drivers_known(driver_rows);
  summaries();
  replacements();
  replace_refuses();
  drivers_agree();
  reconstruct_refuses();
  reconstruct_takes();
  reconstruct_cut();
  reconstruct_clips();
  reconstruct_halves();
  report_counts();
  report_refuses();
  forward_wht();
  forward_dct();
  quantizers();
  rules();
  headers_refused();
  rooms_refused();
  listing_runs();
  records_answered();
  clip_takes();
  clip_refuses();
  meanings();
  wide_arguments();
  printf("%u passed, %u failed\n", passed, failed);
  return failed != 0;
}
