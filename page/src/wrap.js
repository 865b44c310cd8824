// An illustration, and no part of the product: the inverse transform of docs/REFERENCE.md with a width for the numbers of T. With 16 bits
// every number that is loaded or stored wraps, as in a decoder whose intermediates are int16_t.

const round2 = (value, bits) => Math.floor((value + 2 ** (bits - 1)) / 2 ** bits);
const brev = (bits, value) => {
  let turned = 0;
  for (let k = 0; k < bits; k++) turned |= ((value >> k) & 1) << (bits - 1 - k);
  return turned;
};
const quarter = Array.from({ length: 33 }, (_, k) => Math.round(16384 * Math.cos((k * Math.PI) / 64)));
const cos64 = (angle) => {
  const a = ((angle % 128) + 128) % 128;
  if (a <= 32) return quarter[a];
  if (a <= 64) return -quarter[64 - a];
  return a <= 96 ? -quarter[a - 64] : quarter[128 - a];
};
const sin64 = (angle) => cos64(angle - 32);

/** A number of 16 bits that wraps; and one that is not cut. */
export const wrap16 = (value) => (((value + 32768) % 65536) + 65536) % 65536 - 32768;
export const uncut = (value) => value;

/** One line of numbers, and the operations on it. */
class Line {
  constructor(numbers, keep) {
    this.keep = keep;
    this.t = numbers.map(keep);
    this.s = [];
  }

  put(place, value) {
    this.t[place] = this.keep(value);
  }

  turned(a, b, angle) {
    const [p, q] = [this.t[a], this.t[b]];
    return [p * cos64(angle) - q * sin64(angle), p * sin64(angle) + q * cos64(angle)];
  }

  b(a, b, angle, flip) {
    const [x, y] = this.turned(a, b, angle);
    this.put(flip ? b : a, round2(x, 14));
    this.put(flip ? a : b, round2(y, 14));
  }

  h(a, b, flip) {
    if (flip) [a, b] = [b, a];
    const [p, q] = [this.t[a], this.t[b]];
    this.put(a, p + q);
    this.put(b, p - q);
  }

  sb(a, b, angle, flip) {
    const [x, y] = this.turned(a, b, angle);
    this.s[flip ? b : a] = x;
    this.s[flip ? a : b] = y;
  }

  sh(a, b) {
    const [p, q] = [this.s[a], this.s[b]];
    this.put(a, round2(p + q, 14));
    this.put(b, round2(p - q, 14));
  }

  permute(from) {
    this.t = this.t.map((_, k) => this.t[from(k)]);
  }

  negate(place) {
    this.put(place, -this.t[place]);
  }
}

const times = (count, what) => {
  for (let k = 0; k < count; k++) what(k);
};

function dct(line, n) {
  line.permute((k) => brev(n, k));
  dctSteps(line, n);
}

function dctSteps(line, n) {
  const n0 = 1 << n, n1 = n0 >> 1, n2 = n0 >> 2, n3 = n0 >> 3;
  if (n === 2) line.b(0, 1, 16, true);
  else dctSteps(line, n - 1);
  times(n2, (i) => line.b(n1 + i, n0 - 1 - i, 32 - brev(5, n1 + i), false));
  if (n >= 3) times(n3, (i) => times(2, (j) => line.h(n1 + 4 * i + 2 * j, n1 + 1 + 4 * i + 2 * j, j === 1)));
  if (n === 5) {
    times(2, (i) => times(2, (j) => line.b(n0 - n + 3 - n2 * j - 4 * i, n1 + n - 4 + n2 * j + 4 * i, 28 - 16 * i + 56 * j, true)));
    times(2, (i) => times(4, (j) => line.h(n1 + n3 * j + i, n1 + n2 - 5 + n3 * j - i, j % 2 === 1)));
  }
  if (n >= 4) {
    times(n - 3, (i) => times(2, (j) => line.b(n0 - n + 2 - i - n2 * j, n1 + n - 3 + i + n2 * j, 24 + 48 * j, true)));
    times(2 * n - 6, (i) => times(2, (j) => line.h(n1 + n2 * j + i, n1 + n2 - 1 + n2 * j - i, j === 1)));
  }
  if (n >= 3) times(n3, (i) => line.b(n0 - n3 - 1 - i, n1 + n3 + i, 16, true));
  times(n1, (i) => line.h(i, n0 - 1 - i, false));
}

function adst4(line) {
  const [a, b, c, d] = line.t;
  const x0 = 5283 * a + 15212 * c + 9929 * d;
  const x1 = 9929 * a - 5283 * c - 15212 * d;
  const x2 = 13377 * (a - c + d);
  const x3 = 13377 * b;
  [x0 + x3, x1 + x3, x2, x0 + x1 - x3].forEach((x, k) => line.put(k, round2(x, 14)));
}

const adstIn = (line, n0) => line.permute((k) => (k % 2 === 0 ? n0 - 1 - k : k - 1));
const adstOut = (line, n) =>
  line.permute((k) => {
    const bit = (from) => (k >> from) & 1;
    if (n === 3) return 4 * (bit(0) ^ bit(1)) + 2 * (bit(1) ^ bit(2)) + bit(2);
    return 8 * (bit(0) ^ bit(1)) + 4 * (bit(1) ^ bit(2)) + 2 * (bit(2) ^ bit(3)) + bit(3);
  });

function adst8(line) {
  adstIn(line, 8);
  times(4, (i) => line.sb(2 * i, 1 + 2 * i, 30 - 8 * i, true));
  times(4, (i) => line.sh(i, 4 + i));
  times(2, (i) => line.sb(4 + 3 * i, 5 + i, 24 - 16 * i, true));
  times(2, (i) => line.sh(4 + i, 6 + i));
  times(2, (i) => line.h(i, 2 + i, false));
  times(2, (i) => line.b(2 + 4 * i, 3 + 4 * i, 16, true));
  adstOut(line, 3);
  times(4, (i) => line.negate(1 + 2 * i));
}

function adst16(line) {
  adstIn(line, 16);
  times(8, (i) => line.sb(2 * i, 1 + 2 * i, 31 - 4 * i, true));
  times(8, (i) => line.sh(i, 8 + i));
  times(4, (i) => line.sb(8 + 2 * i, 9 + 2 * i, 28 - 16 * i, true));
  times(4, (i) => line.sh(8 + i, 12 + i));
  times(4, (i) => line.h(i, 4 + i, false));
  times(2, (i) => times(2, (j) => line.sb(4 + 8 * i + 3 * j, 5 + 8 * i + j, 24 - 16 * j, true)));
  times(2, (i) => times(2, (j) => line.sh(4 + 8 * j + i, 6 + 8 * j + i)));
  times(2, (i) => times(2, (j) => line.h(8 * j + i, 2 + 8 * j + i, false)));
  times(2, (i) => times(2, (j) => line.b(2 + 4 * j + 8 * i, 3 + 4 * j + 8 * i, 48 + 64 * (i ^ j), false)));
  adstOut(line, 4);
  times(2, (i) => times(2, (j) => line.negate(1 + 12 * j + 2 * i)));
}

function wht(line, shift) {
  let [a, c, d, b] = line.t.map((value) => Math.floor(value / 2 ** shift));
  a += c;
  d -= b;
  const e = Math.floor((a - d) / 2);
  b = e - b;
  c = e - c;
  a -= b;
  d += c;
  [a, b, c, d].forEach((value, k) => line.put(k, value));
}

function adst(line, n) {
  [adst4, adst8, adst16][n - 2](line);
}

/** The residual of a block of coefficients, plain numbers row by row; `keep` is what becomes of every number of T. */
export function inverse(coefficients, n, txType, lossless, keep) {
  const n0 = 1 << n;
  const block = Array.from(coefficients);
  const pass = (places, transform, rounded) => {
    const line = new Line(places.map((place) => block[place]), keep);
    transform(line, n);
    line.t.forEach((value, k) => (block[places[k]] = rounded(value)));
  };
  const across = Array.from({ length: n0 }, (_, k) => k);
  const rows = lossless ? (line) => wht(line, 2) : txType & 2 ? adst : dct;
  const columns = lossless ? (line) => wht(line, 0) : txType & 1 ? adst : dct;
  times(n0, (i) => pass(across.map((j) => i * n0 + j), rows, uncut));
  times(n0, (j) => pass(across.map((i) => i * n0 + j), columns, (value) => (lossless ? value : round2(value, Math.min(6, n + 2)))));
  return block;
}
