//! The specification's processes, written once more, with the greatest magnitudes that a block meets on the way: bench/blocks.rs asks them
//! whether a number passed 8 + depth bits, which the numbers of a conforming stream do not.

use crate::idct;

#[derive(Clone, Copy, Default)]
pub struct Range {
    /// of T: every number that a step or a pass stores, the coefficients included (of -32768 it is 32767, as 16 bits hold both)
    pub t: i64,
    /// of every number before its rounding, and of S and its sums
    pub s: i64,
}

fn magnitude(v: i64) -> i64 {
    if v < 0 { -v - 1 } else { v }
}

struct Line<'a> {
    t: Vec<i64>,
    s: Vec<i64>,
    r: &'a mut Range,
}

impl Line<'_> {
    fn put(&mut self, a: usize, v: i64) {
        self.r.t = self.r.t.max(magnitude(v));
        self.t[a] = v;
    }
    fn high(&mut self, v: i64) -> i64 {
        self.r.s = self.r.s.max(v.abs() + (1 << 13));
        v
    }
    /// p cos - q sin and p sin + q cos, not yet rounded
    fn turned(&mut self, a: usize, b: usize, angle: i32) -> (i64, i64) {
        let (p, q) = (self.t[a], self.t[b]);
        let x = self.high(p * idct::cos64(angle) - q * idct::sin64(angle));
        let y = self.high(p * idct::sin64(angle) + q * idct::cos64(angle));
        (x, y)
    }
    fn b(&mut self, a: usize, b: usize, angle: i32, flip: bool) {
        let (x, y) = self.turned(a, b, angle);
        let (x, y) = ((x + 8192) >> 14, (y + 8192) >> 14);
        self.put(a, if flip { y } else { x });
        self.put(b, if flip { x } else { y });
    }
    fn h(&mut self, a: usize, b: usize, flip: bool) {
        let (a, b) = if flip { (b, a) } else { (a, b) };
        let (x, y) = (self.t[a], self.t[b]);
        self.put(a, x + y);
        self.put(b, x - y);
    }
    fn sb(&mut self, a: usize, b: usize, angle: i32) {
        let (x, y) = self.turned(a, b, angle);
        (self.s[a], self.s[b]) = (y, x);
    }
    fn sh(&mut self, a: usize, b: usize) {
        let x = self.high(self.s[a] + self.s[b]);
        let y = self.high(self.s[a] - self.s[b]);
        self.put(a, (x + 8192) >> 14);
        self.put(b, (y + 8192) >> 14);
    }
    fn dct(&mut self, n: u32) {
        let (n0, n1, n2, n3) = (1usize << n, 1usize << (n - 1), 1usize << (n - 2), (1usize << n) / 8);
        if n == 2 {
            self.b(0, 1, 16, true);
        } else {
            self.dct(n - 1);
        }
        for i in 0..n2 {
            self.b(n1 + i, n0 - 1 - i, 32 - idct::brev(5, n1 + i) as i32, false);
        }
        for i in 0..n3 {
            for j in 0..2 {
                self.h(n1 + 4 * i + 2 * j, n1 + 1 + 4 * i + 2 * j, j == 1);
            }
        }
        if n == 5 {
            for i in 0..2 {
                for j in 0..2 {
                    self.b(n0 - 2 - n2 * j - 4 * i, n1 + 1 + n2 * j + 4 * i, 28 - 16 * i as i32 + 56 * j as i32, true);
                }
            }
            for i in 0..2 {
                for j in 0..4 {
                    self.h(n1 + n3 * j + i, n1 + n2 - 5 + n3 * j - i, j & 1 == 1);
                }
            }
        }
        if n >= 4 {
            for i in 0..=(n == 5) as usize {
                for j in 0..2 {
                    self.b(n0 - n as usize + 2 - i - n2 * j, n1 + n as usize - 3 + i + n2 * j, 24 + 48 * j as i32, true);
                }
            }
            for i in 0..2 * n as usize - 6 {
                for j in 0..2 {
                    self.h(n1 + n2 * j + i, n1 + n2 - 1 + n2 * j - i, j == 1);
                }
            }
        }
        for i in 0..n3 {
            self.b(n0 - n3 - 1 - i, n1 + n3 + i, 16, true);
        }
        for i in 0..n1 {
            self.h(i, n0 - 1 - i, false);
        }
    }
    fn adst4(&mut self) {
        const SINPI: [i64; 5] = [0, 5283, 9929, 13377, 15212];
        let t = [self.t[0], self.t[1], self.t[2], self.t[3]];
        let x0 = self.high(SINPI[1] * t[0] + SINPI[4] * t[2] + SINPI[2] * t[3]);
        let x1 = self.high(SINPI[2] * t[0] - SINPI[1] * t[2] - SINPI[4] * t[3]);
        let x2 = self.high(SINPI[3] * (t[0] - t[2] + t[3]));
        let x3 = self.high(SINPI[3] * t[1]);
        self.high(x0 + x1);
        for (i, v) in [x0 + x3, x1 + x3, x2, x0 + x1 - x3].into_iter().enumerate() {
            let v = self.high(v);
            self.put(i, (v + 8192) >> 14);
        }
    }
    fn adst8(&mut self) {
        (0..4).for_each(|i| self.sb(2 * i, 1 + 2 * i, 30 - 8 * i as i32));
        (0..4).for_each(|i| self.sh(i, 4 + i));
        (0..2).for_each(|i| self.sb(4 + 3 * i, 5 + i, 24 - 16 * i as i32));
        (0..2).for_each(|i| self.sh(4 + i, 6 + i));
        (0..2).for_each(|i| self.h(i, 2 + i, false));
        (0..2).for_each(|i| self.b(2 + 4 * i, 3 + 4 * i, 16, true));
    }
    fn adst16(&mut self) {
        (0..8).for_each(|i| self.sb(2 * i, 1 + 2 * i, 31 - 4 * i as i32));
        (0..8).for_each(|i| self.sh(i, 8 + i));
        (0..4).for_each(|i| self.sb(8 + 2 * i, 9 + 2 * i, 28 - 16 * i as i32));
        (0..4).for_each(|i| self.sh(8 + i, 12 + i));
        (0..4).for_each(|i| self.h(i, 4 + i, false));
        for (i, j) in [(0, 0), (0, 1), (1, 0), (1, 1)] {
            self.sb(4 + 8 * i + 3 * j, 5 + 8 * i + j, 24 - 16 * j as i32);
        }
        for (j, i) in [(0, 0), (0, 1), (1, 0), (1, 1)] {
            self.sh(4 + 8 * j + i, 6 + 8 * j + i);
        }
        for (j, i) in [(0, 0), (0, 1), (1, 0), (1, 1)] {
            self.h(8 * j + i, 2 + 8 * j + i, false);
        }
        for (i, j) in [(0, 0), (0, 1), (1, 0), (1, 1)] {
            self.b(2 + 4 * j + 8 * i, 3 + 4 * j + 8 * i, 48 + 64 * (i ^ j) as i32, false);
        }
    }
    fn adst(&mut self, n: u32) {
        if n == 2 {
            return self.adst4();
        }
        let n0 = 1usize << n;
        let from = self.t.clone();
        for i in 0..n0 / 2 {
            self.t[2 * i] = from[n0 - 1 - 2 * i];
            self.t[2 * i + 1] = from[2 * i];
        }
        if n == 3 { self.adst8() } else { self.adst16() }
        let from = self.t.clone();
        for place in 0..n0 {
            // bits of the place from the greatest; each of the source's, from the least, is the xor of two neighbours
            let bit = |k: u32| place >> (n - 1 - k) & 1;
            let source: usize = (0..n).map(|k| (bit(k) ^ if k > 0 { bit(k - 1) } else { 0 }) << k).sum();
            self.t[place] = from[source];
        }
        let turned: &[usize] = if n == 3 { &[1, 3, 5, 7] } else { &[1, 3, 13, 15] };
        for &i in turned {
            self.put(i, -self.t[i]);
        }
    }
    fn wht(&mut self, shift: u32) {
        let (mut a, mut c, mut d, mut b) = (self.t[0] >> shift, self.t[1] >> shift, self.t[2] >> shift, self.t[3] >> shift);
        a += c;
        d -= b;
        let e = self.high(a - d) >> 1;
        b = e - b;
        c = e - c;
        for (i, v) in [a - b, b, c, d + c].into_iter().enumerate() {
            self.put(i, v);
        }
    }
    fn pass(&mut self, n: u32, adst: bool, wht: Option<u32>) {
        if let Some(shift) = wht {
            self.wht(shift);
        } else if adst {
            self.adst(n);
        } else {
            self.t = (0..self.t.len()).map(|i| self.t[idct::brev(n, i)]).collect();
            self.dct(n);
        }
    }
}

/// The residual of a block of coefficients, and the greatest magnitudes on the way.
pub fn transformed(coefs: &[i64], n: u32, kind: u8, lossless: bool) -> (Vec<i64>, Range) {
    let n0 = 1usize << n;
    let mut r = Range { t: coefs.iter().map(|&v| magnitude(v)).max().unwrap_or(0), s: 0 };
    let mut block = coefs.to_vec();
    for i in 0..n0 {
        let mut line = Line { t: block[i * n0..][..n0].to_vec(), s: vec![0; n0], r: &mut r };
        line.pass(n, kind >= 2, lossless.then_some(2));
        block[i * n0..][..n0].copy_from_slice(&line.t);
    }
    for j in 0..n0 {
        let mut line = Line { t: (0..n0).map(|i| block[i * n0 + j]).collect(), s: vec![0; n0], r: &mut r };
        line.pass(n, kind % 2 == 1, lossless.then_some(0));
        let bits = 6.min(n + 2);
        for i in 0..n0 {
            block[i * n0 + j] = if lossless { line.t[i] } else { (line.t[i] + (1 << (bits - 1))) >> bits };
        }
    }
    (block, r)
}
