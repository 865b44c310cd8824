//! The condition of the 32-bit engine, from docs/REFERENCE.md alone: its recursive process, number by number, with a test at every load
//! into T and every store there. Nothing of the Rust and nothing of ours is in it.

/// Which line of which pass, and which step of the process, stored the first number outside; step 0 is the load.
#[derive(Clone, Copy, PartialEq, Eq, Debug)]
pub struct Left {
    pub column: bool,
    pub n: u32,
    pub step: &'static str,
}

const TABLE: [i64; 33] = [
    16384, 16364, 16305, 16207, 16069, 15893, 15679, 15426, 15137, 14811, 14449, 14053, 13623, 13160, 12665, 12140, 11585, 11003, 10394, 9760,
    9102, 8423, 7723, 7005, 6270, 5520, 4756, 3981, 3196, 2404, 1606, 804, 0,
];

fn cos64(angle: i64) -> i64 {
    match angle.rem_euclid(128) as usize {
        a @ 0..=32 => TABLE[a],
        a @ 33..=64 => -TABLE[64 - a],
        a @ 65..=96 => -TABLE[a - 64],
        a => TABLE[128 - a],
    }
}

fn sin64(angle: i64) -> i64 {
    cos64(angle - 32)
}

fn round2(x: i64, k: u32) -> i64 {
    (x + (1 << (k - 1))).div_euclid(1 << k)
}

fn brev(bits: u32, x: usize) -> usize {
    (0..bits).filter(|b| x >> b & 1 == 1).map(|b| 1 << (bits - 1 - b)).sum()
}

/// T and S of a line, and the first step that stored a number outside.
struct Line {
    t: [i64; 32],
    s: [i64; 16],
    step: &'static str,
    n: u32,
    left: Option<(u32, &'static str)>,
}

impl Line {
    fn store(&mut self, at: usize, v: i64) {
        if !(-32_768..=32_767).contains(&v) && self.left.is_none() {
            self.left = Some((self.n, self.step));
        }
        self.t[at] = v;
    }

    fn turned(&self, a: usize, b: usize, angle: i64) -> (i64, i64) {
        let (p, q) = (self.t[a], self.t[b]);
        (p * cos64(angle) - q * sin64(angle), p * sin64(angle) + q * cos64(angle))
    }

    fn b(&mut self, a: usize, b: usize, angle: i64, flip: bool) {
        let (x, y) = self.turned(a, b, angle);
        let (x, y) = (round2(x, 14), round2(y, 14));
        self.store(a, if flip { y } else { x });
        self.store(b, if flip { x } else { y });
    }

    fn h(&mut self, a: usize, b: usize, flip: bool) {
        let (a, b) = if flip { (b, a) } else { (a, b) };
        let (p, q) = (self.t[a], self.t[b]);
        self.store(a, p + q);
        self.store(b, p - q);
    }

    fn sb(&mut self, a: usize, b: usize, angle: i64) {
        let (x, y) = self.turned(a, b, angle);
        (self.s[a], self.s[b]) = (y, x); // every SB flips
    }

    fn sh(&mut self, a: usize, b: usize) {
        let (x, y) = (self.s[a], self.s[b]);
        self.store(a, round2(x + y, 14));
        self.store(b, round2(x - y, 14));
    }

    fn permute(&mut self, count: usize, from: impl Fn(usize) -> usize) {
        let copy = self.t;
        for i in 0..count {
            self.store(i, copy[from(i)]);
        }
    }

    fn dct(&mut self, n: u32) {
        self.n = n;
        let n0 = 1usize << n;
        let (n1, n2, n3) = (n0 / 2, n0 / 4, n0 / 8);
        let m = n as usize;
        if n == 2 {
            self.step = "1";
            self.b(0, 1, 16, true);
        } else {
            self.dct(n - 1);
            self.n = n;
        }
        self.step = "2";
        for i in 0..n2 {
            self.b(n1 + i, n0 - 1 - i, 32 - brev(5, n1 + i) as i64, false);
        }
        if n >= 3 {
            self.step = "3";
            for i in 0..n3 {
                for j in 0..2 {
                    self.h(n1 + 4 * i + 2 * j, n1 + 1 + 4 * i + 2 * j, j == 1);
                }
            }
        }
        if n == 5 {
            self.step = "4a";
            for i in 0..2 {
                for j in 0..2 {
                    self.b(n0 - m + 3 - n2 * j - 4 * i, n1 + m - 4 + n2 * j + 4 * i, 28 - 16 * i as i64 + 56 * j as i64, true);
                }
            }
            self.step = "4b";
            for i in 0..2 {
                for j in 0..4 {
                    self.h(n1 + n3 * j + i, n1 + n2 - 5 + n3 * j - i, j % 2 == 1);
                }
            }
        }
        if n >= 4 {
            self.step = "5a";
            for i in 0..m - 3 {
                for j in 0..2 {
                    self.b(n0 - m + 2 - i - n2 * j, n1 + m - 3 + i + n2 * j, 24 + 48 * j as i64, true);
                }
            }
            self.step = "5b";
            for i in 0..2 * m - 6 {
                for j in 0..2 {
                    self.h(n1 + n2 * j + i, n1 + n2 - 1 + n2 * j - i, j == 1);
                }
            }
        }
        if n >= 3 {
            self.step = "6";
            for i in 0..n3 {
                self.b(n0 - n3 - 1 - i, n1 + n3 + i, 16, true);
            }
        }
        self.step = "7";
        for i in 0..n1 {
            self.h(i, n0 - 1 - i, false);
        }
    }

    fn adst4(&mut self) {
        let [a, b, c, d] = [self.t[0], self.t[1], self.t[2], self.t[3]];
        let x0 = 5283 * a + 15212 * c + 9929 * d;
        let x1 = 9929 * a - 5283 * c - 15212 * d;
        let x2 = 13377 * (a - c + d);
        let x3 = 13377 * b;
        self.step = "adst4";
        for (i, x) in [x0 + x3, x1 + x3, x2, x0 + x1 - x3].into_iter().enumerate() {
            self.store(i, round2(x, 14));
        }
    }

    fn adst_in(&mut self, n0: usize) {
        self.step = "in";
        self.permute(n0, |i| if i % 2 == 0 { n0 - 1 - i } else { i - 1 });
    }

    fn negate(&mut self, at: usize) {
        let v = -self.t[at];
        self.store(at, v);
    }

    fn adst8(&mut self) {
        self.adst_in(8);
        for i in 0..4 {
            self.sb(2 * i, 1 + 2 * i, 30 - 8 * i as i64);
        }
        self.step = "3";
        for i in 0..4 {
            self.sh(i, 4 + i);
        }
        for i in 0..2 {
            self.sb(4 + 3 * i, 5 + i, 24 - 16 * i as i64);
        }
        self.step = "5";
        for i in 0..2 {
            self.sh(4 + i, 6 + i);
        }
        self.step = "6";
        for i in 0..2 {
            self.h(i, 2 + i, false);
        }
        self.step = "7";
        for i in 0..2 {
            self.b(2 + 4 * i, 3 + 4 * i, 16, true);
        }
        self.step = "8";
        self.permute(8, |k| {
            let (a, b, c) = (k >> 2, k >> 1 & 1, k & 1);
            4 * (c ^ b) + 2 * (b ^ a) + a
        });
        self.step = "9";
        for i in 0..4 {
            self.negate(1 + 2 * i);
        }
    }

    fn adst16(&mut self) {
        self.adst_in(16);
        for i in 0..8 {
            self.sb(2 * i, 1 + 2 * i, 31 - 4 * i as i64);
        }
        self.step = "3";
        for i in 0..8 {
            self.sh(i, 8 + i);
        }
        for i in 0..4 {
            self.sb(8 + 2 * i, 9 + 2 * i, 28 - 16 * i as i64);
        }
        self.step = "5";
        for i in 0..4 {
            self.sh(8 + i, 12 + i);
        }
        self.step = "6";
        for i in 0..4 {
            self.h(i, 4 + i, false);
        }
        for i in 0..2 {
            for j in 0..2 {
                self.sb(4 + 8 * i + 3 * j, 5 + 8 * i + j, 24 - 16 * j as i64);
            }
        }
        self.step = "8";
        for i in 0..2 {
            for j in 0..2 {
                self.sh(4 + 8 * j + i, 6 + 8 * j + i);
            }
        }
        self.step = "9";
        for i in 0..2 {
            for j in 0..2 {
                self.h(8 * j + i, 2 + 8 * j + i, false);
            }
        }
        self.step = "10";
        for i in 0..2 {
            for j in 0..2 {
                self.b(2 + 4 * j + 8 * i, 3 + 4 * j + 8 * i, 48 + 64 * (i ^ j) as i64, false);
            }
        }
        self.step = "11";
        self.permute(16, |k| {
            let (a, b, c, d) = (k >> 3, k >> 2 & 1, k >> 1 & 1, k & 1);
            8 * (d ^ c) + 4 * (c ^ b) + 2 * (b ^ a) + a
        });
        self.step = "12";
        for i in 0..2 {
            for j in 0..2 {
                self.negate(1 + 12 * j + 2 * i);
            }
        }
    }

    fn wht(&mut self, shift: u32) {
        let at = |i: usize| self.t[i] >> shift;
        let (mut a, mut c, mut d, mut b) = (at(0), at(1), at(2), at(3));
        a += c;
        d -= b;
        let e = (a - d).div_euclid(2);
        b = e - b;
        c = e - c;
        a -= b;
        d += c;
        self.step = "wht";
        for (i, v) in [a, b, c, d].into_iter().enumerate() {
            self.store(i, v);
        }
    }
}

/// A line of n0 numbers through its transform; where it stored a number outside.
fn line(numbers: &[i64], n: u32, column: bool, dct: bool, lossless: bool) -> (Vec<i64>, Option<Left>) {
    let mut l = Line { t: [0; 32], s: [0; 16], step: "load", n, left: None };
    for (i, v) in numbers.iter().enumerate() {
        l.store(i, *v);
    }
    if lossless {
        l.wht(if column { 0 } else { 2 });
    } else if dct {
        l.step = "brev";
        l.permute(1 << n, |i| brev(n, i));
        l.dct(n);
    } else {
        match n {
            2 => l.adst4(),
            3 => l.adst8(),
            _ => l.adst16(),
        }
    }
    let left = l.left.map(|(n, step)| Left { column, n, step });
    (l.t[..numbers.len()].to_vec(), left)
}

/// The first number outside −32,768 to 32,767 in all rows and then all columns of a block that the driver takes, and what the
/// block becomes where there is none.
pub fn process(n: u32, tx_type: u8, lossless: bool, block: &[i64]) -> Result<Vec<i64>, Left> {
    let n0 = 1usize << n;
    let mut work = block[..n0 * n0].to_vec();
    for i in 0..n0 {
        let (row, left) = line(&work[i * n0..(i + 1) * n0], n, false, tx_type < 2, lossless);
        left.map_or(Ok(()), Err)?;
        work[i * n0..(i + 1) * n0].copy_from_slice(&row);
    }
    for j in 0..n0 {
        let column: Vec<i64> = (0..n0).map(|i| work[i * n0 + j]).collect();
        let (column, left) = line(&column, n, true, tx_type % 2 == 0, lossless);
        left.map_or(Ok(()), Err)?;
        for i in 0..n0 {
            work[i * n0 + j] = if lossless { column[i] } else { round2(column[i], (n + 2).min(6)) };
        }
    }
    let mut after = block.to_vec();
    after[..n0 * n0].copy_from_slice(&work);
    Ok(after)
}
