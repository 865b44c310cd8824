//! The refusals of docs/REFERENCE.md, written from its table and orders and from nothing else.
//! Each function gives the lowest number that applies, or 0.

pub const COEF_LIMIT: u64 = 2_147_483_648;
pub const FORWARD_LIMIT: u64 = 8_388_608;
pub const RESIDUAL_LIMIT: u64 = 4_095;
pub const QUANT_MAX: i32 = 32_767;
pub const SIDE_MAX: u64 = 65_535;
pub const QUANTIZER_LENGTH: usize = 1_024;
pub const FILE_MAX: usize = 65_535;
pub const FILE_SAMPLES: usize = 4_096;

/// The codeable limit of a depth, 0 for a depth that is none.
pub fn codeable(depth: u32) -> i64 {
    match depth {
        8 => 16_450,
        10 => 65_602,
        12 => 262_210,
        _ => 0,
    }
}

pub fn good_depth(depth: u32) -> bool {
    depth == 8 || depth == 10 || depth == 12
}

/// Read, and no longer written: answer 20 of the writer and the quantizers, in the place of 1.
pub fn retired(depth: u32) -> bool {
    depth == 12
}

fn good_quant(q: i32) -> bool {
    (1..=QUANT_MAX).contains(&q)
}

fn beyond(values: &[i64], limit: u64) -> bool {
    values.iter().any(|v| v.unsigned_abs() > limit)
}

/// Numbers in a block of this size number.
pub fn area(size: u32) -> usize {
    16usize << (2 * size)
}

/// The 2D driver and the reference driver.
pub fn driver(n: u32, tx_type: u8, lossless: bool, block: &[i64]) -> u8 {
    if !(2..=5).contains(&n) {
        return 2;
    }
    if lossless && n != 2 {
        return 3;
    }
    if !lossless && (tx_type > 3 || (n == 5 && tx_type != 0)) {
        return 4;
    }
    let count = area(n - 2);
    if block.len() < count {
        return 6;
    }
    if beyond(&block[..count], COEF_LIMIT) {
        return 9;
    }
    0
}

pub struct Recon<'a> {
    pub x: u64,
    pub y: u64,
    pub size: u32,
    pub tx_type: u8,
    pub lossless: bool,
    pub depth: u32,
    pub dc: i32,
    pub ac: i32,
    pub width: u64,
    pub height: u64,
    pub stride: u64,
    pub tokens: &'a [i64],
    pub samples: usize,
}

pub fn reconstruct(c: &Recon) -> u8 {
    if !good_depth(c.depth) {
        return 1;
    }
    if c.size > 3 {
        return 2;
    }
    if c.lossless && c.size != 0 {
        return 3;
    }
    if !c.lossless && (c.tx_type > 3 || (c.size == 3 && c.tx_type != 0)) {
        return 4;
    }
    if !good_quant(c.dc) || !good_quant(c.ac) {
        return 5;
    }
    if c.tokens.len() != area(c.size) {
        return 6;
    }
    if [c.width, c.height, c.stride].iter().any(|n| *n > SIDE_MAX) || c.stride < c.width || c.stride * c.height != c.samples as u64 {
        return 7;
    }
    if beyond(c.tokens, codeable(c.depth) as u64) {
        return 8;
    }
    let halves = if c.size == 3 { 2 } else { 1 };
    for (i, t) in c.tokens.iter().enumerate() {
        let q = if i == 0 { c.dc } else { c.ac };
        if t.unsigned_abs() * q as u64 / halves > COEF_LIMIT {
            return 9;
        }
    }
    0
}

/// The last magnitude of each class but the last.
const CLASS_ENDS: [u64; 10] = [0, 1, 2, 3, 4, 6, 10, 18, 34, 66];

/// The class of a magnitude: how many classes end below it.
pub fn class(magnitude: u64) -> usize {
    CLASS_ENDS.iter().filter(|end| **end < magnitude).count()
}

/// A report of 44 counts and 44 sums, a sum as the 64 bits it is stored in, that cannot take so many tokens more.
pub fn bad_report(more: usize, counts: &[i64], sums: &[i64]) -> bool {
    let total: i128 = counts.iter().map(|c| i128::from(*c)).sum::<i128>() + more as i128;
    total > i128::from(u32::MAX) || counts.iter().zip(sums).any(|(c, s)| i128::from(*s as u64) > i128::from(*c) * 262_210)
}

/// Every token of a block, in the report.
pub fn count(size: u32, tokens: &[i64], counts: &mut [i64], sums: &mut [i64]) {
    for t in tokens {
        let at = 11 * size as usize + class(t.unsigned_abs());
        counts[at] += 1;
        sums[at] += t.abs();
    }
}

/// Which rows of a block of n0 rows hold a number that is not 0, row after row.
pub fn live_rows(n: u32, block: &[i64]) -> Vec<bool> {
    let side = 1usize << n;
    block[..side * side].chunks(side).map(|row| row.iter().any(|v| *v != 0)).collect()
}

/// Which bits of a summary are set, from bit 0 on.
pub fn set_rows(summary: u32) -> Vec<bool> {
    (0..32).map(|i| summary / 2u32.pow(i) % 2 == 1).collect()
}

/// The summary of these rows.
pub fn summary(rows: &[bool]) -> u32 {
    rows.iter().rev().fold(0, |s, live| 2 * s + u32::from(*live))
}

pub fn row_summary(n: u32, block: &[i64]) -> u8 {
    if !(2..=5).contains(&n) {
        return 2;
    }
    if block.len() < area(n - 2) {
        return 6;
    }
    0
}

/// How many rows the driver transforms, of a block that it takes: none where place 0 alone may be live, type 0 and not lossless; else
/// each row that holds anything.
pub fn row_transforms(n: u32, tx_type: u8, lossless: bool, block: &[i64]) -> usize {
    if !lossless && tx_type == 0 && block[1..area(n - 2)].iter().all(|v| *v == 0) {
        return 0;
    }
    live_rows(n, block).into_iter().filter(|live| *live).count()
}

pub struct Replacement {
    pub size: u32,
    pub place: u64,
    pub token: i64,
    pub dc: i32,
    pub ac: i32,
    pub depth: u32,
}

impl Replacement {
    /// In the order of replacement, in which 16 stands after 6 and before 8.
    pub fn answer(&self, block: usize) -> u8 {
        if !good_depth(self.depth) {
            return 1;
        }
        if self.size > 3 {
            return 2;
        }
        if !good_quant(self.dc) || !good_quant(self.ac) {
            return 5;
        }
        if block != area(self.size) {
            return 6;
        }
        if self.place >= area(self.size) as u64 {
            return 16;
        }
        if self.token.unsigned_abs() > codeable(self.depth) as u64 {
            return 8;
        }
        if self.coefficient().unsigned_abs() > COEF_LIMIT {
            return 9;
        }
        0
    }

    /// Token times the quantizer of its place, at 32 by 32 halved toward zero.
    fn coefficient(&self) -> i64 {
        let product = self.token * i64::from(if self.place == 0 { self.dc } else { self.ac });
        if self.size == 3 { product / 2 } else { product }
    }

    /// The block with the coefficient in its place, and the summary with that row looked at again.
    pub fn make(&self, block: &mut [i64], summary: &mut u32) {
        block[self.place as usize] = self.coefficient();
        let row = self.place as usize / (4 << self.size);
        let mut rows = set_rows(*summary);
        rows[row] = live_rows(self.size + 2, block)[row];
        *summary = self::summary(&rows);
    }
}

pub fn forward_wht(block: &[i64]) -> u8 {
    if block.len() != 16 {
        return 6;
    }
    if beyond(block, FORWARD_LIMIT) {
        return 9;
    }
    0
}

pub fn forward_dct(n: u32, block: &[i64]) -> u8 {
    if !(2..=5).contains(&n) {
        return 2;
    }
    if block.len() != area(n - 2) {
        return 6;
    }
    if beyond(block, RESIDUAL_LIMIT) {
        return 9;
    }
    0
}

pub fn quantize_block_tx(dc: i32, ac: i32, size: u32, depth: u32, coefs: &[i64]) -> u8 {
    if !good_depth(depth) {
        return 1;
    }
    if retired(depth) {
        return 20;
    }
    if size > 3 {
        return 2;
    }
    quantize_block(dc, ac, coefs)
}

pub fn quantize_block_rule(rule: u32, dc: i32, ac: i32, size: u32, depth: u32, coefs: &[i64]) -> u8 {
    if rule != 1 && rule != 2 {
        return 19;
    }
    quantize_block_tx(dc, ac, size, depth, coefs)
}

/// The tokens of rule 2, which the Rust has not: floor((2a + q) / (2q)), a doubled at 32 by 32, at most the codeable limit, with the coefficient's sign.
pub fn tokens_of_rule_2(dc: i32, ac: i32, size: u32, depth: u32, coefs: &mut [i64]) {
    for (place, coef) in coefs.iter_mut().enumerate() {
        let q = u64::from((if place == 0 { dc } else { ac }).unsigned_abs());
        let a = coef.unsigned_abs() << u32::from(size == 3);
        let m = ((2 * a + q) / (2 * q)).min(codeable(depth) as u64) as i64;
        *coef = coef.signum() * m;
    }
}

pub fn quantize_block(dc: i32, ac: i32, coefs: &[i64]) -> u8 {
    if !good_quant(dc) || !good_quant(ac) {
        return 5;
    }
    if coefs.len() > QUANTIZER_LENGTH {
        return 6;
    }
    if beyond(coefs, COEF_LIMIT) {
        return 9;
    }
    0
}
