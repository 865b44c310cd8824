//! Calls from a seed: a systematic part (every size, type, depth and place, every limit, every refusal alone and
//! in pairs) and as many random ones as asked for.

use crate::line::Call;
use crate::rng::Rng;
use crate::{best, files, narrow, rules, vbk};
use std::collections::BTreeMap;

const ROUNDED: i64 = 1 << 62; // what Round2 takes
const LEAF: i64 = 1 << 46; // operands of B, H, SB and the WHT
const WIDE: i64 = 1 << 61; // numbers of S
const ROW: i64 = 1 << 31; // inputs of one row
const COEF: i64 = rules::COEF_LIMIT as i64;
const LINE_FILE: usize = 9_000; // bytes of a file that goes into a line
const FORWARD: i64 = rules::FORWARD_LIMIT as i64;
const RESIDUAL: i64 = rules::RESIDUAL_LIMIT as i64;

pub const DEPTHS: [u32; 3] = [8, 10, 12];
/// Those that the quantizers and the writer take.
const WRITTEN_DEPTHS: [u32; 2] = [8, 10];
const BAD_RULES: [u32; 6] = [0, 3, 4, 8, 257, u32::MAX];
const BAD_DEPTHS: [u32; 12] = [0, 1, 7, 9, 11, 13, 14, 16, 32, 57, 64, u32::MAX];
const BAD_SIZES: [u32; 6] = [4, 5, 8, 30, 255, u32::MAX];
pub const BAD_TYPES: [u8; 5] = [4, 5, 8, 128, 255];
const BAD_QUANTS: [i32; 7] = [0, -1, 32_768, 65_535, -32_768, i32::MAX, i32::MIN];

fn call(kind: u32, args: Vec<i128>, lists: Vec<Vec<i64>>) -> Call {
    Call { kind, args, lists }
}

pub fn side(n: u32) -> usize {
    1 << n
}

/// A bound for a case's numbers: most cases are small, some at the limit.
fn bound(r: &mut Rng, limit: i64) -> i64 {
    let b = match r.below(9) {
        0 => 1,
        1 => 3,
        2 => 10,
        3 => 100,
        4 => 1 << 12,
        5 => 1 << 17,
        6 => 1 << 22,
        7 => 1 << 27,
        _ => limit,
    };
    b.min(limit)
}

/// A number within the bound; often the bound itself.
fn number(r: &mut Rng, bound: i64) -> i64 {
    match r.below(8) {
        0 => bound,
        1 => -bound,
        _ => r.range(-bound, bound),
    }
}

/// A number within the bound that is not zero.
fn nonzero(r: &mut Rng, bound: i64) -> i64 {
    match number(r, bound) {
        0 => 1,
        v => v,
    }
}

/// The contents of a block of n0 x n0 places, place k within limit(k).
pub fn fill(r: &mut Rng, n0: usize, limit: &dyn Fn(usize) -> i64) -> Vec<i64> {
    let count = n0 * n0;
    let mut v = vec![0i64; count];
    let scale = bound(r, i64::MAX >> 1);
    let at = |r: &mut Rng, k: usize| nonzero(r, scale.min(limit(k)));
    match r.below(12) {
        0 => {}
        1 => v[0] = at(r, 0),
        2 | 3 => {
            let k = r.below(count as u64) as usize;
            v[k] = at(r, k);
        }
        4 => {
            for _ in 0..r.range(2, 8) {
                let k = r.below(count as u64) as usize;
                v[k] = at(r, k);
            }
        }
        5 => {
            // the low corner, as a coder leaves it
            let c = r.range(1, (n0 as i64 + 1) / 2) as usize;
            for i in 0..c {
                for j in 0..c - i {
                    v[i * n0 + j] = at(r, i * n0 + j);
                }
            }
        }
        6 => {
            for (k, x) in v.iter_mut().enumerate() {
                *x = at(r, k);
            }
        }
        7 => {
            // rows that are zero between rows that are not
            for i in 0..n0 {
                if r.once_in(2) {
                    for j in 0..n0 {
                        v[i * n0 + j] = number(r, scale.min(limit(i * n0 + j)));
                    }
                }
            }
        }
        8 => {
            let i = r.below(n0 as u64) as usize;
            for j in 0..n0 {
                v[i * n0 + j] = at(r, i * n0 + j);
            }
        }
        9 => {
            let j = r.below(n0 as u64) as usize;
            for i in 0..n0 {
                v[i * n0 + j] = at(r, i * n0 + j);
            }
        }
        10 => {
            // one magnitude everywhere, signs alike or by a pattern of bits: sums grow the most
            let (si, sj) = (r.next(), r.next());
            for (k, x) in v.iter_mut().enumerate() {
                let m = scale.min(limit(k));
                *x = if (si >> (k / n0) ^ sj >> (k % n0)) & 1 == 1 { -m } else { m };
            }
        }
        _ => v[count - 1] = at(r, count - 1),
    }
    v
}

fn tail(r: &mut Rng, count: usize, limit: i64) -> Vec<i64> {
    (0..count).map(|_| if r.once_in(3) { number(r, limit) } else { 0 }).collect()
}

// ---- parts under the public calls ----

/// A working list: numbers everywhere, or in the two places of the step and a few more.
fn working(r: &mut Rng, len: usize, limit: i64, (a, b): (i128, i128)) -> Vec<i64> {
    let scale = bound(r, limit);
    if r.once_in(2) {
        return (0..len).map(|_| if r.once_in(4) { number(r, limit) } else { number(r, scale) }).collect();
    }
    let mut t = vec![0; len];
    for k in [a as usize, b as usize, r.below(len as u64) as usize] {
        t[k] = nonzero(r, scale);
    }
    t
}

fn t32(r: &mut Rng, places: (i128, i128)) -> Vec<i64> {
    working(r, 32, LEAF, places)
}

fn s16(r: &mut Rng, places: (i128, i128)) -> Vec<i64> {
    working(r, 16, WIDE, places)
}

fn pair(r: &mut Rng, below: u64) -> (i128, i128) {
    let a = r.below(below);
    let b = (a + 1 + r.below(below - 1)) % below;
    (a.into(), b.into())
}

fn angle(r: &mut Rng) -> i128 {
    match r.below(4) {
        0 => i128::from(r.next() as i32),
        1 => i128::from(16 + 32 * r.range(-8, 8)),
        2 => i128::from(r.range(0, 64)),
        _ => i128::from(r.range(-256, 256)),
    }
}

fn round2(r: &mut Rng) -> Call {
    let k = if r.once_in(2) { r.range(1, 14) } else { r.range(1, 30) };
    let x = match r.below(3) {
        0 => (r.range(-(1 << 20), 1 << 20) << k) + (1 << (k - 1)) + r.range(-1, 1),
        1 => number(r, ROUNDED),
        _ => r.range(-100_000, 100_000),
    };
    call(1, vec![x.into(), k.into()], vec![])
}

fn brev(r: &mut Rng) -> Call {
    let bits = r.below(6);
    call(2, vec![bits.into(), r.below(1 << bits).into()], vec![])
}

fn butterfly(r: &mut Rng) -> Call {
    let (a, b) = pair(r, 32);
    call(5, vec![a, b, angle(r), r.below(2).into()], vec![t32(r, (a, b))])
}

fn hadamard(r: &mut Rng) -> Call {
    let (a, b) = pair(r, 32);
    call(6, vec![a, b, r.below(2).into()], vec![t32(r, (a, b))])
}

fn sb(r: &mut Rng) -> Call {
    let (a, b) = pair(r, 16);
    call(7, vec![a, b, angle(r), r.below(2).into()], vec![t32(r, (a, b)), s16(r, (a, b))])
}

fn sh(r: &mut Rng) -> Call {
    let (a, b) = pair(r, 16);
    call(8, vec![a, b], vec![t32(r, (a, b)), s16(r, (a, b))])
}

/// A row of 2^n numbers in a list of 32; what follows the row must stay.
fn row(r: &mut Rng, n: u32, limit: i64) -> Vec<i64> {
    let n0 = side(n);
    let b = bound(r, limit);
    let mut v = vec![0i64; n0];
    match r.below(4) {
        0 => v[r.below(n0 as u64) as usize] = nonzero(r, b),
        1 => {
            let s = r.next();
            for (i, x) in v.iter_mut().enumerate() {
                *x = if s >> i & 1 == 1 { -b } else { b };
            }
        }
        2 => {
            for _ in 0..3 {
                v[r.below(n0 as u64) as usize] = nonzero(r, b);
            }
        }
        _ => {
            for x in v.iter_mut() {
                *x = number(r, b);
            }
        }
    }
    if r.once_in(3) {
        v.extend(tail(r, 32 - n0, ROW));
    }
    v.resize(32, 0);
    v
}

fn dct(r: &mut Rng) -> Call {
    let n = r.range(2, 5) as u32;
    call(10, vec![n.into()], vec![row(r, n, ROW)])
}

fn adst(r: &mut Rng) -> Call {
    let n = r.range(2, 4) as u32;
    call(11, vec![n.into()], vec![row(r, n, ROW)])
}

fn wht(r: &mut Rng) -> Call {
    let mut v = row(r, 2, LEAF);
    v.truncate(4);
    call(12, vec![r.pick(&[0, 1, 2])], vec![v])
}

// ---- the two drivers ----

/// n, type and lossless of a call that nothing refuses.
fn kind_of_block(r: &mut Rng) -> (u32, u8, bool) {
    let n = r.pick(&[2u32, 2, 2, 3, 3, 4, 4, 5]);
    let lossless = n == 2 && r.once_in(4);
    let tx_type = match (lossless, n) {
        (true, _) => r.pick(&[0, 1, 2, 3, 4, 255]),
        (_, 5) => 0,
        _ => r.below(4) as u8,
    };
    (n, tx_type, lossless)
}

fn driver_call(kind: u32, n: u32, tx_type: u8, lossless: bool, block: Vec<i64>) -> Call {
    call(kind, vec![n.into(), tx_type.into(), i128::from(lossless)], vec![block])
}

fn driver(r: &mut Rng, kind: u32) -> Call {
    let (n, tx_type, lossless) = kind_of_block(r);
    let mut block = fill(r, side(n), &|_| COEF);
    if r.once_in(8) {
        // longer than the block: what follows is neither checked nor written
        let more = r.range(1, 40) as usize;
        block.extend(tail(r, more, i64::MAX));
    }
    if r.once_in(32) {
        let k = r.below(block.len() as u64) as usize;
        block[k] = beyond(r, COEF);
    }
    driver_call(kind, n, tx_type, lossless, block)
}

// ---- the 32-bit engine: blocks at the edge of its condition ----

/// A direction in which a block grows: place k of the block at scale c is direction[k] * c / 2^16, so that one more of c is at most one more
/// of a number.
fn direction(r: &mut Rng, n0: usize) -> Vec<i64> {
    const FULL: i64 = 1 << 16;
    let mut v = vec![0; n0 * n0];
    let at = |r: &mut Rng| if r.once_in(3) { r.range(-FULL, FULL) } else { r.pick(&[FULL, -FULL]) };
    let line = r.below(n0 as u64) as usize;
    match r.below(10) {
        0 => v.iter_mut().for_each(|x| *x = at(r)),
        // a row, a column, or every other number of one: steps in the middle leave first
        1 => (0..n0).for_each(|j| v[line * n0 + j] = at(r)),
        2 => (0..n0).for_each(|i| v[i * n0 + line] = at(r)),
        3 => {
            let (from, step) = r.pick(&[(0, 2), (1, 2), (1, 4), (2, 4), (3, 4)]);
            (from..n0).step_by(step).for_each(|j| v[line * n0 + j] = at(r));
        }
        4 => {
            let (from, step) = r.pick(&[(0, 2), (1, 2), (1, 4), (2, 4), (3, 4)]);
            (from..n0).step_by(step).for_each(|i| v[i * n0 + line] = at(r));
        }
        5 => {
            for _ in 0..r.range(1, 5) {
                let k = r.below((n0 * n0) as u64) as usize;
                v[k] = at(r);
            }
        }
        // pairs that step 2 of the DCT of this size rotates, one or two of them: the first steps leave first
        way @ 6..=7 => {
            let bits = n0.trailing_zeros();
            let i = r.below(n0 as u64 / 4) as usize;
            let pairs = [i, i ^ 1].map(|i| [n0 / 2 + i, n0 - 1 - i]);
            for k in pairs[..r.range(1, 2) as usize].iter().flatten().filter(|k| **k < n0) {
                let k = (*k as u32).reverse_bits() as usize >> (32 - bits);
                v[if way == 6 { line * n0 + k } else { k * n0 + line }] = at(r);
            }
        }
        // two to four numbers of a row or a column: rotations leave first
        way => {
            for _ in 0..r.range(2, 4) {
                let k = r.below(n0 as u64) as usize;
                v[if way == 8 { line * n0 + k } else { k * n0 + line }] = at(r);
            }
        }
    }
    v
}

/// The greatest k below `most` with `good(k)` before one without; good(0) holds and good(most) does not.
fn last_good(most: usize, good: impl Fn(usize) -> bool) -> usize {
    let (mut low, mut high) = (0, most);
    while high - low > 1 {
        let mid = (low + high) / 2;
        if good(mid) { low = mid } else { high = mid }
    }
    low
}

/// Two blocks that differ by one in one number: the first keeps the condition, the second leaves it, and where.
fn edge(r: &mut Rng, n: u32, tx_type: u8, lossless: bool) -> (Vec<i64>, Vec<i64>, narrow::Left) {
    let good = |b: &[i64]| narrow::process(n, tx_type, lossless, b).is_ok();
    loop {
        let d = direction(r, side(n));
        let at = |c: usize| -> Vec<i64> { d.iter().map(|x| x * c as i64 / 65_536).collect() };
        if good(&at(65_536)) {
            continue;
        }
        let c = last_good(65_536, |c| good(&at(c)));
        let (low, high) = (at(c), at(c + 1));
        let mixed = |k: usize| -> Vec<i64> { high[..k].iter().chain(&low[k..]).copied().collect() };
        let k = last_good(d.len(), |k| good(&mixed(k)));
        let (inside, outside) = (mixed(k), mixed(k + 1));
        if let Err(left) = narrow::process(n, tx_type, lossless, &outside) {
            return (inside, outside, left);
        }
    }
}

fn engine32(r: &mut Rng) -> Call {
    let (n, tx_type, lossless) = kind_of_block(r);
    if r.once_in(6) {
        let mut c = driver(r, 37);
        // magnitudes up to the driver's limit in some, around 16 bits in the others
        if !r.once_in(3) {
            c.lists[0].iter_mut().for_each(|v| *v %= 40_000);
        }
        return c;
    }
    let (inside, outside, _) = edge(r, n, tx_type, lossless);
    let mut block = if r.once_in(2) { inside } else { outside };
    if r.once_in(16) {
        let more = r.range(1, 40) as usize;
        block.extend(tail(r, more, i64::MAX));
    }
    driver_call(37, n, tx_type, lossless, block)
}

/// The sum of magnitudes up to which blocks go by 16-bit lines without a test.
#[cfg(linked)]
const FEW: i64 = 31_883;

/// A block of 8 by 8 or more whose coefficients' magnitudes sum to about FEW: to FEW itself and a few around it where the quantizers let them.
#[cfg(linked)]
fn few(r: &mut Rng) -> Recon {
    let mut c = loop {
        let c = good_recon(r);
        if c.size > 0 {
            break c;
        }
    };
    let halved = 1 + i64::from(c.size == 3);
    (c.dc, c.ac) = if r.once_in(2) { (halved as i32, halved as i32) } else { (r.range(1, 300) as i32, r.range(1, 300) as i32) };
    c.tokens.iter_mut().for_each(|t| *t = 0);
    let mut left = FEW + r.range(-3, 3);
    let places = c.tokens.len() as i64;
    let most = r.pick(&[8, places - 1]);
    let live = r.range(2, most);
    for i in 0..live + 8 {
        let k = r.below(places as u64) as usize;
        if c.tokens[k] != 0 {
            continue;
        }
        let q = i64::from(if k == 0 { c.dc } else { c.ac });
        let part = if i < live { r.range(0, 2 * left / (live - i)) } else { left };
        let t = (part.clamp(0, left) * halved / q).min(16_450);
        left -= t * q / halved;
        c.tokens[k] = r.pick(&[t, -t]);
    }
    c
}

/// A call at an edge of what 16 bits hold: one side of the 32-bit engine's condition, or magnitudes that sum to about FEW, there and in reconstruction.
#[cfg(linked)]
pub fn near(r: &mut Rng) -> Call {
    match r.below(4) {
        0..=1 => {
            let (n, tx_type, lossless) = kind_of_block(r);
            let (inside, outside, _) = edge(r, n, tx_type, lossless);
            driver_call(37, n, tx_type, lossless, if r.once_in(2) { inside } else { outside })
        }
        2 => few(r).call(),
        _ => {
            let c = few(r);
            let halved = 1 + i64::from(c.size == 3);
            let block = c.tokens.iter().enumerate().map(|(k, t)| t * i64::from(if k == 0 { c.dc } else { c.ac }) / halved).collect();
            driver_call(37, c.size + 2, c.tx_type, false, block)
        }
    }
}

/// A call that 18 refuses, where `others` do not come before it.
fn refused_engine32(r: &mut Rng, wanted: &[u8]) -> Call {
    let others: Vec<u8> = wanted.iter().copied().filter(|a| *a != 18).collect();
    if others.is_empty() {
        let n = r.pick(&[2, 2, 3, 4]);
        let tx_type = r.below(4) as u8;
        let (_, outside, _) = edge(r, n, tx_type, false);
        return driver_call(37, n, tx_type, false, outside);
    }
    let mut c = refused_driver(r, 37, &others);
    if wanted.contains(&18) && !c.lists[0].is_empty() {
        let k = r.below(c.lists[0].len() as u64) as usize;
        if c.lists[0][k].unsigned_abs() <= rules::COEF_LIMIT {
            c.lists[0][k] = r.pick(&[32_768, -32_769, 1 << 20, COEF]);
        }
    }
    c
}

/// Row 0 of the block that turned a decoder over (docs/REFERENCE.md): tokens at the odd columns, AC quantizer 1,828, halved at 32 by 32.
pub fn turned_over() -> Vec<i64> {
    let mut block = vec![0; 1024];
    for (i, t) in [1, 1, 2, 2, 2, 2, 2, 2, 2, 3, 3, 4, 4, 6, 11, 32].into_iter().enumerate() {
        block[2 * i + 1] = t * 1_828 / 2;
    }
    block
}

/// How many of `count` blocks at the edge, of each size and type, leave it in which step; a line for each.
#[allow(dead_code)]
pub fn narrow_edges(r: &mut Rng, count: u64) {
    every_block(&mut |n, tx_type, lossless| {
        let mut met: BTreeMap<(bool, u32, &str), u64> = BTreeMap::new();
        for _ in 0..count {
            let (_, _, left) = edge(r, n, tx_type, lossless);
            *met.entry((left.column, left.n, left.step)).or_default() += 1;
        }
        for ((column, level, step), times) in met {
            let pass = if column { "column" } else { "row" };
            println!("n {n} type {tx_type} lossless {} {pass} process of {level} step {step}: {times}", u8::from(lossless));
        }
    });
}

/// The 32-bit engine: both sides of the edge for every step of every transform, in rows and in columns, as far as a search finds them;
/// one number at the ends of 16 bits and one past them, in every place; what stands past the block.
fn systematic_engine32(r: &mut Rng, out: &mut dyn FnMut(Call)) {
    every_block(&mut |n, tx_type, lossless| {
        let count = side(n) * side(n);
        let mut met: BTreeMap<(bool, u32, &str), u32> = BTreeMap::new();
        for _ in 0..[400, 400, 300, 250][n as usize - 2] {
            let (inside, outside, left) = edge(r, n, tx_type, lossless);
            let times = met.entry((left.column, left.n, left.step)).or_default();
            *times += 1;
            if *times <= 4 {
                out(driver_call(37, n, tx_type, lossless, inside));
                out(driver_call(37, n, tx_type, lossless, outside));
            }
        }
        for k in (0..count).step_by((count / 64).max(1)) {
            for v in [32_767, -32_768, 32_768, -32_769] {
                let mut block = vec![0; count];
                block[k] = v;
                out(driver_call(37, n, tx_type, lossless, block));
            }
        }
        for v in [COEF, -COEF, COEF + 1, -COEF - 1] {
            let mut block = vec![0; count];
            block[count - 1] = v;
            out(driver_call(37, n, tx_type, lossless, block));
        }
        let mut block = fill(r, side(n), &|_| 100);
        block.extend([i64::MIN, i64::MAX, 40_000]);
        out(driver_call(37, n, tx_type, lossless, block));
        out(driver_call(37, n, tx_type, lossless, vec![3; count - 1]));
    });
}

/// One past the limit, or far past it.
pub fn beyond(r: &mut Rng, limit: i64) -> i64 {
    match r.below(6) {
        0 | 1 => limit + 1,
        2 | 3 => -limit - 1,
        4 => i64::MAX,
        _ => i64::MIN,
    }
}

/// A driver call to which each of these numbers applies (as far as they can together).
fn refused_driver(r: &mut Rng, kind: u32, wanted: &[u8]) -> Call {
    let has = |a: u8| wanted.contains(&a);
    let (mut n, mut tx_type, mut lossless) = kind_of_block(r);
    n = n.min(3 + u32::from(r.once_in(6)));
    if has(3) {
        lossless = true;
        n = r.pick(&[3, 3, 4, 5]);
    } else if has(4) {
        lossless = false;
        if r.once_in(3) {
            n = 5;
            tx_type = r.pick(&[1, 2, 3, 4, 255]);
        } else {
            tx_type = r.pick(&BAD_TYPES);
        }
    }
    let count = side(n) * side(n);
    let mut block = fill(r, side(n), &|_| 50);
    if has(9) {
        let k = r.below(count as u64) as usize;
        block[k] = beyond(r, COEF);
    }
    if has(6) {
        block.truncate(r.pick(&[0, 1, count / 2, count - 1]));
    }
    if has(2) {
        n = r.pick(&[0, 1, 6, 7, 31, 32, 64, u32::MAX]);
    }
    driver_call(kind, n, tx_type, lossless, block)
}

// ---- reconstruction ----

pub struct Recon {
    pub x: u64,
    pub y: u64,
    pub size: u32,
    pub tx_type: u8,
    pub lossless: bool,
    pub depth: u32,
    pub dc: i32,
    pub ac: i32,
    pub width: u64,
    pub height: u64,
    pub stride: u64,
    pub tokens: Vec<i64>,
    pub samples: Vec<i64>,
}

impl Recon {
    pub fn call(self) -> Call {
        let args = vec![
            self.x.into(),
            self.y.into(),
            self.size.into(),
            self.tx_type.into(),
            i128::from(self.lossless),
            self.depth.into(),
            self.dc.into(),
            self.ac.into(),
            self.width.into(),
            self.height.into(),
            self.stride.into(),
        ];
        call(22, args, vec![self.tokens, self.samples])
    }
}

pub fn quantizer(r: &mut Rng) -> i32 {
    match r.below(6) {
        0 => 1,
        1 => 4,
        2 => r.range(2, 40) as i32,
        3 => r.range(2, 1_828) as i32,
        4 => r.range(1, 32_767) as i32,
        _ => 32_767,
    }
}

/// The greatest token of a place that no limit refuses.
pub fn token_bound(size: u32, depth: u32, q: i32) -> i64 {
    let most = if size == 3 { 2 * COEF + 1 } else { COEF };
    (most / i64::from(q)).min(rules::codeable(depth))
}

pub fn samples(r: &mut Rng, count: usize, depth: u32) -> Vec<i64> {
    let top = (1i64 << depth) - 1;
    match r.below(6) {
        0 => vec![r.range(0, top); count],
        1 => (0..count).map(|_| r.pick(&[0, top])).collect(),
        2 => (0..count).map(|_| r.range(0, 65_535)).collect(), // above the depth too
        3 => (0..count).map(|_| r.pick(&[0, top, top + 1, 65_535])).collect(),
        _ => (0..count).map(|_| r.range(0, top)).collect(),
    }
}

/// So much padding behind each line, with any number in it.
fn pad(r: &mut Rng, c: &mut Recon, pad: u64) {
    let lines: Vec<Vec<i64>> = (0..c.height)
        .map(|y| {
            let at = (y * c.width) as usize;
            let padding = (0..pad).map(|_| r.range(0, 65_535));
            c.samples[at..at + c.width as usize].iter().copied().chain(padding).collect()
        })
        .collect();
    (c.stride, c.samples) = (c.width + pad, lines.concat());
}

/// Where a block of n0 stands against a side of the plane: inside, cut, at the edge, far outside.
fn place(r: &mut Rng, n0: u64) -> (u64, u64) {
    let slack = r.below(5);
    match r.below(10) {
        0..=2 => (n0 + slack, r.below(slack + 1)), // inside
        3..=5 => {
            let keep = 1 + r.below(n0); // keep columns or rows are left
            let x = r.below(6);
            (x + keep, x)
        }
        6 => {
            let w = r.below(8);
            (w, w) // just outside
        }
        7 => {
            let w = 1 + r.below(8);
            (w, w - 1) // the last one
        }
        8 => {
            let w = r.below(8);
            (w, r.pick(&[w + 1, 65_535, 65_536, 1 << 32, u64::MAX - 1, u64::MAX]))
        }
        _ => (r.pick(&[0, 1, n0 - 1, n0, n0 + 1]), 0),
    }
}

pub fn good_recon(r: &mut Rng) -> Recon {
    let (n, tx_type, lossless) = kind_of_block(r);
    let size = n - 2;
    let n0 = side(n) as u64;
    let depth = r.pick(&DEPTHS);
    let (dc, ac) = (quantizer(r), quantizer(r));
    let (mut width, mut x) = place(r, n0);
    let (mut height, mut y) = place(r, n0);
    if r.once_in(3) {
        // both inside: a plain block
        (width, x) = (n0, 0);
        (height, y) = (n0, 0);
    }
    let tokens = fill(r, side(n), &|k| token_bound(size, depth, if k == 0 { dc } else { ac }));
    let samples = samples(r, (width * height) as usize, depth);
    let mut c = Recon { x, y, size, tx_type, lossless, depth, dc, ac, width, height, stride: width, tokens, samples };
    if r.once_in(2) {
        let padding = if r.once_in(8) { r.below(40) } else { 1 + r.below(8) };
        pad(r, &mut c, padding);
    }
    c
}

fn recon(r: &mut Rng) -> Call {
    let mut c = good_recon(r);
    if r.once_in(24) {
        // one past the greatest token of a place: 8 or 9
        let k = r.below(c.tokens.len() as u64) as usize;
        let q = if k == 0 { c.dc } else { c.ac };
        let t = token_bound(c.size, c.depth, q) + 1;
        c.tokens[k] = r.pick(&[t, -t]);
    }
    c.call()
}

/// How many entries a report has.
const ENTRIES: usize = 44;
/// The greatest total of a report's counts.
const TOTAL: i64 = u32::MAX as i64;
/// The greatest sum for each token that is counted.
const TOKEN: i64 = 262_210;

/// A block with a report beside it.
fn reported(c: Recon, counts: Vec<i64>, sums: Vec<i64>) -> Call {
    let mut c = c.call();
    c.kind = 31;
    c.lists.extend([counts, sums]);
    c
}

/// A report that takes so many tokens more: empty, some tokens, or full to the last of them; sums from nothing to the greatest.
fn good_report(r: &mut Rng, more: i64) -> (Vec<i64>, Vec<i64>) {
    let mut counts: Vec<i64> = match r.below(4) {
        0 => vec![0; ENTRIES],
        _ => (0..ENTRIES).map(|_| if r.once_in(3) { 0 } else { r.range(0, 90_000_000) }).collect(),
    };
    if r.once_in(3) {
        // exactly full afterwards
        let k = r.below(ENTRIES as u64) as usize;
        counts[k] += TOTAL - more - counts.iter().sum::<i64>();
    }
    let sums = match r.below(3) {
        0 => vec![0; ENTRIES],
        1 => counts.iter().map(|c| c * TOKEN).collect(),
        _ => counts.iter().map(|c| r.range(0, c * TOKEN)).collect(),
    };
    (counts, sums)
}

/// A report that 15 refuses: past its total by a little or by much, or with a sum above its count × 262,210.
fn bad_report(r: &mut Rng, more: i64) -> (Vec<i64>, Vec<i64>) {
    let (mut counts, mut sums) = good_report(r, more);
    let k = r.below(ENTRIES as u64) as usize;
    match r.below(4) {
        0 => counts[k] += TOTAL - more - counts.iter().sum::<i64>() + r.range(1, more),
        1 => counts.iter_mut().for_each(|c| *c = TOTAL),
        2 => sums[k] = counts[k] * TOKEN + 1,
        _ => sums[k] = r.pick(&[counts[k] * TOKEN + 2, i64::MAX]),
    }
    counts[k] = counts[k].min(TOTAL);
    (counts, sums)
}

/// The edges of the classes.
const EDGES: [i64; 21] = [0, 1, 2, 3, 4, 5, 6, 7, 10, 11, 18, 19, 34, 35, 66, 67, 68, 16_450, 65_602, 262_209, 262_210];

/// Tokens at the edges of the classes, of either sign.
fn edges(r: &mut Rng, size: u32, depth: u32) -> Vec<i64> {
    let most = rules::codeable(depth);
    (0..rules::area(size))
        .map(|_| {
            let t = r.pick(&EDGES).min(most);
            if r.once_in(2) { -t } else { t }
        })
        .collect()
}

fn report(r: &mut Rng) -> Call {
    let mut c = good_recon(r);
    if r.once_in(2) {
        (c.dc, c.ac) = (4, 4);
        c.tokens = edges(r, c.size, c.depth);
    }
    let more = c.tokens.len() as i64;
    let (counts, sums) = if r.once_in(8) { bad_report(r, more) } else { good_report(r, more) };
    reported(c, counts, sums)
}

fn refused_report(r: &mut Rng, wanted: &[u8]) -> Call {
    let others: Vec<u8> = wanted.iter().copied().filter(|a| *a != 15).collect();
    let mut c = if others.is_empty() { good_recon(r).call() } else { refused_recon(r, &others) };
    let more = (c.lists[0].len() as i64).max(1);
    let (counts, sums) = if wanted.contains(&15) { bad_report(r, more) } else { good_report(r, more) };
    c.kind = 31;
    c.lists.extend([counts, sums]);
    c
}

/// Bytes that a line's written file may have.
const LINE_WRITTEN: usize = 8_900;

/// A file to be written: the header's numbers and the eleven lists of kind 35, the buffer last.
struct Writing {
    depth: i64,
    width: i64,
    height: i64,
    lists: Vec<Vec<i64>>,
}

/// The places of lists among the eleven.
const SAMPLES: usize = 0;
const SIZES: usize = 3;
const LOSSLESS: usize = 5;
const COUNTS: usize = 8;
const TOKENS: usize = 9;
const OUT: usize = 10;

impl Writing {
    fn new(depth: i64, width: i64, height: i64) -> Self {
        let mut lists = vec![vec![]; 11];
        lists[SAMPLES] = vec![7; (width * height) as usize];
        Writing { depth, width, height, lists }
    }

    /// A record of x, y, size, type, lossless, DC and AC, and its tokens.
    fn record(&mut self, head: [i64; 7], tokens: Vec<i64>) {
        for (k, v) in head.into_iter().enumerate() {
            self.lists[1 + k].push(v);
        }
        self.lists[COUNTS].push(tokens.len() as i64);
        self.lists[TOKENS].extend(tokens);
    }

    fn length(&self) -> usize {
        10 + 2 * self.lists[SAMPLES].len() + 11 * self.lists[1].len() + 4 * self.lists[TOKENS].len()
    }

    /// The call with a buffer that is so much longer than the file.
    fn call(mut self, more: i64) -> Call {
        let room = (self.length() as i64 + more).max(0);
        self.lists[OUT] = vec![170; room as usize];
        call(35, vec![self.depth.into(), self.width.into(), self.height.into()], self.lists)
    }
}

/// A token of any 32 bits: small ones, the ends, those around a byte's end.
fn any_token(r: &mut Rng) -> i64 {
    match r.below(4) {
        0 => 0,
        1 => r.range(-300, 300),
        2 => r.pick(&[i64::from(i32::MIN), i64::from(i32::MAX), -1, 255, 256, 65_535, 65_536, 16_777_216, -256, -65_536]),
        _ => r.range(i32::MIN.into(), i32::MAX.into()),
    }
}

/// A file that is taken: any place, type and quantizers, those that reconstruction refuses too.
fn good_writing(r: &mut Rng, least: u64) -> Writing {
    loop {
        let (w, h) = if r.once_in(60) { r.pick(&[(4_096, 1), (1, 4_096), (64, 64)]) } else { (r.range(1, 9), r.range(1, 9)) };
        let mut c = Writing::new(r.pick(&WRITTEN_DEPTHS).into(), w, h);
        if w * h < 100 {
            c.lists[SAMPLES].iter_mut().for_each(|s| *s = r.range(0, 65_535));
        }
        for _ in 0..least.max(r.below(5)) {
            let size = r.pick(&[0, 0, 0, 1, 1, 2, 3]);
            let any = |r: &mut Rng| r.pick(&[0, 1, 4, 255, 256, 65_535]);
            let head = [any(r), any(r), size.into(), r.pick(&[0, 1, 2, 3, 4, 255]), r.range(0, 1), any(r), any(r)];
            let tokens = if r.once_in(3) { vec![any_token(r); rules::area(size)] } else { (0..rules::area(size)).map(|_| any_token(r)).collect() };
            c.record(head, tokens);
        }
        if c.length() <= LINE_WRITTEN {
            return c;
        }
    }
}

fn writing(r: &mut Rng) -> Call {
    let c = good_writing(r, 0);
    let more = r.pick(&[0, 0, 1, 5, 40, -1, -1_000]);
    c.call(more)
}

/// A file as the writer makes it, of depth 12 too, which it no longer does: what is written, or was, has to run.
pub fn written_file(r: &mut Rng) -> Vec<u8> {
    let (c, depth) = (good_writing(r, 0), r.pick(&DEPTHS));
    vbk::bytes(depth, c.width as u16, c.height as u16, &c.lists[..OUT])
}

fn refused_writing(r: &mut Rng, wanted: &[u8]) -> Call {
    let has = |a: u8| wanted.contains(&a);
    let mut c = good_writing(r, 1);
    let records = c.lists[1].len() as u64;
    if has(13) {
        match r.below(4) {
            0 => (c.width, c.height) = r.pick(&[(0, 0), (0, 5), (7, 0)]),
            1 => (c.width, c.height) = r.pick(&[(4_097, 1), (241, 17)]),
            2 => (c.width, c.height) = (65_535, 65_535),
            _ => (0..16).for_each(|_| c.record([1, 2, 3, 0, 0, 4, 5], vec![0; 1_024])),
        }
        // the samples that belong to it, but for the largest, which needs 6 besides
        let area = c.width * c.height;
        c.lists[SAMPLES] = vec![7; if area > 5_000 { 9 } else { area as usize }];
        if area > 5_000 && !has(6) {
            (c.width, c.height) = (0, 65_535);
            c.lists[SAMPLES].clear();
        }
    }
    let k = r.below(records) as usize;
    if has(20) {
        c.depth = 12;
    }
    if has(1) {
        c.depth = r.pick(&[0, 7, 9, 11, 13, 255]);
    }
    if has(2) {
        c.lists[SIZES][k] = r.pick(&[4, 5, 255]);
    }
    if has(14) {
        c.lists[LOSSLESS][k] = r.pick(&[2, 3, 255]);
    }
    if has(6) {
        let list = r.range(0, 8) as usize;
        match r.below(5) {
            0 => c.lists[SAMPLES].push(1),
            1 if list > 0 => c.lists[list].push(0),
            2 => {
                let other = c.lists[COUNTS][k] + r.pick(&[-1, 1, 48, 4_294_967_000]);
                c.lists[COUNTS][k] = other.min(u32::MAX.into());
            }
            3 => {
                c.lists[TOKENS].pop();
            }
            _ => c.lists[TOKENS].push(0),
        }
    }
    let length = c.length() as i64;
    let more = if has(17) { r.pick(&[-1, -2, -length]) } else { r.pick(&[0, 1]) };
    c.call(if length + more > LINE_WRITTEN as i64 { 3 - length } else { more })
}

/// Every list alone one longer and one shorter, every count one off, the file at its limit and past it, every room around the file's end.
fn systematic_writing(out: &mut dyn FnMut(Call)) {
    let plain = || {
        let mut c = Writing::new(8, 3, 2);
        c.record([1, 2, 0, 9, 1, 0, 65_535], (0..16).map(|k| k - 8).collect());
        c.record([256, 65_535, 1, 3, 0, 1, 2], vec![-70_000; 64]);
        c
    };
    for more in [-1_000, -1, 0, 1, 9] {
        out(plain().call(more));
    }
    for list in 0..10 {
        let mut c = plain();
        c.lists[list].push(0);
        out(c.call(0));
        let mut c = plain();
        c.lists[list].pop();
        out(c.call(0));
    }
    // counts that only together are right
    for (a, b) in [(64, 16), (15, 65), (17, 63), (80, 0), (0, 80)] {
        let mut c = plain();
        c.lists[COUNTS] = vec![a, b];
        out(c.call(0));
    }
    for depth in 0..14 {
        let mut c = plain();
        c.depth = depth;
        out(c.call(0));
    }
    for size in 0..6 {
        let mut c = Writing::new(10, 1, 1);
        c.record([0, 0, size, 0, 0, 1, 1], vec![1; rules::area(size.min(3) as u32)]);
        out(c.call(0));
    }
    for lossless in 0..4 {
        let mut c = plain();
        c.lists[LOSSLESS][1] = lossless;
        out(c.call(0));
    }
    for (w, h) in [(0, 0), (1, 0), (4_096, 1), (4_097, 1), (64, 64), (65, 64), (1, 1)] {
        out(Writing::new(10, w, h).call(0));
    }
    // 15 blocks of 32 by 32 and a plane that makes 65,535 bytes and 65,537: taken by the limit (the room refuses), and past it
    for samples in [1_960, 1_961] {
        let mut c = Writing::new(8, samples, 1);
        (0..15).for_each(|_| c.record([0, 0, 3, 0, 0, 1, 1], vec![0; 1_024]));
        out(c.call(-60_000));
    }
}

/// A depth at which a codeable token of this size can have a coefficient beyond the limit: never 8, and 10 below 32 by 32 alone.
fn beyond_depth(r: &mut Rng, size: u32) -> u32 {
    if size < 3 && r.once_in(3) { 10 } else { 12 }
}

fn refused_recon(r: &mut Rng, wanted: &[u8]) -> Call {
    let has = |a: u8| wanted.contains(&a);
    let mut c = good_recon(r);
    while c.size > 1 && !r.once_in(8) {
        c = good_recon(r);
    }
    if has(3) {
        c.lossless = true;
        c.size = r.pick(&[1, 1, 2, 3]);
    } else if has(4) {
        c.lossless = false;
        if r.once_in(4) {
            c.size = 3;
            c.tx_type = r.pick(&[1, 2, 3, 255]);
        } else {
            c.tx_type = r.pick(&BAD_TYPES);
        }
    }
    if has(9) {
        c.depth = beyond_depth(r, c.size);
    }
    if has(1) {
        c.depth = r.pick(&BAD_DEPTHS);
    }
    let codeable = if has(1) { 262_210 } else { rules::codeable(c.depth) };
    let count = rules::area(c.size);
    c.tokens = fill(r, side(c.size + 2), &|_| 20);
    c.dc = c.dc.min(1_000);
    c.ac = c.ac.min(1_000);
    if has(9) {
        // a codeable token whose product is beyond the limit
        let least = 2 * COEF / codeable + 1;
        let q = r.range(least.min(32_767), 32_767) as i32;
        let k = if r.once_in(2) { 0 } else { r.below(count as u64) as usize };
        if k == 0 {
            c.dc = q;
        } else {
            c.ac = q;
        }
        c.tokens[k] = r.pick(&[codeable, -codeable]);
    }
    if has(8) {
        let k = r.below(count as u64) as usize;
        c.tokens[k] = beyond(r, codeable);
    }
    if has(5) {
        let q = r.pick(&BAD_QUANTS);
        match r.below(3) {
            0 => c.dc = q,
            1 => c.ac = q,
            _ => (c.dc, c.ac) = (q, r.pick(&BAD_QUANTS)),
        }
    }
    if has(6) {
        let len = r.pick(&[0, 1, count - 1, count + 1, 2 * count]);
        c.tokens.resize(len, 0);
    }
    if has(7) {
        match r.below(10) {
            0 if !c.samples.is_empty() => {
                c.samples.pop();
            }
            1 => c.samples.push(7),
            2 => (c.width, c.height, c.stride, c.samples) = (65_536, 0, r.pick(&[0, 65_535, 65_536]), vec![]),
            3 => (c.width, c.height, c.stride, c.samples) = (0, 65_536, 0, vec![]),
            4 => (c.width, c.height, c.stride) = (1 << 32, 1 << 32, 1 << 32), // the product is 0 in 64 bits
            5 if c.width > 0 => {
                // a stride below the width, and the samples that it asks for
                c.stride = r.below(c.width);
                c.samples = vec![9; (c.stride * c.height) as usize];
            }
            6 => (c.height, c.stride, c.samples) = (0, r.pick(&[65_536, 1 << 16 | 7, u64::MAX]), vec![]),
            7 => (c.height, c.stride, c.samples) = (2, 1 << 63, vec![]), // the product is 0 in 64 bits
            8 if c.stride > c.width && c.height > 0 => c.samples.truncate((c.width * c.height) as usize),
            _ => (c.width, c.height, c.stride, c.samples) = (u64::MAX, 1, r.pick(&[3, u64::MAX]), vec![5; 3]),
        }
    }
    if has(2) {
        c.size = r.pick(&BAD_SIZES);
    }
    c.call()
}

// ---- the row summary ----

/// A summary that nobody made of the block: any bits, those past the block's rows among them.
fn strange_summary(r: &mut Rng) -> u32 {
    match r.below(5) {
        0 => 0,
        1 => u32::MAX,
        2 => 1 << r.below(32),
        3 => !(1 << r.below(32)),
        _ => r.next() as u32,
    }
}

fn summary_call(n: u32, block: Vec<i64>, lent: u32) -> Call {
    call(32, vec![n.into()], vec![block, vec![lent.into()]])
}

/// A block and the number of its rows' summary; no limit is asked for.
fn row_summary(r: &mut Rng) -> Call {
    let n = r.pick(&[2u32, 2, 2, 3, 3, 4, 4, 5]);
    let mut block = fill(r, side(n), &|_| i64::MAX);
    if r.once_in(4) {
        // longer than the block: what follows is not looked at
        let more = r.range(1, 40) as usize;
        block.extend(tail(r, more, i64::MAX));
    }
    let lent = strange_summary(r);
    summary_call(n, block, lent)
}

fn refused_summary(r: &mut Rng, wanted: &[u8]) -> Call {
    let n = r.pick(&[2u32, 2, 3, 4]);
    let mut block = fill(r, side(n), &|_| 50);
    if wanted.contains(&6) {
        let count = block.len();
        block.truncate(r.pick(&[0, 1, count / 2, count - 1]));
    }
    let lent = strange_summary(r);
    let n = if wanted.contains(&2) { r.pick(&[0, 1, 6, 7, 31, 32, 64, u32::MAX]) } else { n };
    summary_call(n, block, lent)
}

/// A block of coefficients, its summary or another one, and the token that takes a place of it.
struct Replaced {
    size: u32,
    place: u64,
    token: i64,
    dc: i32,
    ac: i32,
    depth: u32,
    block: Vec<i64>,
    summary: u32,
}

impl Replaced {
    fn call(self) -> Call {
        let args = vec![self.size.into(), self.place.into(), self.token.into(), self.dc.into(), self.ac.into(), self.depth.into()];
        call(33, args, vec![self.block, vec![self.summary.into()]])
    }
}

fn own_summary(size: u32, block: &[i64]) -> u32 {
    rules::summary(&rules::live_rows(size + 2, block))
}

fn good_replaced(r: &mut Rng) -> Replaced {
    let size = r.pick(&[0u32, 0, 0, 1, 1, 2, 2, 3]);
    let (dc, ac, depth) = (quantizer(r), quantizer(r), r.pick(&DEPTHS));
    let block = fill(r, side(size + 2), &|_| COEF);
    // a place that is live as often as any other, so that rows become empty too
    let live: Vec<u64> = (0..block.len() as u64).filter(|k| block[*k as usize] != 0).collect();
    let place = if live.is_empty() || r.once_in(2) { r.below(block.len() as u64) } else { r.pick(&live) };
    let most = token_bound(size, depth, if place == 0 { dc } else { ac });
    let token = match r.below(4) {
        0 | 1 => 0,
        2 => r.pick(&[1, -1, most, -most]),
        _ => {
            let b = bound(r, most);
            number(r, b)
        }
    };
    let summary = if r.once_in(3) { strange_summary(r) } else { own_summary(size, &block) };
    Replaced { size, place, token, dc, ac, depth, block, summary }
}

fn replaced(r: &mut Rng) -> Call {
    let mut c = good_replaced(r);
    if r.once_in(16) {
        // one past the greatest token of the place: 8 or 9
        let t = token_bound(c.size, c.depth, if c.place == 0 { c.dc } else { c.ac }) + 1;
        c.token = r.pick(&[t, -t]);
    }
    c.call()
}

fn refused_replaced(r: &mut Rng, wanted: &[u8]) -> Call {
    let has = |a: u8| wanted.contains(&a);
    let mut c = good_replaced(r);
    c.token = r.range(-20, 20);
    (c.dc, c.ac) = (c.dc.min(1_000), c.ac.min(1_000));
    if has(9) {
        c.depth = beyond_depth(r, c.size);
    }
    if has(1) {
        c.depth = r.pick(&BAD_DEPTHS);
    }
    let codeable = if has(1) { 262_210 } else { rules::codeable(c.depth) };
    if has(9) {
        // a codeable token whose product is beyond the limit, under the quantizer of its place alone
        let least = 2 * COEF / codeable + 1;
        let q = r.range(least.min(32_767), 32_767) as i32;
        if c.place == 0 {
            c.dc = q;
        } else {
            c.ac = q;
        }
        c.token = r.pick(&[codeable, -codeable]);
    }
    if has(8) {
        c.token = beyond(r, codeable);
    }
    if has(5) {
        let q = r.pick(&BAD_QUANTS);
        match r.below(3) {
            0 => c.dc = q,
            1 => c.ac = q,
            _ => (c.dc, c.ac) = (q, r.pick(&BAD_QUANTS)),
        }
    }
    let count = c.block.len();
    if has(16) {
        c.place = r.pick(&[count as u64, count as u64 + 1, 1_024, 1 << 32, u64::MAX]);
    }
    if has(6) {
        c.block.resize(r.pick(&[0, 1, count - 1, count + 1, 2 * count]), 0);
    }
    if has(2) {
        c.size = r.pick(&BAD_SIZES);
    }
    c.call()
}

// ---- forward WHT and the quantizers ----

fn forward(r: &mut Rng) -> Call {
    let mut block = fill(r, 4, &|_| FORWARD);
    if r.once_in(16) {
        let k = r.below(16) as usize;
        block[k] = beyond(r, FORWARD);
    }
    call(23, vec![], vec![block])
}

fn refused_forward(r: &mut Rng, wanted: &[u8]) -> Call {
    let mut block = fill(r, 4, &|_| FORWARD);
    if wanted.contains(&9) {
        let k = r.below(16) as usize;
        block[k] = beyond(r, FORWARD);
    }
    if wanted.contains(&6) {
        match r.below(3) {
            0 => block.truncate(r.below(16) as usize),
            1 => block.push(beyond(r, FORWARD)),
            _ => block.resize(r.pick(&[17, 32, 64]), 3),
        }
    }
    call(23, vec![], vec![block])
}

fn dct_call(n: u32, block: Vec<i64>) -> Call {
    call(38, vec![n.into()], vec![block])
}

/// Residuals: any, one value with a little around it, or the signs of a pair of rows of the basis, where sums are largest.
fn forward_dct(r: &mut Rng) -> Call {
    let n = r.range(2, 5) as u32;
    let n0 = side(n);
    let mut block = fill(r, n0, &|_| RESIDUAL);
    match r.below(4) {
        0 => {
            let (v, m) = (number(r, RESIDUAL), r.pick(&[0, 1, 20]));
            block.iter_mut().for_each(|x| *x = (v + number(r, m)).clamp(-RESIDUAL, RESIDUAL));
        }
        1 => {
            let (u, v, m) = (r.below(n0 as u64) as usize, r.below(n0 as u64) as usize, bound(r, RESIDUAL));
            block = along(n, u, v, m);
        }
        _ => {}
    }
    if r.once_in(16) {
        let k = r.below(block.len() as u64) as usize;
        block[k] = beyond(r, RESIDUAL);
    }
    dct_call(n, block)
}

/// m, with the sign that row u of a basis has down the columns and row v along the rows.
fn along(n: u32, u: usize, v: usize, m: i64) -> Vec<i64> {
    let n0 = side(n);
    let turned = |k: usize, i: usize| (((2 * i + 1) * k) as f64 * std::f64::consts::PI / (2 * n0) as f64).cos() < 0.0;
    (0..n0 * n0).map(|p| if turned(u, p / n0) != turned(v, p % n0) { -m } else { m }).collect()
}

fn refused_dct(r: &mut Rng, wanted: &[u8]) -> Call {
    let n = r.range(2, 5) as u32;
    let mut block = fill(r, side(n), &|_| RESIDUAL);
    if wanted.contains(&9) {
        let k = r.below(block.len() as u64) as usize;
        block[k] = beyond(r, RESIDUAL);
    }
    if wanted.contains(&6) {
        match r.below(3) {
            0 => block.truncate(r.below(block.len() as u64) as usize),
            1 => block.push(beyond(r, RESIDUAL)),
            _ => block.resize(block.len() + r.below(9) as usize + 1, 3),
        }
    }
    let n = if wanted.contains(&2) { r.pick(&[0, 1, 6, 7, 31, 32, 34, 64, u32::MAX]) } else { n };
    dct_call(n, block)
}

/// Each place alone at the limit and past it, flat blocks, the largest sums of every coefficient, other lengths and sizes.
fn systematic_dct(out: &mut dyn FnMut(Call)) {
    for n in 2..=5 {
        let (n0, count) = (side(n), side(n) * side(n));
        let alone = |k: usize, v: i64| {
            let mut block = vec![0; count];
            block[k] = v;
            dct_call(n, block)
        };
        for k in (0..count).step_by(if n == 5 { 37 } else { 1 }).chain([count - 1]) {
            out(alone(k, 1));
            out(alone(k, RESIDUAL));
        }
        for k in [0, 1, n0 - 1, n0, count - 1] {
            for v in [-RESIDUAL, RESIDUAL + 1, -RESIDUAL - 1, i64::MAX, i64::MIN] {
                out(alone(k, v));
            }
        }
        for v in [0, 1, -1, 2, 100, 255, -255, 380, 381, 382, 1_023, RESIDUAL, -RESIDUAL] {
            out(dct_call(n, vec![v; count]));
        }
        for k in 0..n0 {
            out(dct_call(n, along(n, k, 0, RESIDUAL)));
            out(dct_call(n, along(n, 0, k, RESIDUAL)));
            out(dct_call(n, along(n, k, n0 - 1 - k, RESIDUAL)));
        }
        for len in [0, 1, count - 1, count + 1, 2 * count] {
            out(dct_call(n, vec![2; len]));
        }
    }
    for n in [0, 1, 6, 7, 31, 32, 33, 64, u32::MAX] {
        for len in [0, 16, 1_024] {
            out(dct_call(n, vec![2; len]));
        }
    }
}

fn coefs(r: &mut Rng, count: usize, dc: i32, ac: i32) -> Vec<i64> {
    let b = bound(r, COEF);
    let near = r.once_in(2);
    (0..count)
        .map(|k| {
            let q = i64::from(if k == 0 { dc } else { ac });
            let v = if near {
                // about a half of a step
                let steps = r.range(0, 1 + b / q.max(1));
                (steps * q + q / 2 + r.range(-1, 1)) / r.range(1, 2)
            } else {
                number(r, b)
            };
            let v = v.clamp(-COEF, COEF);
            if r.once_in(2) { -v } else { v }
        })
        .collect()
}

fn quantizer_length(r: &mut Rng) -> usize {
    match r.below(8) {
        0 => r.pick(&[0, 1, 2, 1_023, 1_024]),
        1 => 256,
        2 => 64,
        3 => r.below(100) as usize,
        _ => 16,
    }
}

fn quantize(r: &mut Rng, kind: u32) -> Call {
    let (dc, ac) = (quantizer(r), quantizer(r));
    let mut args = vec![dc.into(), ac.into()];
    if kind != 25 {
        args.push(r.below(4).into());
        args.push(if r.once_in(16) { 12 } else { r.pick(&WRITTEN_DEPTHS) }.into());
    }
    if kind == 39 {
        args.push(r.range(1, 2).into());
    }
    let count = quantizer_length(r);
    let mut list = coefs(r, count, dc, ac);
    if count > 0 && r.once_in(16) {
        let k = r.below(count as u64) as usize;
        list[k] = beyond(r, COEF);
    }
    call(kind, args, vec![list])
}

fn refused_quantize(r: &mut Rng, kind: u32, wanted: &[u8]) -> Call {
    let has = |a: u8| wanted.contains(&a);
    let (mut dc, mut ac) = (quantizer(r), quantizer(r));
    let count = r.range(1, 20) as usize;
    let mut list = coefs(r, count, dc, ac);
    if has(5) {
        let q = r.pick(&BAD_QUANTS);
        match r.below(3) {
            0 => dc = q,
            1 => ac = q,
            _ => (dc, ac) = (q, r.pick(&BAD_QUANTS)),
        }
        if r.once_in(6) && !has(6) && !has(9) {
            list.clear(); // refused although the list is empty
        }
    }
    if has(6) {
        list.resize(r.pick(&[1_025, 1_026, 2_048]), 9);
    }
    if has(9) {
        let k = r.below(list.len() as u64) as usize;
        list[k] = beyond(r, COEF);
    }
    let mut args: Vec<i128> = vec![dc.into(), ac.into()];
    if kind != 25 {
        args.push(if has(2) { r.pick(&BAD_SIZES).into() } else { r.below(4).into() });
        args.push(if has(1) { r.pick(&BAD_DEPTHS) } else if has(20) { 12 } else { r.pick(&WRITTEN_DEPTHS) }.into());
    }
    if kind == 39 {
        args.push(if has(19) { r.pick(&BAD_RULES).into() } else { r.range(1, 2).into() });
    }
    call(kind, args, vec![list])
}

fn codeable(r: &mut Rng) -> Call {
    let depth = match r.below(3) {
        0 => r.pick(&DEPTHS),
        1 => r.below(70) as u32,
        _ => r.next() as u32,
    };
    call(26, vec![depth.into()], vec![])
}

/// One coefficient, whose best token is found by trying all: the limit is even, as those of all depths are.
fn one_token(r: &mut Rng) -> Call {
    let most = 2 * r.pick(&[0, 1, 2, 5, 33, 300]);
    let (size, q) = (r.below(4) as u32, i64::from(quantizer(r)));
    best::call(size, most, q, best::coefficient(r, size, most, q))
}

/// The record of the worked file of docs/REFERENCE.md.
pub fn example() -> Recon {
    let mut tokens = vec![0; 16];
    tokens[0] = 5;
    let samples = vec![100; 16];
    Recon { x: 0, y: 0, size: 0, tx_type: 0, lossless: true, depth: 8, dc: 4, ac: 4, width: 4, height: 4, stride: 4, tokens, samples }
}

// ---- the systematic part ----

/// The numbers that a call can refuse with, in their order.
pub const REFUSALS: [(u32, &[u8]); 14] = [
    (20, &[2, 3, 4, 6, 9]),
    (21, &[2, 3, 4, 6, 9]),
    (22, &[1, 2, 3, 4, 5, 6, 7, 8, 9]),
    (23, &[6, 9]),
    (24, &[1, 20, 2, 5, 6, 9]),
    (25, &[5, 6, 9]),
    (31, &[1, 2, 3, 4, 5, 6, 7, 8, 9, 15]),
    (32, &[2, 6]),
    (33, &[1, 2, 5, 6, 16, 8, 9]),
    (34, &[2, 3, 4, 6, 9]),
    (35, &[1, 20, 2, 6, 13, 14, 17]),
    (37, &[2, 3, 4, 6, 9, 18]),
    (38, &[2, 6, 9]),
    (39, &[19, 1, 20, 2, 5, 6, 9]),
];

/// A call to which each of these numbers applies (3 and 4, 1 and 20 never do together).
pub fn refused(r: &mut Rng, kind: u32, wanted: &[u8]) -> Call {
    match kind {
        20 | 21 | 34 => refused_driver(r, kind, wanted),
        22 => refused_recon(r, wanted),
        23 => refused_forward(r, wanted),
        31 => refused_report(r, wanted),
        32 => refused_summary(r, wanted),
        33 => refused_replaced(r, wanted),
        35 => refused_writing(r, wanted),
        37 => refused_engine32(r, wanted),
        38 => refused_dct(r, wanted),
        _ => refused_quantize(r, kind, wanted),
    }
}

/// Each of the numbers alone, in pairs, and some in threes.
fn sets(r: &mut Rng, numbers: &[u8], each: usize, f: &mut dyn FnMut(&mut Rng, &[u8])) {
    for (i, a) in numbers.iter().enumerate() {
        for _ in 0..3 * each {
            f(r, &[*a]);
        }
        for b in &numbers[i + 1..] {
            for _ in 0..each {
                f(r, &[*a, *b]);
            }
            let c = r.pick(numbers);
            f(r, &[*a, *b, c]);
        }
    }
}

/// The parts under the public calls.
fn systematic_parts(r: &mut Rng, out: &mut dyn FnMut(Call)) {
    for bits in 0..6u64 {
        for x in 0..1u64 << bits {
            out(call(2, vec![bits.into(), x.into()], vec![]));
        }
    }
    let edges = [i32::MIN, i32::MIN + 1, i32::MIN + 31, i32::MIN + 32, i32::MIN + 33, i32::MAX - 1, i32::MAX];
    for kind in [3, 4] {
        for a in (-130..=260).chain(edges) {
            out(call(kind, vec![a.into()], vec![]));
        }
    }
    for k in 1..=30i64 {
        let half = 1i64 << (k - 1);
        for x in [0, 1, -1, half - 1, half, half + 1, -half - 1, -half, -half + 1, 3 * half, -3 * half, ROUNDED, -ROUNDED] {
            out(call(1, vec![x.into(), k.into()], vec![]));
        }
    }
    for turn in (0..128).chain(edges) {
        for flip in 0..2i128 {
            let (a, b) = pair(r, 32);
            out(call(5, vec![a, b, turn.into(), flip], vec![t32(r, (a, b))]));
            let (a, b) = pair(r, 16);
            out(call(7, vec![a, b, turn.into(), flip], vec![t32(r, (a, b)), s16(r, (a, b))]));
        }
    }
    for (kind, sizes) in [(10, 2..=5u32), (11, 2..=4)] {
        for n in sizes {
            for k in 0..side(n) {
                for v in [1, -1, 1_000, ROW, -ROW] {
                    let mut t = vec![0; 32];
                    t[k] = v;
                    out(call(kind, vec![n.into()], vec![t]));
                }
            }
            for _ in 0..40 {
                out(call(kind, vec![n.into()], vec![row(r, n, ROW)]));
            }
        }
    }
    for shift in [0, 1, 2] {
        for k in 0..4 {
            for v in [1, -1, 2, -2, 3, -3, 5, 100, COEF, -COEF, LEAF, -LEAF] {
                let mut t = vec![0; 4];
                t[k] = v;
                out(call(12, vec![shift], vec![t]));
            }
        }
    }
}

/// Every size and type that nothing refuses.
fn every_block(f: &mut dyn FnMut(u32, u8, bool)) {
    for n in 2..=5u32 {
        for tx_type in 0..4u8 {
            if n < 5 || tx_type == 0 {
                f(n, tx_type, false);
            }
        }
    }
    f(2, 0, true);
    f(2, 255, true);
}

fn systematic_drivers(r: &mut Rng, out: &mut dyn FnMut(Call)) {
    for kind in [20, 21] {
        every_block(&mut |n, tx_type, lossless| {
            let count = side(n) * side(n);
            // one coefficient in every place
            for k in 0..count {
                let mut block = vec![0; count];
                let b = bound(r, COEF);
                block[k] = nonzero(r, b);
                out(driver_call(kind, n, tx_type, lossless, block));
            }
            // the limit and one past it, at the first, the last and some place; the same past the block's end
            for k in [0, 1, r.below(count as u64) as usize, count - 1] {
                for v in [COEF, -COEF, COEF + 1, -COEF - 1] {
                    let mut block = vec![0; count];
                    block[k] = v;
                    out(driver_call(kind, n, tx_type, lossless, block));
                }
            }
            for more in [1usize, 7, 100] {
                let mut block = fill(r, side(n), &|_| 1_000);
                block.extend((0..more).map(|_| beyond(r, COEF)));
                out(driver_call(kind, n, tx_type, lossless, block));
            }
            // every number at the limit, with signs that make the sums grow
            for (si, sj) in [(0, 0), (!0, 0), (0x5555_5555, 0), (0, 0x5555_5555), (0x5555_5555, 0x5555_5555u64)] {
                let block = (0..count)
                    .map(|k| if (si >> (k / side(n)) ^ sj >> (k % side(n))) & 1 == 1u64 { -COEF } else { COEF })
                    .collect();
                out(driver_call(kind, n, tx_type, lossless, block));
            }
            for len in [0, 1, count - 1] {
                out(driver_call(kind, n, tx_type, lossless, vec![3; len]));
            }
        });
    }
}

fn systematic_recon(r: &mut Rng, out: &mut dyn FnMut(Call)) {
    every_block(&mut |n, tx_type, lossless| {
        let size = n - 2;
        let n0 = side(n) as u64;
        let count = side(n) * side(n);
        for depth in DEPTHS {
            let mut put = |r: &mut Rng, w: u64, h: u64, x: u64, y: u64, dc: i32, ac: i32, tokens: Vec<i64>| {
                for padding in [0, 1 + r.below(7)] {
                    let (tokens, samples) = (tokens.clone(), samples(r, (w * h) as usize, depth));
                    let mut c = Recon { x, y, size, tx_type, lossless, depth, dc, ac, width: w, height: h, stride: w, tokens, samples };
                    pad(r, &mut c, padding);
                    out(c.call());
                }
            };
            // the plane cuts the block by each number of columns and rows (at large sizes by some)
            let step = (n0 as usize / 8).max(1);
            for keep in (0..=n0 + 1).step_by(step) {
                let tokens = fill(r, side(n), &|_| 30);
                put(r, keep + 1, n0, 1, 0, 8, 9, tokens.clone());
                put(r, n0, keep + 2, 0, 2, 8, 9, tokens.clone());
                put(r, keep, keep, 0, 0, 8, 9, tokens);
            }
            // outside, near and far; no width, no height
            for x in [6, 7, 65_535, 1 << 33, u64::MAX] {
                put(r, 6, 5, x, 0, 4, 4, vec![9; count]);
                put(r, 6, 5, 0, x, 4, 4, vec![9; count]);
                put(r, 6, 5, x, x, 4, 4, vec![9; count]);
            }
            put(r, 0, 5, 0, 0, 4, 4, vec![1; count]);
            put(r, 5, 0, 0, 0, 4, 4, vec![1; count]);
            put(r, 0, 0, 0, 0, 4, 4, vec![1; count]);
            // a zero residual: samples above the depth are clipped all the same
            for _ in 0..4 {
                put(r, n0, 3, 0, 0, 4, 4, vec![0; count]);
            }
            // the codeable limit, the product's limit and one past each, at place 0 and elsewhere
            for k in [0, 1, count - 1] {
                for q in [1, 4, 7, 8_189, 8_190, 16_379, 16_380, 16_384, 32_735, 32_736, 32_767] {
                    let most = token_bound(size, depth, q);
                    for t in [most, -most, most + 1, -most - 1] {
                        let mut tokens = vec![0; count];
                        tokens[k] = t;
                        let (dc, ac) = if k == 0 { (q, 5) } else { (5, q) };
                        put(r, 4, 4, 0, 0, dc, ac, tokens);
                    }
                }
            }
        }
        // one token in every place
        for k in 0..count {
            let depth = r.pick(&DEPTHS);
            let (dc, ac) = (quantizer(r), quantizer(r));
            let mut tokens = vec![0; count];
            let b = bound(r, token_bound(size, depth, if k == 0 { dc } else { ac }));
            tokens[k] = nonzero(r, b);
            let samples = samples(r, count, depth);
            out(Recon { x: 0, y: 0, size, tx_type, lossless, depth, dc, ac, width: n0, height: n0, stride: n0, tokens, samples }.call());
        }
    });
    // the widest plane and the longest line, and one more; a stride below the width; a line of padding alone; no line at all
    let planes = [
        (65_535, 1, 65_535),
        (1, 65_535, 1),
        (65_536, 1, 65_536),
        (1, 65_536, 1),
        (2, 1, 65_535),
        (2, 1, 65_536),
        (5, 3, 4),
        (5, 3, 5),
        (0, 5, 7),
        (5, 0, 65_535),
        (5, 0, 65_536),
        (0, 0, 65_535),
    ];
    for (w, h, stride) in planes {
        let (x, y) = (u64::max(w, 1) - 1, u64::max(h, 1) - 1);
        let samples = vec![50; (stride * h) as usize];
        out(Recon {
            x,
            y,
            size: 0,
            tx_type: 0,
            lossless: false,
            depth: 8,
            dc: 64,
            ac: 9,
            width: w,
            height: h,
            stride,
            tokens: vec![4; 16],
            samples,
        }
        .call());
    }
}

/// The report: every edge of a class at every size, the total at its limit and past it, every sum at its limit and one past it.
fn systematic_report(r: &mut Rng, out: &mut dyn FnMut(Call)) {
    let one = |size: u32, token: i64, depth: u32| {
        let mut c = example();
        (c.size, c.lossless, c.depth, c.dc, c.ac) = (size, false, depth, 1, 1);
        c.tokens = vec![0; rules::area(size)];
        *c.tokens.last_mut().expect("a token") = token;
        c
    };
    let none = || vec![0; ENTRIES];
    for size in 0..4 {
        for t in EDGES.into_iter().flat_map(|t| [t, -t]) {
            out(reported(one(size, t, 12), none(), none()));
        }
        let more = rules::area(size) as i64;
        for k in 0..ENTRIES {
            // the total, full by one entry: taken, and one past it refused
            for past in [0, 1] {
                let mut counts = none();
                counts[k] = TOTAL - more + past;
                out(reported(one(size, 3, 8), counts, none()));
            }
            // a sum at its limit and one past it
            for past in [0, 1] {
                let (mut counts, mut sums) = (none(), none());
                counts[k] = 7;
                sums[k] = 7 * TOKEN + past;
                out(reported(one(size, 3, 8), counts, sums));
            }
            let mut sums = none();
            sums[k] = 1;
            out(reported(one(size, 3, 8), none(), sums));
        }
        // outside the plane, cut by it, and whole: every token counts
        for (x, y) in [(0, 0), (3, 3), (4, 0), (0, u64::MAX)] {
            let mut c = one(size, 9, 8);
            (c.x, c.y, c.tokens) = (x, y, edges(r, size, 8));
            out(reported(c, none(), none()));
        }
        out(reported(one(size, 262_211, 12), none(), none()));
        out(reported(one(size, 16_451, 8), none(), none()));
    }
    // every count at its greatest
    out(reported(one(0, 1, 8), vec![TOTAL; ENTRIES], none()));
}

/// A block of which these rows hold one number each, in column `at` of a row.
fn rows_block(n: u32, rows: u32, at: &mut dyn FnMut() -> usize) -> Vec<i64> {
    let mut block = vec![0; side(n) * side(n)];
    for i in (0..side(n)).filter(|i| rows >> i & 1 == 1) {
        block[i * side(n) + at()] = if i % 2 == 0 { 40 } else { -9 };
    }
    block
}

/// Which rows are live: every row alone and every row but one, none, all, the first k, the last k; of four rows every pattern.
fn row_patterns(n: u32) -> Vec<u32> {
    let rows = side(n) as u32;
    let all = u32::MAX >> (32 - rows);
    if n == 2 {
        return (0..16).collect();
    }
    let each = |f: &dyn Fn(u32) -> u32| (0..rows).map(f).collect::<Vec<u32>>();
    [vec![0, all], each(&|i| 1 << i), each(&|i| all ^ 1 << i), each(&|i| all >> i), each(&|i| all << i & all)].concat()
}

/// The rows of a block: each pattern with its numbers in the first, the last and some column; blocks that are longer; the driver's row
/// transforms of the same blocks, by every type; each single bit, and the empty and the full number, as what a refusal leaves.
fn systematic_rows(r: &mut Rng, out: &mut dyn FnMut(Call)) {
    for n in 2..=5u32 {
        let last = side(n) - 1;
        for rows in row_patterns(n) {
            let lent = strange_summary(r);
            out(summary_call(n, rows_block(n, rows, &mut || 0), lent));
            out(summary_call(n, rows_block(n, rows, &mut || last), !rows));
            let mut block = rows_block(n, rows, &mut || r.below(last as u64 + 1) as usize);
            block.extend([7, i64::MIN, 0, i64::MAX]);
            out(summary_call(n, block, 0));
        }
        for v in [1, -1, i64::MAX, i64::MIN] {
            let mut block = vec![0; side(n) * side(n)];
            block[side(n) + 1] = v;
            out(summary_call(n, block, 0));
        }
        out(summary_call(n, vec![3; side(n) * side(n) - 1], 5));
    }
    for lent in (0..32).map(|i| 1 << i).chain([0, u32::MAX, 0x8000_0001, 0x7fff_fffe]) {
        out(summary_call(r.pick(&[0, 1, 6, u32::MAX]), vec![1; 16], lent));
    }
    every_block(&mut |n, tx_type, lossless| {
        let last = side(n) - 1;
        let mut put = |block| out(driver_call(34, n, tx_type, lossless, block));
        for rows in row_patterns(n) {
            put(rows_block(n, rows, &mut || 0));
            put(rows_block(n, rows, &mut || last));
            put(rows_block(n, rows, &mut || r.below(last as u64 + 1) as usize));
        }
        // place 0 alone, and with each other number of row 0; what follows the block is neither seen nor counted
        for k in 0..=last {
            let mut block = vec![0; side(n) * side(n)];
            (block[0], block[k]) = (16, 33);
            put(block.clone());
            block.extend([1, 2, i64::MAX]);
            put(block);
        }
        let mut block = vec![0; side(n) * side(n)];
        block.push(9);
        put(block);
    });
    systematic_replaced(r, out);
}

/// One token into each corner of a block, its first and last row: as another number, as zero where its row had more and where it had
/// not, as a token whose coefficient is zero; beside the block's own summary, and beside others, of which only one bit moves.
fn systematic_replaced(r: &mut Rng, out: &mut dyn FnMut(Call)) {
    for size in 0..4u32 {
        let (n0, count) = (side(size + 2) as u64, rules::area(size) as u64);
        for place in [0, 1, n0 - 1, n0, count - n0, count - 2, count - 1] {
            let row = (place / n0) as u32;
            for depth in DEPTHS {
                let q = if size == 3 { 1 } else { 7 };
                let mut put = |token: i64, block: &[i64], summary: u32| {
                    out(Replaced { size, place, token, dc: q, ac: q, depth, block: block.to_vec(), summary }.call());
                };
                let none = vec![0; count as usize];
                let mut alone = none.clone();
                alone[place as usize] = 5;
                let mut beside = alone.clone();
                beside[(place ^ 1) as usize] = -3;
                for token in [0, 1, -1, 2, 3, -3, rules::codeable(depth), rules::codeable(depth) + 1] {
                    for block in [&none, &alone, &beside] {
                        put(token, block, own_summary(size, block));
                    }
                }
                // the row's bit as it was not, every other bit any
                for token in [0, 1, 40] {
                    for summary in [0, u32::MAX, 1 << row, !(1 << row), r.next() as u32] {
                        put(token, &alone, summary);
                        put(token, &beside, summary);
                    }
                }
            }
        }
        // 8 and 9 are of the new token alone, under its place's quantizer: a block beyond every limit is none of it
        for (place, dc, ac, token) in [
            (0, 32_767, 1, 262_210),
            (1, 32_767, 1, 262_210),
            (0, 1, 32_767, 262_210),
            (1, 1, 32_767, 262_210),
            (0, 32_767, 1, 65_538),
            (0, 32_767, 1, 65_539),
            (1, 1, 32_767, -131_076),
            (1, 1, 32_767, -131_077),
            (0, 16_384, 1, 131_072),
            (1, 1, 16_384, -262_144),
            (1, 1, 1, 262_211),
            (1, 1, 1, i64::MIN),
        ] {
            let block = vec![i64::MAX; count as usize];
            out(Replaced { size, place, token, dc, ac, depth: 12, block, summary: 3 }.call());
        }
        for place in [count, count + 1, u64::MAX] {
            out(Replaced { size, place, token: 1, dc: 4, ac: 4, depth: 8, block: vec![0; count as usize], summary: 1 }.call());
        }
        for len in [0, count - 1, count + 1] {
            out(Replaced { size, place: 0, token: 1, dc: 4, ac: 4, depth: 8, block: vec![0; len as usize], summary: 1 }.call());
        }
    }
}

fn systematic_coder(out: &mut dyn FnMut(Call)) {
    for k in 0..16 {
        for v in [1, -1, 2, -3, 5, FORWARD, -FORWARD, FORWARD + 1, -FORWARD - 1, i64::MIN] {
            let mut block = vec![0; 16];
            block[k] = v;
            out(call(23, vec![], vec![block]));
        }
    }
    for len in [0usize, 1, 4, 15, 17, 32] {
        out(call(23, vec![], vec![vec![2; len]]));
    }
    for s in 0..16u64 {
        let block = (0..16).map(|k| if (s >> (k % 4) ^ s >> (k / 4)) & 1 == 1 { -FORWARD } else { FORWARD }).collect();
        out(call(23, vec![], vec![block]));
    }

    for size in 0..4i128 {
        for depth in DEPTHS {
            // small quantizers against every small coefficient, halves among them
            for q in [1, 2, 3, 4, 5, 7, 8, 32_767i128] {
                let list: Vec<i64> = (-12..=12).collect();
                out(call(24, vec![q, q, size, depth.into()], vec![list.clone()]));
                for rule in 0..4 {
                    out(call(39, vec![q, q, size, depth.into(), rule], vec![list.clone()]));
                }
                if size == 0 && depth == 8 {
                    out(call(25, vec![q, q], vec![list]));
                }
                // a half, the cap and the limit, at place 0 and elsewhere
                let top = rules::codeable(depth) * q as i64;
                let mut list = vec![];
                for v in [16_383, 16_384, 49_150, top, top + 1, COEF] {
                    list.push(v.min(COEF));
                    list.push(-v.min(COEF));
                }
                out(call(24, vec![q, 3, size, depth.into()], vec![list.clone()]));
                out(call(24, vec![3, q, size, depth.into()], vec![list.clone()]));
                out(call(39, vec![q, 3, size, depth.into(), 2], vec![list.clone()]));
                out(call(39, vec![3, q, size, depth.into(), 2], vec![list]));
            }
            for len in [0usize, 1, 2, 16, 64, 256, 1_023, 1_024, 1_025] {
                out(call(24, vec![4, 9, size, depth.into()], vec![vec![-31; len]]));
                if size == 0 {
                    out(call(25, vec![4, 9], vec![vec![-31; len]]));
                }
            }
            for k in [0usize, 1, 15] {
                for v in [COEF, -COEF, COEF + 1, -COEF - 1, i64::MAX, i64::MIN] {
                    let mut list = vec![0; 16];
                    list[k] = v;
                    out(call(24, vec![2, 3, size, depth.into()], vec![list.clone()]));
                    if size == 0 {
                        out(call(25, vec![2, 3], vec![list]));
                    }
                }
            }
        }
    }
    for depth in (0..70).chain([255, 65_535, u32::MAX - 1, u32::MAX]) {
        out(call(26, vec![depth.into()], vec![]));
    }
}

/// The numbers that docs/REFERENCE.md itself works out.
pub fn worked(out: &mut dyn FnMut(Call)) {
    for (bits, x) in [(5, 1), (3, 6)] {
        out(call(2, vec![bits, x], vec![]));
    }
    for angle in [100, 65, -32] {
        out(call(3, vec![angle], vec![]));
    }
    for angle in [32, i128::from(i32::MIN)] {
        out(call(4, vec![angle], vec![]));
    }
    out(call(12, vec![0], vec![vec![5, 0, 0, 0]]));
    for kind in [20, 21] {
        for v in [16, 14, -16, 32] {
            let mut block = vec![0; 16];
            block[0] = v;
            out(driver_call(kind, 2, 0, false, block));
        }
    }
    out(example().call());
    let one = |size: u32, k: usize, token: i64, dc: i32, ac: i32| {
        let mut tokens = vec![0; rules::area(size)];
        tokens[k] = token;
        let samples = vec![100; 16];
        Recon { x: 0, y: 0, size, tx_type: 0, lossless: false, depth: 8, dc, ac, width: 4, height: 4, stride: 4, tokens, samples }
    };
    for t in [5, -5] {
        out(one(3, 0, t, 7, 1).call());
        out(one(3, 1, t, 1, 7).call());
    }
    for (size, q) in [(0, 8_159), (0, 8_160), (3, 16_318), (3, 16_319)] {
        out(one(size, 1, 16_450, 1, q).call());
        out(one(size, 1, 16_451, 1, q).call());
    }
    for (size, token, q) in [
        (0, 65_536, 32_767),
        (0, 65_538, 32_767),
        (0, 65_539, 32_767),
        (0, 131_072, 16_384),
        (3, 131_076, 32_767),
        (3, 131_077, 32_767),
        (3, 262_144, 16_384),
    ] {
        out(Recon { depth: 12, ..one(size, 1, token, 1, q) }.call());
        out(Recon { depth: 12, ..one(size, 0, -token, q, 1) }.call());
    }
    for kind in [20, 21] {
        for v in [COEF, -COEF, COEF + 1, -COEF - 1] {
            let mut block = vec![0; 16];
            block[0] = v;
            out(driver_call(kind, 2, 0, false, block));
        }
    }
    for v in [COEF, -COEF, COEF + 1, -COEF - 1] {
        out(call(24, vec![32_767, 32_767, 0, 10], vec![vec![v]]));
        out(call(25, vec![32_767, 32_767], vec![vec![v]]));
    }
    for x in [4, 6] {
        let mut c = one(0, 0, 40, 16, 16);
        (c.x, c.y, c.width, c.height, c.stride, c.samples) = (x, 3, 6, 5, 6, (100..130).collect());
        out(c.call());
        let mut c = one(0, 0, 40, 16, 16);
        (c.x, c.y, c.width, c.height, c.stride, c.samples) = (x, 3, 6, 5, 8, (100..140).collect());
        out(c.call());
    }
    for (kind, q, list) in [(24, 4, vec![2, 3, 6, 7]), (25, 4, vec![2, 3, 6, 7])] {
        let mut args = vec![q, q];
        if kind == 24 {
            args.extend([0, 8]);
        }
        out(call(kind, args, vec![list]));
    }
    out(call(24, vec![3, 3, 3, 8], vec![vec![2]]));
    for rule in [1, 2] {
        out(call(39, vec![4, 4, 0, 8, rule], vec![vec![2, -2, 3, 6, 7]]));
        out(call(39, vec![4, 4, 3, 8, rule], vec![vec![1]]));
        out(call(39, vec![3, 3, 3, 8, rule], vec![vec![2]]));
    }
    for coef in [2, 3, 6, 7] {
        out(best::call(0, rules::codeable(8), 4, coef));
    }
    out(best::call(3, rules::codeable(8), 3, 2));
    for depth in DEPTHS {
        out(call(26, vec![depth.into()], vec![]));
    }
    out(files::as_call(&files::worked()));
    worked_rows(out);
    out(driver_call(37, 5, 0, false, turned_over()));
    for (n, v) in [(2, 100), (2, 4_095), (3, 100), (4, 100), (2, -1)] {
        out(dct_call(n, vec![v; side(n) * side(n)]));
    }
    out(dct_call(2, (1..=16).collect()));
}

/// Rows 0 and 2 of four; the last row alone; place 0 alone and nothing under each transform that there is; a row that a token empties; the token 1 of
/// 32 by 32 under quantizer 1, whose coefficient is 0.
fn worked_rows(out: &mut dyn FnMut(Call)) {
    out(summary_call(2, rows_block(2, 5, &mut || 1), 0));
    out(summary_call(5, rows_block(5, 1 << 31, &mut || 31), 0));
    out(summary_call(2, vec![0; 16], 7));
    every_block(&mut |n, tx_type, lossless| {
        for v in [16, 0] {
            let mut block = vec![0; side(n) * side(n)];
            block[0] = v;
            out(driver_call(34, n, tx_type, lossless, block));
        }
    });
    out(driver_call(34, 2, 0, false, rows_block(2, 5, &mut || 1)));
    let replaced = |size: u32, place: u64, token: i64, block: Vec<i64>, summary: u32| {
        Replaced { size, place, token, dc: 1, ac: 1, depth: 8, block, summary }.call()
    };
    out(replaced(0, 9, 0, rows_block(2, 5, &mut || 1), 5));
    out(replaced(3, 1_023, 1, vec![0; 1_024], 0));
    out(replaced(3, 1_023, 2, vec![0; 1_024], 0));
    out(replaced(0, 16, 1, vec![0; 16], 0));
}

/// Each call that docs/REFERENCE.md or the form of the code singles out.
pub fn systematic(r: &mut Rng, out: &mut dyn FnMut(Call)) {
    worked(out);
    systematic_parts(r, out);
    systematic_drivers(r, out);
    systematic_recon(r, out);
    systematic_coder(out);
    best::small(5, 4, out);
    systematic_report(r, out);
    systematic_rows(r, out);
    systematic_writing(out);
    systematic_engine32(r, out);
    systematic_dct(out);
    for (kind, numbers) in REFUSALS {
        sets(r, numbers, 5, &mut |r, wanted| out(refused(r, kind, wanted)));
    }
    files::systematic(r, &mut |f| {
        if f.len() <= LINE_FILE {
            out(files::as_call(&f));
        }
    });
}

fn file(r: &mut Rng) -> Call {
    loop {
        let f = files::random(r, true);
        if f.len() <= LINE_FILE {
            return files::as_call(&f);
        }
    }
}

/// One random call. Most are of the calls that do the work.
pub fn random(r: &mut Rng) -> Call {
    match r.below(118) {
        0 => round2(r),
        1 => brev(r),
        2 => call(r.pick(&[3, 4]), vec![angle(r)], vec![]),
        3 => butterfly(r),
        4 => hadamard(r),
        5 => sb(r),
        6 => sh(r),
        7..=13 => dct(r),
        14..=20 => adst(r),
        21..=23 => wht(r),
        24..=40 => driver(r, 20),
        41..=51 => driver(r, 21),
        52..=75 => recon(r),
        76..=79 => forward(r),
        80..=85 => quantize(r, 24),
        86..=87 => quantize(r, 25),
        88 => codeable(r),
        89..=91 => file(r),
        92..=94 => report(r),
        95..=96 => row_summary(r),
        97..=99 => replaced(r),
        100..=102 => driver(r, 34),
        103..=104 => writing(r),
        105 => one_token(r),
        106..=107 => engine32(r),
        108..=109 => forward_dct(r),
        110..=112 => quantize(r, 39),
        _ => {
            let (kind, numbers) = r.pick(&REFUSALS);
            let wanted: Vec<u8> = (0..r.range(1, 3)).map(|_| r.pick(numbers)).collect();
            refused(r, kind, &wanted)
        }
    }
}
