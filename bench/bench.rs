//! Our calls beside the Rust's, on the same inputs, in one process: ns a block, least of many rounds, the two sides taking turns.
//! bench ROUNDS CASE: only the cases whose name, as printed, has CASE in it.
//! Inputs are copied before the clock starts; a round is one pass over all blocks of a case.
#![allow(dead_code)]
#[path = "../oracle/rust/fwd_transform.rs"]
mod fwd_transform;
#[path = "../oracle/rust/idct.rs"]
mod idct;
#[path = "../oracle/rust/intra.rs"]
mod intra;
#[path = "../oracle/rust/reconstruct.rs"]
mod reconstruct;
#[path = "../bindings/rust/src/archive.rs"]
mod archive;

#[cfg(libvpx)]
mod vpx;

use std::hint::black_box;
use std::time::Instant;

mod ours {
    use crate::archive as c;
    pub fn inverse_transform_2d(block: &mut [i64], n: u32, tx_type: u8, lossless: bool) -> u32 {
        unsafe { c::bracetwill_inverse_transform_2d(block.as_mut_ptr(), block.len(), n, tx_type, lossless) }
    }
    pub fn inverse_transform_2d_32(block: &mut [i64], n: u32, tx_type: u8, lossless: bool) -> u32 {
        unsafe { c::bracetwill_inverse_transform_2d_32(block.as_mut_ptr(), block.len(), n, tx_type, lossless) }
    }
    pub fn inverse_transform_2d_rows(block: &mut [i64], n: u32, tx_type: u8, lossless: bool) -> u32 {
        let mut rows = 0;
        unsafe { c::bracetwill_inverse_transform_2d_rows(block.as_mut_ptr(), block.len(), n, tx_type, lossless, &mut rows) };
        rows
    }
    pub fn forward_dct_2d(block: &mut [i64], n: u32) -> u32 {
        unsafe { c::bracetwill_forward_dct_2d(block.as_mut_ptr(), block.len(), n) }
    }
    #[allow(clippy::too_many_arguments)]
    pub fn reconstruct_block(
        samples: &mut [u16],
        size: (usize, usize),
        at: (usize, usize),
        tx_sz: u32,
        tokens: &[i64],
        quants: (i32, i32),
        tx_type: u8,
        lossless: bool,
        depth: u32,
    ) -> u32 {
        let (p, count) = (samples.as_mut_ptr(), samples.len());
        unsafe { c::bracetwill_reconstruct_block(p, count, size.0, size.1, size.0, at.0, at.1, tx_sz, tokens.as_ptr(), tokens.len(), quants.0, quants.1, tx_type, lossless, depth) }
    }
    #[allow(clippy::too_many_arguments)]
    pub fn reconstruct_block_report(
        samples: &mut [u16],
        size: (usize, usize),
        at: (usize, usize),
        tx_sz: u32,
        tokens: &[i64],
        quants: (i32, i32),
        tx_type: u8,
        lossless: bool,
        depth: u32,
        report: &mut ([u32; 44], [u64; 44]),
    ) -> u32 {
        let (p, count) = (samples.as_mut_ptr(), samples.len());
        unsafe {
            c::bracetwill_reconstruct_block_report(
                p, count, size.0, size.1, size.0, at.0, at.1, tx_sz, tokens.as_ptr(), tokens.len(), quants.0, quants.1, tx_type, lossless, depth, &mut report.0, &mut report.1,
            )
        }
    }
}

/// What libvpx's transforms are chosen by (vpx.rs).
pub struct Block {
    pub size: u32,
    pub kind: u8,
    pub lossless: bool,
    pub eob: u32,
    pub depth: u32,
}

struct Rng(u64);
impl Rng {
    fn next(&mut self) -> u64 {
        self.0 ^= self.0 << 13;
        self.0 ^= self.0 >> 7;
        self.0 ^= self.0 << 17;
        self.0
    }
    fn within(&mut self, m: i64) -> i64 {
        (self.next() % (2 * m as u64 + 1)) as i64 - m
    }
}

const DENSITY: [&str; 3] = ["dense", "sparse", "dc"];

/// A block of coefficients: all places, the low quarter with gaps, or place 0 alone.
fn coefficients(rng: &mut Rng, n0: usize, density: usize) -> Vec<i64> {
    let mut b = vec![0i64; n0 * n0];
    match density {
        0 => b.iter_mut().for_each(|v| *v = rng.within(2000)),
        1 => {
            for i in 0..n0 / 4 + 1 {
                for j in 0..n0 / 4 + 1 {
                    if rng.next() % 2 == 0 {
                        b[i * n0 + j] = rng.within(2000);
                    }
                }
            }
            b[1] = 7;
        }
        _ => b[0] = rng.within(2000) | 1,
    }
    b
}

/// Least ns a block of `side` over rounds that alternate.
fn measure(rounds: usize, count: usize, mut prepare: impl FnMut(), sides: &mut [&mut dyn FnMut()]) -> Vec<f64> {
    let mut least = vec![f64::MAX; sides.len()];
    for _ in 0..rounds {
        for (s, side) in sides.iter_mut().enumerate() {
            prepare();
            let t = Instant::now();
            side();
            let ns = t.elapsed().as_nanos() as f64 / count as f64;
            if ns < least[s] {
                least[s] = ns;
            }
        }
    }
    least
}

/// Types of a size, with the lossless blocks of 4 by 4 at the end.
fn kinds(n: u32) -> &'static [(u8, bool)] {
    match n {
        2 => &[(0, false), (1, false), (2, false), (3, false), (0, true)],
        5 => &[(0, false)],
        _ => &[(0, false), (1, false), (2, false), (3, false)],
    }
}

fn name(n0: usize, (ty, lossless): (u8, bool), density: usize) -> String {
    let kind = if lossless { "wht".to_string() } else { format!("{ty}") };
    format!("{n0:>2} x {n0:<2} | {kind:<3} | {:<6}", DENSITY[density])
}

/// The last three columns are the call that counts its row transforms, and how many of these a block has in the mean.
fn driver(rounds: usize, only: &str) {
    println!("2D driver\n| block   | type | density | Rust ns | ours ns | ours / Rust | with rows ns | with / without | rows |");
    for n in 2..=5u32 {
        let n0 = 1usize << n;
        for &(ty, lossless) in kinds(n) {
            for density in 0..3 {
                let name = name(n0, (ty, lossless), density);
                if !name.contains(only) {
                    continue;
                }
                let count = (1 << 16) / (n0 * n0);
                let mut rng = Rng(0x9e37_79b9_7f4a_7c15 ^ (n as u64) << 8 ^ ty as u64);
                let input: Vec<i64> = (0..count).flat_map(|_| coefficients(&mut rng, n0, density)).collect();
                let work = std::cell::RefCell::new(input.clone());
                let mut theirs = || {
                    let mut w = work.borrow_mut();
                    for b in w.chunks_exact_mut(n0 * n0) {
                        idct::inverse_transform_2d(black_box(b), black_box(n), black_box(ty), black_box(lossless));
                    }
                };
                let mut own = || {
                    let mut w = work.borrow_mut();
                    for b in w.chunks_exact_mut(n0 * n0) {
                        ours::inverse_transform_2d(black_box(b), black_box(n), black_box(ty), black_box(lossless));
                    }
                };
                let transformed = std::cell::Cell::new(0);
                let mut counting = || {
                    let mut w = work.borrow_mut();
                    let rows = w.chunks_exact_mut(n0 * n0).map(|b| ours::inverse_transform_2d_rows(black_box(b), black_box(n), black_box(ty), black_box(lossless)));
                    transformed.set(rows.sum());
                };
                theirs();
                let want = work.borrow().clone();
                for side in [&mut own as &mut dyn FnMut(), &mut counting] {
                    work.borrow_mut().copy_from_slice(&input);
                    side();
                    assert!(want == *work.borrow(), "the results differ: {name}");
                }
                let t = measure(rounds, count, || work.borrow_mut().copy_from_slice(&input), &mut [&mut theirs, &mut own, &mut counting]);
                let rows = f64::from(transformed.get()) / count as f64;
                println!("| {name} | {:.1} | {:.1} | {:.2} | {:.1} | {:.2} | {rows:.1} |", t[0], t[1], t[1] / t[0], t[2], t[2] / t[1]);
            }
        }
    }
}

const NARROW: [&str; 5] = ["small", "low", "dc", "large", "leaves"];

/// A block for the 32-bit engine by what it meets there: magnitudes that sum to at most 16,384, at every place, in the low quarter, or at place 0;
/// a larger sum, whose numbers stay within 16 bits; and numbers that leave them.
fn narrow_block(rng: &mut Rng, n: u32, ty: u8, lossless: bool, kind: usize) -> Vec<i64> {
    let n0 = 1usize << n;
    loop {
        let mut b = vec![0i64; n0 * n0];
        match kind {
            0 => b.iter_mut().for_each(|v| *v = rng.within(28_000 / (n0 * n0) as i64)),
            1 => (0..n0 * n0).filter(|k| k / n0 < n0 / 2 && k % n0 < n0 / 2).for_each(|k| b[k] = rng.within(100_000 / (n0 * n0) as i64) / (1 + (k % n0 + k / n0) as i64)),
            2 => b[0] = rng.within(2000) | 1,
            3 => b.iter_mut().for_each(|v| *v = rng.within(200_000 / (n0 * n0) as i64)),
            _ => b.iter_mut().for_each(|v| *v = if rng.next() % 2 == 0 { 32_767 } else { -32_768 }),
        }
        let sum: i64 = b.iter().map(|v| v.abs()).sum();
        let passes = ours::inverse_transform_2d_32(&mut b.clone(), n, ty, lossless) == 0;
        if passes == (kind < 4) && (sum <= 16_384) == (kind < 3) {
            return b;
        }
    }
}

/// The 32-bit engine beside the Rust, our 64-bit one and, where it is installed, libvpx in plain C for samples of 8 bits, which adds the residual
/// to them. Where the engine answers 18 the others do their work, and it touches nothing; lossless blocks hardly ever do.
fn engine(rounds: usize, only: &str) {
    println!("32-bit engine\n| block   | type | numbers | Rust ns | 64 bits ns | libvpx C ns | 32 bits ns | 32 bits / Rust | 32 / 64 bits | 32 bits / C |");
    for n in 2..=5u32 {
        let n0 = 1usize << n;
        for &(ty, lossless) in kinds(n) {
            for (kind, word) in NARROW.iter().enumerate() {
                let name = format!("{n0:>2} x {n0:<2} | {:<3} | {word:<6}", if lossless { "wht".to_string() } else { format!("{ty}") });
                if !name.contains(only) || lossless && kind == 4 {
                    continue;
                }
                let count = (1 << 16) / (n0 * n0);
                let mut rng = Rng(0x9e37_79b9_7f4a_7c15 ^ (n as u64) << 8 ^ ty as u64);
                let input: Vec<i64> = (0..count).flat_map(|_| narrow_block(&mut rng, n, ty, lossless, kind)).collect();
                let work = std::cell::RefCell::new(input.clone());
                let mut theirs = || work.borrow_mut().chunks_exact_mut(n0 * n0).for_each(|b| idct::inverse_transform_2d(black_box(b), black_box(n), black_box(ty), black_box(lossless)));
                let mut wide = || {
                    for b in work.borrow_mut().chunks_exact_mut(n0 * n0) {
                        ours::inverse_transform_2d(black_box(b), black_box(n), black_box(ty), black_box(lossless));
                    }
                };
                let mut narrow = || {
                    for b in work.borrow_mut().chunks_exact_mut(n0 * n0) {
                        ours::inverse_transform_2d_32(black_box(b), black_box(n), black_box(ty), black_box(lossless));
                    }
                };
                let coefs: Vec<i32> = input.iter().map(|&v| v as i32).collect();
                let mut samples = vec![128u8; n0 * n0];
                let mut libvpx = || added(&coefs, &mut samples, n0, &Block { size: n - 2, kind: ty, lossless, eob: if kind == 2 { 1 } else { (n0 * n0) as u32 }, depth: 8 });
                theirs();
                let want = if kind < 4 { work.borrow().clone() } else { input.clone() };
                work.borrow_mut().copy_from_slice(&input);
                narrow();
                assert!(want == *work.borrow(), "the results differ: {name}");
                let t = measure(rounds, count, || work.borrow_mut().copy_from_slice(&input), &mut [&mut theirs, &mut wide, &mut narrow, &mut libvpx]);
                let c = if cfg!(libvpx) { (format!("{:.1}", t[3]), format!("{:.2}", t[2] / t[3])) } else { (String::new(), String::new()) };
                println!("| {name} | {:.1} | {:.1} | {} | {:.1} | {:.2} | {:.2} | {} |", t[0], t[1], c.0, t[2], t[2] / t[0], t[2] / t[1], c.1);
            }
        }
    }
}

#[cfg(libvpx)]
fn added(coefs: &[i32], samples: &mut [u8], n0: usize, like: &Block) {
    for b in coefs.chunks_exact(n0 * n0) {
        vpx::add8(true, black_box(like), black_box(b), samples, n0);
    }
}
#[cfg(not(libvpx))]
fn added(_: &[i32], _: &mut [u8], _: usize, _: &Block) {}

/// Ours in whole numbers beside the Rust's in f64: the two may differ, by how much `oracle/harness/distance.rs` tells.
fn forward(rounds: usize, only: &str) {
    println!("forward DCT\n| block   | Rust f64 ns | ours ns | ours / Rust |");
    for n in 2..=5u32 {
        let n0 = 1usize << n;
        let name = format!("{n0:>2} x {n0:<2}, forward");
        if !name.contains(only) {
            continue;
        }
        let count = (1 << 16) / (n0 * n0);
        let mut rng = Rng(0x9e37_79b9_7f4a_7c15 ^ n as u64);
        let input: Vec<i64> = (0..count * n0 * n0).map(|_| rng.within(255)).collect();
        let work = std::cell::RefCell::new(input.clone());
        let mut theirs = || work.borrow_mut().chunks_exact_mut(n0 * n0).for_each(|b| fwd_transform::forward_dct_2d(black_box(b), black_box(n)));
        let mut own = || work.borrow_mut().chunks_exact_mut(n0 * n0).for_each(|b| assert!(ours::forward_dct_2d(black_box(b), black_box(n)) == 0));
        theirs();
        let want = work.borrow().clone();
        work.borrow_mut().copy_from_slice(&input);
        own();
        assert!(want.iter().zip(work.borrow().iter()).all(|(a, b)| (a - b).abs() <= 4), "more than 4 apart: {name}");
        let t = measure(rounds, count, || work.borrow_mut().copy_from_slice(&input), &mut [&mut theirs, &mut own]);
        println!("| {n0:>2} x {n0:<2} | {:.1} | {:.1} | {:.2} |", t[0], t[1], t[1] / t[0]);
    }
}

/// Width and height of the plane of whole blocks.
const SIDE: usize = 256;

/// Each block at its own place. Cut: the plane has three quarters of the block's columns. Tokens within 51, quantizers 40 and 50 (lossless 4).
/// The last two columns are the call with a report beside it.
fn rebuild(rounds: usize, only: &str) {
    println!("reconstruct_block\n| block   | type | density | place | Rust ns | ours ns | ours / Rust | with report ns | with / without |");
    for n in 2..=5u32 {
        let n0 = 1usize << n;
        for &(ty, lossless) in kinds(n) {
            for density in 0..3 {
                for cut in [false, true] {
                    let name = format!("{} | {:<5}", name(n0, (ty, lossless), density), if cut { "cut" } else { "whole" });
                    if !name.contains(only) {
                        continue;
                    }
                    let count = SIDE * SIDE / (n0 * n0);
                    let mut rng = Rng(0x9e37_79b9_7f4a_7c15 ^ (n as u64) << 8 ^ ty as u64);
                    let tokens: Vec<i64> = (0..count).flat_map(|_| coefficients(&mut rng, n0, density)).map(|v| v / 40 + v.signum()).collect();
                    let size = if cut { (3 * n0 / 4, count * n0) } else { (SIDE, SIDE) };
                    let start: Vec<u16> = (0..size.0 * size.1).map(|_| (rng.next() % 256) as u16).collect();
                    let places: Vec<(usize, usize)> = (0..count).map(|k| if cut { (0, k * n0) } else { (k * n0 % SIDE, k * n0 / SIDE * n0) }).collect();
                    let (dc, ac) = if lossless { (4, 4) } else { (40, 50) };
                    let plane = std::cell::RefCell::new(intra::Plane::new(size.0, size.1));
                    let prepare = || plane.borrow_mut().samples_mut().copy_from_slice(&start);
                    let mut theirs = || {
                        let mut p = plane.borrow_mut();
                        for (b, &(x, y)) in tokens.chunks_exact(n0 * n0).zip(&places) {
                            let (x, y, sz, b) = (black_box(x), black_box(y), black_box(n - 2), black_box(b));
                            reconstruct::reconstruct_block(&mut p, x, y, sz, b, black_box(dc), black_box(ac), black_box(ty), black_box(lossless), black_box(8));
                        }
                    };
                    let mut own = || {
                        let mut p = plane.borrow_mut();
                        for (b, &(x, y)) in tokens.chunks_exact(n0 * n0).zip(&places) {
                            let (at, sz, b) = ((black_box(x), black_box(y)), black_box(n - 2), black_box(b));
                            ours::reconstruct_block(p.samples_mut(), size, at, sz, b, (black_box(dc), black_box(ac)), black_box(ty), black_box(lossless), black_box(8));
                        }
                    };
                    let mut reported = || {
                        let mut p = plane.borrow_mut();
                        let mut report = ([0; 44], [0; 44]);
                        for (b, &(x, y)) in tokens.chunks_exact(n0 * n0).zip(&places) {
                            let (at, sz, b) = ((black_box(x), black_box(y)), black_box(n - 2), black_box(b));
                            let quants = (black_box(dc), black_box(ac));
                            ours::reconstruct_block_report(p.samples_mut(), size, at, sz, b, quants, black_box(ty), black_box(lossless), black_box(8), &mut report);
                        }
                        assert!(report.0.iter().sum::<u32>() as usize == tokens.len(), "a token was not counted");
                    };
                    prepare();
                    theirs();
                    let want = plane.borrow().samples().to_vec();
                    prepare();
                    own();
                    assert!(want == plane.borrow().samples(), "the samples differ: {name}");
                    prepare();
                    reported();
                    assert!(want == plane.borrow().samples(), "the samples with a report differ: {name}");
                    let t = measure(rounds, count, prepare, &mut [&mut theirs, &mut own, &mut reported]);
                    println!("| {name} | {:.1} | {:.1} | {:.2} | {:.1} | {:.2} |", t[0], t[1], t[1] / t[0], t[2], t[2] / t[1]);
                }
            }
        }
    }
}

fn main() {
    let mut args = std::env::args().skip(1);
    let rounds = args.next().and_then(|a| a.parse().ok()).unwrap_or(60);
    let only = args.next().unwrap_or_default();
    driver(rounds, &only);
    engine(rounds, &only);
    forward(rounds, &only);
    rebuild(rounds, &only);
}
