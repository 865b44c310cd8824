//! oxideav's functions as they stand (oracle/rust) against those of the patched crate, on the cases of oracle/harness and on blocks with intra
//! prediction before them: `trial [SEED] [COUNT]`. The last line is `N passed, M failed`.
#![allow(dead_code)]
#[path = "../../../../oracle/rust/fwd_transform.rs"]
mod fwd_transform;
#[path = "../../../../oracle/rust/idct.rs"]
mod idct;
#[path = "../../../../oracle/rust/intra.rs"]
mod intra;
#[path = "../../../../oracle/rust/reconstruct.rs"]
mod reconstruct;

#[path = "../../../../oracle/harness/best.rs"]
mod best;
#[path = "../../../../oracle/harness/cases.rs"]
mod cases;
#[path = "../../../../oracle/harness/files.rs"]
mod files;
#[path = "../../../../oracle/harness/line.rs"]
mod line;
#[path = "../../../../oracle/harness/narrow.rs"]
mod narrow;
#[path = "../../../../oracle/harness/rng.rs"]
mod rng;
#[path = "../../../../oracle/harness/rules.rs"]
mod rules;
#[path = "../../../../oracle/harness/vbk.rs"]
mod vbk;

use intra::{Plane, PredMode};
use line::Call;
use rng::Rng;

/// A call of kind 22 whose samples fill its plane without padding: taken, both give the same samples; refused, the number is the rules', and the samples stay.
fn block(c: &Call) -> Option<bool> {
    if c.kind != 22 {
        return None;
    }
    let a = |i: usize| c.args[i];
    let (width, height) = (a(8) as usize, a(9) as usize);
    let before: Vec<u16> = c.lists[1].iter().map(|s| *s as u16).collect();
    if width.checked_mul(height) != Some(before.len()) || a(10) != a(8) {
        return None;
    }
    let (tx_type, tokens) = (a(3) as u8, &c.lists[0][..]);
    let b = vp9::Block {
        x: a(0) as usize,
        y: a(1) as usize,
        tx_sz: a(2) as u32,
        tokens,
        dc_quant: a(6) as i32,
        ac_quant: a(7) as i32,
        lossless: a(4) != 0,
        bit_depth: a(5) as u32,
    };
    let want = rules::reconstruct(&rules::Recon {
        x: b.x as u64,
        y: b.y as u64,
        size: b.tx_sz,
        tx_type,
        lossless: b.lossless,
        depth: b.bit_depth,
        dc: b.dc_quant,
        ac: b.ac_quant,
        width: width as u64,
        height: height as u64,
        stride: width as u64,
        tokens,
        samples: before.len(),
    });
    let mut ours = before.clone();
    let got = vp9::block(width, height, &mut ours, b, tx_type).err().map_or(0, |r| r.number());
    if want != 0 {
        return Some(got == u32::from(want) && ours == before);
    }
    let mut theirs = Plane::new(width, height);
    theirs.samples_mut().copy_from_slice(&before);
    reconstruct::reconstruct_block(&mut theirs, b.x, b.y, b.tx_sz, tokens, b.dc_quant, b.ac_quant, tx_type, b.lossless, b.bit_depth);
    Some(got == 0 && theirs.samples() == ours)
}

const SIDE: usize = 64;

/// A block of a random place, size and mode, predicted and reconstructed by both.
fn intra_block(r: &mut Rng) -> bool {
    let bit_depth = r.pick(&[8, 10, 12]);
    let lossless = r.once_in(8);
    let tx_sz = if lossless { 0 } else { r.below(4) as u32 };
    let n0 = 4usize << tx_sz;
    let mut place = || r.below((SIDE / n0) as u64) as usize * n0;
    let (x, y) = (place(), place());
    let mut tokens = vec![0i64; n0 * n0];
    for _ in 0..=r.below(n0 as u64) {
        let k = r.below((n0 * n0) as u64) as usize;
        tokens[k] = r.range(-60, 60);
    }
    let (dc_quant, ac_quant) = if lossless { (4, 4) } else { (r.range(4, 300) as i32, r.range(4, 300) as i32) };
    let (mode, edges) = (r.below(10) as u8, [x > 0, y > 0, r.once_in(2)]);
    let mut ours: Vec<u16> = (0..SIDE * SIDE).map(|_| r.below(1 << bit_depth) as u16).collect();
    let mut theirs = Plane::new(SIDE, SIDE);
    theirs.samples_mut().copy_from_slice(&ours);
    let named = PredMode::from_raw(mode).expect("a mode of intra prediction");
    reconstruct::reconstruct_intra_block(
        &mut theirs, x, y, edges[0], edges[1], edges[2], tx_sz, named, SIDE - 1, SIDE - 1, &tokens, dc_quant, ac_quant, lossless, bit_depth,
    );
    let b = vp9::Block { x, y, tx_sz, tokens: &tokens, dc_quant, ac_quant, lossless, bit_depth };
    vp9::intra_block(SIDE, SIDE, &mut ours, b, mode, edges).is_ok() && theirs.samples() == ours
}

fn main() {
    let mut words = std::env::args().skip(1).map(|w| w.parse::<u64>().expect("trial [SEED] [COUNT]"));
    let (seed, count) = (words.next().unwrap_or(1), words.next().unwrap_or(4_000));
    let mut r = Rng::new(seed);
    let mut tally = [[0u64; 2]; 2];
    let mut put = |c: Call| {
        if let Some(alike) = block(&c) {
            tally[0][usize::from(!alike)] += 1;
        }
    };
    cases::systematic(&mut r, &mut put);
    for _ in 0..count {
        put(cases::random(&mut r));
    }
    for _ in 0..count {
        tally[1][usize::from(!intra_block(&mut r))] += 1;
    }
    for (name, [alike, not]) in ["reconstruct_block", "reconstruct_intra_block"].iter().zip(tally) {
        println!("patched {name:<24} {alike:>7} alike {not:>4} not");
    }
    let (same, differ) = (tally[0][0] + tally[1][0], tally[0][1] + tally[1][1]);
    println!("{same} passed, {differ} failed");
    std::process::exit(i32::from(differ != 0));
}
