//! Our calls against the Rust itself (oracle/rust, unchanged) and the refusals of docs/REFERENCE.md (oracle/harness/rules.rs), on the
//! systematic cases of oracle/harness and as many random ones as asked for: `oracle [SEED] [COUNT]`. Prints how many of each call were alike.
#![allow(dead_code)]
#[path = "../../../oracle/rust/fwd_transform.rs"]
mod fwd_transform;
#[path = "../../../oracle/rust/idct.rs"]
mod idct;
#[path = "../../../oracle/rust/intra.rs"]
mod intra;
#[path = "../../../oracle/rust/reconstruct.rs"]
mod reconstruct;

#[path = "../../../oracle/harness/best.rs"]
mod best;
#[path = "../../../oracle/harness/cases.rs"]
mod cases;
#[path = "../../../oracle/harness/files.rs"]
mod files;
#[path = "../../../oracle/harness/forward.rs"]
mod forward;
#[path = "../../../oracle/harness/line.rs"]
mod line;
#[path = "../../../oracle/harness/narrow.rs"]
mod narrow;
#[path = "../../../oracle/harness/rng.rs"]
mod rng;
#[path = "../../../oracle/harness/rules.rs"]
mod rules;
#[path = "../../../oracle/harness/vbk.rs"]
mod vbk;

use bracetwill::Refusal;
use bracetwill::reconstruct::Samples;
use line::Call;
use std::collections::BTreeMap;
use std::panic::{AssertUnwindSafe, catch_unwind};

/// The Rust's own plane, lent to our call as a decoder would.
impl Samples for intra::Plane {
    fn width(&self) -> usize {
        self.width()
    }

    fn height(&self) -> usize {
        self.height()
    }

    fn samples_mut(&mut self) -> &mut [u16] {
        self.samples_mut()
    }
}

/// A plane whose samples need not be stride × height.
#[derive(Clone, PartialEq)]
struct Lent {
    width: usize,
    height: usize,
    stride: usize,
    samples: Vec<u16>,
}

impl Samples for Lent {
    fn width(&self) -> usize {
        self.width
    }

    fn height(&self) -> usize {
        self.height
    }

    fn stride(&self) -> usize {
        self.stride
    }

    fn samples_mut(&mut self) -> &mut [u16] {
        &mut self.samples
    }
}

fn number(result: Result<(), Refusal>) -> u8 {
    result.err().map_or(0, |r| r.number() as u8)
}

/// One list in place. Taken: both sides' calls of one name give one list, and `try_` says so. Refused: `try_` gives the number, the call
/// of the Rust's name panics, and neither changes the list.
fn in_place(
    list: &[i64],
    want: u8,
    theirs: impl Fn(&mut [i64]),
    ours: impl Fn(&mut [i64]),
    tried: impl Fn(&mut [i64]) -> Result<(), Refusal>,
) -> bool {
    let (mut a, mut b, mut c) = (list.to_vec(), list.to_vec(), list.to_vec());
    if want == 0 {
        theirs(&mut a);
        ours(&mut b);
    } else if catch_unwind(AssertUnwindSafe(|| ours(&mut b))).is_ok() {
        return false;
    }
    number(tried(&mut c)) == want && a == b && a == c
}

fn recon(c: &Call) -> bool {
    let a = |i: usize| c.args[i];
    let (x, y, tx_sz, tx_type, lossless) = (a(0) as usize, a(1) as usize, a(2) as u32, a(3) as u8, a(4) != 0);
    let (depth, dc, ac, width, height, stride) = (a(5) as u32, a(6) as i32, a(7) as i32, a(8) as usize, a(9) as usize, a(10) as usize);
    let tokens = &c.lists[0];
    let want = rules::reconstruct(&rules::Recon {
        x: x as u64,
        y: y as u64,
        size: tx_sz,
        tx_type,
        lossless,
        depth,
        dc,
        ac,
        width: width as u64,
        height: height as u64,
        stride: stride as u64,
        tokens,
        samples: c.lists[1].len(),
    });
    let before = Lent { width, height, stride, samples: c.lists[1].iter().map(|s| *s as u16).collect() };
    let mut lent = before.clone();
    let got = number(bracetwill::reconstruct::try_reconstruct_block(&mut lent, x, y, tx_sz, tokens, dc, ac, tx_type, lossless, depth));
    if got != want {
        return false;
    }
    if want != 0 {
        let panics = catch_unwind(AssertUnwindSafe(|| {
            bracetwill::reconstruct::reconstruct_block(&mut lent, x, y, tx_sz, tokens, dc, ac, tx_type, lossless, depth)
        }));
        return panics.is_err() && lent == before;
    }
    // the Rust's plane has no stride: its samples are copied out of their lines, and back
    let place = |k: usize| k / width * stride + k % width;
    let mut theirs = intra::Plane::new(width, height);
    for (k, s) in theirs.samples_mut().iter_mut().enumerate() {
        *s = before.samples[place(k)];
    }
    let mut ours = theirs.clone();
    let mut own = bracetwill::intra::Plane::with_stride(width, height, stride);
    own.samples_mut().copy_from_slice(&before.samples);
    reconstruct::reconstruct_block(&mut theirs, x, y, tx_sz, tokens, dc, ac, tx_type, lossless, depth);
    bracetwill::reconstruct::reconstruct_block(&mut ours, x, y, tx_sz, tokens, dc, ac, tx_type, lossless, depth);
    bracetwill::reconstruct::reconstruct_block(&mut own, x, y, tx_sz, tokens, dc, ac, tx_type, lossless, depth);
    let mut want = before.samples.clone();
    for (k, s) in theirs.samples().iter().enumerate() {
        want[place(k)] = *s;
    }
    theirs.samples() == ours.samples() && own.samples() == want && lent.samples == want
}

/// The block as above, and beside it what the rules make of the report.
fn report(c: &Call) -> bool {
    use bracetwill::report::{Report, reconstruct_block_report, try_reconstruct_block_report};
    let a = |i: usize| c.args[i];
    let (x, y, tx_sz, tx_type, lossless) = (a(0) as usize, a(1) as usize, a(2) as u32, a(3) as u8, a(4) != 0);
    let (depth, dc, ac, width, height, stride) = (a(5) as u32, a(6) as i32, a(7) as i32, a(8) as usize, a(9) as usize, a(10) as usize);
    let list = |k: usize, i: usize| c.lists[k][i];
    let before = Report::of(std::array::from_fn(|i| list(2, i) as u32), std::array::from_fn(|i| list(3, i) as u64));
    let start = Lent { width, height, stride, samples: c.lists[1].iter().map(|s| *s as u16).collect() };
    let plain = Call { kind: 22, args: c.args.clone(), lists: c.lists[..2].to_vec() };
    let (mut lent, mut got) = (start.clone(), before.clone());
    let tokens = &c.lists[0];
    let answer = number(try_reconstruct_block_report(&mut lent, x, y, tx_sz, tokens, dc, ac, tx_type, lossless, depth, &mut got));
    let (mut other, mut panicking) = (start.clone(), before.clone());
    let panics = catch_unwind(AssertUnwindSafe(|| {
        reconstruct_block_report(&mut other, x, y, tx_sz, tokens, dc, ac, tx_type, lossless, depth, &mut panicking)
    }));
    if lent != other || got != panicking || panics.is_err() != (answer != 0) || !recon(&plain) {
        return false;
    }
    // reconstruction's own answer and samples, which `recon` has just held to the Rust
    let mut own = start.clone();
    let want = number(bracetwill::reconstruct::try_reconstruct_block(&mut own, x, y, tx_sz, tokens, dc, ac, tx_type, lossless, depth));
    let refused = rules::bad_report(tokens.len(), &c.lists[2], &c.lists[3]);
    if want != 0 || refused {
        return answer == (if want != 0 { want } else { 15 }) && lent == start && got == before;
    }
    let (mut counts, mut sums) = (c.lists[2].clone(), c.lists[3].clone());
    rules::count(tx_sz, tokens, &mut counts, &mut sums);
    let entries = (0..44).all(|k| i64::from(got.count(k / 11, k % 11)) == counts[k] && got.sum(k / 11, k % 11) as i64 == sums[k]);
    answer == 0 && lent == own && entries && got.total() == before.total() + tokens.len() as u64
}

/// The summary of a block, and what it says of itself, by a look at every row; under a refusal, what the lent number says.
fn summary(c: &Call) -> bool {
    use bracetwill::summary::{RowSummary, row_summary, try_row_summary};
    let (n, block) = (c.args[0] as u32, &c.lists[0]);
    let (want, got) = (rules::row_summary(n, block), try_row_summary(block, n));
    let panics = catch_unwind(|| row_summary(block, n));
    let (rows, says) = match got {
        Ok(s) => (rules::live_rows(n, block), s),
        Err(_) => (rules::set_rows(c.lists[1][0] as u32), RowSummary::from(c.lists[1][0] as u32)),
    };
    let row = |found: Option<usize>| found.map(|i| i as u32);
    number(got.map(|_| ())) == want
        && panics.ok() == got.ok()
        && says.bits() == rules::summary(&rows)
        && says.count() as usize == rows.iter().filter(|live| **live).count()
        && says.first() == row(rows.iter().position(|live| *live))
        && says.last() == row(rows.iter().rposition(|live| *live))
}

fn replaced(c: &Call) -> bool {
    use bracetwill::summary::{RowSummary, replace_token, try_replace_token};
    let a = |i: usize| c.args[i];
    let (size, place, token) = (a(0) as u32, a(1) as usize, a(2) as i64);
    let (dc, ac, depth) = (a(3) as i32, a(4) as i32, a(5) as u32);
    let rule = rules::Replacement { size, place: place as u64, token, dc, ac, depth };
    let lent = c.lists[1][0] as u32;
    let (mut block, mut bits) = (c.lists[0].clone(), lent);
    let want = rule.answer(block.len());
    if want == 0 {
        rule.make(&mut block, &mut bits);
    }
    let (mut tried, mut rows) = (c.lists[0].clone(), RowSummary::from(lent));
    let (mut other, mut others) = (c.lists[0].clone(), RowSummary::from(lent));
    let got = number(try_replace_token(&mut tried, &mut rows, size, place, token, dc, ac, depth));
    let panics = catch_unwind(AssertUnwindSafe(|| replace_token(&mut other, &mut others, size, place, token, dc, ac, depth)));
    got == want && panics.is_err() == (want != 0) && (&tried, rows.bits()) == (&block, bits) && (other, others.bits()) == (block, bits)
}

/// The driver as of kind 20, and its row transforms by a look at every row.
fn driver_rows(c: &Call) -> bool {
    use bracetwill::idct::{inverse_transform_2d_rows, try_inverse_transform_2d_rows};
    let (n, tx_type, lossless) = (c.args[0] as u32, c.args[1] as u8, c.args[2] != 0);
    let want = rules::driver(n, tx_type, lossless, &c.lists[0]);
    let rows = if want == 0 { rules::row_transforms(n, tx_type, lossless, &c.lists[0]) as u32 } else { 0 };
    let counted = std::cell::Cell::new(true);
    let held = |got: u32| counted.set(counted.get() && got == rows);
    let alike = in_place(
        &c.lists[0],
        want,
        |l| idct::inverse_transform_2d(l, n, tx_type, lossless),
        |l| held(inverse_transform_2d_rows(l, n, tx_type, lossless)),
        |l| try_inverse_transform_2d_rows(l, n, tx_type, lossless).map(held),
    );
    alike && counted.get()
}

fn file(c: &Call) -> bool {
    let bytes: Vec<u8> = c.lists[0].iter().map(|b| *b as u8).collect();
    let want = vbk::replay(&bytes);
    let alike = match bracetwill::vbk::replay(&bytes) {
        Err(r) => r.number() == u32::from(want.header),
        Ok(run) => {
            want.header == 0
                && run.bit_depth == u32::from(want.depth)
                && (run.width, run.height) == (want.width.into(), want.height.into())
                && run.samples == want.samples
                && run.answers.iter().map(|a| number(*a)).eq(want.answers.iter().copied())
                && run.touched == want.touched
        }
    };
    alike && bracetwill::vbk::blockrun(&bytes) == vbk::text(&want)
}

/// A file written, where the lists are those of records; and what was written, run. Other lists cannot be made of records.
fn written(c: &Call) -> Option<bool> {
    use bracetwill::vbk::{Clip, Record};
    let list = |k: usize| &c.lists[k];
    let n = list(1).len();
    let even = (2..9).all(|k| list(k).len() == n) && list(8).iter().sum::<i64>() == list(9).len() as i64;
    if !even {
        return None;
    }
    let mut clip = Clip::new(c.args[0] as u8, c.args[1] as u16, c.args[2] as u16, list(0).iter().map(|s| *s as u16).collect());
    let tokens: Vec<i32> = list(9).iter().map(|t| *t as i32).collect();
    let mut from = 0;
    for k in 0..n {
        let count = list(8)[k] as usize;
        clip.push(Record {
            x: list(1)[k] as u16,
            y: list(2)[k] as u16,
            size: list(3)[k] as u8,
            tx_type: list(4)[k] as u8,
            lossless: list(5)[k] as u8,
            dc: list(6)[k] as u16,
            ac: list(7)[k] as u16,
            tokens: &tokens[from..from + count],
        });
        from += count;
    }
    let lent: Vec<u8> = list(10).iter().map(|b| *b as u8).collect();
    let (mut out, mut other) = (lent.clone(), lent.clone());
    let got = clip.try_write(&mut out);
    let panics = catch_unwind(AssertUnwindSafe(|| clip.write(&mut other)));
    let want = vbk::write(c.args[0] as u32, c.args[1] as u16, c.args[2] as u16, &c.lists[..10], lent.len());
    Some(match (got, want) {
        (Ok(length), Ok(file)) => {
            length == file.len() && out[..length] == file && out[length..] == lent[length..] && other == out && panics.ok() == Some(length) && clip.try_bytes() == Ok(file)
        }
        (Err(refusal), Err(number)) => refusal.number() == u32::from(number) && out == lent && other == lent && panics.is_err(),
        _ => false,
    })
}

/// The call's name, its answer by the rules, and whether all is alike; nothing for the parts under the public calls.
fn compare(c: &Call) -> Option<(&'static str, bool)> {
    use bracetwill::fwd_transform as fwd;
    use bracetwill::idct as inverse;
    let name = line::shape(c.kind)?.name;
    let a = |i: usize| c.args[i];
    let alike = match c.kind {
        20 | 21 => {
            let (n, tx_type, lossless) = (a(0) as u32, a(1) as u8, a(2) != 0);
            let want = rules::driver(n, tx_type, lossless, &c.lists[0]);
            if c.kind == 20 {
                in_place(
                    &c.lists[0],
                    want,
                    |l| idct::inverse_transform_2d(l, n, tx_type, lossless),
                    |l| inverse::inverse_transform_2d(l, n, tx_type, lossless),
                    |l| inverse::try_inverse_transform_2d(l, n, tx_type, lossless),
                )
            } else {
                in_place(
                    &c.lists[0],
                    want,
                    |l| idct::inverse_transform_2d_reference(l, n, tx_type, lossless),
                    |l| inverse::inverse_transform_2d_reference(l, n, tx_type, lossless),
                    |l| inverse::try_inverse_transform_2d_reference(l, n, tx_type, lossless),
                )
            }
        }
        37 => {
            let (n, tx_type, lossless) = (a(0) as u32, a(1) as u8, a(2) != 0);
            let mut want = rules::driver(n, tx_type, lossless, &c.lists[0]);
            if want == 0 && narrow::process(n, tx_type, lossless, &c.lists[0]).is_err() {
                want = 18;
            }
            in_place(
                &c.lists[0],
                want,
                |l| idct::inverse_transform_2d(l, n, tx_type, lossless),
                |l| inverse::inverse_transform_2d_32(l, n, tx_type, lossless),
                |l| inverse::try_inverse_transform_2d_32(l, n, tx_type, lossless),
            )
        }
        22 => recon(c),
        23 => in_place(&c.lists[0], rules::forward_wht(&c.lists[0]), fwd_transform::forward_wht_2d, fwd::forward_wht_2d, fwd::try_forward_wht_2d),
        38 => {
            let n = a(0) as u32;
            in_place(
                &c.lists[0],
                rules::forward_dct(n, &c.lists[0]),
                |l| l.copy_from_slice(&forward::coefficients(l, n)),
                |l| fwd::forward_dct_2d(l, n),
                |l| fwd::try_forward_dct_2d(l, n),
            )
        }
        24 => {
            let (dc, ac, size, depth) = (a(0) as i32, a(1) as i32, a(2) as u32, a(3) as u32);
            in_place(
                &c.lists[0],
                rules::quantize_block_tx(dc, ac, size, depth, &c.lists[0]),
                |l| fwd_transform::quantize_block_tx(l, dc, ac, size, depth),
                |l| fwd::quantize_block_tx(l, dc, ac, size, depth),
                |l| fwd::try_quantize_block_tx(l, dc, ac, size, depth),
            )
        }
        39 => {
            let (dc, ac, size, depth, rule) = (a(0) as i32, a(1) as i32, a(2) as u32, a(3) as u32, a(4) as u32);
            in_place(
                &c.lists[0],
                rules::quantize_block_rule(rule, dc, ac, size, depth, &c.lists[0]),
                |l| match rule {
                    1 => fwd_transform::quantize_block_tx(l, dc, ac, size, depth),
                    _ => rules::tokens_of_rule_2(dc, ac, size, depth, l),
                },
                |l| fwd::quantize_block_rule(l, dc, ac, size, depth, rule),
                |l| fwd::try_quantize_block_rule(l, dc, ac, size, depth, rule),
            )
        }
        25 => {
            let (dc, ac) = (a(0) as i32, a(1) as i32);
            in_place(
                &c.lists[0],
                rules::quantize_block(dc, ac, &c.lists[0]),
                |l| fwd_transform::quantize_block(l, dc, ac),
                |l| fwd::quantize_block(l, dc, ac),
                |l| fwd::try_quantize_block(l, dc, ac),
            )
        }
        26 => {
            let depth = a(0) as u32;
            let want = if rules::good_depth(depth) { fwd_transform::max_codeable_coef(depth) } else { 0 };
            fwd::max_codeable_coef(depth) == want
        }
        30 => file(c),
        31 => report(c),
        32 => summary(c),
        33 => replaced(c),
        34 => driver_rows(c),
        35 => return written(c).map(|alike| (name, alike)),
        _ => return None,
    };
    Some((name, alike))
}

fn main() {
    let mut words = std::env::args().skip(1).filter_map(|w| w.parse::<u64>().ok());
    let (seed, count) = (words.next().unwrap_or(1), words.next().unwrap_or(40_000));
    std::panic::set_hook(Box::new(|_| {})); // each refusal is asked for by the panicking call too
    let mut tally: BTreeMap<&str, [u64; 2]> = BTreeMap::new();
    let mut put = |c: Call| {
        if let Some((name, alike)) = compare(&c) {
            let of = tally.entry(name).or_default();
            of[usize::from(!alike)] += 1;
            if !alike && of[1] == 1 {
                println!("{name}: differs first at {:?} {:?}", c.args, c.lists);
            }
        }
    };
    let mut r = rng::Rng::new(seed);
    cases::systematic(&mut r, &mut put);
    for _ in 0..count {
        put(cases::random(&mut r));
    }
    let (mut same, mut differ) = (0, 0);
    for (name, [a, b]) in &tally {
        println!("{name:<32} {a:>7} alike {b:>4} not");
        (same, differ) = (same + a, differ + b);
    }
    assert_eq!(tally.len(), 16, "every public call is compared");
    println!("{same} passed, {differ} failed");
    std::process::exit(i32::from(differ != 0));
}
