//! Our static library and the Rust in one process: a generated call goes to both, and every number is compared.
//! A list is lent between margins, which must stay as they were, like every list that is only read.

use crate::compare::{every_file, planted, progress, progress_end, say, say_first, simpler_file, smallest_by, spoil};
use crate::line::{self, Call, Outcome};
use crate::rng::Rng;
use crate::{ask, cases, files, vbk};
use std::panic::{AssertUnwindSafe, catch_unwind};

// The exported calls, as the header declares them.
#[path = "../../bindings/rust/src/archive.rs"]
mod archive;
use archive::*;

/// The kinds that are exported.
const KINDS: [u32; 16] = [20, 21, 22, 23, 24, 25, 26, 30, 31, 32, 33, 34, 35, 37, 38, 39];

const MARGIN: usize = 8;

/// Rooms for a file's plane, its answers and its text, as blockrun has them.
const AREA: usize = 4_096;
const RECORDS: usize = 874;
const TEXT: usize = 65_536;

/// A list with margins around it.
struct Lent<T> {
    all: Vec<T>,
    mark: T,
}

impl<T: Copy + PartialEq> Lent<T> {
    fn new(list: impl Iterator<Item = T>, mark: T) -> Self {
        let mut all = vec![mark; MARGIN];
        all.extend(list);
        all.extend([mark; MARGIN]);
        Lent { all, mark }
    }

    fn room(count: usize, mark: T) -> Self {
        Lent { all: vec![mark; count + 2 * MARGIN], mark }
    }

    fn len(&self) -> usize {
        self.all.len() - 2 * MARGIN
    }

    fn at(&mut self) -> *mut T {
        self.all[MARGIN..].as_mut_ptr()
    }

    fn list(&self) -> &[T] {
        &self.all[MARGIN..self.all.len() - MARGIN]
    }

    /// The margins stand, and the list from `from` on is still the mark.
    fn kept(&self, from: usize) -> bool {
        self.all[..MARGIN].iter().chain(&self.all[MARGIN + from..]).all(|v| *v == self.mark)
    }
}

fn wide<T: Copy + Into<i64>>(list: &[T]) -> Vec<i64> {
    list.iter().map(|v| (*v).into()).collect()
}

/// What our library makes of a call, and whether it kept to what it was lent.
fn ours(c: &Call) -> (Outcome, bool) {
    let a = |i: usize| c.args[i];
    let first = || Lent::new(c.lists[0].iter().copied(), i64::MIN + 77);
    let answered = |answer: u32, l: Lent<i64>| {
        let kept = l.kept(l.len());
        (Outcome { nums: vec![answer.into()], lists: vec![l.list().to_vec()] }, kept)
    };
    match c.kind {
        20 | 21 | 37 => {
            let mut l = first();
            let call = match c.kind {
                20 => bracetwill_inverse_transform_2d,
                21 => bracetwill_inverse_transform_2d_reference,
                _ => bracetwill_inverse_transform_2d_32,
            };
            let answer = unsafe { call(l.at(), l.len(), a(0) as u32, a(1) as u8, a(2) != 0) };
            answered(answer, l)
        }
        22 => {
            let mut tokens = first();
            let mut s = Lent::new(c.lists[1].iter().map(|v| *v as u16), 54_321);
            let answer = unsafe {
                bracetwill_reconstruct_block(
                    s.at(),
                    s.len(),
                    a(8) as usize,
                    a(9) as usize,
                    a(10) as usize,
                    a(0) as usize,
                    a(1) as usize,
                    a(2) as u32,
                    tokens.at(),
                    tokens.len(),
                    a(6) as i32,
                    a(7) as i32,
                    a(3) as u8,
                    a(4) != 0,
                    a(5) as u32,
                )
            };
            let kept = s.kept(s.len()) && tokens.kept(tokens.len()) && tokens.list() == c.lists[0];
            (Outcome { nums: vec![answer.into()], lists: vec![wide(s.list())] }, kept)
        }
        23 => {
            let mut l = first();
            let answer = unsafe { bracetwill_forward_wht_2d(l.at(), l.len()) };
            answered(answer, l)
        }
        38 => {
            let mut l = first();
            let answer = unsafe { bracetwill_forward_dct_2d(l.at(), l.len(), a(0) as u32) };
            answered(answer, l)
        }
        24 => {
            let mut l = first();
            let (dc, ac, size, depth) = (a(0) as i32, a(1) as i32, a(2) as u32, a(3) as u32);
            let answer = unsafe { bracetwill_quantize_block_tx(l.at(), l.len(), dc, ac, size, depth) };
            answered(answer, l)
        }
        39 => {
            let mut l = first();
            let (dc, ac, size, depth, rule) = (a(0) as i32, a(1) as i32, a(2) as u32, a(3) as u32, a(4) as u32);
            let answer = unsafe { bracetwill_quantize_block_rule(l.at(), l.len(), dc, ac, size, depth, rule) };
            answered(answer, l)
        }
        25 => {
            let mut l = first();
            let answer = unsafe { bracetwill_quantize_block(l.at(), l.len(), a(0) as i32, a(1) as i32) };
            answered(answer, l)
        }
        26 => {
            let v = unsafe { bracetwill_max_codeable_coef(a(0) as u32) };
            (Outcome { nums: vec![v.into()], lists: vec![] }, true)
        }
        30 => ours_file(&c.lists[0]),
        31 => ours_report(c),
        32 => ours_summary(c),
        33 => ours_replaced(c),
        34 => {
            let mut l = first();
            let mut rows = Lent::room(1, 0xa5a5_a5a5u32);
            let answer = unsafe { bracetwill_inverse_transform_2d_rows(l.at(), l.len(), a(0) as u32, a(1) as u8, a(2) != 0, rows.at()) };
            // under a refusal the room for the number stays
            let kept = l.kept(l.len()) && rows.kept(usize::from(answer == 0));
            let count = if answer == 0 { rows.list()[0] } else { 0 };
            (Outcome { nums: vec![answer.into(), count.into()], lists: vec![l.list().to_vec()] }, kept)
        }
        35 => ours_written(c),
        k => panic!("kind {k} is not exported"),
    }
}

/// A block with a report beside it.
fn ours_report(c: &Call) -> (Outcome, bool) {
    let a = |i: usize| c.args[i];
    let mut tokens = Lent::new(c.lists[0].iter().copied(), i64::MIN + 77);
    let mut s = Lent::new(c.lists[1].iter().map(|v| *v as u16), 54_321);
    let mut counts = Lent::new(c.lists[2].iter().map(|v| *v as u32), 0xa5a5_a5a5);
    let mut sums = Lent::new(c.lists[3].iter().map(|v| *v as u64), u64::MAX - 76);
    let answer = unsafe {
        bracetwill_reconstruct_block_report(
            s.at(),
            s.len(),
            a(8) as usize,
            a(9) as usize,
            a(10) as usize,
            a(0) as usize,
            a(1) as usize,
            a(2) as u32,
            tokens.at(),
            tokens.len(),
            a(6) as i32,
            a(7) as i32,
            a(3) as u8,
            a(4) != 0,
            a(5) as u32,
            counts.at().cast(),
            sums.at().cast(),
        )
    };
    let kept = s.kept(s.len()) && tokens.kept(tokens.len()) && tokens.list() == c.lists[0];
    let sums_list = sums.list().iter().map(|v| *v as i64).collect();
    let lists = vec![wide(s.list()), wide(counts.list()), sums_list];
    (Outcome { nums: vec![answer.into()], lists }, kept && counts.kept(44) && sums.kept(44))
}

/// The summary of a block, and what the summary says of itself.
fn ours_summary(c: &Call) -> (Outcome, bool) {
    let mut block = Lent::new(c.lists[0].iter().copied(), i64::MIN + 77);
    let mut summary = Lent::new(c.lists[1].iter().map(|v| *v as u32), 0xa5a5_a5a5);
    let answer = unsafe { bracetwill_row_summary(block.at(), block.len(), c.args[0] as u32, summary.at()) };
    let s = summary.list()[0];
    let (count, first, last) = unsafe { (bracetwill_row_count(s), bracetwill_first_row(s), bracetwill_last_row(s)) };
    let kept = block.kept(block.len()) && block.list() == c.lists[0] && summary.kept(1);
    (Outcome { nums: vec![answer.into(), count.into(), first.into(), last.into()], lists: vec![wide(summary.list())] }, kept)
}

/// One token into its place.
fn ours_replaced(c: &Call) -> (Outcome, bool) {
    let a = |i: usize| c.args[i];
    let mut block = Lent::new(c.lists[0].iter().copied(), i64::MIN + 77);
    let mut summary = Lent::new(c.lists[1].iter().map(|v| *v as u32), 0xa5a5_a5a5);
    let answer = unsafe {
        bracetwill_replace_token(
            block.at(),
            block.len(),
            summary.at(),
            a(0) as u32,
            a(1) as usize,
            a(2) as i64,
            a(3) as i32,
            a(4) as i32,
            a(5) as u32,
        )
    };
    let lists = vec![block.list().to_vec(), wide(summary.list())];
    (Outcome { nums: vec![answer.into()], lists }, block.kept(block.len()) && summary.kept(1))
}

/// A file written; what is done must run as the reader of the oracle runs it.
fn ours_written(c: &Call) -> (Outcome, bool) {
    let a = |i: usize| c.args[i];
    let two = |k: usize| Lent::new(c.lists[k].iter().map(|v| *v as u16), 54_321);
    let one = |k: usize| Lent::new(c.lists[k].iter().map(|v| *v as u8), 0xa5);
    let (mut samples, mut xs, mut ys, mut dcs, mut acs) = (two(0), two(1), two(2), two(6), two(7));
    let (mut sizes, mut types, mut lossless, mut out) = (one(3), one(4), one(5), one(10));
    let mut counts = Lent::new(c.lists[8].iter().map(|v| *v as u32), 0xa5a5_a5a5);
    let mut tokens = Lent::new(c.lists[9].iter().map(|v| *v as i32), i32::MIN + 77);
    let mut length = [77_777usize];
    let answer = unsafe {
        bracetwill_vbk_write(
            a(0) as u8,
            a(1) as u16,
            a(2) as u16,
            samples.at(),
            samples.len(),
            xs.at(),
            xs.len(),
            ys.at(),
            ys.len(),
            sizes.at(),
            sizes.len(),
            types.at(),
            types.len(),
            lossless.at(),
            lossless.len(),
            dcs.at(),
            dcs.len(),
            acs.at(),
            acs.len(),
            counts.at(),
            counts.len(),
            tokens.at(),
            tokens.len(),
            out.at(),
            out.len(),
            &mut length,
        )
    };
    let two_kept = |l: &Lent<u16>, k: usize| l.kept(l.len()) && wide(l.list()) == c.lists[k];
    let one_kept = |l: &Lent<u8>, k: usize| l.kept(l.len()) && wide(l.list()) == c.lists[k];
    let kept = two_kept(&samples, 0)
        && two_kept(&xs, 1)
        && two_kept(&ys, 2)
        && one_kept(&sizes, 3)
        && one_kept(&types, 4)
        && one_kept(&lossless, 5)
        && two_kept(&dcs, 6)
        && two_kept(&acs, 7)
        && counts.kept(counts.len())
        && wide(counts.list()) == c.lists[8]
        && tokens.kept(tokens.len())
        && wide(tokens.list()) == c.lists[9]
        && out.kept(out.len());
    // the length is written only where the call is done
    let told = if answer == 0 { length[0] } else { length[0] - 77_777 };
    (Outcome { nums: vec![answer.into(), told as i128], lists: vec![wide(out.list())] }, kept)
}

/// A run over a file, and its text, which must say the same.
fn ours_file(bytes: &[i64]) -> (Outcome, bool) {
    let mut file = Lent::new(bytes.iter().map(|b| *b as u8), 0xa5);
    let mut samples = Lent::room(AREA, 54_321u16);
    let mut answers = Lent::room(RECORDS, 0xa5u8);
    let mut figures = Lent::room(5, u64::MAX - 76);
    let answer = unsafe {
        bracetwill_replay(file.at(), file.len(), samples.at(), AREA, answers.at(), RECORDS, figures.at(), figures.len())
    };
    let f: Vec<u64> = if answer == 0 { figures.list().to_vec() } else { vec![0; 5] };
    let (area, count) = ((f[1] * f[2]) as usize, f[3] as usize);
    let mut kept = file.kept(file.len())
        && samples.kept(area.min(AREA))
        && answers.kept(count.min(RECORDS))
        && figures.kept(if answer == 0 { 5 } else { 0 });
    let run = vbk::Replay {
        header: answer as u8,
        version: 1,
        depth: f[0] as u8,
        width: f[1] as u16,
        height: f[2] as u16,
        answers: answers.list()[..count.min(RECORDS)].to_vec(),
        samples: samples.list()[..area.min(AREA)].to_vec(),
        touched: f[4],
    };
    let (mut s, mut a, mut out) = (Lent::room(AREA, 54_321u16), Lent::room(RECORDS, 0xa5u8), Lent::room(TEXT, 0xa5u8));
    let len = unsafe { bracetwill_blockrun(file.at(), file.len(), s.at(), AREA, a.at(), RECORDS, out.at(), TEXT) };
    kept &= s.all == samples.all && a.all == answers.all && file.kept(file.len()) && out.kept(len.min(TEXT));
    kept &= out.list()[..len.min(TEXT)] == *vbk::text(&run).as_bytes();
    kept &= file.list().iter().zip(bytes).all(|(x, y)| i64::from(*x) == *y);
    (Outcome { nums: vec![answer.into(), f[4].into()], lists: vec![wide(&run.answers), wide(&run.samples)] }, kept)
}

/// Ours, or with a fault on purpose in a kind.
fn asked(c: &Call, fault: Option<u32>) -> (Outcome, bool) {
    let (mut got, kept) = ours(c);
    if let Some(kind) = fault {
        spoil(kind, c, &mut got);
    }
    (got, kept)
}

fn differs(c: &Call, fault: Option<u32>) -> bool {
    let (got, kept) = asked(c, fault);
    !kept || got != ask::ask(c)
}

fn report(c: &Call, dir: &str, fault: Option<u32>) {
    let name = line::shape(c.kind).expect("a kind").name;
    let _ = std::fs::write(format!("{dir}/first.txt"), [&line::write(c, &ask::ask(c))[..], b"\n"].concat());
    println!("DIFFERENCE: our library on kind {} ({name}), the call and the Rust's outcome in {dir}/first.txt", c.kind);
    let small = smallest_by(c, &|calls| calls.iter().position(|c| differs(c, fault))).expect("it differed");
    let rust = ask::ask(&small);
    let (got, kept) = asked(&small, fault);
    println!("  smallest input found ({dir}/smallest.txt):");
    let _ = std::fs::write(format!("{dir}/smallest.txt"), [&line::write(&small, &rust)[..], b"\n"].concat());
    say(&small, &rust);
    if !kept {
        println!("  something was written that was not lent for it, or the text of the run says something else");
    }
    say_first(&rust, &got, "ours");
}

/// A file's call is made smaller byte by byte, not number by number.
fn report_file(f: &[u8], dir: &str, fault: Option<u32>) {
    let mut best = f.to_vec();
    while let Some(g) = simpler_file(&best).into_iter().find(|g| differs(&files::as_call(g), fault)) {
        best = g;
    }
    let _ = std::fs::write(format!("{dir}/first.vbk"), f);
    let _ = std::fs::write(format!("{dir}/smallest.vbk"), &best);
    println!("DIFFERENCE: our library on a VBK file ({dir}/first.vbk; smallest {dir}/smallest.vbk, {} bytes)", best.len());
    println!("  the Rust prints:\n{}", vbk::text(&vbk::replay(&best)));
}

/// How many calls of a kind were compared, how many of them were done (answer 0), how many of these in padded lines, how many differ.
#[derive(Clone, Copy, Default)]
struct Count {
    calls: u64,
    done: u64,
    padded: u64,
    differ: u64,
}

/// Outcomes with one changed number, on some calls of each kind: each must be seen to differ.
fn planted_check(seed: u64) -> Result<u64, String> {
    let mut r = Rng::new(seed ^ 0x706c_616e_7465_6421);
    let mut of_kind = [0; KINDS.len()];
    let mut found = 0;
    while of_kind.iter().any(|n| *n < 12) {
        let call = cases::random(&mut r);
        let Some(k) = KINDS.iter().position(|k| *k == call.kind) else { continue };
        if of_kind[k] >= 12 {
            continue;
        }
        of_kind[k] += 1;
        let (got, _) = ours(&call);
        for o in planted(&mut r, &ask::ask(&call)) {
            if got == o {
                return Err(format!("of kind {} an outcome with a changed number was taken as the same", call.kind));
            }
            found += 1;
        }
    }
    Ok(found)
}

/// COUNT random calls of the exported kinds beside the systematic ones, and COUNT / 100 files of each sort; or COUNT calls at the edges of 16 bits.
pub fn run(seed: u64, count: u64, dir: &str, fault: Option<u32>, near: bool) -> i32 {
    std::fs::create_dir_all(dir).expect("the folder");
    println!("seed {seed}, {count} {}, in one process", if near { "calls at the edges of 16 bits" } else { "random calls after the systematic ones" });
    match planted_check(seed) {
        Ok(found) => println!("our library: {found} changed outcomes, all found"),
        Err(e) => {
            println!("our library: {e}");
            return 1;
        }
    }
    let began = std::time::Instant::now();
    let mut counts = [Count::default(); KINDS.len()];
    let (mut compared, mut records) = (0u64, 0);
    let mut stopped = false;
    let mut r = Rng::new(seed);
    let mut each = |call: &Call, stopped: &mut bool| {
        let k = KINDS.iter().position(|k| *k == call.kind).expect("an exported kind");
        let Ok(rust) = catch_unwind(AssertUnwindSafe(|| ask::ask(call))) else {
            println!("DIFFERENCE: the Rust stops on a call of kind {}", call.kind);
            *stopped = true;
            return;
        };
        let (got, kept) = asked(call, fault);
        counts[k].calls += 1;
        if call.kind != 26 {
            counts[k].done += u64::from(got.nums[0] == 0);
        }
        if matches!(call.kind, 22 | 31) && got.nums[0] == 0 {
            counts[k].padded += u64::from(call.args[10] > call.args[8]);
        }
        if call.kind == 30 {
            records += got.lists[0].len();
        }
        compared += 1;
        if !kept || got != rust {
            counts[k].differ += 1;
            *stopped = true;
        }
        if compared % 500_000 == 0 {
            progress(format_args!("{compared} calls, {} s ", began.elapsed().as_secs()));
        }
    };
    let mut call = |c: Call, stopped: &mut bool| {
        if !*stopped && KINDS.contains(&c.kind) {
            each(&c, stopped);
            if *stopped {
                report(&c, dir, fault);
            }
        }
    };
    if !near {
        cases::systematic(&mut r, &mut |c| call(c, &mut stopped));
    }
    let mut random = 0;
    while random < count && !stopped {
        let c = if near { cases::near(&mut r) } else { cases::random(&mut r) };
        random += u64::from(KINDS.contains(&c.kind));
        call(c, &mut stopped);
    }
    if !stopped && !near {
        every_file(seed, count / 100, &mut |f| {
            if !stopped {
                each(&files::as_call(&f), &mut stopped);
                if stopped {
                    report_file(&f, dir, fault);
                }
            }
        });
    }
    progress_end();
    for (kind, c) in KINDS.iter().zip(&counts).filter(|(_, c)| c.calls > 0 || !near) {
        let name = line::shape(*kind).expect("a kind").name;
        let done = match kind {
            22 | 31 => format!(" ({} answered 0, {} of them in padded lines)", c.done, c.padded),
            26 => String::new(),
            _ => format!(" ({} answered 0)", c.done),
        };
        println!("  kind {kind:2} {name:31} {:>9} compared{done}, {} differ", c.calls, c.differ);
    }
    println!("  in all {compared} calls and {records} records of files compared, {} s", began.elapsed().as_secs());
    i32::from(stopped)
}
