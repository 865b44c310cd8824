//! The comparison: generated calls and files go to each side, and what differs is made smaller and shown.

use crate::line::{self, After, Call, Outcome};
use crate::rng::Rng;
use crate::{Tally, ask, cases, files, vbk};
use std::io::{IsTerminal, Read, Write};
use std::process::{Command, Stdio};

const BATCH_LINES: usize = 4_000;
const BATCH_BYTES: usize = 8 << 20;
const SMALLER_ROUNDS: usize = 200;

/// How far it is, where somebody looks on: nothing where standard error is no terminal.
pub fn progress(words: std::fmt::Arguments) {
    if std::io::stderr().is_terminal() {
        eprint!("\r{words}");
    }
}

pub fn progress_end() {
    if std::io::stderr().is_terminal() {
        eprintln!();
    }
}

struct Side {
    name: String,
    words: Vec<String>,
    tallies: Vec<Tally>,
}

fn sides(args: &[String], flag: &str) -> Vec<Side> {
    let mut out = vec![];
    let mut i = 0;
    while i < args.len() {
        let end = i + args[i..].iter().position(|a| a == "--end").expect("--end");
        if args[i] == flag {
            let tallies = vec![Tally::default(); line::SHAPES.len()];
            out.push(Side { name: args[i + 1].clone(), words: args[i + 2..end].to_vec(), tallies });
        }
        i = end + 1;
    }
    out
}

/// Runs a command on an input; what it wrote, or how it failed.
fn feed(words: &[String], input: &[u8]) -> Result<Vec<u8>, String> {
    let mut child = Command::new(&words[0])
        .args(&words[1..])
        .stdin(Stdio::piped())
        .stdout(Stdio::piped())
        .stderr(Stdio::piped())
        .spawn()
        .map_err(|e| format!("{}: {e}", words[0]))?;
    let mut stdin = child.stdin.take().expect("its input");
    let mut stdout = child.stdout.take().expect("its output");
    let mut stderr = child.stderr.take().expect("its errors");
    let mut wrote = vec![];
    let mut said = vec![];
    std::thread::scope(|s| {
        // a side may stop reading early, as a reader of files of at most 65,535 bytes does
        s.spawn(move || drop(stdin.write_all(input)));
        s.spawn(|| drop(stderr.read_to_end(&mut said)));
        drop(stdout.read_to_end(&mut wrote));
    });
    let status = child.wait().map_err(|e| e.to_string())?;
    if !status.success() {
        return Err(format!("ended with {status}: {}", String::from_utf8_lossy(&said[..said.len().min(600)])));
    }
    Ok(wrote)
}

/// The lines "kind K same N differ D skipped S [first L]".
fn tallies(text: &[u8]) -> Result<Vec<Tally>, String> {
    let mut out = vec![Tally::default(); line::SHAPES.len()];
    for l in String::from_utf8_lossy(text).lines() {
        let w: Vec<&str> = l.split(' ').collect();
        let n = |i: usize| w.get(i).and_then(|v| v.parse::<u64>().ok()).ok_or(format!("it wrote: {l}"));
        if w[0] != "kind" {
            return Err(format!("it wrote: {l}"));
        }
        let kind = n(1)?;
        let k = line::SHAPES.iter().position(|s| u64::from(s.kind) == kind).ok_or(format!("it wrote: {l}"))?;
        let first = if w.len() > 8 { n(9)? } else { 0 };
        out[k] = Tally { same: n(3)?, differ: n(5)?, skipped: n(7)?, first };
    }
    Ok(out)
}

fn total(t: &Tally) -> u64 {
    t.same + t.differ + t.skipped
}

struct Batch {
    text: Vec<u8>,
    starts: Vec<usize>,
    counts: Vec<u64>,
}

impl Batch {
    fn new() -> Self {
        Batch { text: vec![], starts: vec![], counts: vec![0; line::SHAPES.len()] }
    }

    fn push(&mut self, call: &Call, outcome: &Outcome) -> bool {
        let text = line::write(call, outcome);
        if text.len() >= line::LINE_MAX {
            return false;
        }
        self.starts.push(self.text.len());
        self.text.extend_from_slice(&text);
        self.text.push(b'\n');
        self.counts[line::SHAPES.iter().position(|s| s.kind == call.kind).expect("a kind")] += 1;
        true
    }

    fn push_line(&mut self, text: &[u8]) -> Result<(), String> {
        let (call, _) = line::read(text)?;
        self.starts.push(self.text.len());
        self.text.extend_from_slice(text);
        self.text.push(b'\n');
        self.counts[line::SHAPES.iter().position(|s| s.kind == call.kind).expect("a kind")] += 1;
        Ok(())
    }

    fn line(&self, number: u64) -> &[u8] {
        let from = self.starts[number as usize - 1];
        let end = self.text[from..].iter().position(|c| *c == b'\n').expect("an end");
        &self.text[from..from + end]
    }

    fn full(&self) -> bool {
        self.starts.len() >= BATCH_LINES || self.text.len() >= BATCH_BYTES
    }
}

/// What the side says of a batch; every line must be accounted for.
fn run_batch(side: &Side, batch: &Batch) -> Result<Vec<Tally>, String> {
    let got = tallies(&feed(&side.words, &batch.text)?)?;
    for ((t, sent), s) in got.iter().zip(&batch.counts).zip(line::SHAPES) {
        if total(t) != *sent {
            return Err(format!("of kind {} it had {sent} lines, and accounts for {}", s.kind, total(t)));
        }
    }
    Ok(got)
}

// ---- differences on purpose ----

/// A wrong outcome of one kind, for the comparison's own test. Kind 20: the last number of a type 1 or 3 block is off where place 5
/// holds more than 2. Kind 22: the last sample is off where x is 1 and token 1 is not zero. Kind 31: a count is off where token 1 is a 7.
/// Kind 33: the bit of a row stays set where token 0 empties the row. Kind 30: the touched count is off where record 0 is done and record 1 is
/// refused for its quantizer.
pub fn spoil(kind: u32, call: &Call, outcome: &mut Outcome) {
    if call.kind != kind || outcome.nums[0] != 0 {
        return;
    }
    let hit = match kind {
        20 => call.args[1] % 2 == 1 && call.lists[0][5] > 2,
        22 => call.args[0] == 1 && call.lists[0][1] != 0,
        31 => call.lists[0][1].abs() == 7,
        33 => call.args[2] == 0 && outcome.lists[1][0] < call.lists[1][0],
        _ => outcome.lists[0].starts_with(&[0, 5]),
    };
    if !hit {
        return;
    }
    if kind == 30 {
        outcome.nums[1] += 16;
    } else if kind == 31 {
        outcome.lists[1][5] += 1;
    } else if kind == 33 {
        outcome.lists[1][0] = call.lists[1][0];
    } else if let Some(last) = outcome.lists[0].last_mut() {
        *last += 1;
    }
}

/// Every way in which one number of the outcome can be off by one: each number, and one place of each list.
pub fn planted(r: &mut Rng, outcome: &Outcome) -> Vec<Outcome> {
    let mut out = vec![];
    for k in 0..outcome.nums.len() {
        let mut o = outcome.clone();
        o.nums[k] += 1;
        out.push(o);
    }
    for k in 0..outcome.lists.len() {
        let len = outcome.lists[k].len() as u64;
        if len > 0 {
            for at in [0, r.below(len), len - 1] {
                let mut o = outcome.clone();
                let v = &mut o.lists[k][at as usize];
                *v = if *v > 0 { *v - 1 } else { *v + 1 };
                out.push(o);
            }
        }
    }
    out
}

/// Sends outcomes with one number changed; the side must find each. Gives how many of each kind were sent.
fn planted_check(side: &Side, seed: u64) -> Result<(u64, u64), String> {
    let mut r = Rng::new(seed ^ 0x706c_616e_7465_6421);
    let mut batch = Batch::new();
    let mut of_kind = vec![0; line::SHAPES.len()];
    while of_kind.iter().any(|n| *n < 12) {
        let call = cases::random(&mut r);
        let k = line::SHAPES.iter().position(|s| s.kind == call.kind).expect("a kind");
        if of_kind[k] >= 12 || ask::stops_in_debug(&call) {
            continue;
        }
        of_kind[k] += 1;
        let outcome = ask::ask(&call);
        for o in planted(&mut r, &outcome) {
            batch.push(&call, &o);
        }
    }
    let got = run_batch(side, &batch)?;
    for (t, s) in got.iter().zip(line::SHAPES) {
        if t.same > 0 {
            return Err(format!("of kind {} it took {} lines with a changed number as the same", s.kind, t.same));
        }
    }
    Ok((got.iter().map(|t| t.differ).sum(), got.iter().map(|t| t.skipped).sum()))
}

// ---- smaller inputs ----

/// Simpler calls, the boldest first.
fn simpler(c: &Call) -> Vec<Call> {
    let shape = line::shape(c.kind).expect("a kind");
    let mut out = vec![];
    let mut with = |f: &dyn Fn(&mut Call)| {
        let mut d = c.clone();
        f(&mut d);
        if d != *c {
            out.push(d);
        }
    };
    if c.kind == 30 {
        let file: Vec<u8> = c.lists[0].iter().map(|b| *b as u8).collect();
        for f in simpler_file(&file) {
            with(&|d| d.lists[0] = f.iter().map(|b| i64::from(*b)).collect());
        }
        return out;
    }
    for k in 0..c.lists.len() {
        let len = c.lists[k].len();
        // zero in ever smaller parts
        let mut part = len;
        while part >= 1 {
            for from in (0..len).step_by(part) {
                with(&|d| d.lists[k][from..(from + part).min(len)].fill(0));
            }
            part = if part == 1 { 0 } else { part.div_ceil(2) };
        }
        if matches!(c.kind, 20 | 21 | 32 | 34) {
            let n0 = 1usize << c.args[0].clamp(0, 5);
            with(&|d| d.lists[0].truncate(n0 * n0));
        }
        if (23..=25).contains(&c.kind) {
            with(&|d| d.lists[0].truncate(len / 2));
            with(&|d| d.lists[0].truncate(len.saturating_sub(1)));
        }
        // smaller magnitudes
        for i in 0..len {
            let v = c.lists[k][i];
            if v != 0 {
                for w in [v.signum(), v / 1_000, v / 16, v / 2, v - v.signum()] {
                    with(&|d| d.lists[k][i] = w);
                }
                if v < 0 && v != i64::MIN {
                    with(&|d| d.lists[k][i] = -v);
                }
            }
        }
    }
    if (c.kind == 22 || c.kind == 31) && c.args[8] <= c.args[10] && c.args[10] * c.args[9] == c.lists[1].len() as i128 {
        // a smaller plane: less padding, one column or one row less, or the place moved with it
        let (w, h, s) = (c.args[8] as usize, c.args[9] as usize, c.args[10] as usize);
        if s > w {
            for pad in [0, s - w - 1] {
                with(&|d| {
                    d.args[10] = (w + pad) as i128;
                    d.lists[1] = c.lists[1].chunks(s).flat_map(|row| row[..w + pad].to_vec()).collect();
                });
            }
        }
        if w > 0 {
            with(&|d| {
                (d.args[8], d.args[10]) = (d.args[8] - 1, d.args[10] - 1);
                d.lists[1] = c.lists[1].chunks(s).flat_map(|row| [&row[..w - 1], &row[w..]].concat()).collect();
            });
            with(&|d| {
                (d.args[8], d.args[10]) = (d.args[8] - 1, d.args[10] - 1);
                d.args[0] = (d.args[0] - 1).max(0);
                d.lists[1] = c.lists[1].chunks(s).flat_map(|row| row[1..].to_vec()).collect();
            });
        }
        if h > 0 {
            with(&|d| {
                d.args[9] -= 1;
                d.lists[1].truncate(s * (h - 1));
            });
            with(&|d| {
                d.args[9] -= 1;
                d.args[1] = (d.args[1] - 1).max(0);
                d.lists[1].drain(..s);
            });
        }
    }
    for (i, name) in shape.args.iter().enumerate() {
        let v = c.args[i];
        let better: &[i128] = match *name {
            "width" | "height" | "stride" | "n" | "size" | "bits" | "k" | "shift" | "a" | "b" => &[],
            "depth" => &[8],
            "dc" | "ac" | "q" => &[1, 4],
            _ => &[0],
        };
        for w in better {
            if (1..=20_000).contains(&v) || v > 20_000 || v < 0 {
                with(&|d| d.args[i] = *w);
            }
        }
        if matches!(*name, "x" | "y" | "dc" | "ac" | "q" | "coef" | "angle") && v.abs() > 1 {
            with(&|d| d.args[i] = v / 2);
            with(&|d| d.args[i] = v - v.signum());
        }
    }
    out
}

pub fn simpler_file(f: &[u8]) -> Vec<Vec<u8>> {
    let mut out = vec![];
    let mut part = f.len().div_ceil(2);
    while part >= 1 {
        for from in (0..f.len()).step_by(part) {
            let to = (from + part).min(f.len());
            out.push([&f[..from], &f[to..]].concat());
        }
        part = if part == 1 { 0 } else { part.div_ceil(2) };
    }
    for k in 0..f.len() {
        for v in [0, f[k] / 2] {
            if v < f[k] {
                let mut g = f.to_vec();
                g[k] = v;
                out.push(g);
            }
        }
    }
    out
}

/// Goes to simpler calls as long as one of them still differs; gives the last one, or none where the call itself does not.
pub fn smallest_by(call: &Call, differs: &dyn Fn(&[Call]) -> Option<usize>) -> Option<Call> {
    differs(std::slice::from_ref(call))?;
    let mut best = call.clone();
    for _ in 0..SMALLER_ROUNDS {
        let next = simpler(&best);
        match differs(&next) {
            Some(i) => best = next[i].clone(),
            None => break,
        }
    }
    Some(best)
}

/// The smallest call found on which the side differs from the Rust; none where it agrees on the call itself (then the
/// line was wrong, not the side).
fn smallest(side: &Side, call: &Call) -> Option<Call> {
    smallest_by(call, &|calls| {
        let mut batch = Batch::new();
        let mut of_line = vec![];
        for (i, c) in calls.iter().enumerate() {
            if !ask::stops_in_debug(c) && batch.push(c, &ask::ask(c)) {
                of_line.push(i);
            }
        }
        let got = run_batch(side, &batch).ok()?;
        got.iter().filter(|t| t.differ > 0).map(|t| of_line[t.first as usize - 1]).min()
    })
}

pub fn say(call: &Call, outcome: &Outcome) {
    let shape = line::shape(call.kind).expect("a kind");
    let short = |l: &[i64]| {
        let text =
            line::write(&Call { kind: 23, args: vec![], lists: vec![l.to_vec()] }, &Outcome { nums: vec![], lists: vec![] });
        let text = String::from_utf8_lossy(&text[3..]).into_owned();
        if text.len() > 300 { format!("{}..", &text[..300]) } else { text }
    };
    for (n, v) in shape.args.iter().zip(&call.args) {
        println!("    {n} {v}");
    }
    for (n, l) in shape.lists.iter().zip(&call.lists) {
        println!("    {n}, its length and numbers: {}", short(l));
    }
    for (n, v) in shape.nums.iter().zip(&outcome.nums) {
        println!("  the Rust: {n} {v}");
    }
    for (a, l) in shape.after.iter().zip(&outcome.lists) {
        let name = if let After::Lent(k) = a { shape.lists[*k] } else { "list" };
        println!("  the Rust: {name} afterwards {}", short(l));
    }
}

/// The first number in which another outcome parts from the Rust's.
pub fn say_first(rust: &Outcome, other: &Outcome, name: &str) {
    for (k, (a, b)) in rust.nums.iter().zip(&other.nums).enumerate() {
        if a != b {
            println!("  number {k} of the outcome: the Rust {a}, {name} {b}");
            return;
        }
    }
    for (k, (a, b)) in rust.lists.iter().zip(&other.lists).enumerate() {
        if a.len() != b.len() {
            println!("  list {k} of the outcome: the Rust has {} numbers, {name} {}", a.len(), b.len());
            return;
        }
        if let Some(i) = (0..a.len()).find(|i| a[*i] != b[*i]) {
            println!("  list {k} of the outcome, place {i}: the Rust {}, {name} {}", a[i], b[i]);
            return;
        }
    }
}

fn report(side: &Side, text: &[u8], dir: &str) {
    let (call, expected) = line::read(text).expect("our own line");
    let name = line::shape(call.kind).expect("a kind").name;
    println!("DIFFERENCE: {} on kind {} ({name}), line as sent in {dir}/first.txt", side.name, call.kind);
    let _ = std::fs::write(format!("{dir}/first.txt"), [text, b"\n"].concat());
    match smallest(side, &call) {
        Some(small) => {
            let outcome = ask::ask(&small);
            println!("  smallest input found ({dir}/smallest.txt):");
            let _ = std::fs::write(format!("{dir}/smallest.txt"), [&line::write(&small, &outcome)[..], b"\n"].concat());
            say(&small, &outcome);
        }
        None => {
            println!("  asked again, {} agrees with the Rust: the expected outcome of the line is what is wrong", side.name);
            let outcome = ask::ask(&call);
            say(&call, &outcome);
            if let Some(e) = expected {
                say_first(&outcome, &e, "the line");
            }
        }
    }
}

// ---- files ----

/// The systematic files, then `count` random ones and as many that nobody meant.
pub fn every_file(seed: u64, count: u64, each: &mut dyn FnMut(Vec<u8>)) {
    let mut r = Rng::new(seed ^ 0x7662_6b00);
    files::systematic(&mut r, each);
    for _ in 0..count {
        each(files::random(&mut r, false));
    }
    for _ in 0..count {
        each(files::fuzz(&mut r));
    }
}

fn file_differs(side: &Side, file: &[u8]) -> Option<Vec<u8>> {
    let expected = vbk::text(&vbk::replay(file)).into_bytes();
    match feed(&side.words, file) {
        Ok(got) if got == expected => None,
        Ok(got) => Some(got),
        Err(e) => Some(e.into_bytes()),
    }
}

fn report_file(side: &Side, file: &[u8], dir: &str) {
    let mut best = file.to_vec();
    let mut runs = 0;
    'again: while runs < 2_000 {
        for f in simpler_file(&best) {
            runs += 1;
            if runs >= 2_000 {
                break;
            }
            if file_differs(side, &f).is_some() {
                best = f;
                continue 'again;
            }
        }
        break;
    }
    let _ = std::fs::write(format!("{dir}/first.vbk"), file);
    let _ = std::fs::write(format!("{dir}/smallest.vbk"), &best);
    println!("DIFFERENCE: {} on a VBK file ({dir}/first.vbk, {} bytes)", side.name, file.len());
    println!("  smallest input found ({dir}/smallest.vbk, {} bytes): {:?}", best.len(), &best[..best.len().min(200)]);
    println!("  the Rust prints:\n{}", vbk::text(&vbk::replay(&best)));
    let got = file_differs(side, &best).unwrap_or_default();
    println!("  {} prints:\n{}", side.name, String::from_utf8_lossy(&got[..got.len().min(2_000)]));
}

// ---- the run ----

/// A list of lines, as it stands, to each side.
pub fn run_list(list: &str, dir: &str, args: &[String]) -> i32 {
    std::fs::create_dir_all(dir).expect("the folder");
    let mut batch = Batch::new();
    let text = std::fs::read(list).expect("the list");
    for (i, l) in text.split(|c| *c == b'\n').enumerate() {
        if !l.is_empty() && l[0] != b'#' {
            batch.push_line(l).unwrap_or_else(|e| panic!("{list}, line {}: {e}", i + 1));
        }
    }
    let mut bad = false;
    for side in sides(args, "--calls") {
        match run_batch(&side, &batch) {
            Ok(got) => {
                println!(
                    "{}: {} lines compared, {} differ, {} skipped",
                    side.name,
                    got.iter().map(|t| t.same + t.differ).sum::<u64>(),
                    got.iter().map(|t| t.differ).sum::<u64>(),
                    got.iter().map(|t| t.skipped).sum::<u64>()
                );
                if let Some(first) = got.iter().filter(|t| t.differ > 0).map(|t| t.first).min() {
                    report(&side, batch.line(first), dir);
                    bad = true;
                }
            }
            Err(e) => {
                println!("{}: {e}", side.name);
                bad = true;
            }
        }
    }
    i32::from(bad)
}

pub fn run(seed: u64, count: u64, dir: &str, args: &[String]) -> i32 {
    std::fs::create_dir_all(dir).expect("the folder");
    let mut call_sides = sides(args, "--calls");
    let file_sides = sides(args, "--blockrun");
    println!("seed {seed}, {count} random calls after the systematic ones");
    let mut bad = false;
    for side in &call_sides {
        match planted_check(side, seed) {
            Ok((found, skipped)) => {
                println!("{}: {found} changed outcomes sent, all found ({skipped} of kinds it has not)", side.name)
            }
            Err(e) => {
                println!("{}: {e}", side.name);
                bad = true;
            }
        }
    }
    if bad {
        return 1;
    }

    let mut batch = Batch::new();
    let (mut sent, mut long) = (0u64, 0u64);
    let mut stopped = false;
    let began = std::time::Instant::now();
    let mut send = |batch: &mut Batch, sent: &mut u64, stopped: &mut bool| {
        for side in call_sides.iter_mut() {
            match run_batch(side, batch) {
                Ok(got) => {
                    for (all, t) in side.tallies.iter_mut().zip(&got) {
                        all.same += t.same;
                        all.differ += t.differ;
                        all.skipped += t.skipped;
                    }
                    let first = got.iter().filter(|t| t.differ > 0).map(|t| t.first).min();
                    if let Some(first) = first {
                        progress_end();
                        report(side, batch.line(first), dir);
                        *stopped = true;
                    }
                }
                Err(e) => {
                    progress_end();
                    println!("{}: {e}", side.name);
                    let _ = std::fs::write(format!("{dir}/batch.txt"), &batch.text);
                    println!("  the lines are in {dir}/batch.txt");
                    *stopped = true;
                }
            }
        }
        *sent += batch.starts.len() as u64;
        progress(format_args!("{sent} calls, {} s ", began.elapsed().as_secs()));
        *batch = Batch::new();
    };
    crate::every_case(seed, count, &mut |call| {
        if stopped {
            return;
        }
        if !batch.push(&call, &ask::ask(&call)) {
            long += 1;
        }
        if batch.full() {
            send(&mut batch, &mut sent, &mut stopped);
        }
    });
    if !stopped && !batch.starts.is_empty() {
        send(&mut batch, &mut sent, &mut stopped);
    }
    progress_end();
    for side in &call_sides {
        println!("{}:", side.name);
        for (s, t) in line::SHAPES.iter().zip(&side.tallies) {
            if total(t) > 0 {
                let skip = if t.skipped > 0 { format!(", {} skipped", t.skipped) } else { String::new() };
                println!("  kind {:2} {:31} {:>9} compared, {} differ{skip}", s.kind, s.name, t.same + t.differ, t.differ);
            }
        }
        let all: u64 = side.tallies.iter().map(|t| t.same + t.differ).sum();
        println!("  in all {all} calls compared");
    }
    if long > 0 {
        println!("{long} calls were too long for a line and were left out");
    }
    if stopped {
        return 1;
    }

    for side in &file_sides {
        let mut files = 0u64;
        let mut differ = false;
        every_file(seed, count / 200, &mut |f| {
            if differ {
                return;
            }
            files += 1;
            if file_differs(side, &f).is_some() {
                progress_end();
                report_file(side, &f, dir);
                differ = true;
            }
            if files % 20 == 0 {
                progress(format_args!("{files} files, {} s ", began.elapsed().as_secs()));
            }
        });
        progress_end();
        println!("{}: {files} VBK files compared, {} differ", side.name, u64::from(differ));
        stopped |= differ;
    }
    i32::from(stopped)
}
