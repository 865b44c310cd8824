//! Single calls put to the Rust, as lines (oracle/README.md): answers, checks, generated cases, lists, the comparison.

#[path = "../rust/fwd_transform.rs"]
mod fwd_transform;
#[path = "../rust/idct.rs"]
mod idct;
#[path = "../../target/oracle/idct_open.rs"]
mod idct_open;
#[path = "../rust/intra.rs"]
mod intra;
#[path = "../rust/reconstruct.rs"]
mod reconstruct;

mod ask;
mod best;
mod cases;
mod compare;
mod digest;
mod files;
mod forward;
mod line;
#[cfg(linked)]
mod linked;
mod lists;
mod narrow;
mod rng;
mod rules;
mod vbk;

use std::io::{BufRead, BufWriter, Write};

const USAGE: &str = "calls answer            read calls, print each with its outcome
calls check [KIND]      read calls with outcomes, ask again, print the count of each kind (KIND: with a wrong answer to it on purpose)
calls gen SEED COUNT    print the systematic calls and COUNT random ones, with their outcomes
calls files SEED COUNT DIR   write the systematic VBK files and COUNT random ones, each with its expected output
calls lists SEED        print the fixed list
calls edges SEED COUNT  of COUNT blocks at the edge of 16 bits, of each size and type: in which step the number past it leaves
calls digest SEED COUNT print the digest of COUNT calls of each kind
calls best SEED COUNT   print calls of the quantizer with the tokens that trying every one gives: small limits, then COUNT coefficients
calls compare SEED COUNT DIR SIDE..   generated cases to each side; what is found goes to DIR
calls list FILE DIR SIDE..            a list as it stands to each side
calls linked SEED COUNT DIR [KIND]    generated cases to our library in this process (only where it is linked: target/oracle/*/linked)
calls near SEED COUNT DIR [KIND]      the same on blocks at the edges of 16 bits
a SIDE is --calls NAME WORD.. --end (a command that checks lines) or --blockrun NAME WORD.. --end";

/// Prints one call with its outcome, unless the line would be too long; answers whether it did.
fn put(out: &mut dyn Write, call: &line::Call) -> bool {
    let mut text = line::write(call, &ask::ask(call));
    text.push(b'\n');
    if text.len() > line::LINE_MAX {
        return false;
    }
    out.write_all(&text).expect("standard output");
    true
}

/// Calls `each` with the systematic calls, then with `count` random ones.
pub fn every_case(seed: u64, count: u64, each: &mut dyn FnMut(line::Call)) {
    let mut r = rng::Rng::new(seed);
    cases::systematic(&mut r, each);
    for _ in 0..count {
        each(cases::random(&mut r));
    }
}

fn lines(each: &mut dyn FnMut(u64, &[u8])) {
    let mut number = 0;
    for text in std::io::stdin().lock().split(b'\n') {
        let text = text.expect("standard input");
        number += 1;
        if !text.is_empty() && text[0] != b'#' {
            each(number, &text);
        }
    }
}

fn answer() {
    let mut out = BufWriter::new(std::io::stdout());
    lines(&mut |number, text| match line::read(text) {
        Ok((call, _)) => assert!(put(&mut out, &call), "line {number}: its outcome is too long"),
        Err(e) => panic!("line {number}: {e}"),
    });
}

/// What this program says of the lines of one kind: the form that every program over such lines prints.
#[derive(Default, Clone)]
pub struct Tally {
    pub same: u64,
    pub differ: u64,
    pub skipped: u64,
    pub first: u64,
}

fn check(fault: Option<u32>) {
    let mut tallies = vec![Tally::default(); line::SHAPES.len()];
    lines(&mut |number, text| {
        let (call, expected) = line::read(text).unwrap_or_else(|e| panic!("line {number}: {e}"));
        let k = line::SHAPES.iter().position(|s| s.kind == call.kind).expect("a kind");
        let tally = &mut tallies[k];
        if cfg!(debug_assertions) && ask::stops_in_debug(&call) {
            tally.skipped += 1;
            return;
        }
        let mut got = ask::ask(&call);
        if let Some(kind) = fault {
            compare::spoil(kind, &call, &mut got);
        }
        if Some(got) == expected {
            tally.same += 1;
        } else {
            tally.differ += 1;
            if tally.differ == 1 {
                tally.first = number;
            }
        }
    });
    for (s, t) in line::SHAPES.iter().zip(&tallies) {
        if t.same + t.differ + t.skipped == 0 {
            continue;
        }
        print!("kind {} same {} differ {} skipped {}", s.kind, t.same, t.differ, t.skipped);
        if t.differ > 0 {
            print!(" first {}", t.first);
        }
        println!();
    }
}

/// Ends with the usage.
fn misused() -> ! {
    eprintln!("{USAGE}");
    std::process::exit(2);
}

fn word(args: &[String], i: usize) -> &str {
    args.get(i).unwrap_or_else(|| misused())
}

fn number(args: &[String], i: usize) -> u64 {
    word(args, i).parse().unwrap_or_else(|_| misused())
}

/// The kind to be wrong on, if one is named.
fn kind(args: &[String], i: usize) -> Option<u32> {
    (args.len() > i).then(|| number(args, i) as u32)
}

fn main() {
    let args: Vec<String> = std::env::args().skip(1).collect();
    match args.first().map(String::as_str) {
        Some("answer") => answer(),
        Some("check") => check(kind(&args, 1)),
        Some("gen") => {
            let mut out = BufWriter::with_capacity(1 << 20, std::io::stdout());
            let mut dropped = 0u64;
            every_case(number(&args, 1), number(&args, 2), &mut |c| dropped += u64::from(!put(&mut out, &c)));
            out.flush().expect("standard output");
            if dropped > 0 {
                eprintln!("{dropped} calls were too long for a line");
            }
        }
        Some("files") => {
            let dir = std::path::Path::new(word(&args, 3));
            std::fs::create_dir_all(dir).expect("the folder");
            let mut k = 0;
            compare::every_file(number(&args, 1), number(&args, 2), &mut |f| {
                std::fs::write(dir.join(format!("{k:05}.vbk")), &f).expect("a file");
                std::fs::write(dir.join(format!("{k:05}.out")), vbk::text(&vbk::replay(&f))).expect("a file");
                k += 1;
            });
            println!("{k} files");
        }
        Some("lists") => lists::write_all(number(&args, 1), &mut BufWriter::new(std::io::stdout())),
        Some("edges") => cases::narrow_edges(&mut rng::Rng::new(number(&args, 1)), number(&args, 2)),
        Some("digest") => digest::print(number(&args, 1), number(&args, 2)),
        Some("best") => {
            let mut out = BufWriter::with_capacity(1 << 20, std::io::stdout());
            best::every(number(&args, 1), number(&args, 2), &mut |c, o| {
                let mut text = line::write(c, o);
                text.push(b'\n');
                out.write_all(&text).expect("standard output");
            });
        }
        Some("list") => std::process::exit(compare::run_list(word(&args, 1), word(&args, 2), &args[3..])),
        Some("compare") => {
            let (seed, count, dir) = (number(&args, 1), number(&args, 2), word(&args, 3));
            std::process::exit(compare::run(seed, count, dir, &args[4..]))
        }
        #[cfg(linked)]
        Some(way @ ("linked" | "near")) => {
            std::process::exit(linked::run(number(&args, 1), number(&args, 2), word(&args, 3), kind(&args, 4), way == "near"))
        }
        _ => misused(),
    }
}
