//! The fixed list: some hundred calls of each kind, short enough to be read.

use crate::line::{self, Call, Outcome};
use crate::rng::Rng;
use crate::{ask, cases, rules};
use std::collections::BTreeMap;
use std::io::Write;

/// A pattern of rows that the list has by itself: none, each row alone, all; of four rows every one. Of others -1.
fn pattern(n: i128, summary: u32) -> i128 {
    if n == 2 || summary.count_ones() < 2 || summary.count_ones() == 1 << n { summary.into() } else { -1 }
}

/// What a call of the list stands for; the same number of each is kept.
fn class(c: &Call, o: &Outcome) -> Vec<i128> {
    let answer = o.nums.first().copied().unwrap_or(0);
    let small = |v: i128| v.clamp(0, 9);
    match c.kind {
        1 => vec![c.args[1]],
        5 | 7 => vec![c.args[2].rem_euclid(128) / 8, c.args[3]],
        10..=12 => vec![c.args[0]],
        20 | 21 | 37 if answer == 0 => vec![0, c.args[0], if c.args[2] == 1 { 9 } else { c.args[1] }],
        37 if answer == 18 => vec![18, c.args[0], if c.args[2] == 1 { 9 } else { c.args[1] }],
        38 if answer == 0 => vec![0, c.args[0]],
        20 | 21 | 37 | 38 => vec![answer, small(c.args[0])],
        22 if answer == 0 => {
            let (n0, w, h) = (4i128 << c.args[2], c.args[8], c.args[9]);
            let outside = c.args[0] >= w || c.args[1] >= h;
            let cut = c.args[0] + n0 > w || c.args[1] + n0 > h;
            let kind = if c.args[4] == 1 { 9 } else { c.args[3] };
            vec![0, c.args[2], kind, c.args[5], i128::from(cut) + i128::from(outside), i128::from(c.args[10] > w)]
        }
        31 if answer == 0 => vec![0, c.args[2], c.args[5], i128::from(c.args[10] > c.args[8])],
        22 | 31 => vec![answer, small(c.args[2]), small(c.args[5])],
        32 if answer == 0 => vec![0, c.args[0], pattern(c.args[0], o.lists[0][0] as u32), i128::from(c.lists[0].len() > 1 << (2 * c.args[0]))],
        33 if answer == 0 => {
            // which place; the row's bit before and after; a token that is not zero with a coefficient that is; the block's own summary
            let (at, count) = (c.args[1] as usize, c.lists[0].len());
            let row = c.args[1] as u32 / (4 << c.args[0]);
            let bit = |s: i64| i128::from(s >> row & 1);
            let own = i64::from(rules::summary(&rules::live_rows(c.args[0] as u32 + 2, &c.lists[0])));
            let place = i128::from(at == 0) + 2 * i128::from(at == count - 1);
            let halved = i128::from(c.args[2] != 0 && o.lists[0][at] == 0);
            vec![0, c.args[0], place, bit(c.lists[1][0]), bit(o.lists[1][0]), halved, i128::from(own == c.lists[1][0])]
        }
        34 if answer == 0 => {
            let n = c.args[0];
            let rows = rules::live_rows(n as u32, &c.lists[0]);
            let kind = if c.args[2] == 1 { 9 } else { c.args[1] };
            let which = if n < 4 { pattern(n, rules::summary(&rows)) } else { rows.iter().filter(|live| **live).count().min(2) as i128 };
            vec![0, n, kind, which, i128::from(o.nums[1] == 0)]
        }
        32 | 34 => vec![answer, small(c.args[0])],
        33 => vec![answer, small(c.args[0]), small(c.args[5])],
        24 if answer == 0 => vec![0, c.args[2], c.args[3]],
        39 if answer == 0 => vec![0, c.args[2], c.args[3], c.args[4]],
        23..=25 | 39 => vec![answer],
        36 => vec![i128::from(c.args[2] == 3), c.args[1].min(4), c.args[3].min(6)],
        30 => {
            // the header's answer, and which answers its records have
            let mut set: Vec<i64> = o.lists[0].clone();
            set.sort();
            set.dedup();
            std::iter::once(answer).chain(set.into_iter().map(i128::from)).collect()
        }
        35 => vec![answer, c.lists[1].len() as i128],
        _ => vec![],
    }
}

/// The longest line that a list of this kind takes, and how many calls of one class.
fn room(c: &Call, o: &Outcome) -> (usize, usize) {
    let answer = o.nums.first().copied().unwrap_or(0);
    match c.kind {
        1 => (100, 4),
        2..=4 | 26 => (100, 120),
        5 | 7 => (260, 4),
        6 | 8 => (260, 60),
        10 | 11 => (220, 50),
        12 => (100, 60),
        37 if answer == 0 || answer == 18 => match c.args[0] {
            2 => (300, 12),
            3 => (700, 8),
            4 => (2_200, 3),
            _ => (9_000, 2),
        },
        38 if answer == 0 => match c.args[0] {
            2 => (300, 60),
            3 => (700, 20),
            4 => (2_600, 6),
            _ => (9_000, 4),
        },
        20 | 21 if answer == 0 => match c.args[0] {
            2 => (300, 20),
            3 => (600, 14),
            4 => (1_600, 6),
            _ => (5_000, 8),
        },
        22 if answer == 0 => match c.args[2] {
            0 => (300, 4),
            1 => (600, 3),
            2 => (1_600, 1),
            _ => (3_000, 3),
        },
        31 if answer == 0 => match c.args[2] {
            0 => (500, 10),
            1 => (900, 6),
            2 => (2_000, 3),
            _ => (5_000, 2),
        },
        31 => (700, 2),
        32 if answer == 0 => (400, if pattern(c.args[0], o.lists[0][0] as u32) < 0 { 6 } else { 1 }),
        33 if answer == 0 => (400, 2),
        34 if answer == 0 => match c.args[0] {
            2 => (300, 1),
            3 => (600, 1),
            4 => (1_600, 2),
            _ => (5_000, 2),
        },
        32..=34 => (300, 3),
        35 if answer == 0 => (3_000, 8),
        35 => (1_500, 3),
        20 | 21 | 37 | 38 => (300, 3),
        22 => (300, 2),
        23 if answer == 0 => (300, 150),
        24 if answer == 0 => (250, 12),
        39 if answer == 0 => (250, 6),
        25 if answer == 0 => (250, 100),
        23..=25 | 39 => (250, 12),
        36 => (100, 6),
        _ => (600, 5),
    }
}

pub fn write_all(seed: u64, out: &mut dyn Write) {
    let mut kept: BTreeMap<(u32, Vec<i128>), Vec<Vec<u8>>> = BTreeMap::new();
    let mut seen: BTreeMap<(u32, Vec<i128>), u64> = BTreeMap::new();
    let mut worked: BTreeMap<u32, Vec<Vec<u8>>> = BTreeMap::new();
    cases::worked(&mut |c| worked.entry(c.kind).or_default().push(line::write(&c, &ask::ask(&c))));
    let mut r = Rng::new(seed);
    // every refusal alone and in pairs
    for (kind, numbers) in cases::REFUSALS {
        for (i, a) in numbers.iter().enumerate() {
            for b in &numbers[i..] {
                let line = (0..500).find_map(|_| {
                    let c = cases::refused(&mut r, kind, &[*a, *b]);
                    let o = ask::ask(&c);
                    let text = line::write(&c, &o);
                    (o.nums[0] == i128::from(*a) && text.len() < match kind {
                        31 => 700,
                        35 => 1_500,
                        _ => 300,
                    }).then_some(text)
                });
                worked.entry(kind).or_default().extend(line);
            }
        }
    }
    crate::every_case(seed, 60_000, &mut |c| {
        let o = ask::ask(&c);
        let (longest, quota) = room(&c, &o);
        let text = line::write(&c, &o);
        if text.len() > longest {
            return;
        }
        // a fair choice among all calls of the class
        let key = (c.kind, class(&c, &o));
        let n = seen.entry(key.clone()).or_insert(0);
        *n += 1;
        let list = kept.entry(key).or_default();
        if list.contains(&text) || worked.get(&c.kind).is_some_and(|w| w.contains(&text)) {
            return;
        }
        if list.len() < quota {
            list.push(text);
        } else {
            let k = r.below(*n) as usize;
            if k < quota {
                list[k] = text;
            }
        }
    });
    writeln!(out, "# The Rust's answers, by oracle/make-lists {seed}. The form of a line: oracle/README.md.").unwrap();
    for shape in line::SHAPES {
        let kind = shape.kind;
        let lines: Vec<&Vec<u8>> = kept.iter().filter(|(k, _)| k.0 == kind).flat_map(|(_, l)| l).collect();
        let lists = |l: &[&str]| l.iter().map(|n| format!(" [{n}]")).collect::<String>();
        let plain = |l: &[&str]| l.iter().map(|n| format!(" {n}")).collect::<String>();
        let after = " [afterwards]".repeat(shape.after.len());
        writeln!(out, "# kind {kind} {}: {kind}{}{} ->{}{after}", shape.name, plain(shape.args), lists(shape.lists), plain(shape.nums))
            .unwrap();
        let first = worked.get(&kind).map(Vec::as_slice).unwrap_or(&[]);
        for l in first.iter().chain(lines.iter().copied()) {
            out.write_all(l).unwrap();
            out.write_all(b"\n").unwrap();
        }
        eprintln!("kind {kind:2} {:31} {} calls", shape.name, first.len() + lines.len());
    }
}
