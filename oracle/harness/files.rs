//! VBK files from a seed: whole, cut, damaged, too long; every header and record refusal alone and in pairs; bytes that are no file.

use crate::cases::{self, BAD_TYPES, DEPTHS, Recon, beyond, example, fill, good_recon, samples, side, token_bound};
use crate::line::Call;
use crate::rng::Rng;
use crate::rules;

fn put16(f: &mut Vec<u8>, v: u64) {
    f.extend_from_slice(&(v as u16).to_le_bytes());
}

fn header(depth: u8, width: u64, height: u64, samples: &[i64]) -> Vec<u8> {
    let mut f = b"VBK\x01\x00".to_vec();
    f.push(depth);
    put16(&mut f, width);
    put16(&mut f, height);
    for s in samples {
        put16(&mut f, *s as u64);
    }
    f
}

fn record(f: &mut Vec<u8>, c: &Recon, lossless: u8) {
    put16(f, c.x);
    put16(f, c.y);
    f.push(c.size as u8);
    f.push(c.tx_type);
    f.push(lossless);
    put16(f, c.dc as u64);
    put16(f, c.ac as u64);
    for t in &c.tokens {
        let t = (*t).clamp(i32::MIN.into(), i32::MAX.into());
        f.extend_from_slice(&(t as i32).to_le_bytes());
    }
}

/// A record for a plane of this depth; some are refused.
fn any_record(r: &mut Rng, depth: u32, width: u64, height: u64, small: bool) -> (Recon, u8) {
    let mut c = good_recon(r);
    while small && c.size > 1 && !r.once_in(12) {
        c = good_recon(r);
    }
    c.depth = depth;
    c.x = r.below(width + 3);
    c.y = r.below(height + 3);
    if r.once_in(10) {
        (c.x, c.y) = (r.pick(&[0, 255, 65_535]), r.pick(&[0, 256, 65_535]));
    }
    let (size, dc, ac) = (c.size, c.dc, c.ac);
    c.tokens = fill(r, side(size + 2), &|k| token_bound(size, depth, if k == 0 { dc } else { ac }));
    let mut lossless = u8::from(c.lossless);
    match r.below(24) {
        0 => lossless = r.pick(&[2, 3, 128, 255]),
        1 => c.tx_type = r.pick(&BAD_TYPES),
        2 => c.dc = r.pick(&[0, 32_768, 65_535]),
        3 => c.ac = r.pick(&[0, 32_768, 65_535]),
        4 => lossless = 1,
        5 => {
            let k = r.below(c.tokens.len() as u64) as usize;
            c.tokens[k] = beyond(r, rules::codeable(depth));
        }
        6 => {
            let k = r.below(c.tokens.len() as u64) as usize;
            (c.dc, c.ac) = (32_767, 32_767);
            c.tokens[k] = rules::codeable(depth);
        }
        _ => {}
    }
    (c, lossless)
}

/// A file; `small` keeps it short enough for a line.
pub fn random(r: &mut Rng, small: bool) -> Vec<u8> {
    if r.once_in(12) {
        return cases::written_file(r);
    }
    let depth = r.pick(&DEPTHS);
    let (width, height) = match r.below(if small { 6 } else { 8 }) {
        0 => (1, 1),
        1 => (r.range(1, 40) as u64, 1),
        2..=4 => (r.range(1, 16) as u64, r.range(1, 16) as u64),
        5 => (r.range(1, 6) as u64, r.range(1, 6) as u64),
        6 => (64, 64),
        _ => r.pick(&[(4_096, 1), (1, 4_096), (63, 65), (128, 32)]),
    };
    let s = samples(r, (width * height) as usize, depth);
    let mut f = header(depth as u8, width, height, &s);
    let records = match r.below(6) {
        0 => 0,
        1 => 1,
        _ => r.range(1, if small { 5 } else { 14 }),
    };
    for _ in 0..records {
        let (c, lossless) = any_record(r, depth, width, height, small);
        record(&mut f, &c, lossless);
    }
    match r.below(12) {
        0 => f.truncate(r.below(f.len() as u64 + 1) as usize), // cut anywhere
        1 => {
            let cut = r.below(12).min(f.len() as u64) as usize;
            f.truncate(f.len() - cut);
        }
        2 => f.extend((0..r.range(1, 30)).map(|_| r.next() as u8).collect::<Vec<_>>()), // a stray end
        3 => {
            // one damaged byte in the header
            let k = r.below(10.min(f.len() as u64)) as usize;
            f[k] = r.next() as u8;
        }
        4 => {
            // damaged bytes anywhere
            for _ in 0..r.range(1, 4) {
                let k = r.below(f.len() as u64) as usize;
                f[k] = r.next() as u8;
            }
        }
        5 if !small => {
            // about the greatest length
            let len = r.pick(&[65_534, 65_535, 65_536, 65_537, 70_000]);
            let byte = r.pick(&[0, 0, 1, 255]);
            f.resize(len, byte);
        }
        6 => {
            // a record with a size that is none, then more
            let at = f.len();
            let (c, lossless) = any_record(r, depth, width, height, true);
            record(&mut f, &c, lossless);
            f[at + 4] = r.pick(&[4, 5, 255]);
        }
        _ => {}
    }
    f
}

fn noise(r: &mut Rng, len: usize) -> Vec<u8> {
    (0..len).map(|_| r.next() as u8).collect()
}

/// Mostly zeros: the fewer other bytes, the more tokens are taken.
fn sparse(r: &mut Rng, len: usize) -> Vec<u8> {
    let once = r.pick(&[2, 8, 64, 500]);
    (0..len).map(|_| if r.once_in(once) { r.next() as u8 } else { 0 }).collect()
}

fn fuzz_length(r: &mut Rng) -> usize {
    match r.below(16) {
        0 => r.pick(&[65_534, 65_535, 65_536]),
        1..=4 => r.below(40) as usize,
        5..=8 => r.below(20_000) as usize,
        _ => r.below(1_000) as usize,
    }
}

fn good_header(r: &mut Rng) -> Vec<u8> {
    let depth = r.pick(&DEPTHS);
    let (width, height) = (r.range(1, 20) as u64, r.range(1, 20) as u64);
    let s = samples(r, (width * height) as usize, depth);
    header(depth as u8, width, height, &s)
}

/// Bytes that nobody meant as a file.
pub fn fuzz(r: &mut Rng) -> Vec<u8> {
    let len = fuzz_length(r);
    match r.below(6) {
        0 => noise(r, len),
        1 => {
            // the mark and the version are there, and nothing else is meant
            let mut f = b"VBK\x01\x00".to_vec();
            f.push(r.pick(&[8, 8, 10, 12, 9]));
            let tail = if r.once_in(2) { noise(r, len) } else { sparse(r, len) };
            f.extend(tail);
            f
        }
        2 => {
            let mut f = good_header(r);
            f.extend(noise(r, len));
            f
        }
        3 => {
            let mut f = good_header(r);
            f.extend(sparse(r, len));
            f
        }
        4 => {
            // heads that are nearly good, with noise for tokens
            let mut f = good_header(r);
            for _ in 0..r.range(1, 12) {
                let size = if r.once_in(30) { r.next() as u8 } else { r.pick(&[0, 0, 0, 1, 1, 2, 3]) };
                put16(&mut f, r.below(24));
                put16(&mut f, r.below(24));
                f.push(size);
                f.push(if r.once_in(8) { r.next() as u8 } else { r.below(4) as u8 });
                f.push(r.pick(&[0, 0, 0, 1, 2]));
                put16(&mut f, r.next() >> r.below(16));
                put16(&mut f, r.next() >> r.below(16));
                let tokens = sparse(r, 4 * rules::area(u32::from(size.min(3))));
                f.extend(tokens);
            }
            f
        }
        _ => {
            // a good file torn: bytes taken out, doubled, or flipped
            let mut f = random(r, false);
            for _ in 0..r.range(1, 4) {
                if f.is_empty() {
                    break;
                }
                let from = r.below(f.len() as u64) as usize;
                let to = (from + 1 + r.below(80) as usize).min(f.len());
                match r.below(3) {
                    0 => drop(f.drain(from..to)),
                    1 => {
                        let part = f[from..to].to_vec();
                        f.splice(from..from, part);
                    }
                    _ => f[from] ^= 1 << r.below(8),
                }
            }
            f
        }
    }
}

pub fn as_call(file: &[u8]) -> Call {
    Call { kind: 30, args: vec![], lists: vec![file.iter().map(|b| i64::from(*b)).collect()] }
}

/// The worked example of docs/REFERENCE.md.
pub fn worked() -> Vec<u8> {
    let mut f = header(8, 4, 4, &[100; 16]);
    record(&mut f, &example(), 1);
    f
}

/// Files that docs/REFERENCE.md names one by one: each header refusal alone and with each later one, each cut.
pub fn systematic(r: &mut Rng, out: &mut dyn FnMut(Vec<u8>)) {
    let example = worked();
    for cut in 0..=example.len() {
        out(example[..cut].to_vec());
    }
    // header faults in pairs: mark, version, depth, width x height, samples cut
    let faults: [&dyn Fn(&mut Vec<u8>); 6] =
        [&|f| f[1] = b'b', &|f| f[3] = 2, &|f| f[5] = 9, &|f| f[6] = 0, &|f| (f[6], f[7], f[8], f[9]) = (65, 0, 64, 0), &|f| {
            f.truncate(30)
        }];
    for a in faults {
        for b in faults {
            let mut f = example.clone();
            a(&mut f);
            b(&mut f);
            out(f);
        }
    }
    for (w, h) in [(4_096u64, 1u64), (1, 4_096), (64, 64), (4_097, 1), (65, 64), (65_535, 65_535), (0, 5), (5, 0)] {
        let count = (w * h).min(4_200) as usize;
        let f = header(8, w, h, &vec![9; count]);
        out(f);
    }
    for len in [65_535usize, 65_536] {
        for good in [true, false] {
            let mut f = example.clone();
            f.resize(len, 0);
            if !good {
                f[0] = 0;
            }
            out(f);
        }
    }
    // record faults in pairs: size, tokens cut, lossless byte, lossless size, type, quantizers, token, coefficient
    for depth in DEPTHS {
        for a in 0..9u8 {
            for b in 0..9u8 {
                let mut f = header(depth as u8, 3, 2, &[1, 2, 3, 4, 5, 6]);
                let mut c = good_recon(r);
                (c.size, c.lossless, c.tx_type, c.dc, c.ac) = (u32::from(a > b), false, 0, 4, 5);
                (c.x, c.y) = (r.below(3), r.below(3));
                let (mut lossless, mut cut) = (0, false);
                for fault in [a, b] {
                    match fault {
                        0 => c.size = 4,
                        1 => cut = true,
                        2 => lossless = 2,
                        3 => (c.size, lossless) = (1, lossless.max(1)),
                        4 => c.tx_type = 4,
                        5 => c.dc = 0,
                        6 => c.ac = 32_768,
                        _ => {}
                    }
                }
                c.tokens = vec![0; if c.size == 1 { 64 } else { 16 }];
                for fault in [a, b] {
                    match fault {
                        7 => c.tokens[1] = rules::codeable(depth) + 1,
                        8 => {
                            c.tokens[2] = rules::codeable(depth);
                            c.ac = c.ac.max(32_767);
                        }
                        _ => {}
                    }
                }
                record(&mut f, &c, lossless);
                if cut {
                    f.truncate(f.len() - 1);
                } else {
                    // a good record after it
                    let mut c = good_recon(r);
                    (c.size, c.tx_type, c.dc, c.ac, c.x, c.y) = (0, 3, 8, 9, 1, 0);
                    c.tokens = vec![0; 16];
                    c.tokens[1] = 20;
                    record(&mut f, &c, 0);
                }
                out(f);
            }
        }
    }
}
