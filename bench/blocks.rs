//! Transform blocks of VP9 streams as libvpx's decoder met them (bench/data/README.md has the format): our calls and the Rust's beside libvpx.
//!   blocks compare FILE...   every sample of every block against libvpx's; status 1 where one differs, or a block is refused, though all its
//!                            numbers stay within 8 + depth bits, as those of a conforming stream do
//!   blocks time ROUNDS FILE  ns a block of ours, the Rust's and, where it is linked in, libvpx's: least of ROUNDS rounds that take turns
//! The programs are made and called by ./compare --blocks and bench/real.
#![allow(dead_code)]
#[path = "../bindings/rust/src/archive.rs"]
mod archive;
#[path = "../oracle/rust/idct.rs"]
mod idct;
#[path = "../oracle/rust/intra.rs"]
mod intra;
mod range;
#[path = "../oracle/rust/reconstruct.rs"]
mod reconstruct;
#[cfg(libvpx)]
mod vpx;
#[cfg(not(libvpx))]
mod vpx {
    pub fn start() {}
    pub fn add8(_: bool, _: &crate::Block, _: &[i32], _: &mut [u8], _: usize) {}
    pub fn add16(_: bool, _: &crate::Block, _: &[i32], _: &mut [u16], _: usize) {}
}

use archive as c;
use range::transformed;
use std::collections::BTreeMap;
use std::fs::File;
use std::hint::black_box;
use std::io::{BufReader, Read};
use std::time::Instant;

// ---- records

#[derive(Clone)]
pub struct Block {
    depth: u32,
    lossless: bool,
    /// decoded in 16-bit buffers
    wide: bool,
    size: u32,
    kind: u8,
    eob: u32,
    quant: [i32; 2],
    /// place and token, in the order of the scan
    live: Vec<(u16, i32)>,
    before: Vec<u16>,
    after: Vec<u16>,
}

impl Block {
    fn side(&self) -> usize {
        4 << self.size
    }
    fn area(&self) -> usize {
        self.side() * self.side()
    }
    fn tokens(&self) -> Vec<i64> {
        let mut t = vec![0; self.area()];
        self.live.iter().for_each(|&(p, v)| t[p as usize] = v as i64);
        t
    }
    fn coefs(&self) -> Vec<i64> {
        let half = if self.size == 3 { 2 } else { 1 };
        self.tokens().iter().enumerate().map(|(i, v)| v * self.quant[(i > 0) as usize] as i64 / half).collect()
    }
    fn type_name(&self) -> String {
        if self.lossless { "wht".into() } else { self.kind.to_string() }
    }
    fn dc_only(&self) -> bool {
        !self.lossless && self.kind == 0 && self.live.iter().all(|&(p, _)| p == 0)
    }
}

fn end(said: String) -> ! {
    eprintln!("{said}");
    std::process::exit(2)
}

fn u16_at(b: &[u8], at: usize) -> u32 {
    b[at] as u32 | (b[at + 1] as u32) << 8
}

/// The records of a file of either form; the compact one holds differences.
struct Records {
    name: String,
    from: BufReader<File>,
    compact: bool,
}

impl Records {
    fn open(name: &str) -> Records {
        let file = File::open(name).unwrap_or_else(|e| end(format!("{name}: {e}")));
        let mut from = BufReader::with_capacity(1 << 20, file);
        let mut mark = [0; 8];
        if from.read_exact(&mut mark).is_err() || &mark != b"VP9BLK1\n" && &mark != b"VP9BLK2\n" {
            end(format!("{name}: no file of blocks (bench/data/README.md)"));
        }
        Records { name: name.into(), from, compact: mark[6] == b'2' }
    }
    fn bytes(&mut self, count: usize) -> Vec<u8> {
        let mut raw = vec![0; count];
        self.from.read_exact(&mut raw).unwrap_or_else(|e| end(format!("{}: a record is cut short: {e}", self.name)));
        raw
    }
    fn samples(&mut self, count: usize, deep: bool) -> Vec<u16> {
        let raw = self.bytes(if deep { 2 * count } else { count });
        if deep { raw.chunks_exact(2).map(|b| u16_at(b, 0) as u16).collect() } else { raw.iter().map(|&b| b as u16).collect() }
    }
}

impl Iterator for Records {
    type Item = Block;
    fn next(&mut self) -> Option<Block> {
        let mut first = [0];
        self.from.read_exact(&mut first).ok()?;
        let h = [first.to_vec(), self.bytes(13)].concat();
        let count = 16usize << (2 * h[2].min(3));
        let raw = self.bytes(6 * u16_at(&h, 12) as usize);
        let live: Vec<(u16, i32)> = raw.chunks_exact(6).map(|t| (u16_at(t, 0) as u16, (u16_at(t, 2) | u16_at(t, 4) << 16) as i32)).collect();
        if !matches!(h[0], 8 | 10 | 12) || h[2] > 3 || h[3] > 3 || live.iter().any(|t| t.0 as usize >= count) {
            end(format!("{}: a record's depth, size, type or place is none", self.name));
        }
        let deep = h[0] > 8;
        let mut before = self.samples(count, deep);
        let mut after = self.samples(count, deep);
        if self.compact {
            let mask = if deep { 0xffff } else { 0xff };
            for i in 1..count {
                before[i] = before[i].wrapping_add(before[i - 1]) & mask;
            }
            after.iter_mut().zip(&before).for_each(|(a, b)| *a = a.wrapping_add(*b) & mask);
        }
        Some(Block {
            depth: h[0] as u32,
            lossless: h[1] & 1 != 0,
            wide: h[1] & 4 != 0,
            size: h[2] as u32,
            kind: h[3],
            eob: u16_at(&h, 6),
            quant: [u16_at(&h, 8) as u16 as i16 as i32, u16_at(&h, 10) as u16 as i16 as i32],
            live,
            before,
            after,
        })
    }
}

// ---- compare

struct Rng(u64);
impl Rng {
    fn next(&mut self) -> u64 {
        self.0 ^= self.0 << 13;
        self.0 ^= self.0 >> 7;
        self.0 ^= self.0 << 17;
        self.0
    }
    fn below(&mut self, m: usize) -> usize {
        (self.next() >> 11) as usize % m
    }
}

fn ours(samples: &mut [u16], (w, h): (usize, usize), (x, y): (usize, usize), b: &Block, tokens: &[i64]) -> u32 {
    let (p, count) = (samples.as_mut_ptr(), samples.len());
    unsafe { c::bracetwill_reconstruct_block(p, count, w, h, w, x, y, b.size, tokens.as_ptr(), tokens.len(), b.quant[0], b.quant[1], b.kind, b.lossless, b.depth) }
}

/// The counts and sums of a report.
struct Report([u32; 44], [u64; 44]);

fn ours_report(samples: &mut [u16], (w, h): (usize, usize), (x, y): (usize, usize), b: &Block, tokens: &[i64], r: &mut Report) -> u32 {
    let (p, count) = (samples.as_mut_ptr(), samples.len());
    let (counts, sums) = (&raw mut r.0, &raw mut r.1);
    unsafe {
        c::bracetwill_reconstruct_block_report(
            p, count, w, h, w, x, y, b.size, tokens.as_ptr(), tokens.len(), b.quant[0], b.quant[1], b.kind, b.lossless, b.depth, counts, sums,
        )
    }
}

fn rusts(plane: &mut intra::Plane, (x, y): (usize, usize), b: &Block, tokens: &[i64]) {
    reconstruct::reconstruct_block(plane, x, y, b.size, tokens, b.quant[0], b.quant[1], b.kind, b.lossless, b.depth);
}

/// The block in a plane of w by h at x, y, all other samples random: whether the plane holds afterwards what it should.
fn placed(rng: &mut Rng, b: &Block, tokens: &[i64], (w, h): (usize, usize), (x, y): (usize, usize)) -> bool {
    let n0 = b.side();
    let mut plane: Vec<u16> = (0..w * h).map(|_| (rng.next() >> 20) as u16 & ((1u32 << b.depth) - 1) as u16).collect();
    let mut want = plane.clone();
    for i in 0..n0.min(h - y) {
        for j in 0..n0.min(w - x) {
            plane[(y + i) * w + x + j] = b.before[i * n0 + j];
            want[(y + i) * w + x + j] = b.after[i * n0 + j];
        }
    }
    ours(&mut plane, (w, h), (x, y), b, tokens) == 0 && plane == want
}

/// The residual of our 2D driver, added and clipped here.
fn by_driver(b: &Block) -> bool {
    let mut r = b.coefs();
    let answer = unsafe { c::bracetwill_inverse_transform_2d(r.as_mut_ptr(), r.len(), b.size + 2, b.kind, b.lossless) };
    answer == 0 && added(b, &r) == b.after
}

fn added(b: &Block, residual: &[i64]) -> Vec<u16> {
    b.before.iter().zip(residual).map(|(&s, r)| (s as i64 + r).clamp(0, (1 << b.depth) - 1) as u16).collect()
}

fn by_rust(b: &Block, tokens: &[i64]) -> Vec<u16> {
    let mut plane = intra::Plane::new(b.side(), b.side());
    plane.samples_mut().copy_from_slice(&b.before);
    rusts(&mut plane, (0, 0), b, tokens);
    plane.samples().to_vec()
}

#[derive(Default)]
struct Count {
    blocks: u64,
    samples: u64,
    equal: u64,
    differ: u64,
    refused: u64,
    /// of those that differ or are refused: a number of the process passes 8 + depth bits
    past: u64,
    inside: u64,
    cut: u64,
    driver: u64,
    rust: u64,
    rust_differs: u64,
    most: i64,
}

impl Count {
    fn add(&mut self, o: &Count) {
        self.blocks += o.blocks;
        self.samples += o.samples;
        self.equal += o.equal;
        self.differ += o.differ;
        self.refused += o.refused;
        self.past += o.past;
        self.inside += o.inside;
        self.cut += o.cut;
        self.driver += o.driver;
        self.rust += o.rust;
        self.rust_differs += o.rust_differs;
        self.most = self.most.max(o.most);
    }
}

/// One block, every eighth also in a larger plane, cut, by the 2D driver alone, or by the Rust. The answer, our samples, and whether all is equal.
fn one(b: &Block, rng: &mut Rng, k: &mut Count) -> (u32, Vec<u16>, bool) {
    let (n0, tokens) = (b.side(), b.tokens());
    let mut samples = b.before.clone();
    let answer = ours(&mut samples, (n0, n0), (0, 0), b, &tokens);
    let mut same = answer == 0 && samples == b.after;
    if answer == 0 {
        match rng.below(8) {
            0 => {
                let at = (rng.below(9), rng.below(9));
                let size = (n0 + at.0 + rng.below(9), n0 + at.1 + rng.below(9));
                k.inside += 1;
                same &= placed(rng, b, &tokens, size, at);
            }
            1 => {
                let at = (rng.below(5), rng.below(5));
                let size = (at.0 + 1 + rng.below(n0), at.1 + 1 + rng.below(n0));
                k.cut += 1;
                same &= placed(rng, b, &tokens, size, at);
            }
            2 => {
                k.driver += 1;
                same &= by_driver(b);
            }
            3 => {
                k.rust += 1;
                k.rust_differs += (by_rust(b, &tokens) != samples) as u64;
            }
            _ => {}
        }
    }
    (answer, samples, same)
}

fn show(b: &Block, answer: u32, got: &[u16], file: &str, index: usize) {
    let r = transformed(&b.coefs(), b.size + 2, b.kind, b.lossless).1;
    println!(
        "{file} record {index}: depth {}, {} by {}, type {}, quantizers {:?}, eob {}, answer {answer}; greatest of T {}, before rounding {}",
        b.depth, b.side(), b.side(), b.type_name(), b.quant, b.eob, r.t, r.s
    );
    println!("  tokens (place, value) {:?}", &b.live[..b.live.len().min(64)]);
    let places: Vec<usize> = (0..b.area()).filter(|&i| b.after[i] != got[i]).collect();
    if let Some(&at) = places.first() {
        println!("  {} samples differ, first at {at}: before {}, libvpx {}, ours {}", places.len(), b.before[at], b.after[at], got[at]);
    }
}

fn compare(files: &[String]) -> bool {
    let mut counts: BTreeMap<(u32, bool, u32, String), Count> = BTreeMap::new();
    let mut rng = Rng(0x9e37_79b9_7f4a_7c15);
    let mut shown = 0;
    for file in files {
        let mut whole = Count::default();
        for (index, mut b) in Records::open(file).enumerate() {
            if index == 0 {
                // a changed sample has to be found
                let last = b.area() - 1;
                b.after[last] ^= 1;
                assert!(!one(&b, &mut rng, &mut Count::default()).2, "a changed sample was not found");
                b.after[last] ^= 1;
            }
            let mut k = Count { blocks: 1, samples: b.area() as u64, ..Count::default() };
            let (answer, samples, same) = one(&b, &mut rng, &mut k);
            let (residual, r) = transformed(&b.coefs(), b.size + 2, b.kind, b.lossless);
            k.most = r.t;
            (k.equal, k.refused) = (same as u64, (answer != 0) as u64);
            k.differ = (!same && answer == 0) as u64;
            if !same {
                k.past = (r.t >> (7 + b.depth) != 0) as u64;
                assert!(answer == 0 || samples == b.before, "{file} record {index}: refused, and a sample changed");
                shown += 1;
                if shown <= 10 {
                    show(&b, answer, &samples, file, index);
                }
            } else {
                assert!(added(&b, &residual) == b.after, "{file} record {index}: the processes of bench/range.rs give other samples");
            }
            counts.entry((b.depth, b.wide, b.size, b.type_name())).or_default().add(&k);
            whole.add(&k);
        }
        println!("{file}: {} blocks, {} equal", whole.blocks, whole.equal);
    }
    println!("\n| depth | buffers | block | type | blocks | equal | differ | refused | of these past 8 + depth bits | greatest of T |\n|---|---|---|---|---|---|---|---|---|---|");
    let mut t = Count::default();
    for ((depth, wide, size, kind), k) in &counts {
        let (n0, bits) = (4 << size, if *wide { 16 } else { 8 });
        println!("| {depth} | {bits} | {n0} x {n0} | {kind} | {} | {} | {} | {} | {} | {} |", k.blocks, k.equal, k.differ, k.refused, k.past, k.most);
        t.add(k);
    }
    println!(
        "{} blocks, {} samples: {} equal to libvpx's, {} differ, {} refused; {} also in a larger plane, {} cut, {} by the 2D driver; by the Rust {}, {} differ from ours",
        t.blocks, t.samples, t.equal, t.differ, t.refused, t.inside, t.cut, t.driver, t.rust, t.rust_differs
    );
    t.differ + t.refused == t.past && t.blocks > 0
}

// ---- time

/// Numbers whose first lies at a multiple of 64 bytes, as libvpx's assembler asks of coefficients.
struct Aligned<T> {
    room: Vec<T>,
    skip: usize,
}
impl<T: Copy + Default> Aligned<T> {
    fn new(len: usize) -> Self {
        let room = vec![T::default(); len + 64];
        let skip = (64 - room.as_ptr() as usize % 64) % 64 / std::mem::size_of::<T>();
        Aligned { room, skip }
    }
    fn all(&mut self) -> &mut [T] {
        &mut self.room[self.skip..]
    }
}

const WIDTH: usize = 640;

/// Blocks that follow one another, each at a place of its own in one plane; where its tokens stand among all.
struct Batch {
    blocks: Vec<Block>,
    places: Vec<(usize, usize, usize)>,
    height: usize,
}

fn batch(blocks: &[Block]) -> Batch {
    let (mut x, mut y, mut tall, mut at) = (0usize, 0, 0, 0);
    let mut places = vec![];
    for b in blocks {
        let n0 = b.side();
        x = x.next_multiple_of(n0);
        if x + n0 > WIDTH {
            (x, y, tall) = (0, y + tall, 0);
        }
        places.push((x, y, at));
        x += n0;
        tall = tall.max(n0);
        at += n0 * n0;
    }
    Batch { blocks: blocks.to_vec(), places, height: y + tall }
}

/// ours, the Rust, ours with a report beside it, libvpx's plain C, libvpx as it is packaged (its assembler where it has some)
const SIDES: usize = 5;

/// Least ns of a pass over the batch, for each side. In the first round the samples are compared, and the clock does not count.
fn measure(rounds: usize, batch: &Batch) -> [f64; SIDES] {
    let room = batch.blocks.iter().map(Block::area).sum();
    let mut tokens = vec![0i64; room];
    let mut coefs = Aligned::<i32>::new(room);
    let area = WIDTH * batch.height;
    let (mut start, mut want) = (vec![0u16; area], vec![0u16; area]);
    for (b, &(x, y, at)) in batch.blocks.iter().zip(&batch.places) {
        let n0 = b.side();
        tokens[at..at + n0 * n0].copy_from_slice(&b.tokens());
        b.coefs().iter().enumerate().for_each(|(i, &v)| coefs.all()[at + i] = v as i32);
        for i in 0..n0 {
            start[(y + i) * WIDTH + x..][..n0].copy_from_slice(&b.before[i * n0..][..n0]);
            want[(y + i) * WIDTH + x..][..n0].copy_from_slice(&b.after[i * n0..][..n0]);
        }
    }
    let narrow: Vec<u8> = start.iter().map(|&v| v as u8).collect();
    let shallow = batch.blocks.iter().all(|b| b.depth == 8);
    let mut own = Aligned::<u16>::new(area);
    let mut deep = Aligned::<u16>::new(area);
    let mut plain = Aligned::<u8>::new(area);
    let mut plane = intra::Plane::new(WIDTH, batch.height);
    let coefs = &coefs.all()[..room];
    let mut least = [f64::MAX; SIDES];
    for round in 0..rounds + 1 {
        for side in 0..if cfg!(libvpx) { SIDES } else { 3 } {
            match side {
                0 | 2 => own.all()[..area].copy_from_slice(&start),
                1 => plane.samples_mut().copy_from_slice(&start),
                _ if shallow => plain.all()[..area].copy_from_slice(&narrow),
                _ => deep.all()[..area].copy_from_slice(&start),
            }
            let mut report = Report([0; 44], [0; 44]);
            let clock = Instant::now();
            for (b, &(x, y, at)) in batch.blocks.iter().zip(&batch.places) {
                let b = black_box(b);
                let (block, place) = (at..at + b.area(), y * WIDTH + x);
                match side {
                    0 => {
                        ours(&mut own.all()[..area], (WIDTH, batch.height), (x, y), b, &tokens[block]);
                    }
                    1 => rusts(&mut plane, (x, y), b, &tokens[block]),
                    2 => {
                        ours_report(&mut own.all()[..area], (WIDTH, batch.height), (x, y), b, &tokens[block], &mut report);
                    }
                    _ if shallow => vpx::add8(side == 3, b, &coefs[block], &mut plain.all()[place..], WIDTH),
                    _ => vpx::add16(side == 3, b, &coefs[block], &mut deep.all()[place..], WIDTH),
                }
            }
            let ns = clock.elapsed().as_nanos() as f64;
            if round == 0 {
                let same = match side {
                    0 => own.all()[..area] == want[..],
                    2 => own.all()[..area] == want[..] && report.0.iter().map(|&k| k as usize).sum::<usize>() == room,
                    1 => plane.samples() == &want[..],
                    _ if shallow => plain.all()[..area].iter().zip(&want).all(|(&a, &w)| a as u16 == w),
                    _ => deep.all()[..area] == want[..],
                };
                assert!(same, "side {side}: other samples than the file's");
            } else {
                least[side] = least[side].min(ns);
            }
        }
    }
    least
}

/// Samples of a batch: those of a run of stem-typical, which is eight runs of each of its streams.
const ROOM: usize = 9216;

/// A line of the table: the blocks in their order, in batches of one depth.
fn line(name: &str, rounds: usize, blocks: &[Block]) {
    if blocks.is_empty() {
        return;
    }
    let mut ns = [0.0; SIDES];
    let (mut from, mut size) = (0, 0);
    for (at, b) in blocks.iter().enumerate() {
        size += b.area();
        if size >= ROOM || at + 1 == blocks.len() || (blocks[at + 1].depth == 8) != (b.depth == 8) {
            let least = measure(rounds, &batch(&blocks[from..=at]));
            (0..SIDES).for_each(|s| ns[s] += least[s]);
            (from, size) = (at + 1, 0);
        }
    }
    let each = |s: usize| ns[s] / blocks.len() as f64;
    print!("| {name} | {} | {:.1} | {:.1} | {:.2} |", blocks.len(), each(0), each(1), each(0) / each(1));
    print!(" {:.1} | {:.2} |", each(2), each(2) / each(0));
    if cfg!(libvpx) {
        print!(" {:.1} | {:.2} | {:.1} | {:.2} |", each(3), each(0) / each(3), each(4), each(0) / each(4));
    }
    println!();
}

fn time(rounds: usize, file: &str) {
    vpx::start();
    let blocks: Vec<Block> = Records::open(file).collect();
    print!("| blocks | count | ours ns | Rust ns | ours / Rust | with report ns | with / without |");
    if cfg!(libvpx) {
        print!(" libvpx C ns | ours / C | libvpx as packaged ns | ours / packaged |");
    }
    println!("\n{}|", "|---".repeat(if cfg!(libvpx) { 11 } else { 7 }));
    line("all, in their order", rounds, &blocks);
    for size in 0..4 {
        let n0 = 4 << size;
        let of: Vec<Block> = blocks.iter().filter(|b| b.size == size).cloned().collect();
        let dc: Vec<Block> = of.iter().filter(|b| b.dc_only()).cloned().collect();
        line(&format!("{n0} x {n0}"), rounds, &of);
        line(&format!("{n0} x {n0}, DC alone"), rounds, &dc);
    }
}

fn main() {
    let args: Vec<String> = std::env::args().skip(1).collect();
    match args.iter().map(String::as_str).collect::<Vec<_>>().as_slice() {
        ["compare", _, ..] => std::process::exit(!compare(&args[1..]) as i32),
        ["time", rounds, file] if rounds.parse::<usize>().is_ok_and(|r| r > 0) => time(rounds.parse().unwrap(), file),
        _ => end("usage: blocks compare FILE... | blocks time ROUNDS FILE".into()),
    }
}
