//! The digest of calls of every kind, from the Rust: the same draws as crates/draws and crates/digest make, written anew from their
//! description (oracle/README.md), the refusals by rules.rs. One number, which every host must print.

use crate::{ask, forward, fwd_transform, idct, narrow, rules, vbk};

const GOLDEN: u64 = 0x9e37_79b9_7f4a_7c15;

fn stir(x: u64) -> u64 {
    let (low, high) = (x & 0xffff_ffff, x >> 32);
    (low * 0x9e37_79b1) ^ (high * 0x85eb_ca77).rotate_left(32)
}

/// Number `place` of a key.
fn draw(key: u64, place: u64) -> u64 {
    stir(stir(stir(key.wrapping_add(place)) ^ GOLDEN))
}

struct Digest(u64);

impl Digest {
    fn feed(&mut self, x: u64) {
        self.0 = stir(self.0.wrapping_add(GOLDEN) ^ x);
    }

    /// A list: its length, and each number as the 64 bits that it is stored in.
    fn list(&mut self, list: impl ExactSizeIterator<Item = i64>) {
        self.feed(list.len() as u64);
        list.for_each(|x| self.feed(x as u64));
    }
}

fn number(r: u64, scale: u64, dense: u64) -> i64 {
    if r % 256 >= dense {
        return 0;
    }
    let below = [2, 16, 256, 4096, 65_536, 2_097_152, rules::COEF_LIMIT + 1, 4_294_967_296][scale.min(7) as usize];
    let m = (r / 512 % below) as i64;
    if r / 256 % 2 == 0 { -m } else { m }
}

fn density(r: u64) -> u64 {
    [8, 64, 128, 256][(r % 4) as usize]
}

const EDGES: [i64; 16] = [
    2_147_483_648,
    -2_147_483_648,
    2_147_483_649,
    -2_147_483_649,
    8_388_608,
    -8_388_608,
    8_388_609,
    -8_388_609,
    16_450,
    -16_451,
    65_602,
    -65_603,
    262_210,
    -262_211,
    i64::MAX,
    -i64::MAX,
];

/// Numbers of one scale and density; once in eight, an edge among the first sixteen.
fn filled(count: usize, key: u64, scale: u64) -> Vec<i64> {
    let dense = density(draw(key, 1));
    let mut list: Vec<i64> = (0..count as u64).map(|i| number(draw(key, 16 + i), scale, dense)).collect();
    let r = draw(key, 2);
    if r % 8 == 0
        && let Some(x) = list.get_mut((r / 8 % 16) as usize)
    {
        *x = EDGES[(r / 128 % 16) as usize];
    }
    list
}

fn sample(r: u64, scale: u64) -> u16 {
    (r % [256, 1024, 4096, 65_536][scale as usize]) as u16
}

fn depth(r: u64) -> u32 {
    match r % 32 {
        0 => (r / 32 % 16) as u32,
        1 => u32::MAX,
        _ => [8, 10, 12][(r / 32 % 3) as usize],
    }
}

fn size(r: u64) -> u32 {
    match r % 32 {
        0 => (r / 32 % 8) as u32,
        1 => u32::MAX,
        2..=3 => 3,
        4..=7 => 2,
        _ => (r / 32 % 2) as u32,
    }
}

fn tx_type(r: u64, size: u32) -> u8 {
    match (r % 32, size) {
        (0, _) => (r / 32) as u8,
        (_, 3) => 0,
        _ => (r / 32 % 4) as u8,
    }
}

fn lossless(r: u64, size: u32) -> bool {
    r % if size == 0 { 4 } else { 64 } == 0
}

fn quantizer(r: u64) -> i32 {
    let up_to = |most: u64| (r / 32 % most + 1) as i32;
    match r % 32 {
        0 => 0,
        1 => 32_768,
        2 => -4,
        3 => 32_767,
        4..=5 => up_to(32_767),
        6 => 4,
        7 => 1,
        _ => up_to(255),
    }
}

/// The block's numbers, or once in `odd` as many as a draw has, to 1,040.
fn lent(r: u64, odd: u64, size: u32) -> usize {
    if r % odd == 0 {
        return (r / odd % 1041) as usize;
    }
    rules::area(if size > 3 { 0 } else { size })
}

/// Which call is made on a block.
enum Driver {
    Fast,
    Reference,
    Engine32,
    Forward,
}

fn driver(key: u64, d: &mut Digest, which: Driver) {
    let size = size(draw(key, 1));
    let mut block = filled(lent(draw(key, 2), 16, size), draw(key, 5), draw(key, 6) % 8);
    let n = if size < 4 { size + 2 } else { size - 4 };
    let (tx_type, lossless) = (tx_type(draw(key, 3), size), lossless(draw(key, 4), size));
    let mut answer = match which {
        Driver::Forward => rules::forward_dct(n, &block),
        _ => rules::driver(n, tx_type, lossless, &block),
    };
    match (answer, which) {
        (0, Driver::Forward) => block = forward::coefficients(&block, n),
        (0, Driver::Fast) => idct::inverse_transform_2d(&mut block, n, tx_type, lossless),
        (0, Driver::Reference) => idct::inverse_transform_2d_reference(&mut block, n, tx_type, lossless),
        (0, Driver::Engine32) if narrow::process(n, tx_type, lossless, &block).is_err() => answer = 18,
        (0, Driver::Engine32) => idct::inverse_transform_2d(&mut block, n, tx_type, lossless),
        _ => {}
    }
    d.feed(answer.into());
    d.list(block.into_iter());
}

/// Counts below 2^26, sums that are a part of what they may be; once in four a count that leaves no room, or a sum at its limit or one past it.
fn report(key: u64) -> (Vec<i64>, Vec<i64>) {
    let drawn = |i: u64| draw(key, i);
    let mut counts: Vec<i64> = (0..44).map(|i| (drawn(i) % (1 << 26)) as i64).collect();
    let mut sums: Vec<i64> = (0..44).map(|i| counts[i as usize] * 262_210 / ((drawn(i) >> 26) % 16 + 1) as i64).collect();
    let r = drawn(44);
    let k = (r / 8 % 44) as usize;
    match r % 8 {
        0 => counts[k] = u32::MAX.into(),
        1 => sums[k] = counts[k] * 262_210 + (r / 512 % 2) as i64,
        _ => {}
    }
    (counts, sums)
}

fn block(key: u64, d: &mut Digest, reported: bool) {
    let size = size(draw(key, 1));
    let scale = |r: u64| [4, 5].get((r % 8) as usize).copied().unwrap_or(r / 8 % 4);
    let tokens = filled(lent(draw(key, 2), 32, size), draw(key, 5), scale(draw(key, 6)));
    let side = |r: u64| if r % 64 == 0 { 65_536 } else { r / 64 % 41 };
    let (width, height) = (side(draw(key, 15)), side(draw(key, 16)));
    let s = draw(key, 18);
    let stride = match s % 32 {
        0 => s / 32 % 70_000,
        k if width <= 40 && k % 2 == 1 => width + s / 32 % 9,
        _ => width,
    };
    let r = draw(key, 8);
    let count = if r % 32 == 0 {
        r / 32 % 1921
    } else if stride > 48 || height > 40 {
        0
    } else {
        stride * height
    };
    let mut samples: Vec<u16> = (0..count).map(|i| sample(draw(draw(key, 9), i), draw(key, 10) % 4)).collect();
    let place = |r: u64| match r % 32 {
        0 => r / 32,
        1 => u64::MAX,
        _ => r / 32 % 48,
    };
    let c = rules::Recon {
        x: place(draw(key, 11)),
        y: place(draw(key, 12)),
        size,
        tx_type: tx_type(draw(key, 3), size),
        lossless: lossless(draw(key, 4), size),
        depth: depth(draw(key, 7)),
        dc: quantizer(draw(key, 13)),
        ac: quantizer(draw(key, 14)),
        width,
        height,
        stride,
        tokens: &tokens,
        samples: samples.len(),
    };
    let mut answer = rules::reconstruct(&c);
    let (mut counts, mut sums) = report(draw(key, 17));
    if reported && answer == 0 && rules::bad_report(tokens.len(), &counts, &sums) {
        answer = 15;
    }
    if answer == 0 {
        ask::reconstruct_block(&c, &mut samples);
        rules::count(size, &tokens, &mut counts, &mut sums);
    }
    d.feed(answer.into());
    d.list(samples.into_iter().map(i64::from));
    if reported {
        d.list(counts.into_iter());
        d.list(sums.into_iter());
    }
}

/// A summary, and what it says of itself: how many rows, the first and the last, all bits set where there is none.
fn feed_summary(rows: &[bool], d: &mut Digest) {
    d.feed(rules::summary(rows).into());
    d.feed(rows.iter().filter(|live| **live).count() as u64);
    let mut row = |found: Option<usize>| d.feed(found.map_or(u64::MAX, |i| i as u64));
    row(rows.iter().position(|live| *live));
    row(rows.iter().rposition(|live| *live));
}

/// Under a refusal, a drawn summary.
fn row_summary(key: u64, d: &mut Digest) {
    let size = size(draw(key, 1));
    let block = filled(lent(draw(key, 2), 16, size), draw(key, 5), draw(key, 6) % 8);
    let n = if size < 4 { size + 2 } else { size - 4 };
    let answer = rules::row_summary(n, &block);
    d.feed(answer.into());
    feed_summary(&if answer == 0 { rules::live_rows(n, &block) } else { rules::set_rows(draw(key, 17) as u32) }, d);
}

/// The summary is the block's own, 0 where it has none, or once in four a drawn one.
fn replace_token(key: u64, d: &mut Digest) {
    let size = size(draw(key, 1));
    let mut block = filled(lent(draw(key, 2), 32, size), draw(key, 5), draw(key, 6) % 8);
    let n = if size < 4 { size + 2 } else { size - 4 };
    let place = |r: u64| match r % 32 {
        0 => r / 32,
        1 => r / 32 % 1025,
        _ => r / 32 % rules::area(if size > 3 { 0 } else { size }) as u64,
    };
    let token = |r: u64, scale: u64| match r % 8 {
        0 => EDGES[(r / 8 % 16) as usize],
        _ => number(r / 8, scale, 128),
    };
    let scale = |r: u64| [4, 5].get((r % 8) as usize).copied().unwrap_or(r / 8 % 4);
    let own = if rules::row_summary(n, &block) == 0 { rules::summary(&rules::live_rows(n, &block)) } else { 0 };
    let r = draw(key, 9);
    let mut summary = if r % 4 == 0 { (r / 4) as u32 } else { own };
    let c = rules::Replacement {
        size,
        place: place(draw(key, 8)),
        token: token(draw(key, 10), scale(draw(key, 11))),
        dc: quantizer(draw(key, 13)),
        ac: quantizer(draw(key, 14)),
        depth: depth(draw(key, 7)),
    };
    let answer = c.answer(block.len());
    if answer == 0 {
        c.make(&mut block, &mut summary);
    }
    d.feed(answer.into());
    d.list(block.into_iter());
    d.feed(summary.into());
}

fn driver_rows(key: u64, d: &mut Digest) {
    let size = size(draw(key, 1));
    let mut block = filled(lent(draw(key, 2), 16, size), draw(key, 5), draw(key, 6) % 8);
    let n = if size < 4 { size + 2 } else { size - 4 };
    let (tx_type, lossless) = (tx_type(draw(key, 3), size), lossless(draw(key, 4), size));
    let answer = rules::driver(n, tx_type, lossless, &block);
    let mut rows = 0;
    if answer == 0 {
        rows = rules::row_transforms(n, tx_type, lossless, &block);
        idct::inverse_transform_2d(&mut block, n, tx_type, lossless);
    }
    d.feed(answer.into());
    d.feed(rows as u64);
    d.list(block.into_iter());
}

fn forward_wht(key: u64, d: &mut Digest) {
    let r = draw(key, 2);
    let count = if r % 16 == 0 { r / 16 % 33 } else { 16 };
    let mut block = filled(count as usize, draw(key, 5), draw(key, 6) % 8);
    let answer = rules::forward_wht(&block);
    if answer == 0 {
        fwd_transform::forward_wht_2d(&mut block);
    }
    d.feed(answer.into());
    d.list(block.into_iter());
}

/// With a size and a depth, with a rule too, or with none of them.
#[derive(Clone, Copy, PartialEq)]
enum Coder {
    Sized,
    Plain,
    Ruled,
}

fn quantize(key: u64, d: &mut Digest, coder: Coder) {
    let r = draw(key, 2);
    let count = match r % 16 {
        0 => r / 16 % 1041,
        1 => 1024,
        2 => 1025,
        _ => r / 16 % 65,
    };
    let mut coefs = filled(count as usize, draw(key, 5), draw(key, 6) % 8);
    let (dc, ac) = (quantizer(draw(key, 3)), quantizer(draw(key, 4)));
    let (size, depth) = (size(draw(key, 1)), depth(draw(key, 7)));
    let rule = match coder {
        Coder::Ruled => self::size(draw(key, 8)),
        _ => 1,
    };
    let answer = match coder {
        Coder::Plain => rules::quantize_block(dc, ac, &coefs),
        _ => rules::quantize_block_rule(rule, dc, ac, size, depth, &coefs),
    };
    match (answer, coder) {
        (0, Coder::Plain) => fwd_transform::quantize_block(&mut coefs, dc, ac),
        (0, _) if rule == 2 => rules::tokens_of_rule_2(dc, ac, size, depth, &mut coefs),
        (0, _) => fwd_transform::quantize_block_tx(&mut coefs, dc, ac, size, depth),
        _ => {}
    }
    d.feed(answer.into());
    d.list(coefs.into_iter());
}

fn max_codeable(key: u64, d: &mut Digest) {
    let depth = depth(draw(key, 7));
    d.feed(if rules::good_depth(depth) { fwd_transform::max_codeable_coef(depth) as u64 } else { 0 });
}

/// Bytes of a made file, as far as its room goes.
const ROOM: usize = 8192;

fn record(file: &mut Vec<u8>, key: u64) {
    let size = size(draw(key, 1));
    let low = |x: u64| [x as u8, (x >> 8) as u8];
    file.extend(low(draw(key, 2) % 20));
    file.extend(low(draw(key, 3) % 20));
    file.extend([size as u8, tx_type(draw(key, 4), size)]);
    let r = draw(key, 5);
    file.push(if r % 64 == 0 { (r / 64) as u8 } else { u8::from(lossless(draw(key, 6), size)) });
    file.extend(low(quantizer(draw(key, 7)) as u64));
    file.extend(low(quantizer(draw(key, 8)) as u64));
    let tokens = draw(key, 9);
    let (scale, dense) = (draw(tokens, 1) % 5, density(draw(tokens, 2)));
    for i in 0..rules::area(if size > 3 { 0 } else { size }) as u64 {
        file.extend((number(draw(tokens, 16 + i), scale, dense) as i32).to_le_bytes());
    }
}

fn made(key: u64) -> Vec<u8> {
    let side = |r: u64| match r % 64 {
        0 => 0,
        1 => 4097,
        _ => r / 64 % 16 + 1,
    };
    let (width, height) = (side(draw(key, 1)), side(draw(key, 2)));
    let mut file = b"VBK\x01\0".to_vec();
    file.push(depth(draw(key, 3)) as u8);
    file.extend((width as u16).to_le_bytes());
    file.extend((height as u16).to_le_bytes());
    let (samples, scale) = (draw(key, 4), draw(key, 5) % 4);
    for i in 0..width % 64 * (height % 64) {
        file.extend(sample(draw(samples, i), scale).to_le_bytes());
    }
    let records = draw(key, 6);
    for i in 0..draw(key, 7) % 6 {
        record(&mut file, draw(records, i));
    }
    file.truncate(ROOM);
    // once in four a byte of the first 64 is another, once in four the file is cut
    let r = draw(key, 8);
    let at = (r / 4 % 64) as usize;
    match r % 4 {
        0 if at < file.len() => file[at] = (r / 256) as u8,
        1 => file.truncate((r / 4 % 8192) as usize),
        _ => {}
    }
    file
}

/// A run's figures, the rooms that it writes to, which begin as zeros, and its text.
fn file(key: u64, d: &mut Digest) {
    let run = vbk::replay(&made(key));
    d.feed(run.header.into());
    for x in [u64::from(run.depth), run.width.into(), run.height.into(), run.answers.len() as u64, run.touched] {
        d.feed(x);
    }
    let (mut samples, mut answers) = (vec![0u16; rules::FILE_SAMPLES], vec![0u8; 874]);
    samples[..run.samples.len()].copy_from_slice(&run.samples);
    answers[..run.answers.len()].copy_from_slice(&run.answers);
    d.list(samples.into_iter().map(i64::from));
    d.list(answers.into_iter().map(i64::from));
    d.list(vbk::text(&run).into_bytes().into_iter().map(i64::from));
}

/// A file that lists make: mostly whole ones, some of lists that do not fit each other, some into too little room. Behind a file that is written,
/// and in the place of one that is not, sixteen bytes of the room.
fn written(key: u64, d: &mut Digest) {
    let side = |r: u64| match r % 64 {
        0 => 0,
        1 => 4097,
        _ => r / 64 % 16 + 1,
    };
    let (width, height) = (side(draw(key, 1)), side(draw(key, 2)));
    let of = |k: u64, place: u64| draw(draw(draw(key, 6), k), place);
    let (records, odd) = (draw(key, 7) % 4, draw(key, 8));
    let list = |number: u64, entry: &dyn Fn(u64) -> u64| -> Vec<i64> {
        let one_more = odd % 16 == 0 && odd / 16 % 8 == number;
        (0..records + u64::from(one_more)).map(|k| entry(k) as i64).collect()
    };
    let two = |place: u64| move |k: u64| of(k, place) % 65_536;
    let size = |k: u64| size(of(k, 1));
    let flag = |k: u64| match of(k, 5) {
        r if r % 64 == 0 => r / 64 % 256,
        _ => u64::from(of(k, 6) % 2 == 0),
    };
    let brought = |k: u64| match of(k, 9) {
        r if r % 64 == 0 => r / 64 % 1025,
        _ => rules::area(if size(k) > 3 { 0 } else { size(k) }) as u64,
    };
    let counts = list(7, &brought);
    let tokens = counts.iter().sum::<i64>() as u64 + u64::from(draw(key, 10) % 64 == 0);
    let token = |r: u64| [-2_147_483_648, -1, -74_565].get((r % 8) as usize).copied().unwrap_or((r / 8 % (1 << 31)) as i64);
    let lists = [
        (0..width % 64 * (height % 64)).map(|i| sample(draw(draw(key, 4), i), draw(key, 5) % 4).into()).collect(),
        list(0, &two(2)),
        list(1, &two(3)),
        list(2, &|k| u64::from(size(k) as u8)),
        list(3, &|k| of(k, 4) % 256),
        list(4, &flag),
        list(5, &two(7)),
        list(6, &two(8)),
        counts,
        (0..tokens.min(4096)).map(|i| token(draw(draw(key, 9), i))).collect(),
    ];
    let r = draw(key, 11);
    let mut room = vec![165u8; if r % 4 == 0 { (r / 4 % 1024) as usize } else { 16_384 }];
    let depth = u32::from(depth(draw(key, 3)) as u8);
    let (answer, length) = match vbk::write(depth, width as u16, height as u16, &lists, room.len()) {
        Ok(file) => {
            room[..file.len()].copy_from_slice(&file);
            (0, file.len())
        }
        Err(answer) => (answer, 0),
    };
    d.feed(answer.into());
    d.feed(length as u64);
    d.list(room.iter().take(length + 16).map(|b| i64::from(*b)));
}

type Kind = fn(u64, &mut Digest);

/// The kinds of calls. A new one is added at the end.
const KINDS: [(&str, Kind); 16] = [
    ("inverse_transform_2d", |key, d| driver(key, d, Driver::Fast)),
    ("inverse_transform_2d_reference", |key, d| driver(key, d, Driver::Reference)),
    ("reconstruct_block", |key, d| block(key, d, false)),
    ("forward_wht_2d", forward_wht),
    ("quantize_block_tx", |key, d| quantize(key, d, Coder::Sized)),
    ("quantize_block", |key, d| quantize(key, d, Coder::Plain)),
    ("max_codeable_coef", max_codeable),
    ("replay and blockrun", file),
    ("reconstruct_block_report", |key, d| block(key, d, true)),
    ("row_summary", row_summary),
    ("replace_token", replace_token),
    ("inverse_transform_2d_rows", driver_rows),
    ("inverse_transform_2d_32", |key, d| driver(key, d, Driver::Engine32)),
    ("forward_dct_2d", |key, d| driver(key, d, Driver::Forward)),
    ("quantize_block_rule", |key, d| quantize(key, d, Coder::Ruled)),
    ("vbk_write", written),
];

pub fn print(seed: u64, count: u64) {
    let mut all = Digest(seed);
    all.feed(count);
    for (kind, (name, call)) in KINDS.iter().enumerate() {
        let keys = draw(draw(seed, 0), kind as u64);
        let mut d = Digest(kind as u64);
        (0..count).for_each(|i| call(draw(keys, i), &mut d));
        println!("{name:30} {:016x}", d.0);
        all.feed(d.0);
    }
    println!("{:30} {:016x}", "digest", all.0);
}
