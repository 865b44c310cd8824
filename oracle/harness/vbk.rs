//! A VBK file: reading by docs/REFERENCE.md's order of checks, with the Rust at work on each accepted record.

use crate::{intra, reconstruct, rules};

pub struct Replay {
    /// 0, or the number of the header's refusal; with a refusal nothing else counts.
    pub header: u8,
    pub version: u16,
    pub depth: u8,
    pub width: u16,
    pub height: u16,
    pub answers: Vec<u8>,
    pub samples: Vec<u16>,
    pub touched: u64,
}

fn u16_at(b: &[u8], i: usize) -> u16 {
    u16::from_le_bytes([b[i], b[i + 1]])
}

fn refused(header: u8) -> Replay {
    Replay { header, version: 0, depth: 0, width: 0, height: 0, answers: vec![], samples: vec![], touched: 0 }
}

pub fn replay(file: &[u8]) -> Replay {
    if file.len() > rules::FILE_MAX {
        return refused(13);
    }
    if file.len() < 10 {
        return refused(12);
    }
    if &file[..3] != b"VBK" {
        return refused(10);
    }
    let version = u16_at(file, 3);
    if version != 1 {
        return refused(11);
    }
    let depth = file[5];
    if !rules::good_depth(depth.into()) {
        return refused(1);
    }
    let (width, height) = (u16_at(file, 6), u16_at(file, 8));
    let count = width as usize * height as usize;
    if !(1..=rules::FILE_SAMPLES).contains(&count) {
        return refused(13);
    }
    let mut at = 10 + 2 * count;
    if file.len() < at {
        return refused(12);
    }
    let mut plane = intra::Plane::new(width.into(), height.into());
    for (k, s) in plane.samples_mut().iter_mut().enumerate() {
        *s = u16_at(file, 10 + 2 * k);
    }

    let mut answers = vec![];
    let mut touched = 0;
    while at < file.len() {
        if file.len() - at < 11 {
            answers.push(12);
            break;
        }
        let head = &file[at..at + 11];
        let size = u32::from(head[4]);
        if size > 3 {
            answers.push(2);
            break;
        }
        let area = rules::area(size);
        let n0 = 4usize << size;
        if file.len() - at - 11 < 4 * area {
            answers.push(12);
            break;
        }
        let tokens: Vec<i64> = (0..area)
            .map(|k| {
                let p = at + 11 + 4 * k;
                i64::from(i32::from_le_bytes([file[p], file[p + 1], file[p + 2], file[p + 3]]))
            })
            .collect();
        at += 11 + 4 * area;
        if head[6] > 1 {
            answers.push(14);
            continue;
        }
        let (x, y) = (u16_at(head, 0), u16_at(head, 2));
        let (dc, ac) = (i32::from(u16_at(head, 7)), i32::from(u16_at(head, 9)));
        let (tx_type, lossless) = (head[5], head[6] == 1);
        let answer = rules::reconstruct(&rules::Recon {
            x: x.into(),
            y: y.into(),
            size,
            tx_type,
            lossless,
            depth: depth.into(),
            dc,
            ac,
            width: width.into(),
            height: height.into(),
            stride: width.into(),
            tokens: &tokens,
            samples: count,
        });
        if answer == 0 {
            reconstruct::reconstruct_block(
                &mut plane,
                x.into(),
                y.into(),
                size,
                &tokens,
                dc,
                ac,
                tx_type,
                lossless,
                depth.into(),
            );
            // the block's samples that the plane has, one by one
            let inside = |k: usize| (usize::from(x) + k % n0, usize::from(y) + k / n0);
            touched += (0..area).map(inside).filter(|&(c, r)| c < usize::from(width) && r < usize::from(height)).count() as u64;
        }
        answers.push(answer);
    }
    Replay { header: 0, version, depth, width, height, answers, samples: plane.samples().to_vec(), touched }
}

/// The file that lent lists make, or the number that refuses them. The lists, one entry a record but for the first and the last: samples; x, y,
/// size, type, lossless, DC, AC, how many tokens; all tokens.
pub fn write(depth: u32, width: u16, height: u16, lists: &[Vec<i64>], room: usize) -> Result<Vec<u8>, u8> {
    let [samples, xs, ys, sizes, types, lossless, dcs, acs, counts, tokens] = lists else { panic!("ten lists") };
    if !rules::good_depth(depth) {
        return Err(1);
    }
    if rules::retired(depth) {
        return Err(20);
    }
    if sizes.iter().any(|s| *s > 3) {
        return Err(2);
    }
    let area = usize::from(width) * usize::from(height);
    let even = [ys, sizes, types, lossless, dcs, acs, counts].iter().all(|l| l.len() == xs.len());
    let brought = counts.iter().zip(sizes).all(|(c, s)| *c == rules::area(*s as u32) as i64);
    if samples.len() != area || !even || !brought || counts.iter().sum::<i64>() != tokens.len() as i64 {
        return Err(6);
    }
    let length = 10 + 2 * area + 11 * xs.len() + 4 * tokens.len();
    if !(1..=rules::FILE_SAMPLES).contains(&area) || length > rules::FILE_MAX {
        return Err(13);
    }
    if lossless.iter().any(|l| *l > 1) {
        return Err(14);
    }
    if room < length {
        return Err(17);
    }
    let file = bytes(depth, width, height, lists);
    assert_eq!(file.len(), length);
    Ok(file)
}

/// The bytes of a file, of any depth: those of depth 12 are read and no longer written.
pub fn bytes(depth: u32, width: u16, height: u16, lists: &[Vec<i64>]) -> Vec<u8> {
    let [samples, xs, ys, sizes, types, lossless, dcs, acs, counts, tokens] = lists else { panic!("ten lists") };
    let mut file = b"VBK\x01\x00".to_vec();
    let two = |file: &mut Vec<u8>, v: i64| file.extend((v as u16).to_le_bytes());
    file.push(depth as u8);
    two(&mut file, width.into());
    two(&mut file, height.into());
    for s in samples {
        two(&mut file, *s);
    }
    let mut left = tokens.iter();
    for k in 0..xs.len() {
        two(&mut file, xs[k]);
        two(&mut file, ys[k]);
        file.extend([sizes[k] as u8, types[k] as u8, lossless[k] as u8]);
        two(&mut file, dcs[k]);
        two(&mut file, acs[k]);
        for t in left.by_ref().take(counts[k] as usize) {
            file.extend((*t as i32).to_le_bytes());
        }
    }
    file
}

/// What the program `blockrun` prints for it.
pub fn text(r: &Replay) -> String {
    use std::fmt::Write;
    let mut s = String::new();
    if r.header != 0 {
        writeln!(s, "E {}", r.header).unwrap();
        return s;
    }
    writeln!(s, "VBK {} {} {} {}", r.version, r.depth, r.width, r.height).unwrap();
    for (i, a) in r.answers.iter().enumerate() {
        writeln!(s, "B {i} {a}").unwrap();
    }
    for row in r.samples.chunks(r.width.into()) {
        s.push('S');
        for v in row {
            write!(s, " {v}").unwrap();
        }
        s.push('\n');
    }
    writeln!(s, "T {}", r.touched).unwrap();
    s
}
