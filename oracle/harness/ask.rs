//! One call put to the Rust, or refused by the rules of docs/REFERENCE.md.

use crate::idct_open::open;
use crate::line::{Call, Outcome};
use crate::{best, forward, fwd_transform, idct, idct_open, intra, narrow, reconstruct, rules, vbk};

fn numbers(list: impl IntoIterator<Item = impl Into<i64>>) -> Vec<i64> {
    list.into_iter().map(Into::into).collect()
}

fn value(v: i64) -> Outcome {
    Outcome { nums: vec![v.into()], lists: vec![] }
}

fn list(l: Vec<i64>) -> Outcome {
    Outcome { nums: vec![], lists: vec![l] }
}

fn answered(answer: u8, l: Vec<i64>) -> Outcome {
    Outcome { nums: vec![answer.into()], lists: vec![l] }
}

/// True where the Rust's debug build stops by its own subtraction: sin64 within 32 of the least i32.
pub fn stops_in_debug(c: &Call) -> bool {
    let angle = match c.kind {
        4 => c.args[0],
        5 | 7 => c.args[2],
        _ => return false,
    };
    angle < i128::from(i32::MIN) + 32
}

/// The Rust's plane has no stride: each line is copied out of the samples, and back without its padding.
pub fn reconstruct_block(c: &rules::Recon, samples: &mut [u16]) {
    let (width, height, stride) = (c.width as usize, c.height as usize, c.stride as usize);
    let mut plane = intra::Plane::new(width, height);
    for y in 0..height {
        for x in 0..width {
            plane.samples_mut()[y * width + x] = samples[y * stride + x];
        }
    }
    let (x, y) = (c.x as usize, c.y as usize);
    reconstruct::reconstruct_block(&mut plane, x, y, c.size, c.tokens, c.dc, c.ac, c.tx_type, c.lossless, c.depth);
    for y in 0..height {
        for x in 0..width {
            samples[y * stride + x] = plane.samples()[y * width + x];
        }
    }
}

pub fn ask(c: &Call) -> Outcome {
    let a = |i: usize| c.args[i];
    match c.kind {
        1 => value(open::round2(a(0) as i64, a(1) as u32)),
        2 => value(idct::brev(a(0) as u32, a(1) as usize) as i64),
        3 => value(idct::cos64(a(0) as i32)),
        4 => value(idct::sin64(a(0) as i32)),
        5 => {
            let mut t = c.lists[0].clone();
            open::butterfly(&mut t, a(0) as usize, a(1) as usize, a(2) as i32, a(3) != 0);
            list(t)
        }
        6 => {
            let mut t = c.lists[0].clone();
            open::hadamard(&mut t, a(0) as usize, a(1) as usize, a(2) != 0);
            list(t)
        }
        7 => {
            let mut s = c.lists[1].clone();
            open::sb(&c.lists[0], &mut s, a(0) as usize, a(1) as usize, a(2) as i32, a(3) != 0);
            list(s)
        }
        8 => {
            let mut t = c.lists[0].clone();
            open::sh(&mut t, &c.lists[1], a(0) as usize, a(1) as usize);
            list(t)
        }
        10 => {
            let n = a(0) as u32;
            let mut t = c.lists[0].clone();
            open::apply_1d(&mut t, n, true);
            // the Rust has two engines for a DCT row; they must agree
            let mut fast: [i64; 32] = c.lists[0][..].try_into().expect("32 numbers");
            open::idct_fast(&mut fast, n);
            assert_eq!(t, fast, "the Rust's two DCT engines part");
            list(t)
        }
        11 => {
            let mut t = c.lists[0].clone();
            idct_open::inverse_adst(&mut t, a(0) as u32);
            list(t)
        }
        12 => {
            let mut t = c.lists[0].clone();
            idct::inverse_wht(&mut t, a(0) as u32);
            list(t)
        }
        20 | 21 => {
            let (n, tx_type, lossless) = (a(0) as u32, a(1) as u8, a(2) != 0);
            let mut block = c.lists[0].clone();
            let answer = rules::driver(n, tx_type, lossless, &block);
            if answer == 0 {
                if c.kind == 20 {
                    idct::inverse_transform_2d(&mut block, n, tx_type, lossless);
                } else {
                    idct::inverse_transform_2d_reference(&mut block, n, tx_type, lossless);
                }
            }
            answered(answer, block)
        }
        37 => {
            let (n, tx_type, lossless) = (a(0) as u32, a(1) as u8, a(2) != 0);
            let mut block = c.lists[0].clone();
            let mut answer = rules::driver(n, tx_type, lossless, &block);
            if answer == 0 {
                match narrow::process(n, tx_type, lossless, &block) {
                    Ok(after) => {
                        idct::inverse_transform_2d(&mut block, n, tx_type, lossless);
                        assert_eq!(block, after, "the Rust and the process of docs/REFERENCE.md part");
                    }
                    Err(_) => answer = 18,
                }
            }
            answered(answer, block)
        }
        22 | 31 => {
            let r = rules::Recon {
                x: a(0) as u64,
                y: a(1) as u64,
                size: a(2) as u32,
                tx_type: a(3) as u8,
                lossless: a(4) != 0,
                depth: a(5) as u32,
                dc: a(6) as i32,
                ac: a(7) as i32,
                width: a(8) as u64,
                height: a(9) as u64,
                stride: a(10) as u64,
                tokens: &c.lists[0],
                samples: c.lists[1].len(),
            };
            let mut answer = rules::reconstruct(&r);
            if answer == 0 && c.kind == 31 && rules::bad_report(r.tokens.len(), &c.lists[2], &c.lists[3]) {
                answer = 15;
            }
            if answer != 0 {
                return Outcome { nums: vec![answer.into()], lists: c.lists[1..].to_vec() };
            }
            let mut samples: Vec<u16> = c.lists[1].iter().map(|v| *v as u16).collect();
            reconstruct_block(&r, &mut samples);
            let mut lists = c.lists[1..].to_vec();
            lists[0] = numbers(samples);
            if c.kind == 31 {
                let (counts, sums) = lists[1..].split_at_mut(1);
                rules::count(r.size, r.tokens, &mut counts[0], &mut sums[0]);
            }
            Outcome { nums: vec![0], lists }
        }
        23 => {
            let mut block = c.lists[0].clone();
            let answer = rules::forward_wht(&block);
            if answer == 0 {
                fwd_transform::forward_wht_2d(&mut block);
            }
            answered(answer, block)
        }
        38 => {
            let (n, block) = (a(0) as u32, &c.lists[0]);
            let answer = rules::forward_dct(n, block);
            answered(answer, if answer == 0 { forward::coefficients(block, n) } else { block.clone() })
        }
        24 => {
            let (dc, ac, size, depth) = (a(0) as i32, a(1) as i32, a(2) as u32, a(3) as u32);
            let mut coefs = c.lists[0].clone();
            let answer = rules::quantize_block_tx(dc, ac, size, depth, &coefs);
            if answer == 0 {
                fwd_transform::quantize_block_tx(&mut coefs, dc, ac, size, depth);
            }
            answered(answer, coefs)
        }
        39 => {
            let (dc, ac, size, depth, rule) = (a(0) as i32, a(1) as i32, a(2) as u32, a(3) as u32, a(4) as u32);
            let mut coefs = c.lists[0].clone();
            let answer = rules::quantize_block_rule(rule, dc, ac, size, depth, &coefs);
            match (answer, rule) {
                (0, 1) => fwd_transform::quantize_block_tx(&mut coefs, dc, ac, size, depth),
                (0, _) => rules::tokens_of_rule_2(dc, ac, size, depth, &mut coefs),
                _ => {}
            }
            answered(answer, coefs)
        }
        25 => {
            let (dc, ac) = (a(0) as i32, a(1) as i32);
            let mut coefs = c.lists[0].clone();
            let answer = rules::quantize_block(dc, ac, &coefs);
            if answer == 0 {
                fwd_transform::quantize_block(&mut coefs, dc, ac);
            }
            answered(answer, coefs)
        }
        26 => {
            let depth = a(0) as u32;
            value(if rules::good_depth(depth) { fwd_transform::max_codeable_coef(depth) } else { 0 })
        }
        30 => {
            let file: Vec<u8> = c.lists[0].iter().map(|b| *b as u8).collect();
            let r = vbk::replay(&file);
            Outcome { nums: vec![r.header.into(), r.touched.into()], lists: vec![numbers(r.answers), numbers(r.samples)] }
        }
        32 => {
            let (n, block, lent) = (a(0) as u32, &c.lists[0], c.lists[1][0] as u32);
            let answer = rules::row_summary(n, block);
            // of the block's rows, and under a refusal of what stands in the room for the summary
            let rows = if answer == 0 { rules::live_rows(n, block) } else { rules::set_rows(lent) };
            let count = rows.iter().filter(|live| **live).count() as i128;
            let row = |found: Option<usize>| found.map_or(-1, |i| i as i128);
            let (first, last) = (row(rows.iter().position(|live| *live)), row(rows.iter().rposition(|live| *live)));
            Outcome { nums: vec![answer.into(), count, first, last], lists: vec![vec![rules::summary(&rows).into()]] }
        }
        33 => {
            let r = rules::Replacement {
                size: a(0) as u32,
                place: a(1) as u64,
                token: a(2) as i64,
                dc: a(3) as i32,
                ac: a(4) as i32,
                depth: a(5) as u32,
            };
            let (mut block, mut summary) = (c.lists[0].clone(), c.lists[1][0] as u32);
            let answer = r.answer(block.len());
            if answer == 0 {
                r.make(&mut block, &mut summary);
            }
            Outcome { nums: vec![answer.into()], lists: vec![block, vec![summary.into()]] }
        }
        34 => {
            let (n, tx_type, lossless) = (a(0) as u32, a(1) as u8, a(2) != 0);
            let mut block = c.lists[0].clone();
            let answer = rules::driver(n, tx_type, lossless, &block);
            let mut rows = 0;
            if answer == 0 {
                rows = rules::row_transforms(n, tx_type, lossless, &block);
                idct::inverse_transform_2d(&mut block, n, tx_type, lossless);
            }
            Outcome { nums: vec![answer.into(), rows as i128], lists: vec![block] }
        }
        35 => {
            let mut out = c.lists[10].clone();
            let written = vbk::write(a(0) as u32, a(1) as u16, a(2) as u16, &c.lists[..10], out.len());
            let (answer, file) = match written {
                Ok(file) => (0, file),
                Err(number) => (number, vec![]),
            };
            // what was written must read back, byte for byte
            if answer == 0 {
                assert_eq!(vbk::replay(&file).header, 0, "a written file is refused");
            }
            let length = file.len();
            out.splice(..length, numbers(file));
            Outcome { nums: vec![answer.into(), length as i128], lists: vec![out] }
        }
        36 => value(best::token(a(2) as u32, a(3) as i64, a(1) as i64, a(0) as i64)),
        k => panic!("no kind {k}"),
    }
}
