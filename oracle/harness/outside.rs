//! What the Rust does with inputs that docs/REFERENCE.md refuses: the runs behind docs/DIFFERENCES.md.
//! With the word `small` it runs only the reference driver at n 1, which ends the release build.

#[path = "../rust/fwd_transform.rs"]
mod fwd_transform;
#[path = "../rust/idct.rs"]
mod idct;
#[path = "../rust/intra.rs"]
mod intra;
#[path = "../rust/reconstruct.rs"]
mod reconstruct;

use std::panic;

/// Prints what a run gives, or why it stopped.
fn show(what: &str, run: impl FnOnce() -> String + panic::UnwindSafe) {
    match panic::catch_unwind(run) {
        Ok(text) => println!("{what}: {text}"),
        Err(e) => {
            let said = e.downcast_ref::<String>().cloned().or(e.downcast_ref::<&str>().map(|s| s.to_string()));
            println!("{what}: stops, {}", said.unwrap_or_default().replace('\n', " "));
        }
    }
}

/// Runs of equal numbers in short.
fn short<T: PartialEq + std::fmt::Display>(l: &[T]) -> String {
    let mut out = format!("[{}]", l.len());
    let mut i = 0;
    while i < l.len() {
        let run = l[i..].iter().take_while(|v| **v == l[i]).count();
        out += &if run > 2 { format!(" {run}*{}", l[i]) } else { format!(" {}", l[i]) };
        i += if run > 2 { run } else { 1 };
        if out.len() > 160 {
            return out + " ..";
        }
    }
    out
}

fn block(len: usize, values: &[(usize, i64)]) -> Vec<i64> {
    let mut b = vec![0; len];
    for (k, v) in values {
        b[*k] = *v;
    }
    b
}

fn fast_driver(what: &str, b: Vec<i64>, n: u32, tx_type: u8, lossless: bool) {
    show(&format!("2D driver, {what}"), move || {
        let mut b = b;
        idct::inverse_transform_2d(&mut b, n, tx_type, lossless);
        short(&b)
    });
}

fn reference_driver(what: &str, b: Vec<i64>, n: u32, tx_type: u8, lossless: bool) {
    show(&format!("reference driver, {what}"), move || {
        let mut b = b;
        idct::inverse_transform_2d_reference(&mut b, n, tx_type, lossless);
        short(&b)
    });
}

fn both_drivers(what: &str, b: Vec<i64>, n: u32, tx_type: u8, lossless: bool) {
    fast_driver(what, b.clone(), n, tx_type, lossless);
    reference_driver(what, b, n, tx_type, lossless);
}

struct Recon {
    size: u32,
    tx_type: u8,
    lossless: bool,
    depth: u32,
    dc: i32,
    ac: i32,
    width: usize,
    height: usize,
    tokens: Vec<i64>,
}

fn recon(what: &str, c: Recon) {
    show(&format!("reconstruction, {what}"), move || {
        let mut p = intra::Plane::new(c.width, c.height);
        p.samples_mut().fill(100);
        reconstruct::reconstruct_block(&mut p, 0, 0, c.size, &c.tokens, c.dc, c.ac, c.tx_type, c.lossless, c.depth);
        short(p.samples())
    });
}

fn good() -> Recon {
    Recon { size: 0, tx_type: 0, lossless: false, depth: 8, dc: 4, ac: 4, width: 4, height: 4, tokens: block(16, &[(0, 40)]) }
}

fn quantize(what: &str, list: Vec<i64>, dc: i32, ac: i32, size: u32, depth: u32) {
    show(&format!("quantize_block_tx, {what}"), move || {
        let mut l = list;
        fwd_transform::quantize_block_tx(&mut l, dc, ac, size, depth);
        short(&l)
    });
}

fn forward(what: &str, list: Vec<i64>) {
    show(&format!("forward WHT, {what}"), move || {
        let mut l = list;
        fwd_transform::forward_wht_2d(&mut l);
        short(&l)
    });
}

fn main() {
    panic::set_hook(Box::new(|_| {}));
    if std::env::args().nth(1).as_deref() == Some("small") {
        reference_driver("n 1, 4 numbers", block(4, &[(0, 64)]), 1, 0, false);
        return;
    }

    for depth in [0, 9, 63, 64] {
        recon(&format!("depth {depth}"), Recon { depth, tokens: block(16, &[(0, 16_000)]), ..good() });
    }
    for depth in [0, 9, 16] {
        quantize(&format!("depth {depth}, coefficient 100000 at 1"), vec![100_000], 1, 1, 0, depth);
    }
    for depth in [0, 9, 56, 57, 58] {
        show(&format!("max_codeable_coef({depth})"), move || fwd_transform::max_codeable_coef(depth).to_string());
    }

    fast_driver("n 1, 1024 numbers", block(1_024, &[(0, 64)]), 1, 0, false);
    fast_driver("n 1, 4 numbers", block(4, &[(0, 64)]), 1, 0, false);
    both_drivers("n 6, 1024 numbers", block(1_024, &[(0, 64)]), 6, 0, false);
    both_drivers("n 6, 4096 numbers", block(4_096, &[(0, 64)]), 6, 0, false);
    recon("size 4, 1024 tokens", Recon { size: 4, tokens: block(1_024, &[(0, 40)]), ..good() });
    recon("size 4, 4096 tokens", Recon { size: 4, tokens: block(4_096, &[(0, 40)]), ..good() });
    recon(
        "size 4, 4096 tokens, plane 64 by 17",
        Recon { size: 4, width: 64, height: 17, tokens: block(4_096, &[(0, 400)]), ..good() },
    );
    quantize("depth 12, coefficient 1048840 at 4", vec![1_048_840], 4, 4, 0, 12);
    quantize("size 4, coefficient 7 at 4", vec![7], 4, 4, 4, 8);

    both_drivers("lossless, n 3, place 0 holds 4", block(64, &[(0, 4)]), 3, 0, true);
    both_drivers("lossless, n 3, place 4 holds 4", block(64, &[(4, 4)]), 3, 0, true);
    recon("lossless, size 1", Recon { size: 1, lossless: true, tokens: block(64, &[(0, 40)]), width: 8, height: 8, ..good() });

    both_drivers("type 4, place 0 holds 100", block(16, &[(0, 100)]), 2, 4, false);
    both_drivers("type 3, place 0 holds 100", block(16, &[(0, 100)]), 2, 3, false);
    for tx_type in 1..4 {
        both_drivers(&format!("n 5, type {tx_type}, place 0 holds 1000"), block(1_024, &[(0, 1_000)]), 5, tx_type, false);
    }

    for q in [0, -1, 32_768] {
        recon(&format!("DC quantizer {q}"), Recon { dc: q, ..good() });
        quantize(&format!("DC quantizer {q}"), vec![7, 7], q, 4, 0, 8);
    }
    quantize("quantizer 0, no number", vec![], 0, 0, 0, 8);

    for len in [0, 15] {
        both_drivers(&format!("n 2, {len} numbers"), vec![1; len], 2, 0, false);
    }
    for len in [0, 1, 15, 17] {
        recon(&format!("{len} tokens"), Recon { tokens: vec![40; len], ..good() });
    }
    for len in [12, 15, 17, 20] {
        forward(&format!("{len} numbers"), vec![1; len]);
    }
    quantize("1025 numbers", vec![7; 1_025], 4, 4, 0, 8);

    recon("plane 65536 by 1", Recon { width: 65_536, height: 1, ..good() });

    recon("token 16451 at depth 8", Recon { tokens: block(16, &[(0, 16_451)]), ..good() });
    recon("depth 12, token 65539 at AC 32767", Recon { depth: 12, ac: 32_767, tokens: block(16, &[(1, 65_539)]), ..good() });
    recon("token 2^62", Recon { tokens: block(16, &[(0, 1 << 62)]), ..good() });
    for e in [31u32, 49, 50, 62] {
        let v = (1i64 << e) + 1;
        both_drivers(&format!("n 2, place 0 holds 2^{e} + 1"), block(16, &[(0, v)]), 2, 0, false);
    }
    forward("place 0 holds 2^23 + 1", block(16, &[(0, (1 << 23) + 1)]));
    forward("every place holds 2^62", vec![1 << 62; 16]);
    for v in [(1i64 << 31) + 1, i64::MAX, i64::MIN] {
        quantize(&format!("coefficient {v} at 32767"), vec![v], 32_767, 1, 0, 10);
    }

    for angle in [i32::MIN, i32::MIN + 31, i32::MIN + 32] {
        show(&format!("sin64({angle})"), move || idct::sin64(angle).to_string());
    }
}
