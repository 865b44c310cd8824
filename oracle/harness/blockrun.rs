//! Reads a VBK file on standard input and prints what docs/REFERENCE.md says of it.

#[path = "../rust/fwd_transform.rs"]
mod fwd_transform;
#[path = "../rust/idct.rs"]
mod idct;
#[path = "../rust/intra.rs"]
mod intra;
#[path = "../rust/reconstruct.rs"]
mod reconstruct;
#[allow(dead_code)]
mod rules;
#[allow(dead_code)]
mod vbk;

use std::io::{Read, Write};

fn main() {
    let mut file = vec![];
    std::io::stdin().read_to_end(&mut file).expect("standard input");
    let out = vbk::text(&vbk::replay(&file));
    std::io::stdout().write_all(out.as_bytes()).expect("standard output");
}
