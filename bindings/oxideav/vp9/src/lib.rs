//! A decoder's crate: oxideav's files beside this one, `reconstruct.rs` with the patch. Its own functions are not public, so the two that
//! the patch changed are handed on here, over plain lists.
#![allow(dead_code)]
mod idct;
mod intra;
mod reconstruct;

pub use bracetwill::Refusal;
use intra::{Plane, PredMode};

/// What both functions are given besides the plane.
#[derive(Clone, Copy)]
pub struct Block<'a> {
    pub x: usize,
    pub y: usize,
    pub tx_sz: u32,
    pub tokens: &'a [i64],
    pub dc_quant: i32,
    pub ac_quant: i32,
    pub lossless: bool,
    pub bit_depth: u32,
}

fn on_plane(width: usize, height: usize, samples: &mut [u16], call: impl FnOnce(&mut Plane) -> Result<(), Refusal>) -> Result<(), Refusal> {
    let mut plane = Plane::new(width, height);
    plane.samples_mut().copy_from_slice(samples);
    let result = call(&mut plane);
    samples.copy_from_slice(plane.samples());
    result
}

/// The patched `reconstruct_block`.
pub fn block(width: usize, height: usize, samples: &mut [u16], b: Block, tx_type: u8) -> Result<(), Refusal> {
    on_plane(width, height, samples, |p| {
        reconstruct::reconstruct_block(p, b.x, b.y, b.tx_sz, b.tokens, b.dc_quant, b.ac_quant, tx_type, b.lossless, b.bit_depth)
    })
}

/// The patched `reconstruct_intra_block`. `edges`: left and above are there, and the block is not at the right edge.
pub fn intra_block(width: usize, height: usize, samples: &mut [u16], b: Block, mode: u8, edges: [bool; 3]) -> Result<(), Refusal> {
    let mode = PredMode::from_raw(mode).expect("a mode of intra prediction");
    on_plane(width, height, samples, |p| {
        reconstruct::reconstruct_intra_block(
            p, b.x, b.y, edges[0], edges[1], edges[2], b.tx_sz, mode, width - 1, height - 1, b.tokens, b.dc_quant, b.ac_quant, b.lossless, b.bit_depth,
        )
    })
}
