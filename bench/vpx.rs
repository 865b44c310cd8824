//! libvpx's inverse transforms by their names in its archive, built for deep samples: a coefficient is 32 bits. A partial transform is chosen
//! by the number of tokens before the end, as its decoder does; in plain C by the same bounds, among the functions that end in _c.

use crate::Block;

type Add8 = unsafe extern "C" fn(*const i32, *mut u8, i32);
type Add16 = unsafe extern "C" fn(*const i32, *mut u16, i32, i32);
type Hybrid8 = unsafe extern "C" fn(*const i32, *mut u8, i32, i32);
type Hybrid16 = unsafe extern "C" fn(*const i32, *mut u16, i32, i32, i32);

// As packaged: with its assembler where it has some.
#[rustfmt::skip]
unsafe extern "C" {
    fn vpx_dsp_rtcd();
    fn vp9_rtcd();
    fn vp9_iwht4x4_add(input: *const i32, dest: *mut u8, stride: i32, eob: i32);
    fn vp9_iht4x4_add(tx_type: i32, input: *const i32, dest: *mut u8, stride: i32, eob: i32);
    fn vp9_iht8x8_add(tx_type: i32, input: *const i32, dest: *mut u8, stride: i32, eob: i32);
    fn vp9_iht16x16_add(tx_type: i32, input: *const i32, dest: *mut u8, stride: i32, eob: i32);
    fn vp9_idct32x32_add(input: *const i32, dest: *mut u8, stride: i32, eob: i32);
    fn vp9_highbd_iwht4x4_add(input: *const i32, dest: *mut u16, stride: i32, eob: i32, depth: i32);
    fn vp9_highbd_iht4x4_add(tx_type: i32, input: *const i32, dest: *mut u16, stride: i32, eob: i32, depth: i32);
    fn vp9_highbd_iht8x8_add(tx_type: i32, input: *const i32, dest: *mut u16, stride: i32, eob: i32, depth: i32);
    fn vp9_highbd_iht16x16_add(tx_type: i32, input: *const i32, dest: *mut u16, stride: i32, eob: i32, depth: i32);
    fn vp9_highbd_idct32x32_add(input: *const i32, dest: *mut u16, stride: i32, eob: i32, depth: i32);
}

// In plain C: the names of a form, each with the arguments of that form.
macro_rules! plain {
    ($args:tt $($name:ident)*) => { unsafe extern "C" { $(fn $name $args;)* } };
}
plain! { (input: *const i32, dest: *mut u8, stride: i32)
    vpx_iwht4x4_1_add_c vpx_iwht4x4_16_add_c vpx_idct4x4_1_add_c vpx_idct4x4_16_add_c
    vpx_idct8x8_1_add_c vpx_idct8x8_12_add_c vpx_idct8x8_64_add_c
    vpx_idct16x16_1_add_c vpx_idct16x16_10_add_c vpx_idct16x16_38_add_c vpx_idct16x16_256_add_c
    vpx_idct32x32_1_add_c vpx_idct32x32_34_add_c vpx_idct32x32_135_add_c vpx_idct32x32_1024_add_c }
plain! { (input: *const i32, dest: *mut u16, stride: i32, depth: i32)
    vpx_highbd_iwht4x4_1_add_c vpx_highbd_iwht4x4_16_add_c vpx_highbd_idct4x4_1_add_c vpx_highbd_idct4x4_16_add_c
    vpx_highbd_idct8x8_1_add_c vpx_highbd_idct8x8_12_add_c vpx_highbd_idct8x8_64_add_c
    vpx_highbd_idct16x16_1_add_c vpx_highbd_idct16x16_10_add_c vpx_highbd_idct16x16_38_add_c vpx_highbd_idct16x16_256_add_c
    vpx_highbd_idct32x32_1_add_c vpx_highbd_idct32x32_34_add_c vpx_highbd_idct32x32_135_add_c vpx_highbd_idct32x32_1024_add_c }
plain! { (input: *const i32, dest: *mut u8, stride: i32, tx_type: i32)
    vp9_iht4x4_16_add_c vp9_iht8x8_64_add_c vp9_iht16x16_256_add_c }
plain! { (input: *const i32, dest: *mut u16, stride: i32, tx_type: i32, depth: i32)
    vp9_highbd_iht4x4_16_add_c vp9_highbd_iht8x8_64_add_c vp9_highbd_iht16x16_256_add_c }

/// Each size's DCTs (lossless last), with the greatest eob that each takes.
static DCT8: [&[(u32, Add8)]; 5] = [
    &[(1, vpx_idct4x4_1_add_c), (16, vpx_idct4x4_16_add_c)],
    &[(1, vpx_idct8x8_1_add_c), (12, vpx_idct8x8_12_add_c), (64, vpx_idct8x8_64_add_c)],
    &[(1, vpx_idct16x16_1_add_c), (10, vpx_idct16x16_10_add_c), (38, vpx_idct16x16_38_add_c), (256, vpx_idct16x16_256_add_c)],
    &[(1, vpx_idct32x32_1_add_c), (34, vpx_idct32x32_34_add_c), (135, vpx_idct32x32_135_add_c), (1024, vpx_idct32x32_1024_add_c)],
    &[(1, vpx_iwht4x4_1_add_c), (16, vpx_iwht4x4_16_add_c)],
];
static DCT16: [&[(u32, Add16)]; 5] = [
    &[(1, vpx_highbd_idct4x4_1_add_c), (16, vpx_highbd_idct4x4_16_add_c)],
    &[(1, vpx_highbd_idct8x8_1_add_c), (12, vpx_highbd_idct8x8_12_add_c), (64, vpx_highbd_idct8x8_64_add_c)],
    &[
        (1, vpx_highbd_idct16x16_1_add_c),
        (10, vpx_highbd_idct16x16_10_add_c),
        (38, vpx_highbd_idct16x16_38_add_c),
        (256, vpx_highbd_idct16x16_256_add_c),
    ],
    &[
        (1, vpx_highbd_idct32x32_1_add_c),
        (34, vpx_highbd_idct32x32_34_add_c),
        (135, vpx_highbd_idct32x32_135_add_c),
        (1024, vpx_highbd_idct32x32_1024_add_c),
    ],
    &[(1, vpx_highbd_iwht4x4_1_add_c), (16, vpx_highbd_iwht4x4_16_add_c)],
];
static HYBRID8: [Hybrid8; 3] = [vp9_iht4x4_16_add_c, vp9_iht8x8_64_add_c, vp9_iht16x16_256_add_c];
static HYBRID16: [Hybrid16; 3] = [vp9_highbd_iht4x4_16_add_c, vp9_highbd_iht8x8_64_add_c, vp9_highbd_iht16x16_256_add_c];

/// Has to be called once, before all others.
pub fn start() {
    unsafe {
        vpx_dsp_rtcd();
        vp9_rtcd();
    }
}

fn row(b: &Block) -> usize {
    if b.lossless { 4 } else { b.size as usize }
}

/// A block of depth 8 added to samples of 8 bits.
pub fn add8(plain: bool, b: &Block, coefs: &[i32], to: &mut [u8], stride: usize) {
    let (from, to, stride, kind, eob) = (coefs.as_ptr(), to.as_mut_ptr(), stride as i32, b.kind as i32, b.eob as i32);
    unsafe {
        match (plain, b.lossless, b.size) {
            (true, false, 0..=2) if kind != 0 => HYBRID8[b.size as usize](from, to, stride, kind),
            (true, ..) => DCT8[row(b)].iter().find(|f| b.eob <= f.0).unwrap().1(from, to, stride),
            (_, true, _) => vp9_iwht4x4_add(from, to, stride, eob),
            (_, _, 0) => vp9_iht4x4_add(kind, from, to, stride, eob),
            (_, _, 1) => vp9_iht8x8_add(kind, from, to, stride, eob),
            (_, _, 2) => vp9_iht16x16_add(kind, from, to, stride, eob),
            _ => vp9_idct32x32_add(from, to, stride, eob),
        }
    }
}

/// A block of any depth added to samples of 16 bits.
pub fn add16(plain: bool, b: &Block, coefs: &[i32], to: &mut [u16], stride: usize) {
    let (from, to, stride, kind, eob, depth) = (coefs.as_ptr(), to.as_mut_ptr(), stride as i32, b.kind as i32, b.eob as i32, b.depth as i32);
    unsafe {
        match (plain, b.lossless, b.size) {
            (true, false, 0..=2) if kind != 0 => HYBRID16[b.size as usize](from, to, stride, kind, depth),
            (true, ..) => DCT16[row(b)].iter().find(|f| b.eob <= f.0).unwrap().1(from, to, stride, depth),
            (_, true, _) => vp9_highbd_iwht4x4_add(from, to, stride, eob, depth),
            (_, _, 0) => vp9_highbd_iht4x4_add(kind, from, to, stride, eob, depth),
            (_, _, 1) => vp9_highbd_iht8x8_add(kind, from, to, stride, eob, depth),
            (_, _, 2) => vp9_highbd_iht16x16_add(kind, from, to, stride, eob, depth),
            _ => vp9_highbd_idct32x32_add(from, to, stride, eob, depth),
        }
    }
}
