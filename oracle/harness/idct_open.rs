// Appended to a copy of idct.rs by oracle/build, for nothing else than to reach its private functions.
pub(crate) mod open {
    pub(crate) fn round2(x: i64, n: u32) -> i64 {
        super::round2(x, n)
    }
    pub(crate) fn butterfly(t: &mut [i64], a: usize, b: usize, angle: i32, flip: bool) {
        super::butterfly(t, a, b, angle, flip)
    }
    pub(crate) fn hadamard(t: &mut [i64], a: usize, b: usize, flip: bool) {
        super::hadamard(t, a, b, flip)
    }
    pub(crate) fn sb(t: &[i64], s: &mut [i64], a: usize, b: usize, angle: i32, flip: bool) {
        super::sb(t, s, a, b, angle, flip)
    }
    pub(crate) fn sh(t: &mut [i64], s: &[i64], a: usize, b: usize) {
        super::sh(t, s, a, b)
    }
    /// One row by the plain processes: permutation and recursion, or ADST.
    pub(crate) fn apply_1d(t: &mut [i64], n: u32, use_dct: bool) {
        super::apply_1d(t, n, use_dct)
    }
    /// One row by the flattened DCT.
    pub(crate) fn idct_fast(t: &mut [i64; 32], n: u32) {
        match n {
            2 => super::idct_fast::<2>(t),
            3 => super::idct_fast::<3>(t),
            4 => super::idct_fast::<4>(t),
            _ => super::idct_fast::<5>(t),
        }
    }
}
