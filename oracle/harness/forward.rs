//! The forward DCT of docs/REFERENCE.md in whole numbers: the double sum itself, in i128, rounded once.

/// Entry (k, i) of the basis of 2^n points: cos64 as docs/REFERENCE.md has it, by its cosine.
fn entry(n: u32, k: usize, i: usize) -> i128 {
    if k == 0 {
        return 11_585;
    }
    let angle = ((2 * i + 1) * k) << (5 - n);
    (16_384.0 * ((angle % 128) as f64 * std::f64::consts::PI / 64.0).cos()).round() as i128
}

/// The coefficients of a block of residuals.
pub fn coefficients(block: &[i64], n: u32) -> Vec<i64> {
    let n0 = 1usize << n;
    let basis: Vec<Vec<i128>> = (0..n0).map(|k| (0..n0).map(|i| entry(n, k, i)).collect()).collect();
    let bits = [26, 27, 28, 30][n as usize - 2];
    let mut out = vec![];
    for u in &basis {
        for v in &basis {
            let mut sum = 0i128;
            for (row, cu) in block.chunks_exact(n0).zip(u) {
                for (x, cv) in row.iter().zip(v) {
                    sum += i128::from(*x) * cv * cu;
                }
            }
            out.push(((sum + (1 << (bits - 1))) >> bits) as i64);
        }
    }
    out
}
