//! The forward DCT in whole numbers beside the Rust's in f64, and both there and back, over COUNT blocks of each size, limit and sort:
//! the greatest and the mean distance, and the share of equal numbers. distance COUNT
#![allow(dead_code)]
#[path = "../oracle/rust/fwd_transform.rs"]
mod fwd_transform;
#[path = "../oracle/rust/idct.rs"]
mod idct;
#[path = "../bindings/rust/src/archive.rs"]
mod archive;

struct Rng(u64);
impl Rng {
    fn next(&mut self) -> u64 {
        self.0 ^= self.0 << 13;
        self.0 ^= self.0 >> 7;
        self.0 ^= self.0 << 17;
        self.0
    }
    fn within(&mut self, m: i64) -> i64 {
        (self.next() % (2 * m as u64 + 1)) as i64 - m
    }
}

const SORTS: [&str; 3] = ["noise", "slopes", "flat"];

/// Any number at every place; a plane that slopes both ways with a little noise; one value.
fn block(rng: &mut Rng, n0: usize, m: i64, sort: usize, b: &mut [i64]) {
    match sort {
        0 => b.iter_mut().for_each(|x| *x = rng.within(m)),
        1 => {
            let (at, down, along, noise) = (rng.within(m), rng.within(m / 8), rng.within(m / 8), m / 32);
            for (k, x) in b.iter_mut().enumerate() {
                let slope = (k / n0) as i64 * down + (k % n0) as i64 * along;
                *x = (at + slope / (n0 as i64 / 4) + rng.within(noise)).clamp(-m, m);
            }
        }
        _ => b.fill(rng.within(m)),
    }
}

#[derive(Default)]
struct Far {
    most: i64,
    sum: u64,
    equal: u64,
    count: u64,
}

impl Far {
    fn add(&mut self, a: &[i64], b: &[i64]) {
        for (x, y) in a.iter().zip(b) {
            let d = (x - y).abs();
            self.most = self.most.max(d);
            self.sum += d as u64;
            self.equal += u64::from(d == 0);
        }
        self.count += a.len() as u64;
    }
    fn told(&self) -> String {
        format!("{} | {:.5} | {:.3} %", self.most, self.sum as f64 / self.count as f64, 100.0 * self.equal as f64 / self.count as f64)
    }
}

fn ours(b: &mut [i64], n: u32) {
    assert!(unsafe { archive::bracetwill_forward_dct_2d(b.as_mut_ptr(), b.len(), n) } == 0);
}

fn back(b: &mut [i64], n: u32) {
    assert!(unsafe { archive::bracetwill_inverse_transform_2d(b.as_mut_ptr(), b.len(), n, 0, false) } == 0);
}

fn main() {
    let count: u64 = std::env::args().nth(1).and_then(|a| a.parse().ok()).unwrap_or(1_000_000);
    println!("{count} blocks a line. Each three: greatest distance | mean | share of equal numbers");
    println!("| block | within | sort | ours from f64 | | | ours and back from the source | | | f64 and back from the source | | |");
    for n in 2..=5u32 {
        let n0 = 1usize << n;
        for m in [255, 4_095] {
            for (sort, name) in SORTS.iter().enumerate() {
                let mut rng = Rng(0x9e37_79b9_7f4a_7c15 ^ (n as u64) << 20 ^ (m as u64) << 4 ^ sort as u64);
                let mut far: [Far; 3] = Default::default();
                let mut source = vec![0; n0 * n0];
                for _ in 0..count {
                    block(&mut rng, n0, m, sort, &mut source);
                    let (mut a, mut b) = (source.clone(), source.clone());
                    ours(&mut a, n);
                    fwd_transform::forward_dct_2d(&mut b, n);
                    far[0].add(&a, &b);
                    back(&mut a, n);
                    back(&mut b, n);
                    far[1].add(&a, &source);
                    far[2].add(&b, &source);
                }
                println!("| {n0} x {n0} | {m} | {name} | {} | {} | {} |", far[0].told(), far[1].told(), far[2].told());
            }
        }
    }
}
