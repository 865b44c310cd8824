//! The best token of a coefficient, found by trying every one: what docs/REFERENCE.md says of the choice, and not the formula.

use crate::line::{Call, Outcome};
use crate::rng::Rng;
use crate::{cases, rules};

/// The quantizers, sizes and limits of which every coefficient is tried, to some past the greatest token's value.
const SMALL_QUANTS: i64 = 16;
const SMALL_LIMIT: i64 = 12;

/// What a token comes to: the product, at 32 by 32 halved toward zero.
fn value(size: u32, q: i64, token: i64) -> i64 {
    let product = token * q;
    if size == 3 { product / 2 } else { product }
}

/// Of the tokens from -most to most the one whose value is nearest, and of those equally near the smallest. Only one may be left.
pub fn token(size: u32, most: i64, q: i64, coef: i64) -> i64 {
    let (mut best, mut found, mut equal) = ((u64::MAX, u64::MAX), 0, 0);
    for t in -most..=most {
        let this = ((coef - value(size, q, t)).unsigned_abs(), t.unsigned_abs());
        if this < best {
            (best, found, equal) = (this, t, 1);
        } else if this == best {
            equal += 1;
        }
    }
    assert_eq!(equal, 1, "size {size}, limit {most}, quantizer {q}, coefficient {coef}: more than one token is best");
    found
}

/// One coefficient under a limit.
pub fn call(size: u32, most: i64, q: i64, coef: i64) -> Call {
    Call { kind: 36, args: vec![coef.into(), q.into(), size.into(), most.into()], lists: vec![] }
}

/// Every coefficient, for small quantizers and limits. A limit is even, as those of all depths are.
pub fn small(quants: i64, limit: i64, out: &mut dyn FnMut(Call)) {
    for size in 0..4 {
        for most in (0..=limit).step_by(2) {
            for q in 1..=quants {
                let past = value(size, q, most) + q + 2;
                (-past..=past).for_each(|coef| out(call(size, most, q, coef)));
            }
        }
    }
}

/// A coefficient where a choice may go wrong: about a token's value, about halfway to the next, past the greatest; or any.
pub fn coefficient(r: &mut Rng, size: u32, most: i64, q: i64) -> i64 {
    let limit = rules::COEF_LIMIT as i64;
    let last = most.min(2 * limit / q);
    let t = match r.below(4) {
        0 => (last - r.range(0, 2)).max(0),
        1 => r.range(0, 4.min(last)),
        _ => r.range(0, last),
    };
    let v = match r.below(4) {
        0 => value(size, q, t),
        3 => r.range(0, limit),
        _ => (value(size, q, t) + value(size, q, t + 1)) / 2,
    };
    let v = (v + r.range(-1, 1)).min(limit);
    if r.once_in(2) { -v } else { v }
}

/// Calls with the outcomes that trying gives: the small ones, then `count` coefficients in lists of 16 against all tokens of a depth.
pub fn every(seed: u64, count: u64, out: &mut dyn FnMut(&Call, &Outcome)) {
    let answer = |c: &Call| token(c.args[2] as u32, c.args[3] as i64, c.args[1] as i64, c.args[0] as i64);
    small(SMALL_QUANTS, SMALL_LIMIT, &mut |c| out(&c, &Outcome { nums: vec![answer(&c).into()], lists: vec![] }));
    let mut r = Rng::new(seed);
    for k in 0..count.div_ceil(16) {
        let (size, depth) = ((k % 4) as u32, cases::DEPTHS[(k / 4 % 3) as usize]);
        let most = rules::codeable(depth);
        let (dc, ac) = (cases::quantizer(&mut r), cases::quantizer(&mut r));
        let at = |place: usize| i64::from(if place == 0 { dc } else { ac });
        let coefs: Vec<i64> = (0..16).map(|p| coefficient(&mut r, size, most, at(p))).collect();
        // depth 12 is no longer written: its limit goes to the quantizer of one number
        if rules::retired(depth) {
            for (p, coef) in coefs.iter().enumerate() {
                let c = call(size, most, at(p), *coef);
                out(&c, &Outcome { nums: vec![answer(&c).into()], lists: vec![] });
            }
            continue;
        }
        let tokens = coefs.iter().enumerate().map(|(p, coef)| token(size, most, at(p), *coef)).collect();
        let args = vec![dc.into(), ac.into(), size.into(), depth.into()];
        out(&Call { kind: 24, args, lists: vec![coefs] }, &Outcome { nums: vec![0], lists: vec![tokens] });
    }
}
