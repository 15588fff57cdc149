//! The recogniser by legs: an exact quotient and two products tell a pre-image, without a root and without N. What is
//! marked `inline` ends up in one function, so that a verdict goes from registers into the lent area.

use crate::number::{common_divisor_of_pairs, pair, Pair};
use crate::preimage::{with_signs, Preimage};
use crate::recognise::{cubic_powers, in_range, legs, norm_polynomial, quintic_powers};
use crate::recognise::{speed, verdict_on, Square, Verdict};
use crate::{LENGTH, RANGE};

const ZERO: Pair = Pair { re: 0, im: 0 };
/// No part of m passes this, since |m|² is |d0|·|d4|: a larger quotient is no m, and is not squared.
const MIDDLE_LIMIT: i64 = 56_568;

/// The verdict on 4 or 6 points x0, y0, x1, …, or the number of the refusal. Where the count is known, the test of
/// the range is unrolled.
#[inline]
pub fn verdict(p: &[i64]) -> Result<Verdict, i64> {
    match p.len() {
        8 if in_range(p) => Ok(verdict_by::<3, 1>(legs(p), cubic, cubic_powers)),
        12 if in_range(p) => Ok(verdict_by::<5, 3>(legs(p), quintic, quintic_powers)),
        8 | 12 => Err(RANGE),
        _ => Err(LENGTH),
    }
}

/// The verdict on the legs d. Most near misses that pass at the first leg are refused at the last.
#[inline]
fn verdict_by<const K: usize, const TWOS: u32>(
    d: [Pair; K],
    pre_image: impl Fn([Pair; K]) -> Option<Preimage>,
    powers: impl Fn([Pair; K]) -> [Pair; K],
) -> Verdict {
    if refused::<TWOS>(d[0], d[1]) {
        return Verdict::No;
    }
    if d == [ZERO; K] {
        return Verdict::Still;
    }
    if let Some(pre) = pre_image(d) {
        return Verdict::Pre(square(&pre), pre);
    }
    if refused::<TWOS>(d[K - 1], d[K - 2]) {
        return Verdict::No;
    }
    verdict_on(powers(d), |d| speed(d).map_or(Verdict::No, Verdict::Ph))
}

/// Whether a leg at an end and the one beside it are of no curve with N = c·q²: there |end|² divides
/// 2^TWOS·(end × beside)². As many twos are taken from |end|² instead, so that one division tells. 0 passes.
#[inline]
fn refused<const TWOS: u32>(end: Pair, beside: Pair) -> bool {
    let norm = end.norm() as u64;
    let divisor = norm >> norm.trailing_zeros().min(TWOS);
    let cross = end.cross(beside).unsigned_abs();
    let rest = (cross * cross).checked_rem(divisor);
    rest.is_some_and(|rest| rest != 0)
}

/// c = |κ|² and q = |w|²: w has no common divisor, and by Gauss's lemma nor has q.
#[inline]
fn square(pre: &Preimage) -> Square {
    let [q0, q1, q2, q3, q4, ..] = norm_polynomial(&pre.w);
    Square {
        c: pre.kappa.norm(),
        q: [q0, q1, q2, q3, q4],
    }
}

#[inline]
fn cubic([d0, d1, d2]: [Pair; 3]) -> Option<Preimage> {
    let (kappa, [u0, u1]) = by_cubic_rule(d0, d1, d2)?;
    Some(signed(kappa, [u0, u1, ZERO]))
}

/// κ and u with E = κ·u², by the Bernstein coefficients of a quadratic E that isn't 0. v = e0(1 − t) + e1·t
/// has v² = e0·E, so that u is v without its common divisor e, and κ is e²/e0.
#[inline]
fn by_cubic_rule(e0: Pair, e1: Pair, e2: Pair) -> Option<(Pair, [Pair; 2])> {
    if e1 * e1 != e0 * e2 {
        return None;
    }
    if e0 == ZERO {
        return Some((e2, [ZERO, pair(1, 0)]));
    }
    let e = common_divisor_of_pairs(e1, e0);
    let (u0, end) = (e0.quotient(e), e1.quotient(e));
    Some((e.quotient(u0), [u0, end - u0]))
}

/// κ and w with D = κ·w². v with the Bernstein coefficients d0, d1, m has v² = d0·D, so that w is v without its
/// common divisor e, and κ is e²/d0.
#[inline]
fn quintic([d0, d1, d2, d3, d4]: [Pair; 5]) -> Option<Preimage> {
    if d0 == ZERO {
        return quintic_from_rest(d1, d2, d3, d4);
    }
    let above = (d0 * d2).times(3) - (d1 * d1).times(2);
    let m = above.over(d0).exact(d0.norm())?;
    if !m.within(MIDDLE_LIMIT) || d1 * m != d0 * d3 || m * m != d0 * d4 {
        return None;
    }
    let (e, twice) = divisor_and_quotient(m, d0, d1.times(2));
    let (b0, end) = (d0.quotient(e), m.quotient(e));
    let w = [b0, twice - b0.times(2), b0 - twice + end];
    Some(signed(e.quotient(b0), w))
}

/// The same where d0 = 0: then d1 = 0 too, and w is t·u with D/t² = κ·u².
fn quintic_from_rest(d1: Pair, d2: Pair, d3: Pair, d4: Pair) -> Option<Preimage> {
    if d1 != ZERO {
        return None;
    }
    let (kappa, [u0, u1]) = by_cubic_rule(d2.times(6), d3.times(2), d4)?;
    Some(signed(kappa, [ZERO, u0, u1]))
}

/// A greatest common divisor of a, b and x, and x divided by it. That of a and b mostly divides x already.
#[inline]
fn divisor_and_quotient(a: Pair, b: Pair, x: Pair) -> (Pair, Pair) {
    let e = common_divisor_of_pairs(a, b);
    if let Some(quotient) = x.over(e).exact(e.norm()) {
        return (e, quotient);
    }
    let e = common_divisor_of_pairs(x, e);
    (e, x.quotient(e))
}

/// The pre-image with its signs, by the highest coefficient of w that isn't zero.
#[inline]
fn signed(kappa: Pair, w: [Pair; 3]) -> Preimage {
    let high = w.iter().rposition(|&b| b != ZERO).unwrap_or(0);
    with_signs(kappa, w, high)
}
