//! The pre-image: κ and w with D = κ·w².

use crate::number::{common_divisor_of_pairs, pair, Pair};

/// No part of a coefficient of w passes this: |w|² is q, at most 56,569 between 0 and 1.
const PART_LIMIT: i64 = 2_000;

#[derive(Clone, Copy)]
pub struct Preimage {
    pub kappa: Pair,
    pub w: [Pair; 3],
}

/// κ and w of D, whose highest power isn't zero and for which N = c·q² with q's highest coefficient `top`.
/// κ is, up to a unit, the greatest common divisor of D's powers, and |κ|² is c; of the four units
/// two squares are to be tried, since −w² is (iw)².
pub fn pre_image<const K: usize>(d: &[Pair; K], c: i64, top: i64) -> Option<Preimage> {
    let g = divisor_of_norm(d, c)?;
    let upper = [
        d[K - 1].over(g).exact(c)?,
        d[K - 2].over(g).exact(c)?,
        d[K - 3].over(g).exact(c)?,
    ];
    let turned = upper.map(Pair::turned);
    let found = try_root(d, upper, g, top);
    found.or_else(|| try_root(d, turned, g.times(-1).turned(), top))
}

/// The common divisor of D's powers, up to a unit, if its norm is c. Its norm always divides c, so it
/// divides c too: a c whose square fits is the number to begin with, and mostly one divisor is enough.
fn divisor_of_norm<const K: usize>(d: &[Pair; K], c: i64) -> Option<Pair> {
    if c == 1 {
        return Some(pair(1, 0));
    }
    let mut g = if c < 1 << 30 { pair(c, 0) } else { d[K - 1] };
    for &x in d.iter().rev() {
        g = common_divisor_of_pairs(x, g);
        if g.norm() <= c {
            break;
        }
    }
    (g.norm() == c).then_some(g)
}

/// w from the three upper powers of D/κ, and D held to κ·w².
fn try_root<const K: usize>(
    d: &[Pair; K],
    e: [Pair; 3],
    kappa: Pair,
    top: i64,
) -> Option<Preimage> {
    let high = K / 2;
    let mut w = [Pair::default(); 3];
    w[high] = e[0].root(top)?;
    w[high - 1] = e[1].over(w[high]).exact(2 * top)?;
    if K == 5 {
        let rest = e[2] - w[1] * w[1];
        w[0] = rest.over(w[2]).exact(2 * top)?;
    }
    if !w.iter().all(|b| b.within(PART_LIMIT)) {
        return None;
    }
    let product = |m: usize| {
        let lowest = m.saturating_sub(high);
        (lowest..=m.min(high)).fold(Pair::default(), |sum, j| sum + w[j] * w[m - j])
    };
    let same = (0..K).all(|m| kappa * product(m) == d[m]);
    same.then(|| with_signs(kappa, w, high))
}

/// The signs of the document: the first part of κ, and of w's highest coefficient, is positive.
#[inline]
pub fn with_signs(mut kappa: Pair, mut w: [Pair; 3], high: usize) -> Preimage {
    if kappa.leads_negative() {
        kappa = kappa.times(-1);
        w = w.map(Pair::turned);
    }
    if w[high].leads_negative() {
        w = w.map(|b| b.times(-1));
    }
    Preimage { kappa, w }
}
