//! Joins: all triples (w0, V, w2) for given legs a, z and travel T, by search. V is twice the middle coefficient.

use crate::curve::COORDINATE_LIMIT;
use crate::pair::{pair, Pair};
use crate::poly::Whole;
use crate::refusal::Refusal;

/// Parts of T lie from minus this to this.
const TRAVEL_LIMIT: i128 = 40_000;
/// Four triples of six numbers: what the lent area must hold, always.
const NEEDED: usize = 24;

pub type Triple = [Pair; 3];

/// The triples in ascending order of w2, then V, for a lent area of `room` numbers.
pub fn joins(a: Pair, z: Pair, travel: Pair, room: usize) -> Result<Vec<Triple>, Refusal> {
    let ends_within = a.within(COORDINATE_LIMIT) && z.within(COORDINATE_LIMIT);
    Refusal::Range.when(!ends_within || !travel.within(TRAVEL_LIMIT))?;
    Refusal::DeadEnd.when(a == Pair::default() || z == Pair::default())?;
    Refusal::Room.when(room < NEEDED)?;
    // Of the two roots of a, this one leads with a positive part; z keeps both of its roots.
    let (Some(w0), Some(root)) = (a.square_root(), z.square_root()) else {
        return Ok(Vec::new());
    };
    let mut found = Vec::new();
    for w2 in [root, -root] {
        let triples = middles(w0, w2, travel).into_iter().map(|v| [w0, v, w2]);
        found.extend(triples.filter(|triple| legs(triple).is_some()));
    }
    found.sort_by_key(|&[_, v, w2]| (w2, v));
    Ok(found)
}

/// The legs of a triple, if they are whole: w0², w0V/2, (V² + 2w0w2)/6, Vw2/2, w2².
pub fn legs(&[w0, v, w2]: &Triple) -> Option<[Pair; 5]> {
    let over = |x: Pair, n| x.exact_quotient(pair(n, 0));
    let middle = v * v + (w0 * w2).times(2);
    Some([
        w0 * w0,
        over(w0 * v, 2)?,
        over(middle, 6)?,
        over(v * w2, 2)?,
        w2 * w2,
    ])
}

/// Every V with V² + s·V + k = 0, where s = 3(w0 + w2) and k = 6w0² + 6w2² + 2w0w2 − 6T, by search over its real part x in a
/// box that is large enough.
fn middles(w0: Pair, w2: Pair, travel: Pair) -> Vec<Pair> {
    let s = (w0 + w2).times(3);
    let k = (w0 * w0 + w2 * w2 - travel).times(6) + (w0 * w2).times(2);
    let far = bound(s, k);
    let mut found = Vec::new();
    for x in -far..=far {
        // The imaginary part of the equation is y·(2x + Re s) + x·Im s + Im k = 0.
        let before_y = 2 * x + s.re;
        let rest = x * s.im + k.im;
        let heights = match (before_y, rest) {
            (0, 0) => (-far..=far).collect(),
            (0, _) => Vec::new(),
            _ => (-rest).exact_quotient(before_y).into_iter().collect(),
        };
        let pairs = heights.into_iter().map(|y| pair(x, y));
        found.extend(pairs.filter(|&v| v * v + s * v + k == Pair::default()));
    }
    found
}

/// A whole number that no part of a solution V passes. With r = |V|, the equation says that r² = |s·V + k|, at most S·r + K
/// with S = |Re s| + |Im s| and K = |Re k| + |Im k|. From where r² is above S·r + K it stays above, so the first whole r of
/// that kind is too far for a solution.
fn bound(s: Pair, k: Pair) -> i128 {
    let (s, k) = (s.re.abs() + s.im.abs(), k.re.abs() + k.im.abs());
    let mut far = 1;
    while far * far <= s * far + k {
        far += 1;
    }
    far
}

#[cfg(test)]
#[path = "join_tests.rs"]
mod tests;
