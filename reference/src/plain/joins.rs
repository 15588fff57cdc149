//! Joins: the triples (w0, V, w2) between two legs over a travel, by the quadratic's formula. V is twice the middle coefficient.

use crate::number::{pair, root, Pair};
use crate::recognise::COORDINATE_LIMIT;

/// Parts of T lie from minus this to this.
pub const TRAVEL_LIMIT: i64 = 40_000;
/// Four triples of six numbers.
pub const NEEDED: usize = 24;

pub fn in_range(a: Pair, z: Pair, travel: Pair) -> bool {
    a.within(COORDINATE_LIMIT) && z.within(COORDINATE_LIMIT) && travel.within(TRAVEL_LIMIT)
}

/// Writes the triples in the stated order into 24 numbers that are zero, and counts them.
/// 2·V = −3(w0 + w2) ∓ δ with δ² = 24T − 15(a + z) + 10·w0·w2, and the legs beside the middle are whole.
pub fn write_joins(a: Pair, z: Pair, travel: Pair, out: &mut [i64]) -> i64 {
    let (Some(w0), Some(r)) = (whole_root(a), whole_root(z)) else {
        return 0;
    };
    let fixed = travel.times(24) - (a + z).times(15);
    let product = (w0 * r).times(10);
    let mut count = 0;
    for (w2, square) in [(r.times(-1), fixed - product), (r, fixed + product)] {
        let Some(delta) = whole_root(square) else {
            continue;
        };
        let once = delta == Pair::default();
        let minus = (w0 + w2).times(-3);
        for double in [minus - delta, minus + delta]
            .into_iter()
            .take(2 - once as usize)
        {
            let v = pair(double.re >> 1, double.im >> 1);
            if is_even(double) && is_even(w0 * v) && is_even(v * w2) {
                let numbers = [w0.re, w0.im, v.re, v.im, w2.re, w2.im];
                out[6 * count..6 * count + 6].copy_from_slice(&numbers);
                count += 1;
            }
        }
    }
    count as i64
}

fn is_even(x: Pair) -> bool {
    (x.re | x.im) & 1 == 0
}

/// The root whose first part that isn't zero is positive; 0 is its own.
fn whole_root(x: Pair) -> Option<Pair> {
    let n = root(x.norm() as u64)? as i64;
    let w = x.root(n)?;
    (w * w == x).then_some(w)
}

#[cfg(test)]
mod tests {
    use super::*;

    #[test]
    fn roots_of_pairs() {
        for (x, y) in [(0, 0), (0, 3), (2, -1), (155, 64), (1, 1), (0, 1)] {
            let w = pair(x, y);
            assert_eq!(whole_root(w * w), Some(w));
        }
        for x in [pair(0, 1), pair(2, 0), pair(3, -3), pair(4, 1)] {
            assert_eq!(whole_root(x), None);
        }
    }
}
