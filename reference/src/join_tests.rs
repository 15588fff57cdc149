//! The list of joins, on the cases of the document and of request P3, and against the definition with any denominator.

use super::*;
use std::collections::{BTreeMap, BTreeSet};

fn real(x: i128) -> Pair {
    pair(x, 0)
}

#[test]
fn case_8_with_its_blunder() {
    let both = vec![[1, -8, 1].map(real), [1, 2, 1].map(real)];
    assert_eq!(joins(real(1), real(1), real(5), 24), Ok(both));
}

#[test]
fn case_9() {
    let both = vec![
        [real(1), pair(-4, 2), pair(0, -1)],
        [real(1), pair(-4, -2), pair(0, 1)],
    ];
    assert_eq!(joins(real(1), real(-1), real(1), 24), Ok(both));
}

#[test]
fn the_students_curve() {
    let his = [real(2), pair(1, 1), pair(0, 4)];
    let path = [(4, 0), (1, 1), (0, 3), (-2, 2), (-16, 0)].map(|(x, y)| pair(x, y));
    assert_eq!(legs(&his), Some(path));
    let both = vec![[real(2), pair(-7, -13), pair(0, 4)], his];
    assert_eq!(joins(real(4), real(-16), pair(-13, 6), 24), Ok(both));
}

#[test]
fn case_10_and_the_order_of_refusals() {
    let one = real(1);
    assert_eq!(joins(one, one, real(5), 23), Err(Refusal::Room));
    assert_eq!(joins(real(2), one, real(5), 23), Err(Refusal::Room));
    assert_eq!(joins(real(0), one, real(5), 23), Err(Refusal::DeadEnd));
    assert_eq!(joins(one, real(0), real(5), 24), Err(Refusal::DeadEnd));
    let far = joins(real(0), one, real(40_001), 23);
    assert_eq!(far, Err(Refusal::Range));
    assert_eq!(joins(real(-20_001), one, one, 24), Err(Refusal::Range));
    assert!(joins(pair(20_000, -20_000), one, pair(-40_000, 40_000), 24).is_ok());
}

/// Pairs of a square box, in ascending order.
fn within(side: i128) -> impl Iterator<Item = Pair> {
    (-side..=side).flat_map(move |x| (-side..=side).map(move |y| pair(x, y)))
}

type Curves = BTreeSet<[Pair; 5]>;

/// The quintics of demand 3 from a to z by their travel, for every denominator s up to 4: legs for which pairs u exist with
/// s²·d0 = u0², s²·d1 = u0u1, 3s²·d2 = 2u1² + u0u2, s²·d3 = u1u2 and s²·d4 = u2². With parts of a and z of at most 4 and of
/// T of at most 3, |u0| and |u2| are below 2.4·s, and |u1| is below 10·s.
fn by_fractions(a: Pair, z: Pair) -> BTreeMap<Pair, Curves> {
    let mut found: BTreeMap<Pair, Curves> = BTreeMap::new();
    for s in 1..=4 {
        let over = |x: Pair, n: i128| x.exact_quotient(real(n * s * s));
        for u0 in within(3 * s).filter(|&u| u * u == a.times(s * s)) {
            for u2 in within(3 * s).filter(|&u| u * u == z.times(s * s)) {
                for u1 in within(10 * s) {
                    let middle = over((u1 * u1).times(2) + u0 * u2, 3);
                    if let (Some(d1), Some(d2), Some(d3)) =
                        (over(u0 * u1, 1), middle, over(u1 * u2, 1))
                    {
                        let path = [a, d1, d2, d3, z];
                        let travel = a + d1 + d2 + d3 + z;
                        found.entry(travel).or_default().insert(path);
                    }
                }
            }
        }
    }
    found
}

#[test]
fn small_inputs_against_the_definition() {
    let mut seen = [0; 5];
    for a in within(4).filter(|&a| a != real(0)) {
        for z in within(4).filter(|&z| z != real(0)) {
            let expected = by_fractions(a, z);
            for travel in within(3) {
                let list = joins(a, z, travel, 24).expect("no cause to refuse");
                let curves: Curves = list.iter().filter_map(legs).collect();
                assert_eq!(curves.len(), list.len());
                assert_eq!(curves, expected.get(&travel).cloned().unwrap_or_default());
                seen[list.len()] += 1;
            }
        }
    }
    assert!(seen[0] > 0 && seen[1] > 0 && seen[2] > 0);
}

#[test]
fn the_travel_of_a_triple_leads_back_to_it() {
    let mut half_steps = 0;
    for w0 in [
        pair(155, 64),
        pair(1, 0),
        pair(0, 7),
        pair(2, -10),
        pair(6, 4),
    ] {
        for w2 in [pair(-155, 64), pair(-3, 1), pair(0, -7), pair(4, -2)] {
            for v in within(40).step_by(7) {
                let Some(path) = legs(&[w0, v, w2]) else {
                    continue;
                };
                let travel = path.into_iter().fold(real(0), |sum, leg| sum + leg);
                assert!(middles(w0, w2, travel).contains(&v));
                half_steps += usize::from(v.exact_quotient(real(2)).is_none());
            }
        }
    }
    assert!(half_steps > 0);
}
