//! Ends to join: legs a, z and travel T, mostly made from triples that are known to join them.

use super::chance::Chance;
use super::shapes::a_pair;
use crate::curve::COORDINATE_LIMIT;
use crate::join::legs;
use crate::pair::{pair, Pair};
use crate::poly::Whole;

/// The parts of a, z and T, within their ranges; neither a nor z is zero.
pub fn ends(chance: &mut Chance) -> [i64; 6] {
    loop {
        let made = match chance.below(10) {
            0 => Some(anywhere(chance)),
            1 => Some(squares(chance)),
            2 | 3 => one_triple(chance),
            4 | 5 => half_step(chance),
            6..=8 => pairs_of_triples(chance),
            _ => double_triple(chance),
        };
        let slip = chance.pick(&[0, 0, 0, 0, 0, 0, 1, -1]);
        if let Some([a, z, travel]) = made {
            let travel = travel + pair(slip, 0);
            let is_leg = |x: &Pair| *x != Pair::default() && x.within(COORDINATE_LIMIT);
            if [a, z].iter().all(is_leg) && travel.within(2 * COORDINATE_LIMIT) {
                return [a.re, a.im, z.re, z.im, travel.re, travel.im].map(|x| x as i64);
            }
        }
    }
}

fn anywhere(chance: &mut Chance) -> [Pair; 3] {
    let limit = chance.pick(&[3, COORDINATE_LIMIT as i64]);
    let travel = a_pair(chance, 2 * limit);
    [a_pair(chance, limit), a_pair(chance, limit), travel]
}

fn squares(chance: &mut Chance) -> [Pair; 3] {
    let limit = chance.pick(&[2, 9, 155]);
    let (w0, w2) = (a_pair(chance, limit), a_pair(chance, limit));
    let travel = a_pair(chance, 2 * COORDINATE_LIMIT as i64);
    [w0 * w0, w2 * w2, travel]
}

/// The ends of a triple; nothing where its legs are not whole.
fn joined(w0: Pair, v: Pair, w2: Pair) -> Option<[Pair; 3]> {
    let legs = legs(&[w0, v, w2])?;
    let travel = legs.into_iter().fold(Pair::default(), |sum, leg| sum + leg);
    Some([w0 * w0, w2 * w2, travel])
}

/// A triple whose middle coefficient is whole.
fn one_triple(chance: &mut Chance) -> Option<[Pair; 3]> {
    let limit = chance.pick(&[2, 9, 90]);
    let [w0, w1, w2] = [0; 3].map(|_| a_pair(chance, limit));
    joined(w0, w1.times(2), w2)
}

/// A triple whose middle coefficient is a half: either both ends are even, or 1 + i divides all three.
fn half_step(chance: &mut Chance) -> Option<[Pair; 3]> {
    let limit = chance.pick(&[2, 5, 40]);
    let [x, v, y] = [0; 3].map(|_| a_pair(chance, limit));
    let turn = pair(1, 1);
    let [w0, v, w2] = chance.pick(&[[x.times(2), v, y.times(2)], [turn * x, turn * v, turn * y]]);
    joined(w0, v, w2)
}

/// V is (−3(w0 + w2) ± δ)/2 for w2, and (−3(w0 − w2) ± ε)/2 for −w2, where δ² − ε² = 20·w0·w2.
fn with_root(w0: Pair, w2: Pair, delta: Pair) -> Option<[Pair; 3]> {
    let v = (delta - (w0 + w2).times(3)).exact_quotient(pair(2, 0))?;
    joined(w0, v, w2)
}

/// Two factors of 5.
fn factors(chance: &mut Chance) -> (Pair, Pair) {
    let (one, five) = (pair(1, 0), pair(5, 0));
    let (left, right) = (pair(2, 1), pair(2, -1));
    chance.pick(&[(one, five), (five, one), (left, right), (right, left)])
}

/// Half of δ + ε and half of δ − ε are two factors of 5·w0·w2, made from the factors of w0 and w2: so both roots are
/// whole, and there are four triples where the legs are whole too.
fn pairs_of_triples(chance: &mut Chance) -> Option<[Pair; 3]> {
    let (p, r) = factors(chance);
    let limit = chance.pick(&[1, 2]);
    let [x, y, u, v] = [0; 4].map(|_| a_pair(chance, limit));
    let scale = chance.pick(&[1, 2, 3, 4, 6, 12]);
    let delta = p * x * u + r * y * v;
    with_root(
        (x * y).times(scale),
        (u * v).times(scale),
        delta.times(scale),
    )
}

/// δ = 0, a triple that counts once; ε is whole, so that there may be two more.
fn double_triple(chance: &mut Chance) -> Option<[Pair; 3]> {
    let (p, r) = factors(chance);
    let common = a_pair(chance, 3).times(chance.pick(&[1, 2, 4, 12]));
    let (w0, w2) = chance.pick(&[(common * p, common * r), (common * p, common.times(3) * p)]);
    with_root(w0, -w2, Pair::default())
}
