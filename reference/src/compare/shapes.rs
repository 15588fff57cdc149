//! Sound curves of every shape: built ones, those of a chosen leg polynomial, and those that just miss it.

use super::chance::Chance;
use crate::build::build;
use crate::curve::{along, Curve, COORDINATE_LIMIT};
use crate::pair::{pair, Pair};
use crate::poly::{binomials, product};

const EDGE: i64 = COORDINATE_LIMIT as i64;

pub fn a_pair(chance: &mut Chance, limit: i64) -> Pair {
    let mut part = || chance.between(-limit, limit).into();
    pair(part(), part())
}

/// A curve within the range, of a shape by chance.
pub fn curve(chance: &mut Chance) -> Curve {
    let legs = chance.pick(&[3, 5]);
    let mut points = match chance.below(16) {
        0 => vec![a_pair(chance, EDGE); legs + 1],
        1 | 2 => random(chance, legs, EDGE),
        3 => random(chance, legs, 2),
        4..=7 => built(chance, legs),
        _ => of_polynomial(chance, legs),
    };
    if chance.one_in(5) {
        near_miss(chance, &mut points);
    }
    Curve::new(points).expect("4 or 6 points")
}

fn random(chance: &mut Chance, legs: usize, limit: i64) -> Vec<Pair> {
    (0..=legs).map(|_| a_pair(chance, limit)).collect()
}

/// One coordinate moves by one, where it stays within the range.
fn near_miss(chance: &mut Chance, points: &mut [Pair]) {
    let k = chance.below(points.len());
    let step = chance.pick(&[pair(1, 0), pair(-1, 0), pair(0, 1), pair(0, -1)]);
    if (points[k] + step).within(COORDINATE_LIMIT) {
        points[k] = points[k] + step;
    }
}

/// Built from a pre-image; most quintics fail by the thirds, and most with large w by the range. A short w1 between
/// long ones makes a curve that turns twice.
fn built(chance: &mut Chance, legs: usize) -> Vec<Pair> {
    loop {
        let limit = chance.pick(&[2, 9, 60, 141]);
        let p0 = a_pair(chance, start_limit(limit));
        let mut w: Vec<Pair> = (0..=legs / 2).map(|_| a_pair(chance, limit)).collect();
        if chance.one_in(2) {
            w[1] = a_pair(chance, 1 + limit / 8);
        }
        if let Ok(curve) = build(p0, &w) {
            return curve.points().to_vec();
        }
    }
}

/// The larger w, the nearer to the middle a curve has to begin.
fn start_limit(limit: i64) -> i64 {
    (EDGE - limit * limit).max(100)
}

fn of_polynomial(chance: &mut Chance, legs: usize) -> Vec<Pair> {
    loop {
        let d = leg_polynomial(chance, legs - 1);
        if let Some(points) = placed(chance, &legs_of(&d, legs)) {
            return points;
        }
    }
}

fn polynomial(chance: &mut Chance, degree: usize) -> Vec<Pair> {
    let limit = chance.pick(&[1, 2, 5]);
    (0..=degree).map(|_| a_pair(chance, limit)).collect()
}

fn real_polynomial(chance: &mut Chance, degree: usize) -> Vec<Pair> {
    let parts = polynomial(chance, degree);
    parts.into_iter().map(|x| pair(x.re, 0)).collect()
}

fn square(w: &[Pair]) -> Vec<Pair> {
    product(w, w)
}

/// D as a constant pair times factors, of degree `top` at most: with a pre-image, of lower degree, with a
/// common real factor, with a real square, or with a pair polynomial that has no reason to be a square.
fn leg_polynomial(chance: &mut Chance, top: usize) -> Vec<Pair> {
    let half = top / 2;
    let factors = match chance.below(6) {
        0 => square(&polynomial(chance, half)),
        1 => square(&polynomial(chance, half - 1)),
        2 => real_polynomial(chance, top),
        3 => {
            let real = real_polynomial(chance, 2);
            product(&real, &square(&polynomial(chance, half - 1)))
        }
        4 => {
            let real = square(&real_polynomial(chance, 1));
            product(&real, &square(&polynomial(chance, half - 1)))
        }
        _ => product(
            &polynomial(chance, 2),
            &square(&polynomial(chance, half - 1)),
        ),
    };
    let limit = chance.pick(&[1, 1, 4, 20, 150]);
    product(&[a_pair(chance, limit)], &factors)
}

/// The legs of a whole multiple of D: leg k is the sum of binomial(k, j)/binomial(top, j) times coefficient j.
fn legs_of(d: &[Pair], legs: usize) -> Vec<Pair> {
    let below = binomials(legs - 1);
    let multiple = if legs == 3 { 2 } else { 12 };
    let leg = |k| {
        let terms = d.iter().zip(binomials(k)).zip(&below);
        terms.fold(Pair::default(), |sum, ((x, j), n)| {
            sum + x.times(multiple * j / n)
        })
    };
    (0..legs).map(leg).collect()
}

/// The legs without their common divisor and times a factor, as points somewhere in the range: nothing where they do not fit.
fn placed(chance: &mut Chance, legs: &[Pair]) -> Option<Vec<Pair>> {
    let divisor = legs
        .iter()
        .fold(0, |d, leg| divisor(divisor(d, leg.re), leg.im))
        .max(1);
    let smallest: Vec<Pair> = legs
        .iter()
        .map(|leg| pair(leg.re / divisor, leg.im / divisor))
        .collect();
    let size = size(&along(Pair::default(), &smallest)).max(1);
    let most = 2 * EDGE / size;
    if most == 0 {
        return None;
    }
    let small = most.min(12);
    let factor = match chance.below(4) {
        0 => 1,
        1 | 2 => chance.between(1, small),
        _ => chance.pick(&[most, (most / 2).max(1), small]),
    };
    let scaled: Vec<Pair> = smallest
        .iter()
        .map(|leg| leg.times(factor.into()))
        .collect();
    Some(moved(chance, &along(Pair::default(), &scaled)))
}

/// By Euclid's way; 0 counts as having every divisor.
fn divisor(a: i128, b: i128) -> i128 {
    if b == 0 {
        a.abs()
    } else {
        divisor(b, a % b)
    }
}

/// The least and the greatest number.
fn ends(numbers: impl Iterator<Item = i128> + Clone) -> (i64, i64) {
    let low = numbers.clone().min().expect("a curve has points");
    let high = numbers.max().expect("a curve has points");
    let narrow = |x| i64::try_from(x).expect("small polynomials have small legs");
    (narrow(low), narrow(high))
}

/// The longer side of the box round the points.
fn size(points: &[Pair]) -> i64 {
    let (left, right) = ends(points.iter().map(|p| p.re));
    let (low, high) = ends(points.iter().map(|p| p.im));
    (right - left).max(high - low)
}

/// The points moved within the range, now and then to its edge.
fn moved(chance: &mut Chance, points: &[Pair]) -> Vec<Pair> {
    let mut step = |(low, high): (i64, i64)| match chance.below(6) {
        0 => -EDGE - low,
        1 => EDGE - high,
        _ => chance.between(-EDGE - low, EDGE - high),
    };
    let along_x = step(ends(points.iter().map(|p| p.re)));
    let along_y = step(ends(points.iter().map(|p| p.im)));
    let by = pair(along_x.into(), along_y.into());
    points.iter().map(|&p| p + by).collect()
}
