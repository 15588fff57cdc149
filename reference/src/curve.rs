//! Curves: the points, the legs, the leg polynomial D and N = |D|².

use crate::pair::Pair;
use crate::poly::{binomials, product};

/// Coordinates and h lie from minus this to this; so do the parts of a and z.
pub const COORDINATE_LIMIT: i128 = 20_000;

#[derive(Clone, Debug, PartialEq, Eq)]
pub struct Curve {
    points: Vec<Pair>,
}

impl Curve {
    /// A cubic from 4 points or a quintic from 6; nothing from any other number of points.
    pub fn new(points: Vec<Pair>) -> Option<Curve> {
        matches!(points.len(), 4 | 6).then_some(Curve { points })
    }

    pub fn points(&self) -> &[Pair] {
        &self.points
    }

    pub fn degree(&self) -> usize {
        self.points.len() - 1
    }

    pub fn in_range(&self) -> bool {
        self.points.iter().all(|p| p.within(COORDINATE_LIMIT))
    }

    pub fn legs(&self) -> Vec<Pair> {
        self.points.windows(2).map(|p| p[1] - p[0]).collect()
    }

    /// D from its definition: the sum of the legs times their Bernstein functions, multiplied out.
    pub fn leg_polynomial(&self) -> Vec<Pair> {
        let legs = self.legs();
        let degree = legs.len() - 1;
        let mut answer = vec![Pair::default(); legs.len()];
        for (k, (leg, times)) in legs.iter().zip(binomials(degree)).enumerate() {
            // t^k (1 − t)^(degree − k): the second factor has the binomials with changing signs.
            for (j, binomial) in binomials(degree - k).into_iter().enumerate() {
                let signed = if j % 2 == 0 { binomial } else { -binomial };
                answer[k + j] = answer[k + j] + leg.times(times * signed);
            }
        }
        answer
    }
}

/// N = |D|², the product of D and its conjugate, which has no imaginary part.
pub fn norm_polynomial(d: &[Pair]) -> Vec<i128> {
    let conjugate: Vec<Pair> = d.iter().map(|x| x.conjugate()).collect();
    product(d, &conjugate).iter().map(|x| x.re).collect()
}

/// The points that begin with `p0` and follow the legs.
pub fn along(p0: Pair, legs: &[Pair]) -> Vec<Pair> {
    let mut points = vec![p0];
    for (k, &leg) in legs.iter().enumerate() {
        points.push(points[k] + leg);
    }
    points
}

/// A curve written as a list of x, y; for tests.
#[cfg(test)]
pub fn curve(points: &[(i128, i128)]) -> Curve {
    let points = points.iter().map(|&(x, y)| crate::pair::pair(x, y));
    Curve::new(points.collect()).expect("4 or 6 points")
}

#[cfg(test)]
mod tests {
    use super::*;
    use crate::pair::pair;

    #[test]
    fn only_cubics_and_quintics() {
        for count in 0..9 {
            let made = Curve::new(vec![pair(0, 0); count]);
            assert_eq!(made.is_some(), count == 4 || count == 6);
        }
    }

    #[test]
    fn power_coefficients_as_listed() {
        let cubic = curve(&[(3, -1), (7, 2), (-5, 4), (11, 19)]);
        let d = cubic.legs();
        let listed = vec![d[0], (d[1] - d[0]).times(2), d[2] - d[1].times(2) + d[0]];
        assert_eq!(cubic.leg_polynomial(), listed);

        let quintic = curve(&[(3, -1), (7, 2), (-5, 4), (11, 19), (0, 8), (-6, 1)]);
        let d = quintic.legs();
        let listed = vec![
            d[0],
            (d[1] - d[0]).times(4),
            (d[2] - d[1].times(2) + d[0]).times(6),
            (d[3] - d[2].times(3) + d[1].times(3) - d[0]).times(4),
            d[4] - d[3].times(4) + d[2].times(6) - d[1].times(4) + d[0],
        ];
        assert_eq!(quintic.leg_polynomial(), listed);
    }

    #[test]
    fn case_3_norm() {
        let zigzag = curve(&[(0, 0), (1, 0), (1, 1), (2, 1)]);
        let n = norm_polynomial(&zigzag.leg_polynomial());
        assert_eq!(n, [1, -4, 12, -16, 8]);
    }

    #[test]
    fn case_10_coordinates() {
        let at = |x| curve(&[(0, 0), (1, 0), (x, 0), (0, 0)]).in_range();
        assert!(at(20_000) && at(-20_000));
        assert!(!at(20_001) && !at(-20_001));
    }
}
