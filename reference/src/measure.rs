//! Measures of a curve with a pre-image: its length and its inflections.

use crate::curve::Curve;
use crate::pair::Pair;
use crate::poly::product;
use crate::refusal::Refusal;
use crate::verdict::{recognise, Pre, Verdict};

/// The length √c·A/B; the fraction isn't reduced.
#[derive(Clone, Debug, PartialEq, Eq)]
pub struct Length {
    pub c: i128,
    pub a: i128,
    pub b: i128,
}

/// The turning polynomial, lowest power first, and how often it changes its sign inside the curve.
#[derive(Clone, Debug, PartialEq, Eq)]
pub struct Inflections {
    pub turning: [i128; 3],
    pub count: usize,
    pub straight: bool,
}

/// The pre-image, or why there is none: the measures and the offset all begin with this.
pub fn pre_image(curve: &Curve) -> Result<Pre, Refusal> {
    match recognise(curve)? {
        Verdict::Still => Err(Refusal::Still),
        Verdict::No => Err(Refusal::NotPh),
        Verdict::Ph(_) => Err(Refusal::NoPreimage),
        Verdict::Pre(pre) => Ok(pre),
    }
}

/// |r'| = n·√c·q, so A/B is n times the integral of q from 0 to 1, over the document's denominator.
pub fn length(curve: &Curve) -> Result<Length, Refusal> {
    let Pre { c, q, .. } = pre_image(curve)?;
    let (n, b) = if curve.degree() == 3 { (3, 2) } else { (5, 12) };
    let a = q.iter().zip(1..).map(|(x, k)| x * (n * b / k)).sum();
    Ok(Length { c, a, b })
}

pub fn inflections(curve: &Curve) -> Result<Inflections, Refusal> {
    let turning = turning_polynomial(&pre_image(curve)?.w);
    Ok(Inflections {
        turning,
        count: sign_changes(turning),
        straight: turning == [0; 3],
    })
}

/// The imaginary part of w̄·w', which multiplied out is x01 + 2·x02·t + x12·t².
fn turning_polynomial(w: &[Pair]) -> [i128; 3] {
    let conjugate: Vec<Pair> = w.iter().map(|b| b.conjugate()).collect();
    let slope: Vec<Pair> = w.iter().zip(0..).skip(1).map(|(b, k)| b.times(k)).collect();
    let whole = product(&conjugate, &slope);
    // The highest coefficient is real: 2·b̄2·b2 for a quintic, b̄1·b1 for a cubic, which has no third.
    [0, 1, 2].map(|k| whole.get(k).map_or(0, |x| x.im))
}

/// The sign changes of a polynomial of degree 2 at most between 0 and 1, by Sturm's chain.
/// Roots at 0 and at 1 are divided out first: nothing alternates there, and Sturm needs ends without.
fn sign_changes(turning: [i128; 3]) -> usize {
    let mut f = trimmed(turning.to_vec());
    while f.first() == Some(&0) {
        f.remove(0);
    }
    while !f.is_empty() && f.iter().sum::<i128>() == 0 {
        f = without_root_at_1(&f);
    }
    if f.is_empty() {
        return 0;
    }
    let chain = sturm_chain(f);
    if chain.last().is_some_and(|divisor| divisor.len() > 1) {
        // f shares a factor with its slope: at this degree it is a double root, where no sign changes.
        return 0;
    }
    let at_0 = alternations(chain.iter().map(|g| g[0]));
    let at_1 = alternations(chain.iter().map(|g| g.iter().sum()));
    at_0 - at_1
}

/// Without zeros as highest coefficients; the zero polynomial has none left.
fn trimmed(mut f: Vec<i128>) -> Vec<i128> {
    while f.last() == Some(&0) {
        f.pop();
    }
    f
}

/// f / (1 − t), for an f that is zero at 1: its coefficients are the running sums of f's.
fn without_root_at_1(f: &[i128]) -> Vec<i128> {
    let mut sum = 0;
    let sums = f.iter().map(|x| {
        sum += x;
        sum
    });
    trimmed(sums.collect())
}

/// f, its slope, and then minus the remainder of the last two, until nothing remains.
fn sturm_chain(f: Vec<i128>) -> Vec<Vec<i128>> {
    let slope: Vec<i128> = f.iter().zip(0..).skip(1).map(|(x, k)| x * k).collect();
    let (mut last, mut next) = (f, slope);
    let mut chain = Vec::new();
    while !next.is_empty() {
        let after = minus_remainder(&last, &next);
        chain.push(last);
        (last, next) = (next, after);
    }
    chain.push(last);
    chain
}

/// Minus the remainder of f by g, times a positive number so that it stays whole.
fn minus_remainder(f: &[i128], g: &[i128]) -> Vec<i128> {
    let mut rest = f.to_vec();
    let lead = g[g.len() - 1];
    while rest.len() >= g.len() {
        let top = rest[rest.len() - 1];
        let shift = rest.len() - g.len();
        rest.iter_mut().for_each(|x| *x *= lead.abs());
        for (k, x) in g.iter().enumerate() {
            rest[shift + k] -= x * top * lead.signum();
        }
        rest = trimmed(rest);
    }
    rest.iter().map(|x| -x).collect()
}

/// How often the sign alternates along the values, zeros left out.
fn alternations(values: impl Iterator<Item = i128>) -> usize {
    let signs: Vec<i128> = values.map(i128::signum).filter(|&x| x != 0).collect();
    signs.windows(2).filter(|s| s[0] != s[1]).count()
}

#[cfg(test)]
mod tests {
    use super::*;
    use crate::curve::curve;
    use crate::pair::pair;

    fn turning(t: [i128; 3], count: usize) -> Result<Inflections, Refusal> {
        Ok(Inflections {
            turning: t,
            count,
            straight: t == [0; 3],
        })
    }

    #[test]
    fn cases_1_and_2() {
        let line = curve(&[(0, 0), (1, 0), (2, 0), (3, 0), (4, 0), (5, 0)]);
        assert_eq!(length(&line), Ok(Length { c: 1, a: 60, b: 12 }));
        assert_eq!(inflections(&line), turning([0, 0, 0], 0));
        let cubic = curve(&[(0, 0), (1, 0), (1, 1), (0, 1)]);
        assert_eq!(length(&cubic), Ok(Length { c: 1, a: 4, b: 2 }));
        assert_eq!(inflections(&cubic), turning([1, 0, 0], 0));
    }

    #[test]
    fn case_6() {
        let c6 = curve(&[(0, 0), (6, 0), (12, 3), (17, 7), (23, 10), (29, 10)]);
        let (c, a, b) = (36, 62, 12);
        assert_eq!(length(&c6), Ok(Length { c, a, b }));
        assert_eq!(inflections(&c6), turning([1, -2, 0], 1));
    }

    #[test]
    fn case_7() {
        let c7 = curve(&[(0, 0), (1, 0), (-1, -1), (1, 2), (2, 0), (1, 0)]);
        assert_eq!(length(&c7), Ok(Length { c: 1, a: 28, b: 12 }));
        assert_eq!(inflections(&c7), turning([-2, 6, -8], 0));
    }

    #[test]
    fn refusals_in_order() {
        let both = |c: &Curve| (length(c).err(), inflections(c).err());
        let all = |r| (Some(r), Some(r));
        assert_eq!(both(&curve(&[(20_001, 0); 4])), all(Refusal::Range));
        assert_eq!(both(&curve(&[(3, 4); 6])), all(Refusal::Still));
        let no = curve(&[(0, 0), (1, 0), (1, 1), (2, 1)]);
        assert_eq!(both(&no), all(Refusal::NotPh));
        let ph = curve(&[(0, 0), (0, 0), (1, 0), (3, 0)]);
        assert_eq!(both(&ph), all(Refusal::NoPreimage));
    }

    #[test]
    fn blunder_of_roots_at_the_ends_or_double() {
        assert_eq!(sign_changes([0, 1, 0]), 0);
        assert_eq!(sign_changes([0, 0, 1]), 0);
        assert_eq!(sign_changes([1, -1, 0]), 0);
        assert_eq!(sign_changes([1, -2, 1]), 0);
        assert_eq!(sign_changes([0, 1, -1]), 0);
        assert_eq!(sign_changes([0, 1, -2]), 1);
        assert_eq!(sign_changes([1, -3, 2]), 1);
        assert_eq!(sign_changes([1, -4, 4]), 0);
        assert_eq!(sign_changes([2, -9, 9]), 2);
    }

    /// The definition itself, on fractions e/s. With coefficients of at most 6, two roots in the curve
    /// lie at least 1/6 apart and at least 1/19 from the ends, so steps of 1/120 miss no sign.
    fn changes_on_a_grid(t: [i128; 3]) -> usize {
        let s = 120;
        alternations((1..s).map(|e| t[0] * s * s + t[1] * e * s + t[2] * e * e))
    }

    #[test]
    fn changes_against_the_definition() {
        for x in -6..=6 {
            for y in -6..=6 {
                for z in -6..=6 {
                    assert_eq!(sign_changes([x, y, z]), changes_on_a_grid([x, y, z]));
                }
            }
        }
    }

    #[test]
    fn turning_as_written() {
        let x = |j: Pair, k: Pair| j.re * k.im - k.re * j.im;
        let b = [pair(3, -7), pair(-2, 5), pair(11, 4)];
        let written = [x(b[0], b[1]), 2 * x(b[0], b[2]), x(b[1], b[2])];
        assert_eq!(turning_polynomial(&b), written);
        assert_eq!(turning_polynomial(&b[..2]), [written[0], 0, 0]);
    }
}
