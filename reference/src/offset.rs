//! The offset: Bernstein coefficients of W, X and Y as whole numbers.

use crate::curve::{Curve, COORDINATE_LIMIT};
use crate::measure::pre_image;
use crate::pair::Pair;
use crate::poly::{binomials, product, Whole};
use crate::refusal::Refusal;

/// The numbers W0, X0, Y0, W1, … of the offset at distance h, for a lent area of `room` numbers.
///
/// Everything is a form in u and t with u + t = 1: coefficient k stands before u^(n−k)·t^k. The
/// Bernstein coefficients are the form's, divided by the binomials, so nothing needs a fraction.
pub fn offset(curve: &Curve, h: i128, room: usize) -> Result<Vec<i128>, Refusal> {
    Refusal::Range.when(h.abs() > COORDINATE_LIMIT)?;
    let pre = pre_image(curve)?;
    let m = pre.c.square_root().ok_or(Refusal::Root)?;
    let n = curve.degree();
    Refusal::Room.when(room < 6 * n)?;

    let speed: Vec<i128> = form_of_powers(&pre.q).iter().map(|x| m * x).collect();
    let (x, y) = parts(&form_of_bernstein(curve.points()));
    let (re, im) = parts(&form_of_bernstein(&curve.legs()));
    let stretch = binomials(n);
    let w = product(&speed, &stretch);
    let x = sum(&product(&speed, &x), h, &product(&im, &stretch));
    let y = sum(&product(&speed, &y), -h, &product(&re, &stretch));

    let scale = if n == 3 { 10 } else { 252 };
    let mut numbers = Vec::new();
    for (k, binomial) in binomials(2 * n - 1).into_iter().enumerate() {
        // Every binomial over 5 divides 10, and every one over 9 divides 252.
        numbers.extend([w[k], x[k], y[k]].map(|number| number * (scale / binomial)));
    }
    Ok(numbers)
}

/// The form of Bernstein coefficients: each times its binomial.
fn form_of_bernstein(values: &[Pair]) -> Vec<Pair> {
    let row = binomials(values.len() - 1);
    values.iter().zip(row).map(|(v, b)| v.times(b)).collect()
}

/// The form of power coefficients: t^k is t^k·(u + t)^(degree − k).
fn form_of_powers(powers: &[i128]) -> Vec<i128> {
    let degree = powers.len() - 1;
    let mut form = vec![0; powers.len()];
    for (k, power) in powers.iter().enumerate() {
        for (j, binomial) in binomials(degree - k).into_iter().enumerate() {
            form[k + j] += power * binomial;
        }
    }
    form
}

fn parts(form: &[Pair]) -> (Vec<i128>, Vec<i128>) {
    form.iter().map(|x| (x.re, x.im)).unzip()
}

/// f + h·g for forms of the same degree.
fn sum(f: &[i128], h: i128, g: &[i128]) -> Vec<i128> {
    f.iter().zip(g).map(|(x, y)| x + h * y).collect()
}

#[cfg(test)]
mod tests {
    use super::*;
    use crate::curve::curve;

    #[test]
    fn case_1_offset() {
        let line = curve(&[(0, 0), (1, 0), (2, 0), (3, 0), (4, 0), (5, 0)]);
        let expected: Vec<i128> = (0..10).flat_map(|k| [252, 140 * k, -504]).collect();
        assert_eq!(offset(&line, 2, 30), Ok(expected));
    }

    #[test]
    fn refusals_in_order() {
        let diagonal = curve(&[(0, 0), (1, 1), (2, 2), (3, 3)]);
        assert_eq!(offset(&diagonal, 20_001, 0), Err(Refusal::Range));
        assert_eq!(offset(&diagonal, 20_000, 0), Err(Refusal::Root));
        assert_eq!(offset(&curve(&[(0, 0); 4]), 0, 0), Err(Refusal::Still));
        let no = curve(&[(0, 0), (1, 0), (1, 1), (2, 1)]);
        assert_eq!(offset(&no, 0, 0), Err(Refusal::NotPh));
        let ph = curve(&[(0, 0), (0, 0), (1, 0), (3, 0)]);
        assert_eq!(offset(&ph, 0, 0), Err(Refusal::NoPreimage));
        let cubic = curve(&[(0, 0), (1, 0), (1, 1), (0, 1)]);
        assert_eq!(offset(&cubic, 0, 17), Err(Refusal::Room));
        assert!(offset(&cubic, -20_000, 18).is_ok());
        let quintic = curve(&[(0, 0), (6, 0), (12, 3), (17, 7), (23, 10), (29, 10)]);
        assert_eq!(offset(&quintic, 0, 29), Err(Refusal::Room));
        assert!(offset(&quintic, 0, 30).is_ok());
    }

    /// The value of a power polynomial at e/s, times s^degree.
    fn value(powers: &[i128], e: i128, s: i128) -> i128 {
        let top = powers.len() as u32 - 1;
        let term = |(x, k): (&i128, u32)| x * e.pow(k) * s.pow(top - k);
        powers.iter().zip(0..).map(term).sum()
    }

    /// The value at e/s of Bernstein coefficients, times s^degree.
    fn bernstein_value(values: &[i128], e: i128, s: i128) -> i128 {
        let top = values.len() as u32 - 1;
        let row = binomials(values.len() - 1);
        let term = |((x, b), k): ((&i128, i128), u32)| x * b * e.pow(k) * (s - e).pow(top - k);
        values.iter().zip(row).zip(0..).map(term).sum()
    }

    /// W, X, Y against their definitions at twelve fractions, more than the degree: then they are equal.
    fn hold_at_fractions(curve: &Curve, h: i128) {
        let n = curve.degree();
        let numbers = offset(curve, h, 30).expect("an offset");
        let column = |j| -> Vec<i128> { numbers.chunks(3).map(|point| point[j]).collect() };
        let pre = pre_image(curve).expect("a pre-image");
        let m = pre.c.isqrt();
        let (x, y) = parts(curve.points());
        let (re, im) = parts(&curve.leg_polynomial());
        let (s, scale) = (13i128, if n == 3 { 10 } else { 252 });
        for e in 0..12 {
            let speed = m * value(&pre.q, e, s);
            let fill = s.pow(n as u32);
            let expected = [
                speed * fill,
                speed * bernstein_value(&x, e, s) + h * value(&im, e, s) * fill,
                speed * bernstein_value(&y, e, s) - h * value(&re, e, s) * fill,
            ];
            let found = [0, 1, 2].map(|j| bernstein_value(&column(j), e, s));
            assert_eq!(found, expected.map(|number| number * scale));
        }
    }

    #[test]
    fn identity_at_fractions() {
        for h in [0, 1, -7, 20_000, -20_000] {
            hold_at_fractions(&curve(&[(0, 0), (1, 0), (1, 1), (0, 1)]), h);
            let c6 = curve(&[(0, 0), (6, 0), (12, 3), (17, 7), (23, 10), (29, 10)]);
            hold_at_fractions(&c6, h);
            let c7 = curve(&[(0, 0), (1, 0), (-1, -1), (1, 2), (2, 0), (1, 0)]);
            hold_at_fractions(&c7, h);
        }
    }
}
