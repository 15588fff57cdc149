//! Building: the curve from its first point and the pairs of a pre-image.

use crate::curve::{along, Curve, COORDINATE_LIMIT};
use crate::pair::{pair, Pair};
use crate::poly::{binomials, product, Whole};
use crate::refusal::Refusal;

/// Parts of w lie from minus this to this.
const W_LIMIT: i128 = 200;

/// The cubic of two pairs or the quintic of three.
pub fn build(p0: Pair, w: &[Pair]) -> Result<Curve, Refusal> {
    let outside = !p0.within(COORDINATE_LIMIT) || w.iter().any(|x| !x.within(W_LIMIT));
    Refusal::Range.when(outside)?;
    Refusal::Still.when(w.iter().all(|&x| x == Pair::default()))?;
    let legs = legs_of_square(w).ok_or(Refusal::Thirds)?;
    let curve = Curve::new(along(p0, &legs)).expect("two pairs make 3 legs, three make 5");
    Refusal::Range.when(!curve.in_range())?;
    Ok(curve)
}

/// The pairs are Bernstein coefficients of w, the legs are those of w²: both are squared as forms,
/// whose coefficients are the Bernstein ones times the binomials. Only the middle leg of a quintic,
/// (4w1² + 2w0w2)/6, can fail to be whole.
fn legs_of_square(w: &[Pair]) -> Option<Vec<Pair>> {
    let row = binomials(w.len() - 1);
    let form: Vec<Pair> = w.iter().zip(row).map(|(x, b)| x.times(b)).collect();
    let square = product(&form, &form);
    let below = binomials(square.len() - 1);
    let legs = square
        .iter()
        .zip(below)
        .map(|(x, b)| x.exact_quotient(pair(b, 0)));
    legs.collect()
}

#[cfg(test)]
mod tests {
    use super::*;
    use crate::curve::curve;
    use crate::measure::pre_image;

    fn of(p0: (i128, i128), w: &[(i128, i128)]) -> Result<Curve, Refusal> {
        let pairs: Vec<Pair> = w.iter().map(|&(x, y)| pair(x, y)).collect();
        build(pair(p0.0, p0.1), &pairs)
    }

    #[test]
    fn legs_as_written() {
        let w = [pair(4, -5), pair(-2, 7), pair(1, 10)];
        let middle = (w[1] * w[1]).times(2) + w[0] * w[2];
        let middle = middle.exact_quotient(pair(3, 0));
        let [w0, w1, w2] = w;
        let written = middle.map(|x| vec![w0 * w0, w0 * w1, x, w1 * w2, w2 * w2]);
        assert!(written.is_some());
        assert_eq!(legs_of_square(&w), written);
        let cubic = vec![w0 * w0, w0 * w1, w1 * w1];
        assert_eq!(legs_of_square(&w[..2]), Some(cubic));
    }

    #[test]
    fn edges_and_refusals() {
        let long = curve(&[(-20_000, 0), (20_000, 0), (20_000, 0), (20_000, 0)]);
        assert_eq!(of((-20_000, 0), &[(200, 0), (0, 0)]), Ok(long));
        assert_eq!(of((0, -20_001), &[(0, 0), (0, 0)]), Err(Refusal::Range));
        assert_eq!(of((0, 0), &[(0, 201), (0, 0)]), Err(Refusal::Range));
        assert_eq!(of((0, 0), &[(0, 0), (0, 0)]), Err(Refusal::Still));
        assert_eq!(of((0, 0), &[(0, 0); 3]), Err(Refusal::Still));
        assert_eq!(
            of((0, 0), &[(200, 0), (1, 0), (1, 0)]),
            Err(Refusal::Thirds)
        );
        assert_eq!(of((0, 0), &[(200, 0), (1, 0)]), Err(Refusal::Range));
    }

    /// The power coefficients of w from its Bernstein coefficients.
    fn powers(w: &[Pair]) -> Vec<Pair> {
        match *w {
            [w0, w1] => vec![w0, w1 - w0],
            [w0, w1, w2] => vec![w0, (w1 - w0).times(2), w0 - w1.times(2) + w2],
            _ => panic!("two or three pairs"),
        }
    }

    #[test]
    fn built_curves_are_pre_with_the_square_built_from() {
        let small = || (-2..=2).flat_map(|x| (-2..=2).map(move |y| pair(x, y)));
        let firsts = || small().flat_map(|w0| small().map(move |w1| [w0, w1]));
        let quintics = firsts().flat_map(|[w0, w1]| small().map(move |w2| vec![w0, w1, w2]));
        let mut built = 0;
        for w in firsts().map(Vec::from).chain(quintics) {
            let Ok(curve) = build(pair(5, -3), &w) else {
                continue;
            };
            let pre = pre_image(&curve).expect("a pre-image");
            let square = product(&pre.w, &pre.w);
            let back: Vec<Pair> = square.iter().map(|&x| pre.kappa * x).collect();
            assert_eq!(back, product(&powers(&w), &powers(&w)));
            built += 1;
        }
        assert!(built > 2_000, "only {built} were built");
    }
}
