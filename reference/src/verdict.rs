//! The recogniser: still, no, ph or pre, with c, q, κ and w.

use crate::curve::{norm_polynomial, Curve};
use crate::pair::{pair, Pair};
use crate::poly::{square_root, Whole};
use crate::refusal::Refusal;

/// The parts of N = c·q²; q has leading coefficient above zero.
#[derive(Clone, Debug, PartialEq, Eq)]
pub struct Ph {
    pub c: i128,
    pub q: Vec<i128>,
}

/// The parts of D = κ·w² besides those of N.
#[derive(Clone, Debug, PartialEq, Eq)]
pub struct Pre {
    pub c: i128,
    pub q: Vec<i128>,
    pub kappa: Pair,
    pub w: Vec<Pair>,
}

#[derive(Clone, Debug, PartialEq, Eq)]
pub enum Verdict {
    Still,
    No,
    Ph(Ph),
    Pre(Pre),
}

pub fn recognise(curve: &Curve) -> Result<Verdict, Refusal> {
    Refusal::Range.when(!curve.in_range())?;
    let d = curve.leg_polynomial();
    if d.iter().all(|&x| x == Pair::default()) {
        return Ok(Verdict::Still);
    }
    Ok(match speed(&norm_polynomial(&d)) {
        None => Verdict::No,
        Some(Ph { c, q }) => match pre_image(&d, c) {
            None => Verdict::Ph(Ph { c, q }),
            Some((kappa, w)) => Verdict::Pre(Pre { c, q, kappa, w }),
        },
    })
}

/// N = c·q² where it can be had, for N other than 0. Whatever c and q are taken, q's own common
/// divisor can be moved into c, and then c is N's common divisor: only that c has to be tried.
fn speed(n: &[i128]) -> Option<Ph> {
    let sizes = n.iter().map(|x| x.abs());
    let c = sizes.fold(0, common_divisor);
    let reduced: Vec<i128> = n.iter().map(|x| x / c).collect();
    let mut q = square_root(&reduced)?;
    if q.iter().rev().find(|&&x| x != 0) < Some(&0) {
        q.iter_mut().for_each(|x| *x = -*x);
    }
    Some(Ph { c, q })
}

/// The greatest common divisor of two numbers that aren't negative, by halving and subtracting.
fn common_divisor(mut a: i128, mut b: i128) -> i128 {
    if a == 0 || b == 0 {
        return a + b;
    }
    let twos = (a | b).trailing_zeros();
    a >>= a.trailing_zeros();
    while b != 0 {
        b >>= b.trailing_zeros();
        (a, b) = (a.min(b), (a - b).abs());
    }
    a << twos
}

/// κ and w with D = κ·w², by trying every κ of norm c. There is no other κ: w has no common divisor,
/// so by Gauss's lemma neither has |w|⁴, and the common divisor of N = |κ|²·|w|⁴ is |κ|².
/// For the same reason the w found here has none.
fn pre_image(d: &[Pair], c: i128) -> Option<(Pair, Vec<Pair>)> {
    pairs_of_norm(c).into_iter().find_map(|kappa| {
        let reduced: Option<Vec<Pair>> = d.iter().map(|x| x.exact_quotient(kappa)).collect();
        let mut w = square_root(&reduced?)?;
        let highest = w.iter().rev().find(|&&b| b != Pair::default());
        if highest.is_some_and(|b| !b.leads_positive()) {
            w.iter_mut().for_each(|b| *b = -*b);
        }
        Some((kappa, w))
    })
}

/// All pairs of norm c, for c above zero, whose first non-zero part is positive: x walks up and y down.
fn pairs_of_norm(c: i128) -> Vec<Pair> {
    let mut found = Vec::new();
    let last = c.isqrt();
    let mut y = last;
    for x in 0..=last {
        while x * x + y * y > c {
            y -= 1;
        }
        if x * x + y * y == c {
            found.extend([pair(x, y), pair(x, -y)]);
        }
    }
    found.retain(|kappa| kappa.leads_positive());
    found
}

#[cfg(test)]
mod tests {
    use super::*;
    use crate::curve::{along, curve};
    use crate::poly::{binomials, product};

    fn pre(kappa: Pair, w: &[(i128, i128)], c: i128, q: &[i128]) -> Result<Verdict, Refusal> {
        Ok(Verdict::Pre(Pre {
            c,
            q: q.to_vec(),
            kappa,
            w: w.iter().map(|&(x, y)| pair(x, y)).collect(),
        }))
    }

    #[test]
    fn case_1_straight_quintic() {
        let line = curve(&[(0, 0), (1, 0), (2, 0), (3, 0), (4, 0), (5, 0)]);
        let expected = pre(pair(1, 0), &[(1, 0), (0, 0), (0, 0)], 1, &[1, 0, 0, 0, 0]);
        assert_eq!(recognise(&line), expected);
    }

    #[test]
    fn case_2_cubic() {
        let cubic = curve(&[(0, 0), (1, 0), (1, 1), (0, 1)]);
        let verdict = recognise(&cubic).expect("in range");
        let Verdict::Pre(Pre { c, q, kappa, w }) = verdict else {
            panic!("not pre: {verdict:?}")
        };
        assert_eq!((c, q), (1, vec![1, -2, 2]));
        assert_eq!(w, [pair(-1, 0), pair(1, -1)]);
        assert_eq!(kappa, pair(1, 0));
    }

    #[test]
    fn case_3_no() {
        let zigzag = curve(&[(0, 0), (1, 0), (1, 1), (2, 1)]);
        assert_eq!(recognise(&zigzag), Ok(Verdict::No));
    }

    #[test]
    fn cases_4_and_5_ph() {
        let c4 = curve(&[(0, 0), (0, 0), (1, 0), (3, 0)]);
        let ph = |c, q: &[i128]| Ok(Verdict::Ph(Ph { c, q: q.to_vec() }));
        assert_eq!(recognise(&c4), ph(4, &[0, 1, 0]));

        let legs = [1, 1, 1, 1, 2].map(|x| pair(x, 0));
        let c5 = Curve::new(along(pair(0, 0), &legs)).expect("6 points");
        assert_eq!(recognise(&c5), ph(1, &[1, 0, 0, 0, 1]));
    }

    #[test]
    fn case_6_quintic() {
        let c6 = curve(&[(0, 0), (6, 0), (12, 3), (17, 7), (23, 10), (29, 10)]);
        let w = [(-1, 0), (0, -1), (0, 1)];
        let q = [1, 0, 1, -2, 1];
        assert_eq!(recognise(&c6), pre(pair(6, 0), &w, 36, &q));
    }

    #[test]
    fn case_7_quintic() {
        let c7 = curve(&[(0, 0), (1, 0), (-1, -1), (1, 2), (2, 0), (1, 0)]);
        let Ok(Verdict::Pre(Pre { c, q, .. })) = recognise(&c7) else {
            panic!("not pre")
        };
        assert_eq!((c, q), (1, vec![1, -12, 50, -72, 34]));
    }

    #[test]
    fn blunder_of_c_2() {
        let diagonal = curve(&[(0, 0), (1, 1), (2, 2), (3, 3)]);
        let expected = pre(pair(1, 1), &[(1, 0), (0, 0)], 2, &[1, 0, 0]);
        assert_eq!(recognise(&diagonal), expected);
    }

    /// The coefficients of a would-be root stay whole and grow beyond any root's size.
    #[test]
    fn no_with_coefficients_that_grow() {
        for a in [15, 791, 20_000] {
            let up = [(0, 0), (0, a), (0, 0), (0, -a), (1, 0)].map(|(x, y)| pair(x, y));
            let mut down = up;
            down.reverse();
            for (start, legs) in [(-a / 2, up), (a / 2, down)] {
                let points = along(pair(0, start), &legs);
                let curve = Curve::new(points).expect("6 points");
                assert_eq!(recognise(&curve), Ok(Verdict::No));
            }
        }
    }

    #[test]
    fn still_and_range() {
        let at = |x| recognise(&curve(&[(x, -1); 4]));
        assert_eq!(at(-1), Ok(Verdict::Still));
        assert_eq!(at(20_000), Ok(Verdict::Still));
        assert_eq!(at(20_001), Err(Refusal::Range));
    }

    #[test]
    fn common_divisors_by_trial() {
        for a in 0..60i128 {
            for b in 1..60i128 {
                let trial = (1..=60).rev().find(|x| a % x == 0 && b % x == 0);
                assert_eq!(Some(common_divisor(a, b)), trial);
                assert_eq!(common_divisor(a, b), common_divisor(b, a));
            }
        }
    }

    /// The rules leave one answer: D, c and q come back, and w has no common divisor.
    fn hold_to_the_rules(d: &[Pair], found: &Pre) {
        let square = product(&found.w, &found.w);
        let back: Vec<Pair> = square.iter().map(|&x| found.kappa * x).collect();
        assert_eq!(back, d);
        assert_eq!(found.c, found.kappa.norm());
        assert_eq!(found.q, norm_polynomial(&found.w));
        assert!(found.kappa.leads_positive());
        let highest = found.w.iter().rev().find(|&&b| b != pair(0, 0));
        assert!(highest.is_some_and(|b| b.leads_positive()));
        for x in -4..=4 {
            for y in -4..=4 {
                let divides = |b: &Pair| b.exact_quotient(pair(x, y)).is_some();
                assert!(pair(x, y).norm() < 2 || !found.w.iter().all(divides));
            }
        }
    }

    /// The quintic whose leg polynomial is 12·g·w², with g and w given by power coefficients: leg k is
    /// the sum of binomial(k, j)/binomial(4, j) times coefficient j, and 12 makes each term whole.
    fn quintic_of(g: &[Pair], w: &[Pair]) -> Curve {
        let d = product(g, &product(w, w));
        let below = binomials(4);
        let leg = |k: usize| {
            let above = binomials(k);
            let terms = d.iter().zip(above).zip(&below);
            terms.fold(pair(0, 0), |sum, ((x, j), n)| sum + x.times(12 * j / n))
        };
        let legs: Vec<Pair> = (0..5).map(leg).collect();
        Curve::new(along(pair(-9, 4), &legs)).expect("6 points")
    }

    #[test]
    fn quintics_with_a_pre_image() {
        let kappas = [(1, 0), (0, -1), (1, 1), (-2, 1), (5, -12)];
        let ends = [(0, 0, 0, 0), (2, -1, 0, 0), (0, 3, -1, 2), (-2, 2, 2, 0)];
        for kappa in kappas.map(|(x, y)| pair(x, y)) {
            for b0 in pairs_within(2) {
                for (x1, y1, x2, y2) in ends {
                    let w = [b0, pair(x1, y1), pair(x2, y2)];
                    let quintic = quintic_of(&[kappa], &w);
                    match recognise(&quintic).expect("in range") {
                        Verdict::Pre(found) => hold_to_the_rules(&quintic.leg_polynomial(), &found),
                        verdict => assert!(verdict == Verdict::Still && w == [pair(0, 0); 3]),
                    }
                }
            }
        }
    }

    /// A real factor with simple roots leaves N a square, but never D: ph, with that factor in q.
    #[test]
    fn quintics_with_a_real_factor() {
        let factors = [
            [1, 0, 1],
            [1, 0, -1],
            [-3, 1, 2],
            [0, -2, 1],
            [0, 1, 0],
            [7, -2, 0],
        ];
        let ws = [(1, 0, 0, 0), (1, 2, -1, 1), (0, 0, 2, 1)];
        for g in factors {
            for w in ws.map(|(x0, y0, x1, y1)| [pair(x0, y0), pair(x1, y1)]) {
                let quintic = quintic_of(&g.map(|x| pair(x, 0)), &w);
                let Ok(Verdict::Ph(Ph { c, q })) = recognise(&quintic) else {
                    panic!("not ph: {g:?} {w:?}")
                };
                let n = norm_polynomial(&quintic.leg_polynomial());
                let back: Vec<i128> = product(&q, &q).iter().map(|x| c * x).collect();
                assert_eq!(back, n);
                assert!(q.iter().rev().find(|&&x| x != 0) > Some(&0));
                assert!((2..100).all(|x| q.iter().any(|y| y % x != 0)));
                assert!(crosswise(&q, &product(&g, &norm_polynomial(&w))));
            }
        }
    }

    /// Whether two polynomials with as many coefficients are the same but for a factor.
    fn crosswise(f: &[i128], g: &[i128]) -> bool {
        let places = || 0..f.len();
        places().all(|j| places().all(|k| f[j] * g[k] == f[k] * g[j]))
    }

    /// All pairs with parts from `-side` to `side`.
    fn pairs_within(side: i128) -> impl Iterator<Item = Pair> {
        (-side..=side).flat_map(move |x| (-side..=side).map(move |y| pair(x, y)))
    }

    /// Every D = κ·w² of a cubic with parts of at most 8, in ascending order. Then |κ|·|b|² is below
    /// 12 for both coefficients b of w, so κ's parts are at most 11 and w's at most 3.
    fn all_small_pre_cubics() -> Vec<[Pair; 3]> {
        let mut all = Vec::new();
        for (b0, b1) in pairs_within(3).flat_map(|b0| pairs_within(3).map(move |b1| (b0, b1))) {
            let square = [b0 * b0, (b0 * b1).times(2), b1 * b1];
            all.extend(pairs_within(11).map(|kappa| square.map(|x| kappa * x)));
            all.retain(|d| d.iter().all(|x| x.within(8)));
            all.sort();
            all.dedup();
        }
        all
    }

    /// Every cubic whose legs have parts of at most 2: then D's parts are at most 8.
    #[test]
    fn small_cubics_against_a_full_box() {
        let all = all_small_pre_cubics();
        for (d0, d1) in pairs_within(2).flat_map(|d0| pairs_within(2).map(move |d1| (d0, d1))) {
            for d2 in pairs_within(2) {
                let cubic = Curve::new(along(pair(0, 0), &[d0, d1, d2])).expect("4 points");
                let d = cubic.leg_polynomial();
                let listed = all.binary_search(&[d[0], d[1], d[2]]).is_ok();
                match recognise(&cubic).expect("in range") {
                    Verdict::Pre(found) => {
                        assert!(listed);
                        hold_to_the_rules(&d, &found);
                    }
                    verdict => assert!(!listed || verdict == Verdict::Still),
                }
            }
        }
    }
}
