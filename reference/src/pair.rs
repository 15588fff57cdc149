//! Pairs: complex whole numbers x + iy. Points and legs are pairs too.

use crate::poly::Whole;
use std::fmt;
use std::ops::{Add, Mul, Neg, Sub};

#[derive(Clone, Copy, Debug, Default, PartialEq, Eq, PartialOrd, Ord)]
pub struct Pair {
    pub re: i128,
    pub im: i128,
}

/// The pair x + iy.
pub fn pair(re: i128, im: i128) -> Pair {
    Pair { re, im }
}

impl Pair {
    pub fn conjugate(self) -> Pair {
        pair(self.re, -self.im)
    }

    /// The square of the distance from 0.
    pub fn norm(self) -> i128 {
        self.re * self.re + self.im * self.im
    }

    /// Whether both parts lie from `-limit` to `limit`.
    pub fn within(self, limit: i128) -> bool {
        self.re.abs() <= limit && self.im.abs() <= limit
    }

    /// Whether the first part that isn't zero is positive.
    pub fn leads_positive(self) -> bool {
        self.re > 0 || (self.re == 0 && self.im > 0)
    }

    pub fn times(self, factor: i128) -> Pair {
        pair(self.re * factor, self.im * factor)
    }
}

impl Add for Pair {
    type Output = Pair;
    fn add(self, other: Pair) -> Pair {
        pair(self.re + other.re, self.im + other.im)
    }
}

impl Sub for Pair {
    type Output = Pair;
    fn sub(self, other: Pair) -> Pair {
        pair(self.re - other.re, self.im - other.im)
    }
}

impl Neg for Pair {
    type Output = Pair;
    fn neg(self) -> Pair {
        pair(-self.re, -self.im)
    }
}

impl Mul for Pair {
    type Output = Pair;
    fn mul(self, other: Pair) -> Pair {
        pair(
            self.re * other.re - self.im * other.im,
            self.re * other.im + self.im * other.re,
        )
    }
}

impl Whole for Pair {
    fn exact_quotient(self, by: Pair) -> Option<Pair> {
        let above = self * by.conjugate();
        let re = above.re.exact_quotient(by.norm())?;
        Some(pair(re, above.im.exact_quotient(by.norm())?))
    }

    /// The root whose first non-zero part is positive (or 0), by search over its real part x.
    /// Of x + iy the square is x² − y² + 2xyi, so a positive x leaves one y to try. No x is left out:
    /// x² is at most x² + y², the square's distance from 0, which is at most |re| + |im|.
    fn square_root(self) -> Option<Pair> {
        if self.im == 0 && self.re <= 0 {
            return (-self.re).square_root().map(|y| pair(0, y));
        }
        let far = self.re.abs() + self.im.abs();
        (1..)
            .take_while(|x| x * x <= far)
            .filter_map(|x| Some(pair(x, self.im.exact_quotient(2 * x)?)))
            .find(|root| *root * *root == self)
    }

    fn is_small(self) -> bool {
        self.re.is_small() && self.im.is_small()
    }
}

impl fmt::Display for Pair {
    fn fmt(&self, f: &mut fmt::Formatter) -> fmt::Result {
        write!(f, "({},{})", self.re, self.im)
    }
}

#[cfg(test)]
mod tests {
    use super::*;

    #[test]
    fn quotients_of_pairs() {
        assert_eq!(pair(-3, 1).exact_quotient(pair(1, 1)), Some(pair(-1, 2)));
        assert_eq!(pair(1, 0).exact_quotient(pair(1, 1)), None);
        assert_eq!(pair(1, 0).exact_quotient(pair(0, 0)), None);
        assert_eq!(pair(-4, 2).exact_quotient(pair(-2, 0)), Some(pair(2, -1)));
    }

    #[test]
    fn every_square_in_a_box_and_no_other_has_a_root() {
        let side = 12;
        let square_of = |x, y| pair(x, y) * pair(x, y);
        let all: Vec<Pair> = (-side..=side)
            .flat_map(|x| (-side..=side).map(move |y| square_of(x, y)))
            .collect();
        for re in -60..=60 {
            for im in -60..=60 {
                let root = pair(re, im).square_root();
                assert_eq!(root.is_some(), all.contains(&pair(re, im)));
                assert!(root.is_none_or(|w| w * w == pair(re, im)));
                assert!(root.is_none_or(|w| w == pair(0, 0) || w.leads_positive()));
            }
        }
    }

    #[test]
    fn a_root_may_pass_the_root_of_its_parts() {
        let w = pair(155, 64);
        assert_eq!((w * w).square_root(), Some(w));
        assert!((w * w).within(20_000));
    }
}
