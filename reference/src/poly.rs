//! Polynomials with whole or pair coefficients, lowest power first.

use std::ops::{Add, Mul, Sub};

/// What a coefficient can do: whole numbers and pairs are both taken through the same steps.
pub trait Whole:
    Copy + Default + PartialEq + Add<Output = Self> + Sub<Output = Self> + Mul<Output = Self>
{
    /// The quotient where nothing is left over, with its sign; otherwise nothing.
    fn exact_quotient(self, by: Self) -> Option<Self>;
    /// One of the square roots, where there is any.
    fn square_root(self) -> Option<Self>;
    /// Whether every part is at most 2^40 in size.
    fn is_small(self) -> bool;
}

impl Whole for i128 {
    fn exact_quotient(self, by: Self) -> Option<Self> {
        (by != 0 && self % by == 0).then(|| self / by)
    }

    fn square_root(self) -> Option<Self> {
        self.checked_isqrt().filter(|root| root * root == self)
    }

    fn is_small(self) -> bool {
        self.abs() <= 1 << 40
    }
}

/// The product of two polynomials that have at least one coefficient each.
pub fn product<T: Whole>(f: &[T], g: &[T]) -> Vec<T> {
    let mut answer = vec![T::default(); f.len() + g.len() - 1];
    for (j, &x) in f.iter().enumerate() {
        for (k, &y) in g.iter().enumerate() {
            answer[j + k] = answer[j + k] + x * y;
        }
    }
    answer
}

/// One of the square roots of `f`, whose number of coefficients is odd, found from the lowest power up.
/// The lowest coefficient of a root is a root of the lowest of `f`, and each next one is then forced,
/// so where a step fails there is no root at all. It fails at a large coefficient too: by Mignotte's
/// bound a root of degree 4 has none above 6·√|f|, and |f| is below 2^50 for a curve in range.
pub fn square_root<T: Whole>(f: &[T]) -> Option<Vec<T>> {
    let lowest = f.iter().position(|&x| x != T::default())?;
    if lowest % 2 == 1 {
        return None;
    }
    let low = lowest / 2;
    let mut root = vec![T::default(); f.len() / 2 + 1];
    root[low] = f[lowest].square_root()?;
    for k in low + 1..root.len() {
        let known = product(&root, &root)[low + k];
        let next = (f[low + k] - known).exact_quotient(root[low] + root[low])?;
        root[k] = Some(next).filter(|x| x.is_small())?;
    }
    (product(&root, &root) == f).then_some(root)
}

/// The binomials over `n`, by Pascal's triangle: the coefficients of (1 + t)^n.
pub fn binomials(n: usize) -> Vec<i128> {
    (0..n).fold(vec![1], |row, _| product(&row, &[1, 1]))
}

#[cfg(test)]
mod tests {
    use super::*;

    #[test]
    fn quotients_keep_their_sign() {
        assert_eq!((-6).exact_quotient(3), Some(-2));
        assert_eq!((-6).exact_quotient(-3), Some(2));
        assert_eq!((-7).exact_quotient(3), None);
        assert_eq!(0.exact_quotient(0), None);
    }

    #[test]
    fn roots_of_squares() {
        assert_eq!(square_root(&[1, -4, 8, -8, 4]), Some(vec![1, -2, 2]));
        assert_eq!(square_root(&[0, 0, 9, 0, 0]), Some(vec![0, 3, 0]));
        assert_eq!(square_root(&[0, 0, 0, 0, 1]), Some(vec![0, 0, 1]));
        assert_eq!(square_root(&[0, 1, 0, 0, 0]), None);
        assert_eq!(square_root(&[1, 1, 0, 0, 0]), None);
        assert_eq!(square_root(&[2, 4, 2]), None);
        assert_eq!(square_root(&[1, 2, 2]), None);
    }

    #[test]
    fn binomial_rows() {
        assert_eq!(binomials(0), [1]);
        assert_eq!(binomials(4), [1, 4, 6, 4, 1]);
        assert_eq!(binomials(9), [1, 9, 36, 84, 126, 126, 84, 36, 9, 1]);
    }
}
