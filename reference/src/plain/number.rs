//! Numbers and pairs of the plain versions, in 64 bits.

use std::ops::{Add, Mul, Sub};

/// The pair re + i·im.
#[derive(Clone, Copy, Debug, Default, PartialEq, Eq)]
pub struct Pair {
    pub re: i64,
    pub im: i64,
}

/// The pair x + iy.
pub fn pair(re: i64, im: i64) -> Pair {
    Pair { re, im }
}

impl Pair {
    pub fn norm(self) -> i64 {
        self.re * self.re + self.im * self.im
    }

    pub fn times(self, factor: i64) -> Pair {
        pair(self.re * factor, self.im * factor)
    }

    /// The product with the other's conjugate: what a quotient has above |other|².
    pub fn over(self, other: Pair) -> Pair {
        self * pair(other.re, -other.im)
    }

    /// i times the pair.
    pub fn turned(self) -> Pair {
        pair(-self.im, self.re)
    }

    pub fn within(self, limit: i64) -> bool {
        within(self.re, limit) && within(self.im, limit)
    }

    /// Whether the first part that isn't zero is negative.
    pub fn leads_negative(self) -> bool {
        self.re < 0 || (self.re == 0 && self.im < 0)
    }

    /// Both parts divided by d, which must leave nothing over.
    #[inline]
    pub fn exact(self, d: i64) -> Option<Pair> {
        let whole = self.re % d == 0 && self.im % d == 0;
        whole.then(|| pair(self.re / d, self.im / d))
    }

    /// The quotient by a pair that divides it.
    pub fn quotient(self, d: Pair) -> Pair {
        let (above, n) = (self.over(d), d.norm());
        pair(above.re / n, above.im / n)
    }

    /// The product of the lengths and the sine between them.
    pub fn cross(self, other: Pair) -> i64 {
        self.re * other.im - self.im * other.re
    }

    /// The root whose first part that isn't zero is positive, for a pair that lies n from 0:
    /// with u + iv it has n = u² + v², so that u² = (n + re)/2 and v² = (n − re)/2.
    pub fn root(self, n: i64) -> Option<Pair> {
        let (above, below) = (n + self.re, n - self.re);
        if above & 1 != 0 {
            return None;
        }
        let u = root((above / 2) as u64)? as i64;
        let v = root((below / 2) as u64)? as i64;
        Some(pair(u, if self.im < 0 { -v } else { v }))
    }
}

impl Add for Pair {
    type Output = Pair;
    fn add(self, other: Pair) -> Pair {
        pair(self.re + other.re, self.im + other.im)
    }
}

impl Sub for Pair {
    type Output = Pair;
    fn sub(self, other: Pair) -> Pair {
        pair(self.re - other.re, self.im - other.im)
    }
}

impl Mul for Pair {
    type Output = Pair;
    fn mul(self, other: Pair) -> Pair {
        pair(
            self.re * other.re - self.im * other.im,
            self.re * other.im + self.im * other.re,
        )
    }
}

/// Whether x lies from −limit to limit, by one comparison.
pub fn within(x: i64, limit: i64) -> bool {
    (x.wrapping_add(limit) as u64) <= 2 * limit as u64
}

/// The root of a number below 2⁶⁴ − 2³³ where it is whole. Of a square the machine's root is less than
/// a half away; most other numbers show by their last six bits.
pub fn root(n: u64) -> Option<u64> {
    const LAST: u64 = squares_by_64();
    if LAST >> (n & 63) & 1 == 0 {
        return None;
    }
    let near = ((n as f64).sqrt() + 0.5) as u64;
    (near * near == n).then_some(near)
}

/// A bit for each rest that a square can leave by 64.
const fn squares_by_64() -> u64 {
    let mut bits = 0;
    let mut x = 0;
    while x < 64 {
        bits |= 1 << (x * x % 64);
        x += 1;
    }
    bits
}

/// The greatest common divisor, by Euclid's rests.
pub fn common_divisor(mut a: u64, mut b: u64) -> u64 {
    while b != 0 {
        (a, b) = (b, a % b);
    }
    a
}

/// A greatest common divisor of two pairs, by nearest quotients, for parts up to 2³⁰.
pub fn common_divisor_of_pairs(mut a: Pair, mut b: Pair) -> Pair {
    while b != Pair::default() {
        let (above, n) = (a.over(b), b.norm());
        let half = n >> 1;
        let nearest = |x: i64| (if x < 0 { x - half } else { x + half }) / n;
        let rest = a - b * pair(nearest(above.re), nearest(above.im));
        (a, b) = (b, rest);
    }
    a
}
