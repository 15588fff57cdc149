//! The whole root of a number and what it leaves over, as on paper: a digit of the root for two of the number, binary ones here.

/// The root r and the rest: r² + rest = n, and rest ≤ 2r.
pub fn root(n: u64) -> (u64, u64) {
    let (mut root, mut rest) = (0, 0);
    for k in (0..32).rev() {
        rest = 4 * rest + (n >> (2 * k)) % 4;
        // The next digit is a 1 where (2r + 1)² is within reach of (2r)²: 4r + 1 away.
        let away = 4 * root + 1;
        let one = away <= rest;
        root = 2 * root + u64::from(one);
        rest -= if one { away } else { 0 };
    }
    (root, rest)
}

#[cfg(test)]
mod tests {
    use super::*;

    /// What 02 asks, in numbers that cannot overflow.
    fn holds(n: u64) -> bool {
        let (root, rest) = root(n);
        u128::from(root).pow(2) + u128::from(rest) == n.into() && rest <= 2 * root
    }

    #[test]
    fn worked_by_hand() {
        assert_eq!(root(0), (0, 0));
        assert_eq!(root(1), (1, 0));
        assert_eq!(root(3), (1, 2));
        assert_eq!(root(10), (3, 1));
        assert_eq!(root(u64::MAX), (4_294_967_295, 8_589_934_590));
    }

    #[test]
    fn every_number_of_two_bytes() {
        assert!((0..1 << 16).all(holds));
    }

    #[test]
    fn beside_squares() {
        let near: Vec<u64> = (0..32)
            .flat_map(|k| [1 << k, (1 << k) + 1, (2 << k) - 1])
            .collect();
        for k in near {
            assert_eq!(root(k * k), (k, 0));
            assert_eq!(root(k * k + 2 * k), (k, 2 * k));
            assert_eq!(root(k * k - 1), (k - 1, 2 * (k - 1)));
        }
    }

    #[test]
    fn anywhere() {
        let spread = (0..100_000u64).map(|k| k.wrapping_mul(0x9E37_79B9_7F4A_7C15) >> (k % 60));
        assert!(spread.into_iter().all(holds));
    }
}
