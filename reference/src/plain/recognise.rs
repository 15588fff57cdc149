//! The recogniser, in 64 bits and without a list: every power up to the degree, unrolled by the compiler.

use crate::number::{common_divisor, pair, root, within, Pair};
use crate::preimage::{pre_image, Preimage};

/// Coordinates lie from minus this to this.
pub const COORDINATE_LIMIT: i64 = 20_000;
/// No coefficient of q passes this; a larger one is no root's, and would not multiply in 64 bits.
const ROOT_LIMIT: i64 = 20_000_000;

/// N = c·q², and q has leading coefficient above zero.
#[derive(Clone, Copy)]
pub struct Square {
    pub c: i64,
    pub q: [i64; 5],
}

pub enum Verdict {
    Still,
    No,
    Ph(Square),
    Pre(Square, Preimage),
}

/// The verdict on 4 or 6 points x0, y0, x1, … within the range; nothing of any other count of numbers.
/// QUICK tests first whether |d0|²·|d_last|² is a square: N(0)·N(1) is one wherever N = c·q².
pub fn verdict<const QUICK: bool>(p: &[i64]) -> Option<Verdict> {
    match p.len() {
        8 => Some(verdict_by::<3, QUICK>(legs(p), cubic_powers)),
        12 => Some(verdict_by::<5, QUICK>(legs(p), quintic_powers)),
        _ => None,
    }
}

fn verdict_by<const K: usize, const QUICK: bool>(
    d: [Pair; K],
    powers: impl Fn([Pair; K]) -> [Pair; K],
) -> Verdict {
    if QUICK && root(d[0].norm() as u64 * d[K - 1].norm() as u64).is_none() {
        return Verdict::No;
    }
    verdict_on(powers(d), verdict_on_full)
}

pub fn in_range(p: &[i64]) -> bool {
    p.iter()
        .fold(true, |all, &x| all & within(x, COORDINATE_LIMIT))
}

pub fn legs<const K: usize>(p: &[i64]) -> [Pair; K] {
    std::array::from_fn(|k| pair(p[2 * k + 2] - p[2 * k], p[2 * k + 3] - p[2 * k + 1]))
}

pub fn cubic_powers([d0, d1, d2]: [Pair; 3]) -> [Pair; 3] {
    [d0, (d1 - d0).times(2), d2 - d1.times(2) + d0]
}

pub fn quintic_powers([d0, d1, d2, d3, d4]: [Pair; 5]) -> [Pair; 5] {
    [
        d0,
        (d1 - d0).times(4),
        (d2 - d1.times(2) + d0).times(6),
        (d3 - (d2 - d1).times(3) - d0).times(4),
        d4 - (d3 + d1).times(4) + d2.times(6) + d0,
    ]
}

/// The verdict on D by its K powers; `full` gives it where the highest power isn't zero.
pub fn verdict_on<const K: usize>(d: [Pair; K], full: impl Fn(&[Pair; K]) -> Verdict) -> Verdict {
    match d.iter().rposition(|&x| x != Pair::default()) {
        None => Verdict::Still,
        Some(top) if top == K - 1 => full(&d),
        Some(top) => verdict_on_moved(d, K - 1 - top, full),
    }
}

/// The verdict where the highest power isn't zero.
fn verdict_on_full<const K: usize>(d: &[Pair; K]) -> Verdict {
    let Some(square) = speed(d) else {
        return Verdict::No;
    };
    match pre_image(d, square.c, square.q[K - 1]) {
        None => Verdict::Ph(square),
        Some(pre) => Verdict::Pre(square, pre),
    }
}

/// The same by t^up·D, whose highest power isn't zero: q and w move up with it, and are moved back. Where
/// `up` is odd, so is the degree of D, which then has no pre-image.
fn verdict_on_moved<const K: usize>(
    mut d: [Pair; K],
    up: usize,
    full: impl Fn(&[Pair; K]) -> Verdict,
) -> Verdict {
    d.rotate_right(up);
    let mut verdict = full(&d);
    if let Verdict::Ph(square) | Verdict::Pre(square, _) = &mut verdict {
        square.q[..K].rotate_left(up);
    }
    match verdict {
        Verdict::Pre(square, _) if up % 2 == 1 => Verdict::Ph(square),
        Verdict::Pre(square, mut pre) => {
            pre.w[..K / 2 + 1].rotate_left(up / 2);
            Verdict::Pre(square, pre)
        }
        other => other,
    }
}

/// c and q where N is c·q²: c is N's common divisor, and q the root of N/c from the top down. As a call of its own it
/// would cost a tenth more.
#[inline(always)]
pub fn speed<const K: usize>(d: &[Pair; K]) -> Option<Square> {
    let mut n = norm_polynomial(d);
    let c = content(&n[..2 * K - 1]);
    if c != 1 {
        n[..2 * K - 1].iter_mut().for_each(|x| *x /= c);
    }
    let mut q = [0; 5];
    q[K - 1] = root(n[2 * K - 2] as u64)? as i64;
    let double = 2 * q[K - 1];
    for k in (0..K - 1).rev() {
        let known: i64 = (k + 1..K - 1).map(|j| q[j] * q[K - 1 + k - j]).sum();
        let rest = n[K - 1 + k] - known;
        q[k] = rest / double;
        if q[k] * double != rest || !within(q[k], ROOT_LIMIT) {
            return None;
        }
    }
    let below = (0..K - 1).all(|m| (0..=m).map(|j| q[j] * q[m - j]).sum::<i64>() == n[m]);
    below.then_some(Square { c, q })
}

/// N = |D|².
pub fn norm_polynomial<const K: usize>(d: &[Pair; K]) -> [i64; 9] {
    let mut n = [0; 9];
    for j in 0..K {
        n[2 * j] += d[j].norm();
        for k in j + 1..K {
            n[j + k] += 2 * (d[j].re * d[k].re + d[j].im * d[k].im);
        }
    }
    n
}

/// The greatest common divisor of numbers of which the last isn't zero.
fn content(n: &[i64]) -> i64 {
    let mut c = n[n.len() - 1].unsigned_abs();
    for x in &n[..n.len() - 1] {
        if c == 1 {
            break;
        }
        c = common_divisor(c, x.unsigned_abs() % c);
    }
    c as i64
}
