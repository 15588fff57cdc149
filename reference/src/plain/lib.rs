//! The fastest plain version of the jobs that are timed, to hold the library against: 64 bits, nothing allocated,
//! and the same answers in the same areas. What is written of a call in the library's header holds of these too, but
//! for the state of a check by parts, which is a struct of its own.

mod face;
mod joins;
mod legs;
mod number;
mod parts;
mod preimage;
mod recognise;
mod report;
mod sheet;
mod totals;

use number::pair;
pub use parts::Parts;
use recognise::Verdict;
pub use sheet::Fault;
pub use totals::Totals;

const LENGTH: i64 = 5;
const RANGE: i64 = 6;
const ROOM: i64 = 12;
const DEAD_END: i64 = 14;
const ENDED: i64 = 19;

fn refused(out: &mut [i64], number: i64) -> i64 {
    out.fill(0);
    -number
}

/// The verdict with c, q, κ and w: 15 numbers. QUICK is with the quick refusal.
pub fn recognise<const QUICK: bool>(p: &[i64], out: &mut [i64]) -> i64 {
    if p.len() != 8 && p.len() != 12 {
        return refused(out, LENGTH);
    }
    if !recognise::in_range(p) {
        return refused(out, RANGE);
    }
    let Some(verdict) = recognise::verdict::<QUICK>(p) else {
        return refused(out, LENGTH);
    };
    told(&verdict, out)
}

/// The same by the rules on legs.
pub fn recognise_by_legs(p: &[i64], out: &mut [i64]) -> i64 {
    match legs::verdict(p) {
        Ok(verdict) => told(&verdict, out),
        Err(number) => refused(out, number),
    }
}

/// The verdict's numbers in the lent area, and zeros behind them. Mostly none are left, which saves a call.
#[inline]
fn told(verdict: &Verdict, out: &mut [i64]) -> i64 {
    let Some((answer, rest)) = out.split_first_chunk_mut::<15>() else {
        return refused(out, ROOM);
    };
    if !rest.is_empty() {
        rest.fill(0);
    }
    write(verdict, answer);
    15
}

/// Into the area at once, which is cheaper than by numbers laid down in between.
#[inline]
fn write(verdict: &Verdict, answer: &mut [i64; 15]) {
    *answer = [0; 15];
    let (number, square, pre) = match verdict {
        Verdict::Still => (0, None, None),
        Verdict::No => (1, None, None),
        Verdict::Ph(square) => (2, Some(square), None),
        Verdict::Pre(square, pre) => (3, Some(square), Some(pre)),
    };
    answer[0] = number;
    if let Some(square) = square {
        answer[1] = square.c;
        answer[2..7].copy_from_slice(&square.q);
    }
    if let Some(pre) = pre {
        let [b0, b1, b2] = pre.w;
        for (k, x) in [pre.kappa, b0, b1, b2].into_iter().enumerate() {
            (answer[7 + 2 * k], answer[8 + 2 * k]) = (x.re, x.im);
        }
    }
}

/// The triples between the legs a and z over a travel, and their count.
pub fn joins(ends: [i64; 6], out: &mut [i64]) -> i64 {
    let [ax, ay, zx, zy, tx, ty] = ends;
    let (a, z, travel) = (pair(ax, ay), pair(zx, zy), pair(tx, ty));
    out.fill(0);
    if !joins::in_range(a, z, travel) {
        -RANGE
    } else if a == pair(0, 0) || z == pair(0, 0) {
        -DEAD_END
    } else if out.len() < joins::NEEDED {
        -ROOM
    } else {
        joins::write_joins(a, z, travel, out)
    }
}

/// The count of a sheet's curves, or its first fault with the place.
pub fn check(sheet: &[u8]) -> i64 {
    counted(sheet::walk(sheet, |_| ()).map(|listed| listed.count))
}

fn counted(checked: Result<i64, Fault>) -> i64 {
    match checked {
        Ok(count) => count,
        Err(fault) => -(fault.number + 32 * fault.place as i64),
    }
}

/// Feeds a part; 0, or the refusal of a sheet that has ended.
pub fn feed(parts: &mut Parts, part: &[u8]) -> i64 {
    if parts.feed(part) {
        0
    } else {
        -ENDED
    }
}

/// Ends a sheet that came in parts: what the check says of it.
pub fn end(parts: &mut Parts) -> i64 {
    counted(parts.end())
}

/// The report of a sheet, and its length.
pub fn report(sheet: &[u8], text: &mut [u8]) -> i64 {
    match report::write_report(sheet, text) {
        Some(length) => length as i64,
        None => {
            text.fill(0);
            -ROOM
        }
    }
}
