//! The totals of a box of sheets, as a running sum.

use crate::legs;
use crate::recognise::Verdict;
use crate::report::length_above;
use crate::sheet::{number, walk, Fault};

#[derive(Default)]
pub struct Totals {
    pub sheets: usize,
    /// Still, no, ph and pre.
    pub verdicts: [u64; 4],
    /// By number, from 1 on.
    pub refused: [u64; 6],
    /// In hundredths.
    pub sum: u64,
    /// Its hundredths, its sheet and its number there.
    pub longest: Option<(u64, usize, i64)>,
}

impl Totals {
    /// The count of the sheet's curves, or its fault.
    pub fn add(&mut self, sheet: &[u8]) -> Result<i64, Fault> {
        self.sheets += 1;
        if let Err(fault) = walk(sheet, |_| ()) {
            self.refused[fault.number as usize - 1] += 1;
            return Err(fault);
        }
        let mut at = 0;
        let listed = walk(sheet, |points| {
            at += 1;
            self.count(at, points);
        });
        listed.map(|listed| listed.count)
    }

    fn count(&mut self, at: i64, points: &[u8]) {
        let mut p = [0; 12];
        for (x, bytes) in p.iter_mut().zip(points.chunks_exact(4)) {
            *x = i64::from(number(bytes));
        }
        let count = points.len() / 4;
        let verdict = match legs::verdict(&p[..count]) {
            Ok(Verdict::Still) => 0,
            Ok(Verdict::Ph(_)) => 2,
            Ok(Verdict::Pre(square, _)) => {
                let a = length_above(&square, count) as u64;
                let b = if count == 8 { 2 } else { 12 };
                let m = (10_000 * square.c as u64 * a * a / (b * b)).isqrt();
                self.sum += m;
                if self.longest.map_or(true, |(most, _, _)| m > most) {
                    self.longest = Some((m, self.sheets, at));
                }
                3
            }
            _ => 1,
        };
        self.verdicts[verdict] += 1;
    }
}
