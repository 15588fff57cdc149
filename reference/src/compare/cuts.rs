//! Every way to cut some small sheets, as calls on the state of what came before: whoever answers each of them right feeds any parts right.

use super::call::{Areas, Call, Function};
use crate::parts::state;

/// Each part that may follow each beginning, and the end behind it.
pub fn every_cut() -> Vec<Call> {
    let sheets = small_sheets();
    sheets.iter().flat_map(|sheet| cuts(sheet)).collect()
}

fn cuts(sheet: &[u8]) -> Vec<Call> {
    let mut calls = Vec::new();
    for to in 0..=sheet.len() {
        calls.push(on_state(Function::PartsEnd, &sheet[..to], &[]));
        for from in 0..=to {
            calls.push(on_state(
                Function::PartsFeed,
                &sheet[..from],
                &sheet[from..to],
            ));
        }
    }
    calls
}

fn on_state(function: Function, fed: &[u8], part: &[u8]) -> Call {
    let before = Areas {
        out: state(fed, false).to_vec(),
        sheet: part.to_vec(),
        ..Areas::default()
    };
    Call {
        function,
        singles: [0; 6],
        before,
    }
}

/// A header and a cubic with bytes of their own behind them: an erased tail, LEFTOVER, KIND, LENGTH, CUT; one that is
/// RANGE; and fronts: an erased one with a leftover, no header, one of a wrong length, two.
fn small_sheets() -> Vec<Vec<u8>> {
    let header = [6, 0, b'M', b'N', 7, 2];
    let cubic = |last: u8| [&[36, 0, b'C', b'3'][..], &[1], &[0; 30], &[last]].concat();
    let tails: [&[u8]; 5] = [
        &[0xFF; 6],
        &[0xFF, 0xFF, 0xFF, 7, 0xFF],
        &[36, 0, b'C', b'4', 0],
        &[36, 1, b'C', b'3', 0],
        &[52, 0, b'C', b'5', 0, 0],
    ];
    let behind = |tail: &&[u8]| [&header[..], &cubic(0), tail].concat();
    let mut sheets: Vec<_> = tails.iter().map(behind).collect();
    sheets.push([&header[..], &cubic(1), &[0xFF; 2]].concat());
    sheets.push([&[0xFF; 7][..], &header, &[0xFF; 2]].concat());
    sheets.push([&cubic(0)[..], &header].concat());
    sheets.push([&[7][..], &header[1..], &header].concat());
    sheets.push([&header[..4], &[0xFF; 2], &header, &[0xFF; 4]].concat());
    sheets
}

#[cfg(test)]
mod tests {
    use super::*;
    use crate::refusal::Refusal;
    use crate::sheet::check;

    #[test]
    fn the_sheets_are_what_they_are_for() {
        let found: Vec<_> = small_sheets()
            .iter()
            .map(|sheet| check(sheet).err().map(|fault| (fault.refusal, fault.place)))
            .collect();
        let expected = [
            None,
            Some((Refusal::Leftover, 45)),
            Some((Refusal::Kind, 42)),
            Some((Refusal::Length, 42)),
            Some((Refusal::Cut, 42)),
            Some((Refusal::Range, 6)),
            Some((Refusal::Leftover, 7)),
            Some((Refusal::Kind, 0)),
            Some((Refusal::Length, 0)),
            Some((Refusal::Kind, 6)),
        ];
        assert_eq!(found, expected);
    }
}
