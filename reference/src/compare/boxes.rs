//! Boxes of sheets by chance, written as folders: what the report over a box has to tell apart.

use super::chance::Chance;
use super::shapes;
use super::sheets::{damage, mission, sheet};
use crate::curve::Curve;
use crate::measure::length;
use crate::pair::{pair, Pair};
use crate::sheet::{check, header_bytes, record_bytes};
use std::path::Path;

type Sheets = Vec<Vec<u8>>;

/// Each box as a folder of its name, its sheets as files in order.
pub fn make(folder: &Path, seed: u64) -> std::io::Result<()> {
    for (name, sheets) in boxes(&mut Chance::new(seed)) {
        let folder = folder.join(name);
        std::fs::create_dir_all(&folder)?;
        for (bytes, number) in sheets.iter().zip(1..) {
            std::fs::write(folder.join(format!("{number:04}.sheet")), bytes)?;
        }
    }
    Ok(())
}

fn boxes(chance: &mut Chance) -> Vec<(&'static str, Sheets)> {
    vec![
        ("empty", Vec::new()),
        ("sound", some(chance, 30, sheet)),
        ("refused", some(chance, 12, faulty)),
        ("mixed", some(chance, 40, either)),
        ("equal", equal_lengths(chance)),
        ("unmeasured", some(chance, 6, still)),
        ("full", some(chance, 1_000, small)),
        ("one_more", some(chance, 1_001, small)),
    ]
}

fn some(chance: &mut Chance, count: usize, one: impl Fn(&mut Chance) -> Vec<u8>) -> Sheets {
    (0..count).map(|_| one(chance)).collect()
}

/// A sheet that its check refuses.
fn faulty(chance: &mut Chance) -> Vec<u8> {
    loop {
        let mut bytes = sheet(chance);
        damage(chance, &mut bytes);
        if check(&bytes).is_err() {
            return bytes;
        }
    }
}

fn either(chance: &mut Chance) -> Vec<u8> {
    if chance.one_in(3) {
        faulty(chance)
    } else {
        sheet(chance)
    }
}

/// Of one curve that stands still.
fn still(chance: &mut Chance) -> Vec<u8> {
    sheet_of(chance, &[&[Pair::default(); 6]])
}

fn small(chance: &mut Chance) -> Vec<u8> {
    match chance.below(5) {
        0 => Vec::new(),
        1 => vec![0xFF; chance.below(40)],
        2 => sheet_of(chance, &[]),
        3 => still(chance),
        _ => {
            let curve = shapes::curve(chance);
            sheet_of(chance, &[curve.points()])
        }
    }
}

/// One measured curve, turned by quarters from sheet to sheet, twice on each behind another: the first of all is the longest.
fn equal_lengths(chance: &mut Chance) -> Sheets {
    let measured = loop {
        let curve = shapes::curve(chance);
        if length(&curve).is_ok() {
            break curve;
        }
    };
    let mut points = measured.points().to_vec();
    let mut sheets = Vec::new();
    for _ in 0..8 {
        sheets.push(sheet_of(chance, &[&[Pair::default(); 6], &points, &points]));
        points.iter_mut().for_each(|p| *p = *p * pair(0, 1));
    }
    sheets
}

/// A sheet of any mission with these curves.
fn sheet_of(chance: &mut Chance, curves: &[&[Pair]]) -> Vec<u8> {
    let mut bytes = header_bytes(mission(chance));
    bytes.extend(curves.iter().flat_map(|points| record_of(points)));
    bytes
}

fn record_of(points: &[Pair]) -> Vec<u8> {
    let curve = Curve::new(points.to_vec()).expect("4 or 6 points");
    record_bytes(&curve).expect("coordinates within the range")
}

#[cfg(test)]
mod tests {
    use super::*;
    use crate::totals::report;

    fn text_of(name: &str, sheets: Sheets) -> String {
        let named: Vec<(String, Vec<u8>)> =
            sheets.into_iter().map(|s| (name.to_string(), s)).collect();
        report(&named).0
    }

    /// Each box is what its name says, so that what it tries is tried.
    #[test]
    fn boxes_are_what_they_are_called() {
        let mut chance = Chance::new(1);
        for (name, sheets) in boxes(&mut chance) {
            let sound = sheets.iter().filter(|s| check(s).is_ok()).count();
            let (many, text) = (sheets.len(), text_of(name, sheets));
            let none = text.ends_with("longest none\n");
            match name {
                "empty" => assert!(many == 0 && none),
                "refused" => assert!(many > 0 && sound == 0 && none),
                "mixed" => assert!(0 < sound && sound < many && !none),
                "unmeasured" => assert!(sound == many && none),
                "equal" => assert!(text.ends_with(" sheet 1 curve 2\n")),
                "one_more" => assert!(text.ends_with("\nrefused 20 at 1001\n")),
                _ => assert!(sound == many && !none),
            }
        }
    }
}
