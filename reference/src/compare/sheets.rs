//! Sound sheets of several records with an erased tail, and ways to damage a sheet.

use super::chance::Chance;
use super::shapes::curve;
use crate::curve::Curve;
use crate::sheet::{check, count, header_bytes, record_bytes, HEADER_LENGTH};

const MOST: usize = 4_096;

/// A mission's number: any, a small one, or one with a byte of zeros or of FF.
pub fn mission(chance: &mut Chance) -> u16 {
    let any = chance.bits() as u16;
    chance.pick(&[any, any, any % 10, 0, 255, 256, 0xFF00, u16::MAX])
}

/// A sheet without fault: mostly short, now and then as full as it can be, or all FF.
pub fn sheet(chance: &mut Chance) -> Vec<u8> {
    if chance.one_in(8) {
        return vec![0xFF; chance.pick(&[0, 1, 2, 5, 6, 7, 36, 42, 60, MOST])];
    }
    let full = chance.one_in(60);
    let records = if full { MOST } else { chance.below(5) };
    let mut bytes = header_bytes(mission(chance));
    for _ in 0..records {
        let record = record_bytes(&curve(chance)).expect("coordinates within the range");
        if bytes.len() + record.len() > MOST {
            break;
        }
        bytes.extend(record);
    }
    let tail = match chance.below(6) {
        0 => 0,
        1 => chance.pick(&[1, 2, 3, 35, 36, 51, 52]),
        2 if full => MOST,
        _ => chance.below(120),
    };
    bytes.resize(MOST.min(bytes.len() + tail), 0xFF);
    bytes
}

/// A sheet with something done to it; some of what is done leaves it sound.
pub fn damage(chance: &mut Chance, sheet: &mut Vec<u8>) {
    let head = chance.pick(&heads(sheet));
    match chance.below(16) {
        0 => flip(chance, sheet),
        1 => sheet.truncate(chance.below(sheet.len() + 1)),
        2..=3 => length(chance, sheet, head),
        4 => put(
            sheet,
            head + 2,
            &chance.pick(&[*b"C3", *b"C5", *b"C4", *b"c3", *b"3C", *b"MN", *b"NM"]),
        ),
        5 => put(
            sheet,
            head,
            &chance.pick(&[*b"\x24\0C3", *b"\x34\0C5", *b"\x06\0MN"]),
        ),
        6..=8 => coordinate(chance, sheet, head),
        9 => leave_over(chance, sheet),
        10 => sheet.resize(MOST + chance.pick(&[0, 1, 2, 100]), 0xFF),
        11 => sheet.extend((0..chance.below(6)).map(|_| 0xFF)),
        12 => drop(sheet.drain(..sheet.len().min(HEADER_LENGTH))),
        13 => drop(sheet.splice(head..head, header_bytes(mission(chance)))),
        14 => sheet.truncate(chance.below(HEADER_LENGTH + 3)),
        _ => *sheet = (0..chance.below(90)).map(|_| chance.bits() as u8).collect(),
    }
}

/// Where the records of a sound sheet begin, the header's too, and where they end.
fn heads(sheet: &[u8]) -> Vec<usize> {
    let listing = check(sheet).unwrap_or_default();
    let mut heads = vec![0];
    let mut place = 0;
    let header = listing.mission.map(|_| HEADER_LENGTH);
    let curves = listing.records.iter().map(|record| record.part.len());
    for length in header.into_iter().chain(curves) {
        place += length;
        heads.push(place);
    }
    heads
}

fn put(sheet: &mut [u8], place: usize, bytes: &[u8]) {
    if let Some(there) = sheet.get_mut(place..place + bytes.len()) {
        there.copy_from_slice(bytes);
    }
}

fn length(chance: &mut Chance, sheet: &mut [u8], head: usize) {
    let number = chance.pick(&[35u16, 36, 37, 52, 6, 7, 0, 0x3400, 0x0600, 0xFFFF]);
    put(sheet, head, &number.to_le_bytes());
}

fn flip(chance: &mut Chance, sheet: &mut [u8]) {
    if !sheet.is_empty() {
        sheet[chance.below(sheet.len())] ^= 1 << chance.below(8);
    }
}

fn coordinate(chance: &mut Chance, sheet: &mut [u8], head: usize) {
    let number = chance.pick(&[
        20_001,
        -20_001,
        20_000,
        -20_000,
        i32::MIN,
        i32::MAX,
        65_536,
        -1,
    ]);
    put(
        sheet,
        head + 4 + 4 * chance.below(12),
        &number.to_le_bytes(),
    );
}

/// A byte that is not FF behind the records, or anywhere where the sheet has no tail.
fn leave_over(chance: &mut Chance, sheet: &mut [u8]) {
    let end = check(sheet).map_or(0, |listing| listing.end);
    let tail = sheet.len() - end;
    if tail > 0 {
        sheet[end + chance.below(tail)] = chance.below(255) as u8;
    }
}

/// The mission on a sheet; nothing where it has none, or a fault.
pub fn written_mission(sheet: &[u8]) -> Option<u16> {
    check(sheet).ok()?.mission
}

/// How many curves a sheet has; none where it has a fault.
pub fn curves(sheet: &[u8]) -> usize {
    count(sheet).unwrap_or(0)
}

/// The coordinates of a curve.
pub fn coordinates(curve: &Curve) -> Vec<i64> {
    let parts = curve
        .points()
        .iter()
        .flat_map(|p| [p.re as i64, p.im as i64]);
    parts.collect()
}

#[cfg(test)]
mod tests {
    use super::*;
    use crate::refusal::Refusal;
    use std::collections::HashSet;

    /// So every curve on them is within the range, too.
    #[test]
    fn sound_sheets_have_no_fault() {
        let mut chance = Chance::new(5);
        let sheets: Vec<Vec<u8>> = (0..2_000).map(|_| sheet(&mut chance)).collect();
        assert!(sheets.iter().all(|sheet| check(sheet).is_ok()));
        let longest = sheets.iter().map(Vec::len).max();
        assert_eq!(longest, Some(MOST));
    }

    /// With a header mostly, and of missions that are hard to tell apart.
    #[test]
    fn sound_sheets_of_every_mission() {
        let mut chance = Chance::new(7);
        let missions: Vec<Option<u16>> = (0..2_000)
            .map(|_| written_mission(&sheet(&mut chance)))
            .collect();
        let without = missions.iter().filter(|m| m.is_none()).count();
        assert!((100..500).contains(&without), "{without}");
        for mission in [0, 255, 256, u16::MAX] {
            assert!(missions.contains(&Some(mission)));
        }
    }

    #[test]
    fn most_damage_is_a_fault() {
        let mut chance = Chance::new(6);
        let faulty = (0..2_000).filter(|_| {
            let mut hurt = sheet(&mut chance);
            damage(&mut chance, &mut hurt);
            check(&hurt).is_err()
        });
        assert!(faulty.count() > 1_000);
    }

    /// Headers are damaged in each way: they are not there, twice, of a wrong length or cut.
    #[test]
    fn damage_of_headers() {
        let mut chance = Chance::new(8);
        let mut met = HashSet::new();
        for _ in 0..2_000 {
            let mut hurt = sheet(&mut chance);
            damage(&mut chance, &mut hurt);
            let Err(fault) = check(&hurt) else { continue };
            let kind = hurt.get(fault.place + 2..fault.place + 4);
            let header = kind.map(|kind| kind == b"MN");
            met.insert((fault.refusal.number(), fault.place > 0, header));
        }
        let ways = [
            (Refusal::Kind, false, Some(false)),
            (Refusal::Kind, true, Some(true)),
            (Refusal::Length, false, Some(true)),
            (Refusal::Cut, false, Some(true)),
            (Refusal::Cut, false, None),
        ];
        for (refusal, behind, header) in ways {
            assert!(met.contains(&(refusal.number(), behind, header)));
        }
    }
}
