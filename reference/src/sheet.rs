//! The parameter sheet: check, read, find, erase, start and append, by a reader that calls itself on what is left.

use crate::curve::Curve;
use crate::pair::{pair, Pair};
use crate::refusal::Refusal;

pub const SHEET_LIMIT: usize = 4_096;
pub const ERASED: u8 = 0xFF;
const HEADER: [u8; 2] = *b"MN";
pub const HEADER_LENGTH: usize = 6;
const CURVES: [(&[u8; 2], usize); 2] = [(b"C3", 4), (b"C5", 6)];
pub const LONGEST_RECORD: usize = record_length(6);

/// The first fault in sheet order, with its place.
#[derive(Clone, Copy, Debug, PartialEq, Eq)]
pub struct Fault {
    pub refusal: Refusal,
    pub place: usize,
}

/// A refusal that has no place.
impl From<Refusal> for Fault {
    fn from(refusal: Refusal) -> Fault {
        Fault { refusal, place: 0 }
    }
}

/// The record of a curve: its own part of the sheet, and the curve that it holds.
#[derive(Debug, PartialEq, Eq)]
pub struct Record<'a> {
    pub part: &'a [u8],
    pub curve: Curve,
}

/// What a sheet without fault holds: its mission's number, where it has a header, its curves' records in order, and the
/// erased place where all records end.
#[derive(Debug, Default, PartialEq, Eq)]
pub struct Listing<'a> {
    pub mission: Option<u16>,
    pub records: Vec<Record<'a>>,
    pub end: usize,
}

/// Checks a sheet whole.
pub fn check(sheet: &[u8]) -> Result<Listing<'_>, Fault> {
    if sheet.len() > SHEET_LIMIT {
        return Err(fault(Refusal::TooLong, 0));
    }
    list(sheet, Listing::default())
}

/// How many curves a sheet has.
pub fn count(sheet: &[u8]) -> Result<usize, Fault> {
    check(sheet).map(|listing| listing.records.len())
}

fn fault(refusal: Refusal, place: usize) -> Fault {
    Fault { refusal, place }
}

/// Adds the record at the start of `rest`, which lies where the listed ones end, and then what is behind it.
fn list<'a>(rest: &'a [u8], mut listing: Listing<'a>) -> Result<Listing<'a>, Fault> {
    let place = listing.end;
    match rest {
        [] | [ERASED] => Ok(listing),
        [_] => Err(fault(Refusal::Cut, place)),
        [ERASED, ERASED, tail @ ..] => match tail.iter().position(|&byte| byte != ERASED) {
            None => Ok(listing),
            Some(k) => Err(fault(Refusal::Leftover, place + 2 + k)),
        },
        _ => {
            let length = add(&mut listing, rest).map_err(|refusal| fault(refusal, place))?;
            listing.end += length;
            list(&rest[length..], listing)
        }
    }
}

/// Adds the record at the start of `rest`, whose length isn't the erased one: the header to an empty list, and a curve
/// to any other. How many bytes it has.
fn add<'a>(listing: &mut Listing<'a>, rest: &'a [u8]) -> Result<usize, Refusal> {
    if listing.mission.is_none() {
        let part = part(rest, |kind| (kind == HEADER).then_some(HEADER_LENGTH))?;
        listing.mission = Some(u16::from_le_bytes([part[4], part[5]]));
        return Ok(part.len());
    }
    let part = part(rest, curve_length)?;
    let points = part[4..].chunks_exact(8).map(point).collect();
    let curve = Curve::new(points).expect("both kinds have a curve's number of points");
    Refusal::Range.when(!curve.in_range())?;
    listing.records.push(Record { part, curve });
    Ok(part.len())
}

/// The part of a record of one of the kinds that may stand here, which are those with a length.
fn part(rest: &[u8], length_of: impl Fn([u8; 2]) -> Option<usize>) -> Result<&[u8], Refusal> {
    let &[low, high, kind0, kind1, ..] = rest else {
        return Err(Refusal::Cut);
    };
    let wanted = length_of([kind0, kind1]).ok_or(Refusal::Kind)?;
    let length = usize::from(low) + 256 * usize::from(high);
    Refusal::Length.when(length != wanted)?;
    rest.get(..length).ok_or(Refusal::Cut)
}

fn curve_length(kind: [u8; 2]) -> Option<usize> {
    let known = CURVES.iter().find(|(name, _)| **name == kind);
    known.map(|&(_, points)| record_length(points))
}

/// Length and kind take four bytes, and each point eight.
const fn record_length(points: usize) -> usize {
    4 + 8 * points
}

/// The point in eight bytes, x then y.
fn point(bytes: &[u8]) -> Pair {
    let part = |at: usize| {
        let number = [0, 1, 2, 3].map(|k| bytes[at + k]);
        i128::from(i32::from_le_bytes(number))
    };
    pair(part(0), part(4))
}

/// The kind of a curve as it is written on a sheet and in a report.
pub fn kind_name(curve: &Curve) -> &'static str {
    if curve.degree() == 3 {
        "C3"
    } else {
        "C5"
    }
}

/// The bytes of a curve's record; nothing where a coordinate has no four bytes.
pub fn record_bytes(curve: &Curve) -> Option<Vec<u8>> {
    let length = u16::try_from(record_length(curve.points().len())).ok()?;
    let mut bytes = length.to_le_bytes().to_vec();
    bytes.extend(kind_name(curve).bytes());
    for p in curve.points() {
        bytes.extend(i32::try_from(p.re).ok()?.to_le_bytes());
        bytes.extend(i32::try_from(p.im).ok()?.to_le_bytes());
    }
    Some(bytes)
}

/// The bytes of a header.
pub fn header_bytes(mission: u16) -> Vec<u8> {
    let length = HEADER_LENGTH as u16;
    [length.to_le_bytes(), HEADER, mission.to_le_bytes()].concat()
}

/// The record of curve `number`, counted from 1, for a reader of that mission. A sheet without a header is nobody's, so
/// no other mission's either.
fn numbered(sheet: &[u8], mission: u16, number: usize) -> Result<Record<'_>, Refusal> {
    let listing = check(sheet).map_err(|fault| fault.refusal)?;
    let written = listing.mission.unwrap_or(mission);
    Refusal::OtherMission.when(written != mission)?;
    let before = number.checked_sub(1).ok_or(Refusal::Number)?;
    let record = listing.records.into_iter().nth(before);
    record.ok_or(Refusal::Number)
}

/// The curve of that number.
pub fn read(sheet: &[u8], mission: u16, number: usize) -> Result<Curve, Refusal> {
    numbered(sheet, mission, number).map(|record| record.curve)
}

/// The part of the sheet that holds the record of that number; empty where reading refuses.
pub fn find(sheet: &[u8], mission: u16, number: usize) -> &[u8] {
    numbered(sheet, mission, number).map_or(&[], |record| record.part)
}

/// Makes every byte FF.
pub fn erase(sheet: &mut [u8]) -> Result<(), Refusal> {
    Refusal::TooLong.when(sheet.len() > SHEET_LIMIT)?;
    sheet.fill(ERASED);
    Ok(())
}

/// Writes the header of a mission, and makes every byte behind it FF.
pub fn start(sheet: &mut [u8], mission: u16) -> Result<(), Refusal> {
    Refusal::TooLong.when(sheet.len() > SHEET_LIMIT)?;
    let header = header_bytes(mission);
    Refusal::Room.when(sheet.len() < header.len())?;
    let (front, tail) = sheet.split_at_mut(header.len());
    front.copy_from_slice(&header);
    tail.fill(ERASED);
    Ok(())
}

/// Writes one curve at the first erased place.
pub fn append(sheet: &mut [u8], curve: &Curve) -> Result<(), Refusal> {
    let listing = check(sheet).map_err(|fault| fault.refusal)?;
    let end = listing.end;
    Refusal::NoMission.when(listing.mission.is_none())?;
    Refusal::Range.when(!curve.in_range())?;
    let bytes = record_bytes(curve).ok_or(Refusal::Range)?;
    let tail = &mut sheet[end..];
    Refusal::Room.when(tail.len() < bytes.len())?;
    tail[..bytes.len()].copy_from_slice(&bytes);
    Ok(())
}

#[cfg(test)]
#[path = "sheet_tests.rs"]
mod tests;
