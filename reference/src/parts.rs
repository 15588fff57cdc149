//! The check by parts: the numbers that stand for the bytes fed so far, and the calls on them.
//!
//! The library has nothing but these numbers. Here they are made of all the bytes, by the whole check, and a call is
//! answered by bytes that have them.

use crate::curve::Curve;
use crate::pair::Pair;
use crate::refusal::Refusal;
use crate::sheet::{
    check, count, header_bytes, record_bytes, Fault, Listing, ERASED, LONGEST_RECORD, SHEET_LIMIT,
};

pub const NUMBERS: usize = 13;
pub type State = [i64; NUMBERS];

/// The first of the numbers that hold bytes, eight to a number.
const HELD: usize = 6;

/// The numbers of these bytes: ended or not, how many they are, the mission of the header or 0, how many sound curves
/// stand at their start, where the sound records end, how many bytes FF stand there, and the first bytes from there on,
/// as many as the longest record has. Of what is too long nothing is kept but that.
pub fn state(fed: &[u8], ended: bool) -> State {
    let mut numbers = [0; NUMBERS];
    numbers[0] = ended.into();
    if fed.len() > SHEET_LIMIT {
        numbers[1] = SHEET_LIMIT as i64 + 1;
        return numbers;
    }
    let sound = sound_records(fed);
    let mission = usize::from(sound.mission.unwrap_or(0));
    let left = &fed[sound.end..];
    let erased = left.iter().take_while(|&&byte| byte == ERASED).count();
    let sizes = [fed.len(), mission, sound.records.len(), sound.end, erased];
    numbers[1..HELD].copy_from_slice(&sizes.map(|size| size as i64));
    let first = &left[..left.len().min(LONGEST_RECORD)];
    for (number, bytes) in numbers[HELD..].iter_mut().zip(first.chunks(8)) {
        let mut eight = [0; 8];
        eight[..bytes.len()].copy_from_slice(bytes);
        *number = i64::from_le_bytes(eight);
    }
    numbers
}

/// What stands before the first fault is a sheet without one.
fn sound_records(fed: &[u8]) -> Listing<'_> {
    let end = check(fed).map_or_else(|fault| fault.place, |_| fed.len());
    check(&fed[..end]).expect("no fault stands before the first")
}

/// Bytes that have these numbers, and whether they ended; nothing where none have.
///
/// Bytes of one shape are tried, and that decides it: where any bytes have the numbers, those have. Sound records are
/// none, or a header and then cubics and quintics, and how many these are and where they end leave one choice of how
/// many of each; nothing else is kept of them but the mission. From the place on, as many bytes are tried as there were,
/// with the same first 52 and the same run of FF: the numbers tell nothing else of them. A sound record would move the
/// place, but none stands there: there was none, and no record is longer than 52 bytes.
pub fn bytes_with(numbers: &State) -> Option<(Vec<u8>, bool)> {
    let ended = numbers[0] == 1;
    let fed = laid(numbers)?;
    (state(&fed, ended) == *numbers).then_some((fed, ended))
}

/// The header and records of zeros up to the place, the 52 bytes or as many as there are, FF as far as its run goes, and
/// zeros.
fn laid(numbers: &State) -> Option<Vec<u8>> {
    let size = |k: usize| {
        let size = usize::try_from(numbers[k]).ok();
        size.filter(|&size| size <= SHEET_LIMIT + 1)
    };
    let mission = u16::try_from(numbers[2]).ok()?;
    let (length, curves, place, erased) = (size(1)?, size(3)?, size(4)?, size(5)?);
    let mut fed = records(mission, curves, place)?;
    fed.extend(numbers[HELD..].iter().flat_map(|held| held.to_le_bytes()));
    fed.truncate(length.min(place + LONGEST_RECORD));
    let run_end = length.min(place + erased).max(fed.len());
    fed.resize(run_end, ERASED);
    fed.resize(length, 0);
    Some(fed)
}

/// Nothing, where no record ended, or the header and so many curves, cubics before quintics, that end at the place.
fn records(mission: u16, curves: usize, place: usize) -> Option<Vec<u8>> {
    if place == 0 {
        return Some(Vec::new());
    }
    let header = header_bytes(mission);
    let of_zeros = |points: usize| {
        let curve = Curve::new(vec![Pair::default(); points]).expect("4 or 6 points");
        record_bytes(&curve).expect("0 has four bytes")
    };
    let (cubic, quintic) = (of_zeros(4), of_zeros(6));
    let end =
        |quintics| header.len() + (curves - quintics) * cubic.len() + quintics * quintic.len();
    let quintics = (0..=curves).find(|&quintics| end(quintics) == place)?;
    let (cubics, quintics) = (cubic.repeat(curves - quintics), quintic.repeat(quintics));
    Some([header, cubics, quintics].concat())
}

/// What a lent area tells; numbers behind the state tell nothing.
fn told(area: &[i64]) -> Result<(Vec<u8>, bool), Refusal> {
    let numbers = area.first_chunk().ok_or(Refusal::Room)?;
    bytes_with(numbers).ok_or(Refusal::Range)
}

fn keep(area: &mut [i64], fed: &[u8], ended: bool) {
    area[..NUMBERS].copy_from_slice(&state(fed, ended));
}

/// Begins a sheet of which nothing has come.
pub fn start(area: &mut [i64]) -> Result<(), Refusal> {
    Refusal::Room.when(area.len() < NUMBERS)?;
    keep(area, &[], false);
    Ok(())
}

/// Feeds a part. Other bytes may have been fed before than those found here, but they have the same numbers, and the
/// part leaves the same behind either. Where it completes a sound record, all bytes of that are among the 52 and the
/// part, and what follows is the part's alone. Where it does not, the place stays, and the numbers of the bytes from
/// there on follow from those before: how many they are, the first 52, and the run of FF.
pub fn feed(area: &mut [i64], part: &[u8]) -> Result<(), Refusal> {
    let (mut fed, ended) = told(area)?;
    Refusal::Ended.when(ended)?;
    fed.extend(part);
    keep(area, &fed, false);
    Ok(())
}

/// Ends the sheet, perhaps once more: the count of its curves, or its fault. Bytes with the same numbers have the same:
/// what the check says at the place shows in the first 52, and of an erased tail in the run of FF.
pub fn end(area: &mut [i64]) -> Result<usize, Fault> {
    let (fed, _) = told(area)?;
    keep(area, &fed, true);
    count(&fed)
}

/// The same of a sheet that has ended; nothing where it has not.
pub fn ask(area: &[i64]) -> Result<Option<usize>, Fault> {
    match told(area)? {
        (fed, true) => count(&fed).map(Some),
        (_, false) => Ok(None),
    }
}

#[cfg(test)]
#[path = "parts_state_tests.rs"]
mod state_tests;
#[cfg(test)]
#[path = "parts_tests.rs"]
mod tests;
