//! States of a check by parts and the part that comes next, from sheets that are cut anywhere, and ways to damage them.

use super::call::{Call, Function};
use super::chance::Chance;
use super::shapes::curve;
use super::sheets::{damage, mission, sheet};
use crate::parts::{state, NUMBERS};
use crate::sheet::{
    check, count, header_bytes, record_bytes, HEADER_LENGTH, LONGEST_RECORD, SHEET_LIMIT,
};

/// No area that is sent has more bytes.
const LARGEST: usize = 8_192;

/// The numbers of a state before those that hold bytes.
const SIZES: usize = 6;
/// Which of them is the place.
const PLACE: usize = 4;

/// Of a sheet without fault, now and then a full one.
pub fn sound_state(chance: &mut Chance, call: &mut Call) {
    let bytes = if chance.one_in(12) {
        full(chance)
    } else {
        sheet(chance)
    };
    lay(chance, call, &bytes);
}

/// Of a sheet with a fault, now and then with records behind it, which do not count.
pub fn hurt_state(chance: &mut Chance, call: &mut Call) {
    let mut bytes = sheet(chance);
    while check(&bytes).is_ok() {
        damage(chance, &mut bytes);
    }
    if chance.one_in(4) {
        bytes.extend(sheet(chance));
        bytes.truncate(LARGEST);
    }
    lay(chance, call, &bytes);
}

/// Of a sheet as long as it may be, or longer.
pub fn long_state(chance: &mut Chance, call: &mut Call) {
    let mut bytes = full(chance);
    let more = chance.pick(&[0, 1, 2, 60, 4_000]);
    let byte = chance.pick(&[0, 0xFF, 0xFF, 0x24]);
    bytes.resize(SHEET_LIMIT + more, byte);
    lay(chance, call, &bytes);
}

/// A header, one record many times, and perhaps an erased tail.
fn full(chance: &mut Chance) -> Vec<u8> {
    let record = record_bytes(&curve(chance)).expect("coordinates within the range");
    let most = (SHEET_LIMIT - HEADER_LENGTH) / record.len();
    let few = chance.below(most + 1);
    let mut bytes = header_bytes(mission(chance));
    bytes.extend(record.repeat(chance.pick(&[most, most, few])));
    let tail = chance.pick(&[0, 1, 2, 28, SHEET_LIMIT]);
    bytes.resize(SHEET_LIMIT.min(bytes.len() + tail), 0xFF);
    bytes
}

/// The sheet's bytes up to a cut as the state, and some of those behind the cut as the part.
fn lay(chance: &mut Chance, call: &mut Call, bytes: &[u8]) {
    let any = chance.below(bytes.len() + 1);
    let feeds = call.function == Function::PartsFeed;
    // A sheet that is ended is most often whole.
    let at = if feeds {
        chance.pick(&[any, any, any, 0])
    } else {
        chance.pick(&[any, bytes.len(), bytes.len(), bytes.len()])
    };
    let (fed, rest) = bytes.split_at(at);
    let ended = match call.function {
        Function::PartsFeed => false,
        Function::PartsEnd => chance.one_in(3),
        _ => !chance.one_in(3),
    };
    put(call, &state(fed, ended));
    if feeds {
        call.before.sheet = rest[..size(chance, rest.len())].to_vec();
    }
}

/// How many of so many bytes a part has: none, one, a few, as many as a cable hands over, or all.
fn size(chance: &mut Chance, all: usize) -> usize {
    let few = chance.below(60);
    let many = chance.below(900);
    all.min(chance.pick(&[0, 1, 4, few, few, 64, many, all, all]))
}

/// As much of a state as the area has room for.
fn put(call: &mut Call, numbers: &[i64]) {
    for (there, &number) in call.before.out.iter_mut().zip(numbers) {
        *there = number;
    }
}

/// A part that does not continue the sheet.
pub fn other_part(chance: &mut Chance, call: &mut Call) {
    let size = chance.pick(&[0, 1, 2, 3, 64, 700, 4_096, 4_097]);
    let any = chance.bits() as u8;
    let bytes = chance.pick(&[
        [0xFF; 4],
        [0xFF; 4],
        [0xFF, 0xFF, 0xFF, 0],
        [0xFF, 0, 0x24, any],
    ]);
    call.before.sheet = (0..size).map(|_| chance.pick(&bytes)).collect();
}

pub fn ended_state(_: &mut Chance, call: &mut Call) {
    put(call, &[1]);
}

/// One number is a little other than it was, that of another place, or any.
pub fn changed_state(chance: &mut Chance, call: &mut Call) {
    let most = call.before.out.len().min(NUMBERS);
    if most == 0 {
        return;
    }
    let (size, any) = (chance.below(most.min(SIZES)), chance.below(most));
    let (k, by) = if chance.one_in(3) {
        (any, 1 << chance.below(64))
    } else {
        (size, chance.pick(&[1, -1, 16, -16, 36, -36, 52]))
    };
    let other = call.before.out[any];
    let bits = chance.bits() as i64;
    let there = &mut call.before.out[k];
    *there = match chance.below(8) {
        0..=3 => there.wrapping_add(by),
        4 => other,
        5 => 0,
        6 => bits,
        _ => chance.pick(&[i64::MIN, i64::MAX, -1]),
    };
}

/// The place moves, and all behind it: the count of curves alone can tell.
pub fn moved_state(chance: &mut Chance, call: &mut Call) {
    let by = chance.pick(&[1, -1, 6, -6, 8, 16, -16, 36, -36, 52, -52]);
    for k in [1, PLACE] {
        if let Some(number) = call.before.out.get_mut(k) {
            *number = number.wrapping_add(by);
        }
    }
}

/// A sound record that is not counted, the header among them: numbers as of a faulty one, and its kind as it should be.
pub fn uncounted_record(chance: &mut Chance, call: &mut Call) {
    let mut fed = full(chance);
    let curves = count(&fed).unwrap_or(0);
    let length = usize::from(fed.get(HEADER_LENGTH).copied().unwrap_or(0));
    let place = if curves == 0 || chance.one_in(4) {
        0
    } else {
        HEADER_LENGTH + length * chance.below(curves)
    };
    fed[place + 3] ^= 1;
    fed.truncate(place + length.max(HEADER_LENGTH) + chance.below(70));
    let mut numbers = state(&fed, chance.one_in(2));
    numbers[SIZES] ^= 1 << 24;
    put(call, &numbers);
}

/// The mission of a state where there is no header yet, or one that no header has.
pub fn other_mission_state(chance: &mut Chance, call: &mut Call) {
    let place = call.before.out.get(PLACE).copied();
    let Some(there) = call.before.out.get_mut(2) else {
        return;
    };
    let any = i64::from(mission(chance));
    *there = if place == Some(0) {
        chance.pick(&[1, any, 65_535])
    } else {
        chance.pick(&[-1, 65_536, any - 65_536, any + 65_536, any << 16])
    };
}

/// The bytes behind the 52 in the last number too, which has room for them.
pub fn overfull_state(chance: &mut Chance, call: &mut Call) {
    let byte = chance.pick(&[0xFF, 0xFF, 0, 7]);
    let fed = vec![byte; chance.pick(&[LONGEST_RECORD, 53, 55, 56, 60, SHEET_LIMIT])];
    let mut numbers = state(&fed, chance.one_in(2));
    let behind = fed.iter().skip(LONGEST_RECORD).take(4);
    for (k, &byte) in behind.enumerate() {
        numbers[NUMBERS - 1] |= i64::from(byte) << (32 + 8 * k);
    }
    put(call, &numbers);
}

/// Numbers of which most are no state.
pub fn other_state(chance: &mut Chance, call: &mut Call) {
    let mut numbers = [chance.pick(&[0, 0, -1, 1, i64::MIN]); NUMBERS];
    match chance.below(4) {
        0 => numbers.fill_with(|| chance.bits() as i64),
        1 => numbers[chance.below(SIZES)] = chance.pick(&[1, 2, 6, 4_096, 4_097, 4_098]),
        2 => {
            numbers = state(&[0; SHEET_LIMIT + 1], chance.one_in(2));
            numbers[chance.below(NUMBERS)] = chance.pick(&[0, 1, 6, 42, 4_097]);
        }
        _ => (),
    }
    put(call, &numbers);
}

#[cfg(test)]
mod tests {
    use super::*;
    use crate::parts::{end, feed, start};

    /// Sheets of every kind in parts of every size: each state on the way is that of all the bytes, and the end is the
    /// whole check.
    #[test]
    fn sheets_by_chance_in_parts() {
        let mut chance = Chance::new(9);
        let mut area = [0; NUMBERS];
        for _ in 0..2_000 {
            let mut bytes = sheet(&mut chance);
            if chance.one_in(2) {
                damage(&mut chance, &mut bytes);
            }
            start(&mut area).expect("room for a state");
            let mut at = 0;
            while at < bytes.len() {
                let to = at + size(&mut chance, bytes.len() - at);
                feed(&mut area, &bytes[at..to]).expect("not ended");
                assert_eq!(area, state(&bytes[..to], false));
                at = to;
            }
            assert_eq!(end(&mut area), count(&bytes));
        }
    }
}
