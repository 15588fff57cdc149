//! Calls by chance: every function, half of the calls sound and of a known shape, half of them damaged.

use super::call::{Areas, Call, Function, FUNCTIONS};
use super::chance::Chance;
use super::ends::ends;
use super::shapes::{a_pair, curve};
use super::sheets;
use super::states::{
    changed_state, ended_state, hurt_state, long_state, moved_state, other_mission_state,
    other_part, other_state, overfull_state, sound_state, uncounted_record,
};
use crate::parts::NUMBERS;
use crate::sheet::{HEADER_LENGTH, SHEET_LIMIT};

/// No line of a report is longer.
const LINE: usize = 60;

pub fn call(chance: &mut Chance) -> Call {
    let (function, _) = chance.pick(&FUNCTIONS);
    let mut call = sound(chance, function);
    if chance.one_in(2) {
        for _ in 0..chance.pick(&[1, 1, 1, 2, 3]) {
            let way = chance.pick(ways(function));
            way(chance, &mut call);
        }
    }
    call
}

fn sound(chance: &mut Chance, function: Function) -> Call {
    use Function::*;
    let mut singles = [0; 6];
    let mut before = Areas::default();
    if matches!(
        function,
        Check | Read | Find | Erase | Start | Append | Report
    ) {
        before.sheet = sheets::sheet(chance);
    }
    match function {
        Recognise | Length | Inflections | Append => {
            before.numbers = sheets::coordinates(&curve(chance))
        }
        Offset => {
            before.numbers = sheets::coordinates(&curve(chance));
            singles[0] = distance(chance);
        }
        Build => {
            singles[..2].copy_from_slice(&parts(chance, 20_000));
            before.numbers = pre_image(chance);
        }
        Joins => singles = ends(chance),
        Root => singles[0] = any_number(chance) as i64,
        Start => {
            singles[0] = sheets::mission(chance).into();
            let length = before.sheet.len().max(HEADER_LENGTH);
            before.sheet.resize(length, 0xFF);
        }
        Read | Find => {
            let any = sheets::mission(chance);
            let written = sheets::written_mission(&before.sheet);
            singles[0] = written.unwrap_or(any).into();
            singles[1] = 1 + chance.below(sheets::curves(&before.sheet).max(1)) as i64;
        }
        Report => {
            let room = LINE * (sheets::curves(&before.sheet) + 1);
            before.text = garbage(chance, room).iter().map(|&x| x as u8).collect();
        }
        Check | Erase | PartsStart | PartsFeed | PartsEnd | PartsAsk => (),
    }
    before.out = lent(chance, function, before.numbers.len());
    let mut call = Call {
        function,
        singles,
        before,
    };
    if matches!(function, PartsFeed | PartsEnd | PartsAsk) {
        sound_state(chance, &mut call);
    }
    call
}

/// The number area of a call, which has room enough; nothing where it has none.
fn lent(chance: &mut Chance, function: Function, numbers: usize) -> Vec<i64> {
    use Function::*;
    if matches!(function, Check | Erase | Start | Append | Report) {
        return Vec::new();
    }
    let room = needed(function, numbers) + chance.pick(&[0, 0, 1, 7]);
    garbage(chance, room)
}

/// How many numbers are always enough.
fn needed(function: Function, numbers: usize) -> usize {
    match function {
        Function::Recognise => 15,
        Function::Length => 3,
        Function::Inflections => 5,
        Function::Offset if numbers == 8 => 18,
        Function::Build if numbers == 4 => 8,
        Function::Joins => 24,
        Function::Build | Function::Read => 12,
        Function::Find | Function::Root => 2,
        Function::PartsStart | Function::PartsFeed | Function::PartsEnd | Function::PartsAsk => {
            NUMBERS
        }
        _ => 30,
    }
}

/// What an area holds before a call that writes it.
fn garbage(chance: &mut Chance, room: usize) -> Vec<i64> {
    (0..room).map(|_| chance.bits() as i64).collect()
}

fn parts(chance: &mut Chance, limit: i64) -> [i64; 2] {
    let x = a_pair(chance, limit);
    [x.re as i64, x.im as i64]
}

fn distance(chance: &mut Chance) -> i64 {
    let any = chance.between(-20_000, 20_000);
    chance.pick(&[0, 1, -7, 20_000, -20_000, any, any])
}

/// Numbers of w, often divisible by 3, so that the thirds are whole.
fn pre_image(chance: &mut Chance) -> Vec<i64> {
    let (limit, times) = chance.pick(&[
        (0, 1),
        (2, 1),
        (9, 1),
        (3, 3),
        (20, 3),
        (66, 3),
        (141, 1),
        (200, 1),
    ]);
    let pairs = chance.pick(&[2, 3]);
    (0..pairs)
        .flat_map(|_| parts(chance, limit))
        .map(|x| times * x)
        .collect()
}

/// Of any width, the ends of the range, or beside the square of a root of any width: just below it, it, or the last before the next.
fn any_number(chance: &mut Chance) -> u64 {
    let any = chance.bits() >> chance.between(32, 63);
    let k = chance.pick(&[any, any, any, u32::MAX.into()]);
    match chance.below(8) {
        0 => chance.bits() >> chance.below(64),
        1 => chance.pick(&[0, u64::MAX]),
        2 | 3 => (k * k).saturating_sub(1),
        4 | 5 => k * k,
        _ => k * k + 2 * k,
    }
}

type Way = fn(&mut Chance, &mut Call);

/// How a call of the function can be damaged.
fn ways(function: Function) -> &'static [Way] {
    use Function::*;
    match function {
        Recognise | Length | Inflections => &[wrong_count, far_number, small_room],
        Offset | Build => &[wrong_count, far_number, far_single, small_room],
        Joins => &[far_single, dead_end, small_room],
        Root | PartsStart => &[small_room],
        Check | Erase => &[hurt_sheet],
        Start => &[hurt_sheet, other_size],
        Read | Find => &[hurt_sheet, other_mission, other_number, small_room],
        Append => &[hurt_sheet, wrong_count, far_number],
        Report => &[hurt_sheet, small_text],
        PartsFeed => FEED_WAYS,
        PartsEnd | PartsAsk => END_WAYS,
    }
}

const FEED_WAYS: &[Way] = &[
    hurt_state,
    long_state,
    changed_state,
    moved_state,
    other_state,
    other_mission_state,
    overfull_state,
    ended_state,
    uncounted_record,
    other_part,
    small_room,
];

/// Faults of a sheet show at its end alone, and some are rare.
const END_WAYS: &[Way] = &[
    hurt_state,
    hurt_state,
    hurt_state,
    hurt_state,
    long_state,
    changed_state,
    moved_state,
    other_state,
    other_mission_state,
    overfull_state,
    uncounted_record,
    small_room,
];

fn wrong_count(chance: &mut Chance, call: &mut Call) {
    let more = chance.between(-3, 3);
    call.before.numbers.resize(chance.below(15), more);
}

/// At an edge, just beyond one, or far beyond.
fn far(chance: &mut Chance) -> i64 {
    let any = chance.bits() as i64;
    let edge = chance.pick(&[200, 20_000, 40_000, 1 << 31, 1 << 32]);
    let by = chance.between(-1, 1);
    chance.pick(&[
        edge + by,
        edge + by,
        -edge + by,
        -edge + by,
        i64::MIN,
        i64::MAX,
        any,
    ])
}

fn far_number(chance: &mut Chance, call: &mut Call) {
    let number = far(chance);
    let count = call.before.numbers.len();
    if count > 0 {
        call.before.numbers[chance.below(count)] = number;
    }
}

fn far_single(chance: &mut Chance, call: &mut Call) {
    let used = match call.function {
        Function::Offset => 1,
        Function::Build => 2,
        _ => 6,
    };
    call.singles[chance.below(used)] = far(chance);
}

fn dead_end(chance: &mut Chance, call: &mut Call) {
    let first = chance.pick(&[0, 2]);
    call.singles[first..first + 2].fill(0);
}

fn small_room(chance: &mut Chance, call: &mut Call) {
    let most = call.before.out.len();
    let any = chance.below(most + 1);
    let near = most.saturating_sub(chance.below(9));
    call.before.out.truncate(chance.pick(&[0, near, near, any]));
}

fn hurt_sheet(chance: &mut Chance, call: &mut Call) {
    sheets::damage(chance, &mut call.before.sheet);
}

/// At the ends of what can be started, or beyond them.
fn other_size(chance: &mut Chance, call: &mut Call) {
    let short = chance.below(HEADER_LENGTH + 2);
    let long = SHEET_LIMIT + chance.below(3);
    let byte = chance.bits() as u8;
    call.before
        .sheet
        .resize(chance.pick(&[short, short, long]), byte);
}

/// One that has a byte in common with the expected one, or any.
fn other_mission(chance: &mut Chance, call: &mut Call) {
    let (own, byte) = (call.singles[0], 1 + chance.below(255) as i64);
    let any = sheets::mission(chance).into();
    call.singles[0] = chance.pick(&[own ^ byte, own ^ (byte << 8), own ^ 1, own ^ 256, any, any]);
}

fn other_number(chance: &mut Chance, call: &mut Call) {
    let behind = sheets::curves(&call.before.sheet) as i64 + 1;
    call.singles[1] = chance.pick(&[0, behind, behind + 1, -1, i64::MIN, (1 << 32) + 1]);
}

/// At, just below or far below what the report needs.
fn small_text(chance: &mut Chance, call: &mut Call) {
    let sheet = &call.before.sheet;
    let needed = crate::report::report(sheet).map_or_else(|text| text.len(), |text| text.len());
    let short = chance.below(needed);
    call.before
        .text
        .truncate(chance.pick(&[needed, needed - 1, needed + 1, short, 0]));
}

#[cfg(test)]
#[path = "calls_tests.rs"]
mod tests;
