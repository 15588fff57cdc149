//! How often each outcome of each call was compared, so that a reader sees that every one of them was.

use super::call::{Answer, Areas, Call, Function, FUNCTIONS};
use super::face::NOT_ENDED;
use crate::parts::{bytes_with, NUMBERS};
use crate::refusal::{
    name_of,
    Refusal::{self, *},
};
use crate::sheet::{LONGEST_RECORD, SHEET_LIMIT};

const SHEET_FAULTS: [Refusal; 6] = [TooLong, Cut, Leftover, Kind, Length, Range];
const VERDICTS: [&str; 4] = ["still", "no", "ph", "pre"];
/// Lists whose middle coefficients are all whole, by their length; then those with halves alone, and with both.
const TRIPLES: [&str; 7] = [
    "none",
    "one",
    "two",
    "three",
    "four",
    "half steps",
    "both kinds",
];
const TURNS: [&str; 4] = ["none", "one", "two", "straight"];
const LEFT: [&str; 3] = ["nothing", "some", "most"];
/// What a part left: a sheet that is too long, an erased tail or a fault, or else no record more, the header alone, one
/// curve or several.
const FED: [&str; 8] = [
    "empty",
    "too long",
    "erased",
    "fault",
    "no record",
    "the header",
    "a curve",
    "several",
];
/// Numbers that are no state are RANGE, as a record may be: they are counted apart.
const NO_STATE: &str = "no state";
/// So are an all-FF sheet without that curve, which is NUMBER, and a mission that is other in one byte alone.
const ERASED: &str = "erased";
const NEARLY: &str = "other in a byte";

struct Row {
    function: Function,
    outcomes: Vec<(&'static str, u64)>,
}

/// A row for each function, with every outcome that it has.
pub struct Tally {
    rows: Vec<Row>,
}

impl Tally {
    pub fn new() -> Tally {
        let rows = FUNCTIONS.map(|(function, _)| {
            let refusals = refusals(function)
                .into_iter()
                .map(|refusal| name_of(refusal as i64));
            let all = answers(function).iter().copied().chain(refusals);
            let outcomes = all.map(|outcome| (outcome, 0)).collect();
            Row { function, outcomes }
        });
        Tally { rows: rows.into() }
    }

    pub fn add(&mut self, call: &Call, answer: &Answer) {
        let row = &mut self.rows[call.function as usize - 1];
        let outcome = outcome(call, answer);
        let met = row.outcomes.iter_mut().find(|(name, _)| *name == outcome);
        met.expect("each function's outcomes are all listed").1 += 1;
    }

    /// A line for each function.
    pub fn text(&self) -> String {
        let line = |row: &Row| {
            let sum: u64 = row.outcomes.iter().map(|(_, times)| times).sum();
            let parts: Vec<String> = row
                .outcomes
                .iter()
                .map(|(name, times)| format!("{name} {times}"))
                .collect();
            format!(
                "{:<17}{sum:>8}: {}\n",
                row.function.name(),
                parts.join(", ")
            )
        };
        self.rows.iter().map(line).collect()
    }

    /// The outcomes that no call had.
    pub fn never_met(&self) -> Vec<String> {
        let of_row = |row: &Row| {
            let name = row.function.name();
            let never = row.outcomes.iter().filter(|(_, times)| *times == 0);
            never
                .map(|(outcome, _)| format!("{name}: {outcome}"))
                .collect::<Vec<_>>()
        };
        self.rows.iter().flat_map(of_row).collect()
    }
}

/// The kinds of answer that are counted apart.
fn answers(function: Function) -> &'static [&'static str] {
    match function {
        Function::Recognise => &VERDICTS,
        Function::Inflections => &TURNS,
        Function::Joins => &TRIPLES,
        Function::Length | Function::Offset | Function::Build => &["cubic", "quintic"],
        Function::Read | Function::Find => &["cubic", "quintic", ERASED, NEARLY],
        Function::Check => &[ERASED, "header alone", "curves"],
        Function::Erase | Function::Start | Function::Append | Function::PartsStart => &["done"],
        Function::PartsFeed => &FED,
        Function::PartsEnd => &[ERASED, "header alone", "curves", "ended again", NO_STATE],
        Function::PartsAsk => &[ERASED, "header alone", "curves", "not ended", NO_STATE],
        Function::Report => &["no mission", "report", "fault"],
        Function::Root => &LEFT,
    }
}

/// The refusals of each function, in order; a name that comes twice in an order stands once.
fn refusals(function: Function) -> Vec<Refusal> {
    match function {
        Function::Recognise => vec![Length, Range, Room],
        Function::Length | Function::Inflections => {
            vec![Length, Range, Still, NotPh, NoPreimage, Room]
        }
        Function::Offset => vec![Length, Range, Still, NotPh, NoPreimage, Root, Room],
        Function::Build => vec![Length, Range, Still, Thirds, Room],
        Function::Joins => vec![Range, DeadEnd, Room],
        Function::Check => SHEET_FAULTS.to_vec(),
        Function::Read | Function::Find => {
            [&SHEET_FAULTS[..], &[OtherMission, Number, Room]].concat()
        }
        Function::Erase => vec![TooLong],
        Function::Start => vec![TooLong, Room],
        Function::Append => [&SHEET_FAULTS[..], &[NoMission, Room]].concat(),
        Function::Report | Function::Root | Function::PartsStart => vec![Room],
        Function::PartsFeed => vec![Room, Range, Ended],
        Function::PartsEnd | Function::PartsAsk => [&[Room], &SHEET_FAULTS[..]].concat(),
    }
}

fn outcome(call: &Call, answer: &Answer) -> &'static str {
    let (out, returned) = (&answer.after.out, answer.returned);
    if returned < 0 && returned != NOT_ENDED {
        return refused(call, answer);
    }
    let which = match call.function {
        Function::Recognise => out[0] as usize,
        Function::Inflections => (if out[4] == 1 { 3 } else { out[3] }) as usize,
        Function::Joins => kind_of_list(answer.returned as usize, out),
        Function::Length => usize::from(out[2] == 12),
        Function::Offset => usize::from(answer.returned == 30),
        Function::Build | Function::Read => usize::from(answer.returned == 12),
        Function::Find => usize::from(out[1] == 52),
        Function::Check => kind_of_sheet(returned, is_erased(&call.before.sheet)),
        Function::Erase | Function::Start | Function::Append | Function::PartsStart => 0,
        Function::PartsFeed => kind_of_part(call, out),
        Function::PartsEnd if call.before.out[0] == 1 => 3,
        Function::PartsAsk if returned == NOT_ENDED => 3,
        Function::PartsEnd | Function::PartsAsk => kind_of_sheet(returned, out[4] == 0),
        Function::Report => kind_of_report(&answer.after.text),
        // Of 0 nothing is left over, which is the most too.
        Function::Root => usize::from(out[1] > 0) + usize::from(out[1] > 0 && out[1] == 2 * out[0]),
    };
    answers(call.function)[which]
}

/// The refusal's name, or the outcome that is counted apart from it.
fn refused(call: &Call, answer: &Answer) -> &'static str {
    let Areas { sheet, out, .. } = &call.before;
    let number = -answer.returned % 32;
    let is_state = || out.first_chunk().and_then(bytes_with).is_some();
    match call.function {
        Function::PartsEnd | Function::PartsAsk if out.len() >= NUMBERS && !is_state() => NO_STATE,
        Function::Read | Function::Find if number == Number as i64 && is_erased(sheet) => ERASED,
        Function::Read | Function::Find if number == OtherMission as i64 && is_near(call) => NEARLY,
        _ => name_of(number),
    }
}

fn is_erased(sheet: &[u8]) -> bool {
    sheet.iter().all(|&byte| byte == 0xFF)
}

/// Whether the expected mission has a byte in common with the header's, which are the sheet's fifth and sixth.
fn is_near(call: &Call) -> bool {
    let expected = call.singles[0].to_le_bytes();
    call.before.sheet[4..6]
        .iter()
        .zip(expected)
        .any(|(&a, b)| a == b)
}

/// Erased, a header alone, or with curves.
fn kind_of_sheet(curves: i64, erased: bool) -> usize {
    match (curves, erased) {
        (0, true) => 0,
        (0, false) => 1,
        _ => 2,
    }
}

fn kind_of_report(text: &[u8]) -> usize {
    if text.starts_with(b"mission none") {
        0
    } else if text.starts_with(b"mission") {
        1
    } else {
        2
    }
}

/// Which of TRIPLES a list is.
fn kind_of_list(count: usize, out: &[i64]) -> usize {
    let is_half = |triple: &&[i64]| triple[2] % 2 != 0 || triple[3] % 2 != 0;
    match out.chunks(6).take(count).filter(is_half).count() {
        0 => count,
        halves if halves == count => 5,
        _ => 6,
    }
}

/// Which of FED a part was. Where more bytes are left than a record has, a fault stands before them.
fn kind_of_part(call: &Call, out: &[i64]) -> usize {
    if call.before.sheet.is_empty() {
        0
    } else if out[1] > SHEET_LIMIT as i64 {
        1
    } else if out[5] > 1 {
        2
    } else if out[1] - out[4] > LONGEST_RECORD as i64 {
        3
    } else if out[4] == call.before.out[4] {
        4
    } else {
        5 + (out[3] - call.before.out[3]).min(2) as usize
    }
}
