//! The face for C: what each call of the library returns and leaves in the areas lent to it, by this program's answers.

use super::call::{Answer, Areas, Call, Function};
use crate::build::build;
use crate::curve::Curve;
use crate::join::joins;
use crate::measure::{inflections, length};
use crate::offset::offset;
use crate::pair::{pair, Pair};
use crate::parts;
use crate::refusal::Refusal;
use crate::report::report;
use crate::root::root;
use crate::sheet::{append, check, count, erase, read, start, Fault, HEADER_LENGTH};
use crate::verdict::{recognise, Ph, Pre, Verdict};

/// What the check by parts returns where it is asked before the end.
pub const NOT_ENDED: i64 = i64::MIN;

/// What came back and what the areas hold afterwards.
pub fn answer(call: &Call) -> Answer {
    let mut after = call.before.clone();
    let told = match call.function {
        Function::PartsAsk => parts::ask(&after.out),
        _ => counted(call, &mut after).map(Some),
    };
    let returned = match told {
        Ok(Some(count)) => count as i64,
        Ok(None) => NOT_ENDED,
        Err(fault) => code(fault),
    };
    Answer { returned, after }
}

/// The answer of a call that always has one, and what it leaves in its areas.
fn counted(call: &Call, after: &mut Areas) -> Result<usize, Fault> {
    match call.function {
        Function::PartsStart => {
            parts::start(&mut after.out)?;
            Ok(0)
        }
        Function::PartsFeed => {
            parts::feed(&mut after.out, &call.before.sheet)?;
            Ok(0)
        }
        Function::PartsEnd => parts::end(&mut after.out),
        Function::Check => count(&call.before.sheet),
        Function::Erase => {
            erase(&mut after.sheet)?;
            Ok(0)
        }
        Function::Start => {
            start(&mut after.sheet, mission(call))?;
            Ok(0)
        }
        Function::Append => {
            let appended = append(&mut after.sheet, &curve_in(call)?);
            appended.map_err(|refusal| placed(&call.before.sheet, refusal))?;
            Ok(0)
        }
        Function::Report => {
            let text = report(&call.before.sheet).unwrap_or_else(|refused| refused);
            filled(&mut after.text, text.as_bytes())
        }
        _ => {
            let numbers = numbers_of(call).and_then(|(count, numbers)| {
                filled(&mut after.out, &numbers)?;
                Ok(count)
            });
            if numbers.is_err() {
                after.out.fill(0);
            }
            numbers
        }
    }
}

/// Minus the refusal's number and 32 times its place.
fn code(fault: Fault) -> i64 {
    -(i64::from(fault.refusal.number()) + 32 * fault.place as i64)
}

/// The answer from the area's start and zeros behind it; zeros alone where it does not fit.
fn filled<T: Copy + Default>(area: &mut [T], answer: &[T]) -> Result<usize, Fault> {
    area.fill(T::default());
    let start = area.get_mut(..answer.len()).ok_or(Refusal::Room)?;
    start.copy_from_slice(answer);
    Ok(answer.len())
}

/// Of a call that checks the sheet: a fault has its place; what is refused of a sheet without one has none.
fn placed(sheet: &[u8], refusal: Refusal) -> Fault {
    check(sheet).err().unwrap_or(refusal.into())
}

/// What the call returns and the numbers that it writes, for the calls with a number area.
fn numbers_of(call: &Call) -> Result<(usize, Vec<i64>), Fault> {
    let numbers = match call.function {
        Function::Recognise => verdict_numbers(recognise(&curve_in(call)?)?),
        Function::Length => {
            let found = length(&curve_in(call)?)?;
            vec![found.c, found.a, found.b]
        }
        Function::Inflections => {
            let found = inflections(&curve_in(call)?)?;
            let [t0, t1, t2] = found.turning;
            vec![t0, t1, t2, found.count as i128, found.straight.into()]
        }
        Function::Offset => offset(
            &curve_in(call)?,
            call.singles[0].into(),
            call.before.out.len(),
        )?,
        Function::Build => parts(built(call)?.points()),
        Function::Joins => {
            let [a, z, travel] = [0, 2, 4].map(|k| a_pair(&call.singles[k..]));
            let triples = joins(a, z, travel, call.before.out.len())?;
            return Ok((triples.len(), narrow(parts(&triples.concat()))));
        }
        Function::Read => parts(of_number(call)?.points()),
        Function::Root => {
            let (root, rest) = root(call.singles[0] as u64);
            vec![root.into(), rest.into()]
        }
        _ => place_and_length(call)?,
    };
    Ok((numbers.len(), narrow(numbers)))
}

fn narrow(numbers: Vec<i128>) -> Vec<i64> {
    let fitting = |x| i64::try_from(x).expect("every number of an answer has 64 bits");
    numbers.into_iter().map(fitting).collect()
}

fn a_pair(numbers: &[i64]) -> Pair {
    pair(numbers[0].into(), numbers[1].into())
}

fn pairs(numbers: &[i64]) -> Vec<Pair> {
    numbers.chunks(2).map(a_pair).collect()
}

fn parts(pairs: &[Pair]) -> Vec<i128> {
    pairs.iter().flat_map(|x| [x.re, x.im]).collect()
}

fn curve_in(call: &Call) -> Result<Curve, Fault> {
    let numbers = &call.before.numbers;
    Refusal::Length.when(!matches!(numbers.len(), 8 | 12))?;
    Ok(Curve::new(pairs(numbers)).expect("4 or 6 points"))
}

fn built(call: &Call) -> Result<Curve, Fault> {
    let w = &call.before.numbers;
    Refusal::Length.when(!matches!(w.len(), 4 | 6))?;
    Ok(build(a_pair(&call.singles), &pairs(w))?)
}

/// The mission that a sheet is started for, or that a reader expects.
fn mission(call: &Call) -> u16 {
    u16::try_from(call.singles[0]).expect("the prototype takes no other")
}

fn of_number(call: &Call) -> Result<Curve, Fault> {
    let (sheet, number) = (&call.before.sheet, call.singles[1] as usize);
    read(sheet, mission(call), number).map_err(|refusal| placed(sheet, refusal))
}

/// Where the record lies: behind the header and all curves before it.
fn place_and_length(call: &Call) -> Result<Vec<i128>, Fault> {
    of_number(call)?;
    let lengths = check(&call.before.sheet)?.records;
    let mut lengths = lengths.iter().map(|record| record.part.len() as i128);
    let before: i128 = lengths.by_ref().take(call.singles[1] as usize - 1).sum();
    Ok(vec![
        HEADER_LENGTH as i128 + before,
        lengths.next().expect("a record of that number"),
    ])
}

/// Number of the verdict, c, q0 to q4, κ, b0, b1, b2; zeros for what it does not have.
fn verdict_numbers(verdict: Verdict) -> Vec<i128> {
    let (number, c, q, pairs) = match verdict {
        Verdict::Still => (0, 0, vec![], vec![]),
        Verdict::No => (1, 0, vec![], vec![]),
        Verdict::Ph(Ph { c, q }) => (2, c, q, vec![]),
        Verdict::Pre(Pre { c, q, kappa, w }) => (3, c, q, [vec![kappa], w].concat()),
    };
    let mut numbers = vec![number, c];
    numbers.extend(q);
    numbers.resize(7, 0);
    numbers.extend(parts(&pairs));
    numbers.resize(15, 0);
    numbers
}

#[cfg(test)]
#[path = "face_tests.rs"]
mod tests;
