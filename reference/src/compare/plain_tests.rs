//! The plain versions that the library is timed against, held to this program's answers: on calls made by chance and on
//! the document's cases.

use super::call::{Answer, Areas, Call, Function};
use super::chance::Chance;
use super::tally::Tally;
use super::{calls, face};
use crate::curve::along;
use crate::pair::{pair, Pair};

/// What each plain version of the call's function answers; nothing of the functions that have none.
fn plain_answers(call: &Call) -> Vec<Answer> {
    let Areas { numbers, sheet, .. } = &call.before;
    let versions: &[&dyn Fn(&mut Areas) -> i64] = match call.function {
        Function::Recognise => &[
            &|after| plain::recognise::<false>(numbers, &mut after.out),
            &|after| plain::recognise::<true>(numbers, &mut after.out),
            &|after| plain::recognise_by_legs(numbers, &mut after.out),
        ],
        Function::Joins => &[&|after| plain::joins(call.singles, &mut after.out)],
        Function::Check => &[
            &|_| plain::check(sheet),
            &|_| by_parts(sheet, 1),
            &|_| by_parts(sheet, 7),
            &|_| by_parts(sheet, 64),
            &|_| by_parts(sheet, 4_097),
        ],
        Function::Report => &[&|after| plain::report(sheet, &mut after.text)],
        _ => &[],
    };
    let answer = |version: &&dyn Fn(&mut Areas) -> i64| {
        let mut after = call.before.clone();
        let returned = version(&mut after);
        Answer { returned, after }
    };
    versions.iter().map(answer).collect()
}

/// The plain check of a sheet in parts of this size, with an empty one behind them; ended, and ended again.
fn by_parts(sheet: &[u8], size: usize) -> i64 {
    let mut parts = plain::Parts::default();
    for part in sheet.chunks(size).chain([&[][..]]) {
        assert_eq!(plain::feed(&mut parts, part), 0);
    }
    let returned = plain::end(&mut parts);
    assert_eq!(plain::feed(&mut parts, &[]), -19);
    assert_eq!(plain::end(&mut parts), returned);
    returned
}

fn hold(call: &Call) -> Answer {
    let expected = face::answer(call);
    for answer in plain_answers(call) {
        assert_eq!(answer, expected, "{call}");
    }
    expected
}

#[test]
fn calls_by_chance() {
    let mut chance = Chance::new(7);
    let mut tally = Tally::new();
    for _ in 0..100_000 {
        let call = calls::call(&mut chance);
        tally.add(&call, &hold(&call));
    }
    assert_eq!(tally.never_met(), Vec::<String>::new());
}

/// The first number of the answer, and what came back.
fn told(function: Function, singles: [i64; 6], numbers: &[i64]) -> (i64, i64) {
    let before = Areas {
        numbers: numbers.to_vec(),
        out: vec![9; 25],
        ..Areas::default()
    };
    let call = Call {
        function,
        singles,
        before,
    };
    assert!(!plain_answers(&call).is_empty());
    let expected = hold(&call);
    (expected.after.out[0], expected.returned)
}

fn verdict(numbers: &[i64]) -> (i64, i64) {
    told(Function::Recognise, [0; 6], numbers)
}

#[test]
fn cases_of_the_document() {
    assert_eq!(verdict(&[0, 0, 1, 0, 2, 0, 3, 0, 4, 0, 5, 0]), (3, 15));
    assert_eq!(verdict(&[0, 0, 1, 0, 1, 1, 0, 1]), (3, 15));
    assert_eq!(verdict(&[0, 0, 1, 0, 1, 1, 2, 1]), (1, 15));
    assert_eq!(verdict(&[0, 0, 0, 0, 1, 0, 3, 0]), (2, 15));
    assert_eq!(verdict(&[0, 0, 1, 0, 2, 0, 3, 0, 4, 0, 6, 0]), (2, 15));
    assert_eq!(
        verdict(&[0, 0, 6, 0, 12, 3, 17, 7, 23, 10, 29, 10]),
        (3, 15)
    );
    assert_eq!(verdict(&[0, 0, 1, 0, -1, -1, 1, 2, 2, 0, 1, 0]), (3, 15));
    assert_eq!(told(Function::Joins, [1, 0, 1, 0, 5, 0], &[]), (1, 2));
    assert_eq!(told(Function::Joins, [1, 0, -1, 0, 1, 0], &[]), (1, 2));
}

#[test]
fn a_common_divisor_whose_square_passes_64_bits() {
    let (far, near) = ([20_000, 19_999], [-20_000, -20_000]);
    let points = [near, far, near, far].concat();
    assert_eq!(verdict(&points), (3, 15));
}

/// What stands on a line behind `recognise`, in the trials of the library.
#[test]
fn curves_of_the_trials() {
    let lines = include_str!("../../../crates/trials/stdin").lines();
    let curves = lines.filter_map(|line| Some(line.split_once(": recognise ")?.1));
    let mut met = [0; 5];
    for curve in curves {
        let words = curve.split(|x| "(), ".contains(x));
        let numbers: Vec<i64> = words.filter_map(|word| word.parse().ok()).collect();
        let (number, returned) = verdict(&numbers);
        met[if returned < 0 { 4 } else { number as usize }] += 1;
    }
    assert!(met.iter().all(|&count| count > 0), "{met:?}");
}

/// The coordinates of the curve from 0 along these legs.
fn points(legs: &[Pair]) -> Vec<i64> {
    let points = along(Pair::default(), legs);
    let parts = points.iter().flat_map(|p| [p.re, p.im]);
    parts.map(|x| x as i64).collect()
}

const UNITS: [(i128, i128); 4] = [(1, 0), (0, 1), (-1, 0), (0, -1)];

/// Where the first leg is 0, D has powers of t: an odd one is no square's.
#[test]
fn first_legs_of_zero() {
    for (x, y) in UNITS {
        let met = |numbers: &[i128]| {
            let legs: Vec<Pair> = numbers.iter().map(|&k| pair(x, y).times(k)).collect();
            verdict(&points(&legs)).0
        };
        assert_eq!(met(&[0, 1, 2]), 2, "2t");
        assert_eq!(met(&[0, 0, 5]), 3, "5t²");
        assert_eq!(met(&[0, 1, 2, 3, 4]), 2, "4t");
        assert_eq!(met(&[0, 0, 1, 3, 6]), 3, "6t²");
        assert_eq!(met(&[0, 0, 1, 3, 7]), 2, "6t² + t⁴");
        assert_eq!(met(&[0, 0, 0, 1, 4]), 2, "4t³");
        assert_eq!(met(&[0, 0, 0, 0, 7]), 3, "7t⁴");
    }
}

/// The points along κ times the legs of w², for a quintic times 3: w has these Bernstein coefficients.
fn squared(kappa: Pair, w: &[Pair]) -> Vec<i64> {
    let legs = match *w {
        [w0, w1] => vec![w0 * w0, w0 * w1, w1 * w1],
        [w0, w1, w2] => {
            let [d0, d1, d3, d4] = [w0 * w0, w0 * w1, w1 * w2, w2 * w2].map(|x| x.times(3));
            vec![d0, d1, (w1 * w1).times(2) + w0 * w2, d3, d4]
        }
        _ => unreachable!("two or three coefficients"),
    };
    let legs: Vec<Pair> = legs.into_iter().map(|leg| kappa * leg).collect();
    points(&legs)
}

/// Every κ of three, times each unit, with every w of four pairs: w(0) and w(1) are 0 too, and have common divisors.
fn squares() -> Vec<Vec<i64>> {
    let pairs = [pair(0, 0), pair(1, 0), pair(3, 1), pair(2, -4)];
    let mut all = Vec::new();
    for kappa in [pair(1, 0), pair(1, 2), pair(6, -3)] {
        for kappa in UNITS.map(|(x, y)| pair(x, y) * kappa) {
            for w0 in pairs {
                for w1 in pairs {
                    all.push(squared(kappa, &[w0, w1]));
                    all.extend(pairs.map(|w2| squared(kappa, &[w0, w1, w2])));
                }
            }
        }
    }
    all
}

#[test]
fn pre_images_with_every_unit() {
    for numbers in squares() {
        let still = numbers.iter().all(|&x| x == 0);
        assert_eq!(verdict(&numbers), (if still { 0 } else { 3 }, 15));
    }
}

#[test]
fn near_misses() {
    let mut met = [0; 4];
    for mut numbers in squares() {
        for k in 0..numbers.len() {
            for by in [1, -2] {
                numbers[k] += by;
                met[verdict(&numbers).0 as usize] += 1;
            }
            numbers[k] += 1;
        }
    }
    assert!(met[1] > 20_000 && met[2] > 0 && met[3] > 0, "{met:?}");
}

/// Every curve with its points at the corners of the range, and the same with one of its coordinates one less far out.
#[test]
fn ends_of_the_range() {
    for count in [8, 12] {
        for corners in 0..1 << count {
            let far = |k| [-20_000, 20_000][corners >> k & 1];
            let mut numbers: Vec<i64> = (0..count).map(far).collect();
            verdict(&numbers);
            let k = corners % count;
            numbers[k] -= numbers[k].signum();
            verdict(&numbers);
        }
    }
}
