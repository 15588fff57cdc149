//! What the numbers of a state are, and which numbers are those of some bytes.

use super::tests::{cubic, header, quintic};
use super::*;
use std::collections::HashSet;

#[test]
fn numbers_of_the_layout() {
    assert_eq!(state(&[], false), [0; NUMBERS]);
    let sheet = [&header(7)[..], &cubic(0), b"\xFF\xFF\xFF\xFF\xFF\xFE"].concat();
    let held = 0xFEFF_FFFF_FFFF;
    let told = [0, 48, 7, 1, 42, 5, held, 0, 0, 0, 0, 0, 0];
    assert_eq!(state(&sheet, false), told);
    let open = [&header(0x0301)[..], &quintic(), &cubic(0x0102_0304)[..11]].concat();
    let held = 0x0102_0304_3343_0024;
    let told = [1, 69, 0x0301, 1, 58, 0, held, 0, 0, 0, 0, 0, 0];
    assert_eq!(state(&open, true), told);
    let long = [header(7), quintic().repeat(2_000)].concat();
    let mut told = [0; NUMBERS];
    told[1] = 4_097;
    for length in [4_097, 4_098, 100_000] {
        assert_eq!(state(&long[..length], false), told);
    }
}

/// The mission is known once its header is whole, and is 0 before and of a sheet that has none.
#[test]
fn missions_of_the_layout() {
    for (mission, length) in [0, 7, 0x0102, 0xFF00, 0xFFFF]
        .into_iter()
        .flat_map(|mission| (0..=6).map(move |length| (mission, length)))
    {
        let numbers = state(&header(mission)[..length], false);
        let whole = length == 6;
        let (told, place) = if whole { (mission.into(), 6) } else { (0, 0) };
        assert_eq!(numbers[..6], [0, length as i64, told, 0, place, 0]);
        assert_eq!((numbers[6] == 0), whole || length == 0);
    }
    let headerless = state(&[cubic(0), header(9)].concat(), true);
    assert_eq!(headerless[..6], [1, 42, 0, 0, 0, 0]);
    let twice = state(&[header(9), header(8)].concat(), true);
    assert_eq!(twice[..7], [1, 12, 9, 0, 6, 0, 0x0008_4E4D_0006]);
    assert_eq!(state(&[0xFF; 9], false)[..6], [0, 9, 0, 0, 0, 9]);
}

/// Eight bytes are a signed number, and of the last eight only four are among the 52.
#[test]
fn bytes_of_the_layout() {
    let erased = [0, 56, 0, 0, 0, 56, -1, -1, -1, -1, -1, -1, 0xFFFF_FFFF];
    assert_eq!(state(&[0xFF; 56], false), erased);
    // Bytes that are no record, behind a header and without one.
    let counting: Vec<u8> = (1..=60).collect();
    for front in [vec![], header(7)] {
        hold_bytes_of_the_layout(&front, &counting);
    }
}

fn hold_bytes_of_the_layout(front: &[u8], counting: &[u8]) {
    let (place, mission) = (front.len() as i64, if front.is_empty() { 0 } else { 7 });
    let first = 0x0807_0605_0403_0201;
    let told = [0, 1, 2, 3, 4, 5].map(|k| first + k * 0x0808_0808_0808_0808);
    for (length, last) in [
        (48, 0),
        (49, 0x31),
        (51, 0x0033_3231),
        (52, 0x3433_3231),
        (53, 0x3433_3231),
        (60, 0x3433_3231),
    ] {
        let mut numbers = state(&[front, &counting[..length]].concat(), true);
        let sizes = [1, place + length as i64, mission, 0, place, 0];
        assert_eq!(numbers[..6], sizes);
        assert_eq!((&numbers[6..12], numbers[12]), (&told[..], last));
        assert!(bytes_with(&numbers).is_some());
        for bit in 32..64 {
            numbers[12] = last | 1 << bit;
            assert!(bytes_with(&numbers).is_none());
        }
    }
}

/// Every text of at most `most` of these bytes.
fn texts(bytes: &[u8], most: usize) -> Vec<Vec<u8>> {
    let mut all = vec![vec![]];
    let mut longest = all.clone();
    for _ in 0..most {
        let with = |text: &Vec<u8>| {
            bytes
                .iter()
                .map(|&byte| [&text[..], &[byte]].concat())
                .collect::<Vec<_>>()
        };
        longest = longest.iter().flat_map(with).collect();
        all.extend_from_slice(&longest);
    }
    all
}

/// All numbers that come near those of short texts of zeros and FF are tried: those of a text are a state, and no
/// others. The longest texts need two numbers for their bytes.
#[test]
fn no_other_numbers_are_a_state() {
    let texts = texts(&[0, 0xFF], 9);
    let reached: HashSet<State> = texts.iter().map(|text| state(text, false)).collect();
    let eight = texts.iter().filter_map(|text| text[..].try_into().ok());
    let words: Vec<i64> = eight.map(i64::from_le_bytes).collect();
    let mut met = 0;
    for (length, erased) in (-1..10).flat_map(|length| (-1..11).map(move |erased| (length, erased)))
    {
        for (&first, second) in words
            .iter()
            .flat_map(|first| [0, 0xFF, 0xFF00, -1].map(|second| (first, second)))
        {
            let mut numbers = [0; NUMBERS];
            numbers[1..8].copy_from_slice(&[length, 0, 0, 0, erased, first, second]);
            let is_reached = reached.contains(&numbers);
            assert_eq!(bytes_with(&numbers).is_some(), is_reached, "{numbers:?}");
            met += usize::from(is_reached);
        }
    }
    assert_eq!(met, reached.len());
}

#[test]
fn counts_and_places_that_records_have() {
    let is_state = |length, curves, place| {
        let mut numbers = [0; NUMBERS];
        numbers[1..5].copy_from_slice(&[length, 0, curves, place]);
        bytes_with(&numbers).is_some()
    };
    for (curves, place) in [
        (0, 0),
        (0, 6),
        (1, 42),
        (1, 58),
        (2, 78),
        (2, 94),
        (2, 110),
        (113, 4_074),
        (112, 4_086),
        (90, 4_094),
    ] {
        assert!(is_state(place, curves, place) && is_state((place + 3).min(4_096), curves, place));
        assert!(!is_state(place - 1, curves, place) && !is_state(4_097, curves.max(1), place));
    }
    for (curves, place) in [
        (0, 1),
        (0, 36),
        (0, 42),
        (1, 0),
        (1, 6),
        (1, 36),
        (1, 43),
        (1, 52),
        (1, 78),
        (2, 86),
        (112, 4_096),
        (114, 4_110),
        (-1, 42),
        (1, -42),
    ] {
        assert!((0..=4_097).all(|length| !is_state(length, curves, place)));
    }
}

/// Every mission has states where its header is whole, and none has any before.
#[test]
fn missions_that_states_have() {
    let is_state = |length, mission, curves, place| {
        let mut numbers = [0; NUMBERS];
        numbers[1..5].copy_from_slice(&[length, mission, curves, place]);
        bytes_with(&numbers).is_some()
    };
    for mission in 0..=0xFFFF {
        assert!(is_state(6, mission, 0, 6));
        assert_eq!(is_state(0, mission, 0, 0), mission == 0);
        assert_eq!(is_state(4_097, mission, 0, 0), mission == 0);
    }
    for mission in [0, 1, 255, 256, 0xFFFF] {
        assert!(is_state(42, mission, 1, 42) && is_state(61, mission, 1, 58));
    }
    for mission in [-1, 0x1_0000, i64::MIN, i64::MAX] {
        assert!(!is_state(6, mission, 0, 6) && !is_state(0, mission, 0, 0));
        assert!(!is_state(4_097, mission, 0, 0));
    }
}

/// A whole record that is not counted: at place 0 that is a header, and elsewhere a curve. What may not stand there is a
/// fault, and faults are kept.
#[test]
fn records_that_are_kept() {
    let is_state = |place: i64, front: &[u8]| {
        let mut numbers = [0; NUMBERS];
        numbers[1] = place + front.len() as i64;
        numbers[4] = place;
        for (number, bytes) in numbers[6..].iter_mut().zip(front.chunks(8)) {
            let mut eight = [0; 8];
            eight[..bytes.len()].copy_from_slice(bytes);
            *number = i64::from_le_bytes(eight);
        }
        bytes_with(&numbers).is_some()
    };
    assert!(!is_state(0, &header(7)) && is_state(0, &header(7)[..5]));
    assert!(is_state(0, &cubic(0)) && is_state(0, &cubic(20_001)));
    assert!(is_state(6, &header(7)) && is_state(6, &header(7)[..5]));
    assert!(!is_state(6, &cubic(0)) && is_state(6, &cubic(0)[..35]));
    assert!(is_state(6, &cubic(20_001)));
}
