//! The rules of the sheet, word by word: what may stand where, which fault comes first and at which place, and whose
//! sheet it is.

use super::*;
use crate::curve::curve;

const MISSION: u16 = 0x0207;

fn line() -> Curve {
    curve(&[(0, 0), (1, 0), (2, 0), (3, 0), (4, 0), (5, 0)])
}

fn minus_ones() -> Curve {
    curve(&[(-1, -1); 4])
}

fn bytes_of(curve: &Curve) -> Vec<u8> {
    record_bytes(curve).expect("small coordinates")
}

/// These bytes behind the header.
fn headed(rest: &[u8]) -> Vec<u8> {
    [&b"\x06\0MN\x07\x02"[..], rest].concat()
}

/// A sheet of these curves.
fn sheet_of(curves: &[Curve]) -> Vec<u8> {
    headed(&curves.iter().flat_map(bytes_of).collect::<Vec<u8>>())
}

fn record(length: u16, kind: &[u8; 2], rest: &[u8]) -> Vec<u8> {
    [&length.to_le_bytes()[..], kind, rest].concat()
}

fn found(sheet: &[u8]) -> Option<(Refusal, usize)> {
    check(sheet).err().map(|fault| (fault.refusal, fault.place))
}

#[test]
fn short_ends() {
    assert_eq!(count(&[]), Ok(0));
    assert_eq!(found(&[0xFF]), None);
    assert_eq!(found(&[0x24]), Some((Refusal::Cut, 0)));
    assert_eq!(found(&[0xFF, 0xFF]), None);
    assert_eq!(found(&[0xFF, 0x00]), Some((Refusal::Cut, 0)));
    assert_eq!(found(&[0x00, 0xFF, 0x43]), Some((Refusal::Cut, 0)));
    assert_eq!(found(&[0xFF, 0xFF, 0x43]), Some((Refusal::Leftover, 2)));
    assert_eq!(found(&headed(&[0xFF])), None);
    assert_eq!(found(&headed(&[0x24])), Some((Refusal::Cut, 6)));
    assert_eq!(
        found(&headed(&[0xFF, 0xFF, 0x43])),
        Some((Refusal::Leftover, 8))
    );
}

#[test]
fn faults_in_order_with_their_place() {
    let good = sheet_of(&[line()]);
    let behind = |bad: &[u8]| found(&[&good[..], bad].concat());
    let records = [
        (record(9, b"C4", &[]), Some((Refusal::Kind, 58))),
        (record(9, b"C3", &[]), Some((Refusal::Length, 58))),
        (record(52, b"C3", &[]), Some((Refusal::Length, 58))),
        (record(36, b"C3", &[1; 31]), Some((Refusal::Cut, 58))),
        (record(36, b"C3", &[1; 32]), Some((Refusal::Range, 58))),
        (record(36, b"C3", &[0; 33]), Some((Refusal::Cut, 94))),
        (record(36, b"C3", &[0; 32]), None),
    ];
    for (bad, said) in records {
        assert_eq!(behind(&bad), said);
    }
}

/// Of a header the same tests are made in the same order, but for the range: it holds no coordinates.
#[test]
fn faults_of_the_header() {
    let records = [
        (record(6, b"MN", &[]), Some((Refusal::Cut, 0))),
        (record(6, b"MN", &[0xFF]), Some((Refusal::Cut, 0))),
        (record(6, b"MN", &[0xFF; 2]), None),
        (record(6, b"MN", &[0xFF; 9]), None),
        (record(7, b"MN", &[]), Some((Refusal::Length, 0))),
        (record(36, b"MN", &[0; 32]), Some((Refusal::Length, 0))),
        (record(0x0600, b"MN", &[0; 2]), Some((Refusal::Length, 0))),
        (record(9, b"Mn", &[]), Some((Refusal::Kind, 0))),
        (record(6, b"NM", &[0; 2]), Some((Refusal::Kind, 0))),
        (record(6, b"C3", &[0; 2]), Some((Refusal::Kind, 0))),
    ];
    for (bytes, said) in records {
        assert_eq!(found(&bytes), said, "{bytes:?}");
    }
    for length in 2..6 {
        assert_eq!(found(&headed(&[])[..length]), Some((Refusal::Cut, 0)));
    }
}

/// "Missing first `MN`, or a second one, is KIND at that record."
#[test]
fn a_header_first_and_nowhere_else() {
    for curves in [&[line()][..], &[minus_ones(), line()]] {
        let sheet = sheet_of(curves);
        let headerless = &sheet[HEADER_LENGTH..];
        assert_eq!(
            (found(&sheet), found(headerless)),
            (None, Some((Refusal::Kind, 0)))
        );
        let second = [&sheet[..], &headed(&[0xFF; 4])].concat();
        assert_eq!(found(&second), Some((Refusal::Kind, sheet.len())));
    }
    assert_eq!(found(&headed(&headed(&[]))), Some((Refusal::Kind, 6)));
    let wrong_length = record(9, b"MN", &[]);
    assert_eq!(found(&headed(&wrong_length)), Some((Refusal::Kind, 6)));
    let between = [headed(&bytes_of(&line())), sheet_of(&[line()])].concat();
    assert_eq!(found(&between), Some((Refusal::Kind, 58)));
}

/// An erased length at place 0 is looked behind before a header is missed there.
#[test]
fn an_erased_front_is_no_missing_header() {
    assert_eq!(found(&[0xFF, 0xFF, 0, 0]), Some((Refusal::Leftover, 2)));
    let behind = [&[0xFF; 2][..], &sheet_of(&[line()])].concat();
    assert_eq!(found(&behind), Some((Refusal::Leftover, 2)));
    let far = [&[0xFF; 4_095][..], &[6]].concat();
    assert_eq!(found(&far), Some((Refusal::Leftover, 4_095)));
}

/// "Any of the 65,536 numbers is allowed, since erasure shows in the length only."
#[test]
fn every_number_is_a_mission() {
    for mission in 0..=u16::MAX {
        let sheet = [header_bytes(mission), bytes_of(&line())].concat();
        let listing = check(&sheet).expect("a good sheet");
        assert_eq!(listing.mission, Some(mission));
        assert_eq!((listing.records.len(), listing.end), (1, 58));
    }
    assert_eq!(header_bytes(MISSION), headed(&[]));
    assert_eq!(header_bytes(u16::MAX), b"\x06\0MN\xFF\xFF");
    assert_eq!(found(b"\x06\0MN\xFF\xFF\xFF\xFF"), None);
}

#[test]
fn blunder_of_points_all_minus_one() {
    let mut sheet = sheet_of(&[minus_ones()]);
    sheet.extend([0xFF; 10]);
    let listing = check(&sheet).expect("a good sheet");
    assert_eq!((listing.records.len(), listing.end), (1, 42));
    assert_eq!(read(&sheet, MISSION, 1), Ok(minus_ones()));
}

#[test]
fn blunder_of_not_looking_behind_an_erased_length() {
    let mut sheet = [sheet_of(&[line()]), vec![0xFF; 10]].concat();
    assert_eq!(found(&sheet), None);
    sheet[67] = 0xFE;
    assert_eq!(found(&sheet), Some((Refusal::Leftover, 67)));
}

#[test]
fn case_10_sizes() {
    assert_eq!(found(&[0xFF; 4_096]), None);
    assert_eq!(found(&[0xFF; 4_097]), Some((Refusal::TooLong, 0)));
    assert_eq!(found(&[0; 4_097]), Some((Refusal::TooLong, 0)));
    assert_eq!(erase(&mut [0; 4_096]), Ok(()));
    assert_eq!(erase(&mut [0; 4_097]), Err(Refusal::TooLong));
    assert_eq!(read(&[], MISSION, 1), Err(Refusal::Number));
    let edge = |x| found(&sheet_of(&[curve(&[(x, 0); 4])]));
    assert_eq!((edge(20_000), edge(-20_000)), (None, None));
    assert_eq!(edge(20_001), Some((Refusal::Range, 6)));
}

#[test]
fn read_and_find() {
    let sheet = sheet_of(&[line(), minus_ones()]);
    assert_eq!(read(&sheet, MISSION, 1), Ok(line()));
    assert_eq!(read(&sheet, MISSION, 2), Ok(minus_ones()));
    assert_eq!(find(&sheet, MISSION, 1), &sheet[6..58]);
    assert_eq!(find(&sheet, MISSION, 2), &sheet[58..]);
    for number in [0, 3, usize::MAX] {
        assert_eq!(read(&sheet, MISSION, number), Err(Refusal::Number));
        assert_eq!(find(&sheet, MISSION, number), &[] as &[u8]);
    }
    assert_eq!(read(&sheet[..93], MISSION, 1), Err(Refusal::Cut));
    assert_eq!(find(&sheet[..93], MISSION, 1), &[] as &[u8]);
}

/// After the sheet's faults and before NUMBER. Numbers that have one byte in common are as other as any.
#[test]
fn another_mission() {
    let sheet = sheet_of(&[line()]);
    for other in [0, 7, 0x0200, 0x0107, 0x0208, 0x0702, 255, 256, u16::MAX] {
        for number in [0, 1, 2] {
            let refused = Err(Refusal::OtherMission);
            assert_eq!(read(&sheet, other, number), refused);
            assert_eq!(find(&sheet, other, number), &[] as &[u8]);
        }
        assert_eq!(read(&sheet[..57], other, 1), Err(Refusal::Cut));
        assert_eq!(read(&sheet[6..], other, 1), Err(Refusal::Kind));
    }
    assert_eq!(read(&headed(&[]), MISSION, 1), Err(Refusal::Number));
    assert_eq!(read(&headed(&[]), 0, 1), Err(Refusal::OtherMission));
}

/// "An all-FF sheet is no other mission": of none there is no curve of that number.
#[test]
fn an_erased_sheet_is_no_other_mission() {
    for mission in [0, 1, 255, 256, u16::MAX] {
        for length in [0, 1, 2, 5, 6, 40, 4_096] {
            let refused = Err(Refusal::Number);
            assert_eq!(read(&vec![0xFF; length], mission, 1), refused);
        }
    }
}

#[test]
fn start_writes_the_header_and_erases_the_rest() {
    for length in [6, 7, 8, 100, 4_096] {
        for old in [0, 0xFF, 0x4D] {
            for mission in [0, 7, 255, 256, MISSION, u16::MAX] {
                let mut sheet = vec![old; length];
                assert_eq!(start(&mut sheet, mission), Ok(()));
                assert_eq!(sheet[..6], header_bytes(mission));
                assert_eq!(sheet[6..], vec![0xFF; length - 6]);
                let listing = check(&sheet).expect("a good sheet");
                let told = (listing.mission, listing.records.len(), listing.end);
                assert_eq!(told, (Some(mission), 0, 6));
            }
        }
    }
    let mut old = sheet_of(&[line(), minus_ones()]);
    assert_eq!(start(&mut old, 7), Ok(()));
    assert_eq!(old, [&b"\x06\0MN\x07\0"[..], &[0xFF; 88]].concat());
}

#[test]
fn start_refuses_and_changes_nothing() {
    for (length, refusal) in (0..6)
        .map(|length| (length, Refusal::Room))
        .chain([4_097, 5_000].map(|length| (length, Refusal::TooLong)))
    {
        let mut sheet = vec![7; length];
        assert_eq!(start(&mut sheet, MISSION), Err(refusal));
        assert_eq!(sheet, vec![7; length]);
    }
}

#[test]
fn append_lists_old_curves_and_then_the_new_one() {
    let mut sheet = [0; 146];
    start(&mut sheet, MISSION).expect("neither too long nor too short");
    for kept in [
        vec![line()],
        vec![line(), minus_ones()],
        vec![line(), minus_ones(), line()],
    ] {
        let added = kept.last().expect("not empty");
        assert_eq!(append(&mut sheet, added), Ok(()));
        let listing = check(&sheet).expect("a good sheet");
        assert_eq!(listing.mission, Some(MISSION));
        let curves: Vec<Curve> = listing.records.into_iter().map(|r| r.curve).collect();
        assert_eq!(curves, kept);
        assert!(sheet[listing.end..].iter().all(|&byte| byte == ERASED));
    }
    let before = sheet;
    assert_eq!(append(&mut sheet, &minus_ones()), Err(Refusal::Room));
    assert_eq!(append(&mut sheet, &outside()), Err(Refusal::Range));
    assert_eq!(sheet, before);
    let mut short = headed(&[0xFF; 35]);
    assert_eq!(append(&mut short, &minus_ones()), Err(Refusal::Room));
    let mut enough = headed(&[0xFF; 36]);
    assert_eq!(append(&mut enough, &minus_ones()), Ok(()));
}

fn outside() -> Curve {
    curve(&[(0, 40_000); 4])
}

/// "Append on an all-FF sheet answers 15 NO MISSION, after sheet faults and before RANGE."
#[test]
fn append_needs_a_mission() {
    for length in [0, 1, 2, 6, 35, 36, 42, 4_096] {
        let mut sheet = vec![0xFF; length];
        for added in [line(), outside()] {
            assert_eq!(append(&mut sheet, &added), Err(Refusal::NoMission));
        }
        assert_eq!(sheet, vec![0xFF; length]);
    }
    assert_eq!(append(&mut [0; 4], &outside()), Err(Refusal::Kind));
    assert_eq!(append(&mut [0xFF; 4_097], &line()), Err(Refusal::TooLong));
    let mut leftover = [0xFF, 0xFF, 0xFF, 7];
    assert_eq!(append(&mut leftover, &line()), Err(Refusal::Leftover));
}
