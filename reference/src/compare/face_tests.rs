//! The face's rules, on the document's cases and at the edges of areas and counts.

use super::*;

fn told(function: Function, singles: [i64; 6], before: Areas) -> Answer {
    answer(&Call {
        function,
        singles,
        before,
    })
}

fn on_curve(function: Function, points: &[(i64, i64)], h: i64, room: usize) -> Answer {
    let before = Areas {
        numbers: points.iter().flat_map(|&(x, y)| [x, y]).collect(),
        out: vec![-7; room],
        ..Areas::default()
    };
    told(function, [h, 0, 0, 0, 0, 0], before)
}

fn on_sheet(function: Function, sheet: &[u8], number: i64, room: usize) -> Answer {
    for_mission(MISSION, function, sheet, number, room)
}

fn for_mission(mission: u16, function: Function, sheet: &[u8], number: i64, room: usize) -> Answer {
    let before = Areas {
        sheet: sheet.to_vec(),
        out: vec![-7; room],
        text: vec![9; room],
        ..Areas::default()
    };
    told(function, [mission.into(), number, 0, 0, 0, 0], before)
}

fn is(answer: &Answer, returned: i64, out: &[i64]) {
    let found = (answer.returned, &answer.after.out[..]);
    assert_eq!(found, (returned, out));
}

const CASE_2: [(i64, i64); 4] = [(0, 0), (1, 0), (1, 1), (0, 1)];
const CASE_3: [(i64, i64); 4] = [(0, 0), (1, 0), (1, 1), (2, 1)];
const CASE_4: [(i64, i64); 4] = [(0, 0), (0, 0), (1, 0), (3, 0)];
const CASE_6: [(i64, i64); 6] = [(0, 0), (6, 0), (12, 3), (17, 7), (23, 10), (29, 10)];

#[test]
fn verdicts() {
    let of = |points, room| on_curve(Function::Recognise, points, 0, room);
    is(
        &of(&CASE_2, 16),
        15,
        &[3, 1, 1, -2, 2, 0, 0, 1, 0, -1, 0, 1, -1, 0, 0, 0],
    );
    is(
        &of(&CASE_3, 15),
        15,
        &[1, 0, 0, 0, 0, 0, 0, 0, 0, 0, 0, 0, 0, 0, 0],
    );
    is(
        &of(&CASE_4, 15),
        15,
        &[2, 4, 0, 1, 0, 0, 0, 0, 0, 0, 0, 0, 0, 0, 0],
    );
    is(
        &of(&CASE_6, 15),
        15,
        &[3, 36, 1, 0, 1, -2, 1, 6, 0, -1, 0, 0, -1, 0, 1],
    );
    is(&of(&[(5, 5); 4], 15), 15, &[0; 15]);
    is(&of(&CASE_2, 14), -12, &[0; 14]);
    is(&of(&[(20_001, 0); 4], 14), -6, &[0; 14]);
    is(&of(&CASE_6[..5], 20), -5, &[0; 20]);
    is(&of(&[], 0), -5, &[]);
}

#[test]
fn roots() {
    let of = |n: u64, room| {
        let out = vec![-7; room];
        let before = Areas {
            out,
            ..Areas::default()
        };
        told(Function::Root, [n as i64, 0, 0, 0, 0, 0], before)
    };
    is(&of(10, 2), 2, &[3, 1]);
    is(&of(0, 4), 2, &[0, 0, 0, 0]);
    is(&of(u64::MAX, 3), 2, &[4_294_967_295, 8_589_934_590, 0]);
    is(&of(10, 1), -12, &[0]);
    is(&of(10, 0), -12, &[]);
}

#[test]
fn measures_and_offset() {
    is(
        &on_curve(Function::Length, &CASE_6, 0, 4),
        3,
        &[36, 62, 12, 0],
    );
    is(&on_curve(Function::Length, &CASE_3, 0, 2), -9, &[0; 2]);
    is(&on_curve(Function::Length, &CASE_6, 0, 2), -12, &[0; 2]);
    is(
        &on_curve(Function::Inflections, &CASE_6, 0, 5),
        5,
        &[1, -2, 0, 1, 0],
    );
    is(
        &on_curve(Function::Inflections, &CASE_4, 0, 5),
        -10,
        &[0; 5],
    );
    let line = [0, 1, 2, 3, 4, 5].map(|x| (x, 0));
    let expected: Vec<i64> = (0..10).flat_map(|k| [252, 140 * k, -504]).collect();
    let diagonal = [0, 1, 2, 3].map(|x| (x, x));
    is(&on_curve(Function::Offset, &line, 2, 30), 30, &expected);
    is(&on_curve(Function::Offset, &line, 2, 29), -12, &[0; 29]);
    is(&on_curve(Function::Offset, &diagonal, 2, 1), -11, &[0]);
}

#[test]
fn builds() {
    let built = |w: &[i64], room| {
        let (numbers, out) = (w.to_vec(), vec![5; room]);
        let rest = Areas::default();
        told(
            Function::Build,
            [0; 6],
            Areas {
                numbers,
                out,
                ..rest
            },
        )
    };
    is(&built(&[1, 0, 0, 1], 9), 8, &[0, 0, 1, 0, 1, 1, 0, 1, 0]);
    is(&built(&[1, 0, 0, 1], 7), -12, &[0; 7]);
    is(&built(&[1, 0, 0, 1, 1], 12), -5, &[0; 12]);
    is(&built(&[1, 0, 1, 0, 2, 0], 12), -13, &[0; 12]);
}

#[test]
fn joins_of_case_8() {
    let joined = |ax, room| {
        let (out, rest) = (vec![5; room], Areas::default());
        told(Function::Joins, [ax, 0, 1, 0, 5, 0], Areas { out, ..rest })
    };
    let mut case_8 = vec![1, 0, -8, 0, 1, 0, 1, 0, 2, 0, 1, 0];
    case_8.resize(25, 0);
    is(&joined(1, 25), 2, &case_8);
    is(&joined(1, 23), -12, &[0; 23]);
    is(&joined(0, 23), -14, &[0; 23]);
}

const MISSION: u16 = 0x0207;

/// A quintic with points all 0, a cubic with points all −1, and three erased bytes.
fn two_records() -> Vec<u8> {
    let header = b"\x06\0MN\x07\x02".to_vec();
    let first = [&[52, 0, b'C', b'5'][..], &[0; 48]].concat();
    let second = [&[36, 0, b'C', b'3'][..], &[0xFF; 32]].concat();
    [header, first, second, vec![0xFF; 3]].concat()
}

#[test]
fn sheets_read() {
    let sheet = two_records();
    is(&on_sheet(Function::Check, &sheet, 0, 0), 2, &[]);
    is(
        &on_sheet(Function::Read, &sheet, 2, 9),
        8,
        &[-1, -1, -1, -1, -1, -1, -1, -1, 0],
    );
    is(&on_sheet(Function::Find, &sheet, 2, 3), 2, &[58, 36, 0]);
    is(&on_sheet(Function::Find, &sheet, 1, 2), 2, &[6, 52]);
    is(&on_sheet(Function::Find, &sheet, 3, 2), -7, &[0, 0]);
    is(&on_sheet(Function::Find, &sheet, -1, 1), -7, &[0]);
    is(&on_sheet(Function::Find, &sheet, 1, 1), -12, &[0]);
    is(&on_sheet(Function::Read, &sheet, 1, 11), -12, &[0; 11]);
    is(
        &on_sheet(Function::Read, &sheet[..93], 1, 2),
        -(2 + 32 * 58),
        &[0; 2],
    );
}

/// After the sheet's faults, before NUMBER and ROOM, and with place 0; an erased sheet is nobody's.
#[test]
fn sheets_of_another_mission() {
    let sheet = two_records();
    for (function, other) in [Function::Read, Function::Find]
        .into_iter()
        .flat_map(|function| [0, 7, 0x0200, 0x0208, 0xFFFF].map(|other| (function, other)))
    {
        let of = |sheet: &[u8], number, room| for_mission(other, function, sheet, number, room);
        is(&of(&sheet, 1, 12), -16, &[0; 12]);
        is(&of(&sheet, 0, 12), -16, &[0; 12]);
        is(&of(&sheet, 1, 1), -16, &[0]);
        is(&of(&sheet[..93], 1, 2), -(2 + 32 * 58), &[0; 2]);
        is(&of(&sheet[6..], 1, 2), -4, &[0; 2]);
        is(&of(&[0xFF; 60], 1, 1), -7, &[0]);
        is(&of(&[], 1, 12), -7, &[0; 12]);
    }
}

#[test]
fn sheets_written() {
    let (sheet, numbers) = (two_records(), vec![0; 8]);
    let rest = Areas::default();
    let before = Areas {
        sheet,
        numbers,
        ..rest
    };
    let refused = told(Function::Append, [0; 6], before.clone());
    assert_eq!((refused.returned, refused.after), (-12, before.clone()));
    let erased = told(Function::Erase, [0; 6], before);
    assert_eq!((erased.returned, erased.after.sheet), (0, vec![0xFF; 97]));
    let long = on_sheet(Function::Erase, &[0; 4_097], 0, 0);
    assert_eq!((long.returned, long.after.sheet), (-1, vec![0; 4_097]));
}

/// A wrong count comes before the sheet's faults, these before NO MISSION, and that before RANGE.
#[test]
fn sheets_without_a_mission() {
    let of = |sheet: &[u8], numbers: &[i64]| {
        let (sheet, numbers) = (sheet.to_vec(), numbers.to_vec());
        let rest = Areas::default();
        let before = Areas {
            sheet,
            numbers,
            ..rest
        };
        let told = told(Function::Append, [0; 6], before.clone());
        assert_eq!(told.after, before);
        told.returned
    };
    let far = [20_001; 8];
    assert_eq!(of(&[0xFF; 60], &[0; 8]), -15);
    assert_eq!(of(&[0xFF; 60], &far), -15);
    assert_eq!(of(&[], &[0; 12]), -15);
    assert_eq!(of(&[0xFF; 60], &[0; 7]), -5);
    assert_eq!(of(&[0xFF, 0xFF, 0xFF, 7], &far), -(3 + 32 * 3));
    assert_eq!(of(&two_records(), &far), -6);
}

/// What stood there does not matter: five bytes with a fault at byte 3 are too few, and that has no place.
#[test]
fn sheets_started() {
    let of = |sheet: &[u8]| {
        let told = on_sheet(Function::Start, sheet, 0, 0);
        (told.returned, told.after.sheet)
    };
    let header = b"\x06\0MN\x07\x02";
    assert_eq!(of(&[9; 6]), (0, header.to_vec()));
    let erased = [&header[..], &[0xFF; 91]].concat();
    assert_eq!(of(&two_records()), (0, erased));
    let short = [0xFF, 0xFF, 0xFF, 7, 0xFF];
    assert_eq!(of(&short), (-12, short.to_vec()));
    assert_eq!(of(&[]), (-12, vec![]));
    assert_eq!(of(&[9; 4_097]), (-1, vec![9; 4_097]));
    assert_eq!(of(&[9; 4_096]).0, 0);
}

/// The state of a mission's sheet of which six bytes of the first curve have come, and a number behind it.
const OPEN_RECORD: [i64; 14] = [0, 12, 519, 0, 6, 0, 0x0807_3343_0024, 0, 0, 0, 0, 0, 0, -9];

#[test]
fn parts_of_a_sheet() {
    let of = |function, state: &[i64], part: &[u8]| {
        let (sheet, out) = (part.to_vec(), state.to_vec());
        let rest = Areas::default();
        told(function, [0; 6], Areas { sheet, out, ..rest })
    };
    let started = [0, 0, 0, 0, 0, 0, 0, 0, 0, 0, 0, 0, 0, -9];
    is(&of(Function::PartsStart, &[-9; 14], &[]), 0, &started);
    is(&of(Function::PartsStart, &[-9; 12], &[]), -12, &[-9; 12]);
    let front = two_records()[..6].to_vec();
    let begun = [&front[..], &[36, 0, b'C', b'3', 7, 8]].concat();
    is(&of(Function::PartsFeed, &started, &begun), 0, &OPEN_RECORD);
    let rest = [&[0; 30][..], &[1, 2, 3, 4, 5, 6, 7, 0xFF, 9]].concat();
    let held = 0xFF07_0605_0403_0201_u64 as i64;
    let fed = [0, 51, 519, 1, 42, 0, held, 9, 0, 0, 0, 0, 0, -9];
    is(&of(Function::PartsFeed, &OPEN_RECORD, &rest), 0, &fed);
    is(&of(Function::PartsAsk, &fed, &[]), i64::MIN, &fed);
    let mut ended = fed;
    ended[0] = 1;
    for (function, state) in [
        (Function::PartsEnd, &fed),
        (Function::PartsEnd, &ended),
        (Function::PartsAsk, &ended),
    ] {
        is(&of(function, state, &[]), -(4 + 32 * 42), &ended);
    }
    is(&of(Function::PartsFeed, &ended, &[]), -19, &ended);
    ended[5] = 1;
    for function in [Function::PartsFeed, Function::PartsEnd, Function::PartsAsk] {
        is(&of(function, &ended, &[]), -6, &ended);
        is(&of(function, &ended[..12], &[]), -12, &ended[..12]);
    }
}

#[test]
fn reports() {
    let text = b"mission 519 sheet 2\n1 C5 still\n2 C3 still\n";
    let whole = on_sheet(Function::Report, &two_records(), 0, 43);
    assert_eq!(
        (whole.returned, whole.after.text),
        (42, [&text[..], &[0]].concat())
    );
    let short = on_sheet(Function::Report, &two_records(), 0, 41);
    assert_eq!((short.returned, short.after.text), (-12, vec![0; 41]));
    let faulty = on_sheet(Function::Report, &two_records()[..93], 0, 16);
    assert_eq!(
        (faulty.returned, &faulty.after.text[..]),
        (16, &b"refused 2 at 58\n"[..])
    );
    let erased = on_sheet(Function::Report, &[0xFF; 9], 0, 21);
    assert_eq!(
        (erased.returned, &erased.after.text[..]),
        (21, &b"mission none sheet 0\n"[..])
    );
}
