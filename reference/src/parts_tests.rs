//! Sheets cut in every way, each held to the whole check.

use super::*;

/// A cubic with a point at (x, 0).
pub(super) fn cubic(x: i32) -> Vec<u8> {
    let zeros = [0; 28];
    [b"\x24\0C3", &x.to_le_bytes()[..], &zeros].concat()
}

pub(super) fn quintic() -> Vec<u8> {
    [&b"\x34\0C5"[..], &[0xFF; 48]].concat()
}

pub(super) fn header(mission: u16) -> Vec<u8> {
    [b"\x06\0MN", &mission.to_le_bytes()[..]].concat()
}

/// What the whole check says of a small sheet, and the sheet: sound, with an erased tail, and with every fault but TOO
/// LONG.
fn small_sheets() -> Vec<(Result<usize, Fault>, Vec<u8>)> {
    let behind = |tail: &[u8]| [&header(7)[..], &cubic(-1), tail].concat();
    let fault = |refusal, place| Err(Fault { refusal, place });
    vec![
        (Ok(0), vec![]),
        (Ok(2), behind(&quintic())),
        (Ok(1), behind(&[0xFF])),
        (Ok(1), behind(&[0xFF; 60])),
        (
            Ok(2),
            [header(0x4D06), quintic(), cubic(20_000), vec![0xFF; 3]].concat(),
        ),
        (fault(Refusal::Cut, 42), behind(&[0xFF, 0])),
        (fault(Refusal::Cut, 42), behind(&quintic()[..51])),
        (
            fault(Refusal::Leftover, 51),
            behind(&[&[0xFF; 9][..], &[0; 50]].concat()),
        ),
        (fault(Refusal::Leftover, 44), behind(b"\xFF\xFF\xFEC3")),
        (
            fault(Refusal::Kind, 42),
            behind(&[&b"\x24\0C4"[..], &cubic(0)].concat()),
        ),
        (fault(Refusal::Kind, 42), behind(b"\xFF\0\xFF\xFF")),
        (
            fault(Refusal::Length, 42),
            behind(&[&b"\x34\0C3"[..], &[0; 60]].concat()),
        ),
        (
            fault(Refusal::Range, 42),
            behind(&[cubic(20_001), cubic(0)].concat()),
        ),
    ]
    .into_iter()
    .chain(small_fronts())
    .collect()
}

/// The same where the header is what matters: alone, of every mission that looks like something else, not there, cut,
/// of a wrong length, and twice.
fn small_fronts() -> Vec<(Result<usize, Fault>, Vec<u8>)> {
    let fault = |refusal, place| Err(Fault { refusal, place });
    let headed = |tail: &[u8]| [&header(0xFFFF)[..], tail].concat();
    vec![
        (Ok(0), vec![0xFF; 60]),
        (Ok(0), header(0)),
        (Ok(0), headed(&[])),
        (Ok(0), headed(&[0xFF; 60])),
        (fault(Refusal::Kind, 0), [cubic(0), header(7)].concat()),
        (fault(Refusal::Kind, 0), [quintic(), cubic(0)].concat()),
        (fault(Refusal::Cut, 0), header(7)[..5].to_vec()),
        (
            fault(Refusal::Length, 0),
            [&b"\x07\0MN\x07\0"[..], &cubic(0)].concat(),
        ),
        (
            fault(Refusal::Kind, 6),
            [headed(&header(0xFFFF)), cubic(0)].concat(),
        ),
        (
            fault(Refusal::Kind, 42),
            [headed(&cubic(0)), header(7)].concat(),
        ),
        (
            fault(Refusal::Leftover, 2),
            [vec![0xFF; 2], header(7), cubic(0)].concat(),
        ),
        (fault(Refusal::Leftover, 8), headed(b"\xFF\xFF\x06\0MN")),
    ]
}

const BEHIND: [i64; 2] = [7, -7];

fn started() -> Vec<i64> {
    let mut area = [&[-1; NUMBERS][..], &BEHIND].concat();
    assert_eq!(start(&mut area), Ok(()));
    assert_eq!(held(&area), state(&[], false));
    area
}

/// The state of an area in which the numbers behind it are as they were.
fn held(area: &[i64]) -> State {
    let (numbers, behind) = area.split_at(NUMBERS);
    assert_eq!(behind, BEHIND);
    numbers.try_into().expect("as many as a state has")
}

/// Feeds the parts and ends, and holds every state and every answer to all the bytes.
fn hold(parts: &[&[u8]]) {
    let (mut area, mut fed) = (started(), Vec::new());
    for part in parts {
        assert_eq!(feed(&mut area, part), Ok(()));
        fed.extend_from_slice(part);
        assert_eq!(held(&area), state(&fed, false));
        assert_eq!(ask(&area), Ok(None));
    }
    for _ in 0..2 {
        assert_eq!(end(&mut area), count(&fed));
        assert_eq!(held(&area), state(&fed, true));
        assert_eq!(ask(&area), count(&fed).map(Some));
    }
    for late in [&[][..], &[0xFF], &[0; 5_000]] {
        assert_eq!(feed(&mut area, late), Err(Refusal::Ended));
        assert_eq!(held(&area), state(&fed, true));
    }
}

#[test]
fn small_sheets_are_what_they_are_called() {
    for (said, sheet) in small_sheets() {
        assert_eq!(count(&sheet), said);
    }
}

#[test]
fn every_cut_in_two_and_in_three() {
    for (_, sheet) in small_sheets() {
        for to in 0..=sheet.len() {
            hold(&[&sheet[..to], &sheet[to..]]);
            for from in 0..=to {
                hold(&[&sheet[..from], &sheet[from..to], &sheet[to..]]);
            }
        }
    }
}

#[test]
fn whole_and_by_every_size() {
    for (_, sheet) in small_sheets() {
        hold(&[&sheet]);
        hold(&[&[], &sheet, &[]]);
        for size in 1..64 {
            hold(&sheet.chunks(size).collect::<Vec<_>>());
        }
    }
    hold(&[]);
    hold(&[&[], &[]]);
}

/// Behind every small sheet more bytes come than fit, or just as many as do.
#[test]
fn long_sheets() {
    for (_, sheet) in small_sheets() {
        for (byte, length) in [0, 0xFF, 0x24]
            .into_iter()
            .flat_map(|byte| [4_096, 4_097, 100_000].map(|length| (byte, length)))
        {
            let tail = vec![byte; length - sheet.len()];
            hold(&[&sheet, &tail]);
            hold(&[&sheet, &tail[..3_900], &[], &tail[3_900..]]);
            hold(&[&sheet, &tail, &sheet, &[]]);
        }
    }
    let full = [
        header(1),
        cubic(1).repeat(37),
        quintic().repeat(53),
        vec![0xFF; 2],
    ]
    .concat();
    assert_eq!((full.len(), count(&full)), (4_096, Ok(90)));
    hold(&full.chunks(1).collect::<Vec<_>>());
    hold(&full.chunks(64).collect::<Vec<_>>());
    hold(&[&full, &[], &[0], &[], &full]);
}

#[test]
fn refusals_in_order_leave_the_area() {
    for room in 0..NUMBERS {
        let mut area = vec![-1; room];
        assert_eq!(start(&mut area), Err(Refusal::Room));
        assert_eq!(feed(&mut area, &[1]), Err(Refusal::Room));
        assert_eq!(end(&mut area), Err(Refusal::Room.into()));
        assert_eq!(ask(&area), Err(Refusal::Room.into()));
        assert_eq!(area, vec![-1; room]);
    }
    for wrong in [
        [-1; NUMBERS],
        [1; NUMBERS],
        [i64::MAX; NUMBERS],
        [i64::MIN; NUMBERS],
    ] {
        let mut area = wrong;
        assert_eq!(feed(&mut area, &[1]), Err(Refusal::Range));
        assert_eq!(end(&mut area), Err(Refusal::Range.into()));
        assert_eq!(ask(&area), Err(Refusal::Range.into()));
        assert_eq!(area, wrong);
    }
}
