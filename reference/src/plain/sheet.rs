//! The sheet: one walk over its records, that tests each coordinate once.

pub const SHEET_LIMIT: usize = 4_096;
const ERASED: u8 = 0xFF;

/// A refusal's number and its place.
#[derive(Clone, Copy)]
pub struct Fault {
    pub number: i64,
    pub place: usize,
}

pub const TOO_LONG: Fault = Fault {
    number: 1,
    place: 0,
};

/// What a sheet without fault has: the number in its header, if there is one, and how many curves.
#[derive(Clone, Copy)]
pub struct Listed {
    pub mission: Option<u16>,
    pub count: i64,
}

/// Walks over a sheet whole and counts its curves; `each` is given every curve's points as bytes.
pub fn walk(sheet: &[u8], mut each: impl FnMut(&[u8])) -> Result<Listed, Fault> {
    if sheet.len() > SHEET_LIMIT {
        return Err(TOO_LONG);
    }
    let Found::Record(mut place) = first(sheet) else {
        let none = Listed {
            mission: None,
            count: 0,
        };
        return fault_at(first(sheet), sheet, 0).map_or(Ok(none), Err);
    };
    let mission = Some(u16::from_le_bytes([sheet[4], sheet[5]]));
    let mut count = 0;
    loop {
        let rest = &sheet[place..];
        match found(rest) {
            Found::Record(length) => {
                each(&rest[4..length]);
                place += length;
                count += 1;
            }
            other => {
                return fault_at(other, rest, place).map_or(Ok(Listed { mission, count }), Err)
            }
        }
    }
}

/// The fault of a sheet that has no record at a place, if that is one.
fn fault_at(found: Found, rest: &[u8], place: usize) -> Option<Fault> {
    match found {
        Found::Fault(number) => Some(Fault { number, place }),
        Found::Erased => erased(rest, place),
        _ => cut(rest, place),
    }
}

/// What stands at a record's place.
pub enum Found {
    /// A whole record of so many bytes.
    Record(usize),
    Erased,
    /// Nothing that is whole, and no fault yet if more follows.
    Short,
    Fault(i64),
}

/// At the sheet's start, where the header has to be.
pub fn first(rest: &[u8]) -> Found {
    match rest {
        [6, 0, b'M', b'N', _, _, ..] => Found::Record(6),
        [ERASED, ERASED, ..] => Found::Erased,
        [6, 0, b'M', b'N', ..] => Found::Short,
        [_, _, b'M', b'N', ..] => Found::Fault(5),
        [_, _, _, _, ..] => Found::Fault(4),
        _ => Found::Short,
    }
}

/// Behind the header. Inlined, since a call for each record would take as long as its test.
#[inline(always)]
pub fn found(rest: &[u8]) -> Found {
    let points = match rest {
        [36, 0, b'C', b'3', tail @ ..] if tail.len() >= 32 => &tail[..32],
        [52, 0, b'C', b'5', tail @ ..] if tail.len() >= 48 => &tail[..48],
        [ERASED, ERASED, ..] => return Found::Erased,
        _ => return damage(rest),
    };
    if in_range(points) {
        Found::Record(4 + points.len())
    } else {
        Found::Fault(6)
    }
}

/// The fault of bytes that have to be FF, from a place on.
pub fn erased(tail: &[u8], place: usize) -> Option<Fault> {
    let other = tail.iter().position(|&byte| byte != ERASED)?;
    let (number, place) = (3, place + other);
    Some(Fault { number, place })
}

/// The fault of a sheet that ends with these bytes, which are nothing whole.
pub fn cut(rest: &[u8], place: usize) -> Option<Fault> {
    let number = 2;
    (!matches!(rest, [] | [ERASED])).then_some(Fault { number, place })
}

/// What is wrong with bytes that begin no whole record and no erased part.
fn damage(rest: &[u8]) -> Found {
    match rest {
        [36, 0, b'C', b'3', ..] | [52, 0, b'C', b'5', ..] => Found::Short,
        [_, _, b'C', b'3' | b'5', ..] => Found::Fault(5),
        [_, _, _, _, ..] => Found::Fault(4),
        _ => Found::Short,
    }
}

/// All coordinates, four at a time: the compiler tests those in one step.
fn in_range(points: &[u8]) -> bool {
    let outside = |four: &[u8]| {
        let each = four.chunks_exact(4).map(number);
        each.fold(false, |bad, x| {
            bad | (x.wrapping_add(20_000) as u32 > 40_000)
        })
    };
    !points
        .chunks_exact(16)
        .fold(false, |bad, four| bad | outside(four))
}

/// The number in four bytes.
pub fn number(bytes: &[u8]) -> i32 {
    i32::from_le_bytes([bytes[0], bytes[1], bytes[2], bytes[3]])
}
