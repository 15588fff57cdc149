//! The report, written straight into the lent bytes.

use crate::recognise::{verdict, Square, Verdict};
use crate::sheet::{number, walk, Fault, Listed};

/// A lent area that is written from its start. What does not fit is only counted.
struct Text<'a> {
    area: &'a mut [u8],
    length: usize,
}

impl Text<'_> {
    fn word(&mut self, word: &[u8]) {
        if let Some(place) = self.area.get_mut(self.length..self.length + word.len()) {
            place.copy_from_slice(word);
        }
        self.length += word.len();
    }

    /// A number that isn't negative, in decimal.
    fn number(&mut self, mut x: i64) {
        let mut digits = [0; 20];
        let mut from = digits.len();
        loop {
            from -= 1;
            digits[from] = b'0' + (x % 10) as u8;
            x /= 10;
            if x == 0 {
                break;
            }
        }
        self.word(&digits[from..]);
    }

    fn line(&mut self, number: i64, points: &[u8]) {
        let mut p = [0; 12];
        for (x, bytes) in p.iter_mut().zip(points.chunks_exact(4)) {
            *x = i64::from(self::number(bytes));
        }
        let count = points.len() / 4;
        self.number(number);
        self.word(if count == 8 { b" C3 " } else { b" C5 " });
        match verdict::<true>(&p[..count]) {
            Some(Verdict::Ph(square)) => self.c(b"ph c=", &square),
            Some(Verdict::Pre(square, _)) => {
                self.c(b"pre c=", &square);
                self.word(b" len=");
                self.number(length_above(&square, count));
                self.word(if count == 8 { b"/2" } else { b"/12" });
            }
            Some(Verdict::Still) => self.word(b"still"),
            _ => self.word(b"no"),
        }
        self.word(b"\n");
    }

    fn c(&mut self, name: &[u8], square: &Square) {
        self.word(name);
        self.number(square.c);
    }
}

/// A of the length √c·A/B, of so many coordinates.
pub fn length_above(square: &Square, count: usize) -> i64 {
    let [q0, q1, q2, q3, q4] = square.q;
    if count == 8 {
        6 * q0 + 3 * q1 + 2 * q2
    } else {
        60 * q0 + 30 * q1 + 20 * q2 + 15 * q3 + 12 * q4
    }
}

/// The text, and zeros behind it; nothing where the area is too short.
pub fn write_report(sheet: &[u8], area: &mut [u8]) -> Option<usize> {
    let mut text = Text { area, length: 0 };
    match walk(sheet, |_| ()) {
        Err(Fault { number, place }) => {
            text.word(b"refused ");
            text.number(number);
            text.word(b" at ");
            text.number(place as i64);
            text.word(b"\n");
        }
        Ok(Listed { mission, count }) => {
            text.word(b"mission ");
            match mission {
                Some(mission) => text.number(mission.into()),
                None => text.word(b"none"),
            }
            text.word(b" sheet ");
            text.number(count);
            text.word(b"\n");
            let mut at = 0;
            // The walk above found no fault, so that this one finds none.
            let _ = walk(sheet, |points| {
                at += 1;
                text.line(at, points);
            });
        }
    }
    let length = text.length;
    area.get_mut(length..)?.fill(0);
    Some(length)
}
