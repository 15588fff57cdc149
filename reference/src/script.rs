//! Scripts: text files of calls, one a line, and the line that answers each.
//! Sheet texts too: a readable file, from which the bytes of a sheet are made.

use crate::build::build;
use crate::curve::Curve;
use crate::join::joins;
use crate::measure::{inflections, length};
use crate::offset::offset;
use crate::pair::{pair, Pair};
use crate::refusal::Refusal;
use crate::root::root;
use crate::runs;
use crate::sheet::{header_bytes, record_bytes};
use crate::verdict::{recognise, Ph, Pre, Verdict};
use std::fmt::Display;
use std::str::FromStr;

/// The answers to a whole script, or what is wrong with a line of it.
pub fn expect(script: &str) -> Result<String, String> {
    let mut answers = String::new();
    for (line, number) in script.lines().zip(1..) {
        if line.trim().is_empty() || line.starts_with('#') {
            continue;
        }
        let answered = answer_line(line).map_err(|why| format!("line {number}: {why}"))?;
        answers += &answered;
        answers.push('\n');
    }
    Ok(answers)
}

fn answer_line(line: &str) -> Result<String, String> {
    let (label, call) = line.split_once(':').ok_or("no `LABEL: CALL`")?;
    let words: Vec<&str> = call.split_whitespace().collect();
    let (name, rest) = words.split_first().ok_or("no call behind the label")?;
    let answer = match *name {
        "recognise" => one_curve(rest, recognise, verdict_text)?,
        "length" => one_curve(rest, length, |x| format!("c={} len={}/{}", x.c, x.a, x.b))?,
        "inflections" => one_curve(rest, inflections, |x| {
            let straight = if x.straight { " straight" } else { "" };
            format!("turning {} count {}{straight}", row(&x.turning), x.count)
        })?,
        "offset" => offset_text(rest)?,
        "build" => build_text(rest)?,
        "joins" => joins_text(rest)?,
        "root" => root_text(rest)?,
        _ => runs::answer(name, rest).ok_or(format!("unknown call `{name}`"))??,
    };
    Ok(format!("{label}: {answer}"))
}

/// A call that takes a curve and nothing else.
fn one_curve<T>(
    words: &[&str],
    call: impl Fn(&Curve) -> Result<T, Refusal>,
    text: impl Fn(T) -> String,
) -> Result<String, String> {
    Ok(match call(&curve(words)?) {
        Ok(answer) => text(answer),
        Err(refusal) => format!("refused {}", refusal.number()),
    })
}

fn verdict_text(verdict: Verdict) -> String {
    match verdict {
        Verdict::Still => "still".to_string(),
        Verdict::No => "no".to_string(),
        Verdict::Ph(Ph { c, q }) => format!("ph c={c} q={}", filled(&q, 5)),
        Verdict::Pre(Pre { c, q, kappa, w }) => {
            let (q, w) = (filled(&q, 5), filled(&w, 3));
            format!("pre c={c} q={q} kappa={kappa} w={w}")
        }
    }
}

/// `CURVE by H in ROOM`
fn offset_text(words: &[&str]) -> Result<String, String> {
    let [points @ .., "by", h, "in", room] = words else {
        return Err("not `offset CURVE by H in ROOM`".to_string());
    };
    let (h, room) = (number::<i64>(h)?, number::<usize>(room)?);
    let answer = offset(&curve(points)?, i128::from(h), room);
    Ok(match answer {
        Ok(numbers) => {
            let zeros = room - numbers.len();
            format!("written {} and {zeros} zeros", row(&numbers))
        }
        Err(refusal) => cleared(refusal, room),
    })
}

/// `P0 from W0 W1` or `P0 from W0 W1 W2`
fn build_text(words: &[&str]) -> Result<String, String> {
    let [p0, "from", w @ ..] = words else {
        return Err("not `build P0 from W0 W1` or `… W0 W1 W2`".to_string());
    };
    if !matches!(w.len(), 2 | 3) {
        return Err(format!("{} pairs to build from, not 2 or 3", w.len()));
    }
    Ok(match build(a_pair(p0)?, &pairs(w)?) {
        Ok(built) => row(built.points()),
        Err(refusal) => format!("refused {}", refusal.number()),
    })
}

/// `A Z over T in ROOM`
fn joins_text(words: &[&str]) -> Result<String, String> {
    let [a, z, "over", travel, "in", room] = words else {
        return Err("not `joins A Z over T in ROOM`".to_string());
    };
    let room = number::<usize>(room)?;
    let triples = match joins(a_pair(a)?, a_pair(z)?, a_pair(travel)?, room) {
        Ok(triples) => triples,
        Err(refusal) => return Ok(cleared(refusal, room)),
    };
    let parts = triples.iter().flatten().flat_map(|w| [w.re, w.im]);
    let numbers: Vec<i128> = parts.collect();
    let list = match triples.len() {
        0 => "0 joins".to_string(),
        count => format!("{count} joins: {}", row(&numbers)),
    };
    Ok(format!("{list} and {} zeros", room - numbers.len()))
}

/// `N`, any number of 64 bits without a sign
fn root_text(words: &[&str]) -> Result<String, String> {
    let [n] = words else {
        return Err("not `root N`".to_string());
    };
    let (root, rest) = root(number(n)?);
    Ok(format!("root {root} rest {rest}"))
}

/// A refusal by a call that clears its lent area.
fn cleared(refusal: Refusal, room: usize) -> String {
    format!("refused {} and {room} zeros", refusal.number())
}

/// The values with one blank between them.
pub fn row<T: Display>(values: &[T]) -> String {
    let texts: Vec<String> = values.iter().map(T::to_string).collect();
    texts.join(" ")
}

/// The same with zeros behind, to `count` values: a cubic has fewer coefficients than a quintic.
fn filled<T: Display + Copy + Default>(values: &[T], count: usize) -> String {
    let mut values = values.to_vec();
    values.resize(count, T::default());
    row(&values)
}

pub fn number<T: FromStr>(word: &str) -> Result<T, String> {
    let read = word.parse();
    read.map_err(|_| format!("`{word}` is no number, or too far from 0"))
}

/// A pair or point as `(x,y)`; its parts may be any 64-bit numbers.
pub fn a_pair(word: &str) -> Result<Pair, String> {
    let inside = word.strip_prefix('(').and_then(|x| x.strip_suffix(')'));
    let parts = inside.and_then(|x| x.split_once(','));
    let (x, y) = parts.ok_or_else(|| format!("`{word}` is no `(x,y)`"))?;
    Ok(pair(number::<i64>(x)?.into(), number::<i64>(y)?.into()))
}

fn pairs(words: &[&str]) -> Result<Vec<Pair>, String> {
    words.iter().map(|word| a_pair(word)).collect()
}

/// A curve as 4 or 6 points.
pub fn curve(words: &[&str]) -> Result<Curve, String> {
    let count = words.len();
    Curve::new(pairs(words)?).ok_or(format!("{count} points, but a curve has 4 or 6"))
}

/// The bytes of a sheet text, or what is wrong with a line of it.
pub fn sheet_bytes(text: &str) -> Result<Vec<u8>, String> {
    let mut bytes = Vec::new();
    for (line, number) in text.lines().zip(1..) {
        let without_comment = line.split('#').next().unwrap_or_default();
        let words: Vec<&str> = without_comment.split_whitespace().collect();
        let part = sheet_part(&words).map_err(|why| format!("line {number}: {why}"))?;
        bytes.extend(part);
    }
    Ok(bytes)
}

fn sheet_part(words: &[&str]) -> Result<Vec<u8>, String> {
    match words {
        [] => Ok(Vec::new()),
        ["mission", mission] => Ok(header_bytes(number(mission)?)),
        ["erased", count] => Ok(vec![0xFF; number::<u16>(count)?.into()]),
        ["bytes", hex @ ..] => hex.iter().map(|word| hex_byte(word)).collect(),
        [kind @ ("C3" | "C5"), points @ ..] => {
            let wanted = if *kind == "C3" { 4 } else { 6 };
            if points.len() != wanted {
                return Err(format!("{kind} with {} points, not {wanted}", points.len()));
            }
            let bytes = record_bytes(&curve(points)?);
            bytes.ok_or("a coordinate doesn't fit into 4 bytes".to_string())
        }
        _ => Err("not `mission N`, `C3 …`, `C5 …`, `erased N` or `bytes …`".to_string()),
    }
}

fn hex_byte(word: &str) -> Result<u8, String> {
    let digits = word.len() == 2 && word.bytes().all(|x| x.is_ascii_hexdigit());
    let byte = digits.then(|| u8::from_str_radix(word, 16).ok()).flatten();
    byte.ok_or(format!("`{word}` is no byte in hex"))
}

#[cfg(test)]
mod tests {
    use super::*;

    fn answer(call: &str) -> String {
        answer_line(&format!("x: {call}")).expect("a good line")
    }

    #[test]
    fn calls_of_the_cases() {
        let line = "(0,0) (1,0) (2,0) (3,0) (4,0) (5,0)";
        let pre = "x: pre c=1 q=1 0 0 0 0 kappa=(1,0) w=(1,0) (0,0) (0,0)";
        assert_eq!(answer(&format!("recognise {line}")), pre);
        assert_eq!(answer(&format!("length {line}")), "x: c=1 len=60/12");
        let turning = "x: turning 0 0 0 count 0 straight";
        assert_eq!(answer(&format!("inflections {line}")), turning);
        let moved = answer(&format!("offset {line} by 2 in 31"));
        assert!(moved.starts_with("x: written 252 0 -504 252 140 -504 252 280 -504 "));
        assert!(moved.ends_with(" 252 1260 -504 and 1 zeros"));
        let refused = "x: refused 12 and 29 zeros";
        assert_eq!(answer(&format!("offset {line} by 2 in 29")), refused);
    }

    #[test]
    fn calls_of_builds_and_joins() {
        let built = "x: (0,0) (1,0) (1,1) (0,1)";
        assert_eq!(answer("build (0,0) from (1,0) (0,1)"), built);
        assert_eq!(answer("build (0,0) from (0,0) (0,0)"), "x: refused 8");
        let two = "x: 2 joins: 1 0 -8 0 1 0 1 0 2 0 1 0 and 12 zeros";
        assert_eq!(answer("joins (1,0) (1,0) over (5,0) in 24"), two);
        let none = "x: 0 joins and 25 zeros";
        assert_eq!(answer("joins (2,0) (1,0) over (5,0) in 25"), none);
        let refused = "x: refused 12 and 23 zeros";
        assert_eq!(answer("joins (1,0) (1,0) over (5,0) in 23"), refused);
    }

    #[test]
    fn calls_of_roots() {
        assert_eq!(answer("root 10"), "x: root 3 rest 1");
        let last = "x: root 4294967295 rest 8589934590";
        assert_eq!(answer("root 18446744073709551615"), last);
    }

    #[test]
    fn comments_and_malformed_lines() {
        let script = "# a comment\n\na b: recognise (1,1) (1,1) (1,1) (1,1)\n";
        assert_eq!(expect(script).as_deref(), Ok("a b: still\n"));
        for bad in [
            "recognise",
            "x: recognise (0,0)",
            "x: recognise (0,0) (0,0) (0,0) (0,)",
            "x: length (0,0) (0,0) (0,0) (0,9223372036854775808)",
            "x: offset (0,0) (0,0) (0,0) (0,0) by 1 in -1",
            "x: offset (0,0) (0,0) (0,0) (0,0) by 1",
            "x: build (0,0) from (0,0)",
            "x: joins (0,0) (0,0) over (0,0)",
            "x: root -1",
            "x: root 18446744073709551616",
            "x: root 1 2",
            "x: fly (0,0)",
            "x:",
        ] {
            let whole = format!("# first\n{bad}\n");
            let why = expect(&whole).expect_err("malformed");
            assert!(why.starts_with("line 2: "), "{why}");
        }
    }

    #[test]
    fn far_numbers_are_refused_not_malformed() {
        let far = "(-9223372036854775808,9223372036854775807)";
        let curve = [far; 4].join(" ");
        assert_eq!(answer(&format!("recognise {curve}")), "x: refused 6");
        assert_eq!(
            answer(&format!("build {far} from {far} {far}")),
            "x: refused 6"
        );
        let joined = answer(&format!("joins {far} {far} over {far} in 2"));
        assert_eq!(joined, "x: refused 6 and 2 zeros");
    }

    #[test]
    fn sheet_texts() {
        let text = "# a sheet\nmission 519\nC3 (-1,-1) (-1,-1) (-1,-1) (-1,-1)\nerased 2 # tail\nbytes 00 fF\n";
        let bytes = sheet_bytes(text).expect("a good text");
        assert_eq!(bytes[..6], *b"\x06\0MN\x07\x02");
        assert_eq!(bytes[6..10], [36, 0, b'C', b'3']);
        assert_eq!(bytes[10..42], [0xFF; 32]);
        assert_eq!(bytes[42..], [0xFF, 0xFF, 0x00, 0xFF]);
        for bad in [
            "C3 (0,0)",
            "C4",
            "bytes 0",
            "bytes +1",
            "erased",
            "erased x",
            "mission",
            "mission -1",
            "mission 65536",
            "mission 1 2",
        ] {
            assert!(sheet_bytes(bad).is_err(), "{bad}");
        }
    }
}
