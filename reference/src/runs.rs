//! The calls of a script on sheets. A sheet is told by its runs of equal bytes, each as `(BYTE,HOW MANY)`.

use crate::parts::{self, NUMBERS};
use crate::refusal::Refusal;
use crate::script::{a_pair, curve, number, row};
use crate::sheet::{append, check, count, erase, find, read, start, Fault};

/// The answer to a call on a sheet; nothing where it is a call of another kind.
pub fn answer(name: &str, words: &[&str]) -> Option<Result<String, String>> {
    Some(match name {
        "check" => bytes(words).map(|sheet| check_text(count(&sheet))),
        "parts" => parts_text(words),
        "read" => asked(words).map(
            |Asked {
                 mission,
                 number,
                 sheet,
             }| {
                match read(&sheet, mission, number) {
                    Ok(curve) => row(curve.points()),
                    Err(refusal) => fault_text(placed(&sheet, refusal)),
                }
            },
        ),
        "find" => asked(words).map(
            |Asked {
                 mission,
                 number,
                 sheet,
             }| {
                let part = find(&sheet, mission, number);
                format!("{} bytes{}", part.len(), runs(part))
            },
        ),
        "erase" => {
            bytes(words).map(|sheet| changed(sheet, |sheet| erase(sheet).map_err(Fault::from)))
        }
        "start" => start_text(words),
        "append" => append_text(words),
        _ => return None,
    })
}

fn check_text(checked: Result<usize, Fault>) -> String {
    match checked {
        Ok(curves) => format!("curves {curves}"),
        Err(fault) => fault_text(fault),
    }
}

fn fault_text(fault: Fault) -> String {
    format!("refused {} at {}", fault.refusal.number(), fault.place)
}

/// `RUNS / RUNS / …`, of which each may be empty: what the check by parts says when all are fed and the sheet is ended.
fn parts_text(words: &[&str]) -> Result<String, String> {
    let mut state = [0; NUMBERS];
    parts::start(&mut state).expect("room for a state");
    for part in words.split(|word| *word == "/") {
        parts::feed(&mut state, &bytes(part)?).expect("a state that has not ended");
    }
    Ok(check_text(parts::end(&mut state)))
}

/// `MISSION on RUNS`
fn start_text(words: &[&str]) -> Result<String, String> {
    let [mission, "on", sheet @ ..] = words else {
        return Err("not `start MISSION on RUNS`".to_string());
    };
    let mission = number(mission)?;
    Ok(changed(bytes(sheet)?, |sheet| {
        start(sheet, mission).map_err(Fault::from)
    }))
}

/// `C3 POINTS to RUNS` or `C5 POINTS to RUNS`
fn append_text(words: &[&str]) -> Result<String, String> {
    let malformed = "not `append C3 POINTS to RUNS` or `append C5 POINTS to RUNS`";
    let mut parts = words.split(|word| *word == "to");
    let (Some([kind, points @ ..]), Some(sheet), None) = (parts.next(), parts.next(), parts.next())
    else {
        return Err(malformed.to_string());
    };
    if !matches!((*kind, points.len()), ("C3", 4) | ("C5", 6)) {
        return Err(malformed.to_string());
    }
    let curve = curve(points)?;
    Ok(changed(bytes(sheet)?, |sheet| {
        append(sheet, &curve).map_err(|refusal| placed(sheet, refusal))
    }))
}

/// What a call that writes a sheet says, and the sheet as it is left.
fn changed(mut sheet: Vec<u8>, call: impl Fn(&mut [u8]) -> Result<(), Fault>) -> String {
    let said = match call(&mut sheet) {
        Ok(()) => "done".to_string(),
        Err(fault) => fault_text(fault),
    };
    format!("{said}, left{}", runs(&sheet))
}

/// A refusal of a call that checks the sheet, with its place: that of the sheet's fault, if it has one, else 0.
fn placed(sheet: &[u8], refusal: Refusal) -> Fault {
    let place = check(sheet).err().map_or(0, |fault| fault.place);
    Fault { refusal, place }
}

/// What a curve is asked for by.
struct Asked {
    mission: u16,
    number: usize,
    sheet: Vec<u8>,
}

/// `MISSION NUMBER of RUNS`
fn asked(words: &[&str]) -> Result<Asked, String> {
    let [mission, which, "of", sheet @ ..] = words else {
        return Err("not `MISSION NUMBER of RUNS`".to_string());
    };
    Ok(Asked {
        mission: number(mission)?,
        number: number(which)?,
        sheet: bytes(sheet)?,
    })
}

fn bytes(words: &[&str]) -> Result<Vec<u8>, String> {
    let mut sheet = Vec::new();
    for word in words {
        let run = a_pair(word)?;
        let byte = u8::try_from(run.re).map_err(|_| format!("`{word}`: no byte"))?;
        let many = usize::try_from(run.im).map_err(|_| format!("`{word}`: no count"))?;
        sheet.resize(sheet.len() + many, byte);
    }
    Ok(sheet)
}

fn runs(bytes: &[u8]) -> String {
    let run = |run: &[u8]| format!(" ({},{})", run[0], run.len());
    bytes.chunk_by(|a, b| a == b).map(run).collect()
}

#[cfg(test)]
mod tests {
    use super::*;

    fn said(call: &str) -> String {
        let words: Vec<&str> = call.split_whitespace().collect();
        answer(words[0], &words[1..])
            .expect("a call on a sheet")
            .expect("well formed")
    }

    const HEADER: &str = "(6,1) (0,1) (77,1) (78,1) (7,1) (0,1)";
    const CUBIC: &str = "(36,1) (0,1) (67,1) (51,1) (0,32)";

    #[test]
    fn answers_with_their_places() {
        let sheet = format!("{HEADER} {CUBIC}");
        assert_eq!(said("check"), "curves 0");
        assert_eq!(said(&format!("check {HEADER}")), "curves 0");
        assert_eq!(said(&format!("check {sheet} (255,3)")), "curves 1");
        assert_eq!(said(&format!("check {sheet} (0,1)")), "refused 2 at 42");
        assert_eq!(said(&format!("check {CUBIC}")), "refused 4 at 0");
        assert_eq!(said(&format!("check {sheet} {HEADER}")), "refused 4 at 42");
        assert_eq!(
            said(&format!("read 7 1 of {sheet}")),
            "(0,0) (0,0) (0,0) (0,0)"
        );
        assert_eq!(said(&format!("read 7 2 of {sheet}")), "refused 7 at 0");
        assert_eq!(said(&format!("read 8 1 of {sheet}")), "refused 16 at 0");
        assert_eq!(said(&format!("read 263 2 of {sheet}")), "refused 16 at 0");
        assert_eq!(
            said(&format!("read 8 1 of {sheet} (0,1)")),
            "refused 2 at 42"
        );
        assert_eq!(said("read 8 1 of (255,9)"), "refused 7 at 0");
        assert_eq!(
            said(&format!("find 7 1 of {sheet} (255,9)")),
            format!("36 bytes {CUBIC}")
        );
        assert_eq!(said(&format!("find 8 1 of {sheet}")), "0 bytes");
        assert_eq!(said("find 7 1 of (255,9)"), "0 bytes");
    }

    #[test]
    fn sheets_that_are_left() {
        assert_eq!(said("erase (7,4096)"), "done, left (255,4096)");
        assert_eq!(said("erase (7,4097)"), "refused 1 at 0, left (7,4097)");
        let cubic = "append C3 (0,0) (0,0) (0,0) (0,0) to";
        assert_eq!(
            said(&format!("{cubic} {HEADER} (255,40)")),
            format!("done, left {HEADER} {CUBIC} (255,4)")
        );
        assert_eq!(
            said(&format!("{cubic} {HEADER} (255,35)")),
            format!("refused 12 at 0, left {HEADER} (255,35)")
        );
        assert_eq!(
            said(&format!("{cubic} (255,40)")),
            "refused 15 at 0, left (255,40)"
        );
        assert_eq!(
            said(&format!("{cubic} (255,3) (7,1)")),
            "refused 3 at 3, left (255,3) (7,1)"
        );
    }

    /// What stood there does not matter, nor has a refusal a place: these five bytes have a fault at byte 4.
    #[test]
    fn sheets_that_are_started() {
        assert_eq!(
            said(&format!("start 7 on {CUBIC}")),
            format!("done, left {HEADER} (255,30)")
        );
        assert_eq!(
            said("start 65535 on (255,7)"),
            "done, left (6,1) (0,1) (77,1) (78,1) (255,3)"
        );
        let short = "(255,4) (7,1)";
        assert_eq!(said(&format!("check {short}")), "refused 3 at 4");
        assert_eq!(
            said(&format!("start 7 on {short}")),
            format!("refused 12 at 0, left {short}")
        );
        assert_eq!(said("start 0 on (7,4097)"), "refused 1 at 0, left (7,4097)");
    }

    #[test]
    fn parts_say_what_the_whole_sheet_does() {
        for (sheet, said) in [
            ("", "curves 0"),
            ("/", "curves 0"),
            (
                "(6,1) / (0,1) (77,1) / (78,1) (7,1) / (0,1) (36,1) / (0,1) (67,1) / / (51,1) (0,32) (255,1) / (255,1)",
                "curves 1",
            ),
            ("(6,1) (0,1) (77,1) / (78,1) (7,1) (255,1) (36,1) (0,1) / (67,1) (51,1) (0,31)", "refused 2 at 6"),
            ("(6,1) (0,1) (77,1) / (78,1) (7,1)", "refused 2 at 0"),
            ("(36,1) (0,1) / (67,1) (51,1) (0,31)", "refused 4 at 0"),
            ("(255,2) / (255,7) (0,1) / (255,9)", "refused 3 at 9"),
            ("(0,4) / (255,4092) /", "refused 4 at 0"),
            ("(0,4) / (255,4092) / (255,1)", "refused 1 at 0"),
            ("(0,4) / (255,100000) / (7,3)", "refused 1 at 0"),
        ] {
            assert_eq!(said, self::said(&format!("parts {sheet}")));
            let whole = sheet.replace('/', "");
            assert_eq!(said, self::said(&format!("check {whole}")));
        }
    }

    #[test]
    fn malformed_calls() {
        for bad in [
            "check (256,1)",
            "check (0,1) / (0,1)",
            "parts (0,1) / (0,-1)",
            "parts (0,1)/(0,1)",
            "read 7 (255,2)",
            "read 1 of (255,2)",
            "read 65536 1 of (255,2)",
            "find -1 1 of (255,2)",
            "start (255,9)",
            "start 65536 on (255,9)",
            "append C3 (0,0) to (255,9)",
            "erase 4",
        ] {
            let words: Vec<&str> = bad.split_whitespace().collect();
            assert!(
                answer(words[0], &words[1..])
                    .expect("a call on a sheet")
                    .is_err(),
                "{bad}"
            );
        }
    }
}
