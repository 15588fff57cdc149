//! The report over a box of sheets: a line a sheet, and totals that are counted from the list of all sheets.

use crate::curve::Curve;
use crate::measure::{length, Length};
use crate::refusal::Refusal;
use crate::sheet::{check, Fault};
use crate::verdict::{recognise, Verdict};

const MOST_SHEETS: usize = 1_000;
const SHEET_REFUSALS: std::ops::RangeInclusive<u8> = 1..=6;

/// A curve as the totals see it: the word of its verdict, and its length in hundredths where it is measured.
struct Judged {
    verdict: &'static str,
    hundredths: Option<i128>,
}

type Sheet = Result<Vec<Judged>, Fault>;

/// The text over named sheets, and whether something was refused.
pub fn report(named: &[(String, Vec<u8>)]) -> (String, bool) {
    let within = &named[..named.len().min(MOST_SHEETS)];
    let sheets: Vec<Sheet> = within.iter().map(|(_, bytes)| judged(bytes)).collect();
    let mut text = String::new();
    for (((name, _), sheet), number) in within.iter().zip(&sheets).zip(1..) {
        text += &format!("{number} {name}: {}\n", sheet_text(sheet));
    }
    text += &totals(&sheets);
    let full = named.len() > MOST_SHEETS;
    if full {
        text += &format!(
            "refused {} at {}\n",
            Refusal::Full.number(),
            MOST_SHEETS + 1
        );
    }
    (text, full || sheets.iter().any(|sheet| sheet.is_err()))
}

fn judged(bytes: &[u8]) -> Sheet {
    let listing = check(bytes)?;
    Ok(listing.records.iter().map(|r| judge(&r.curve)).collect())
}

fn judge(curve: &Curve) -> Judged {
    let verdict = match recognise(curve).expect("a checked sheet has its coordinates in range") {
        Verdict::Still => "still",
        Verdict::No => "no",
        Verdict::Ph(_) => "ph",
        Verdict::Pre(_) => "pre",
    };
    Judged {
        verdict,
        hundredths: length(curve).ok().map(hundredths),
    }
}

/// The greatest m with m²·B² ≤ 10,000·c·A², between two that are and are not, halved until they meet.
fn hundredths(Length { c, a, b }: Length) -> i128 {
    let serves = |m: i128| m * m * b * b <= 10_000 * c * a * a;
    let (mut low, mut high) = (0, 1);
    while serves(high) {
        high *= 2;
    }
    while high - low > 1 {
        let middle = (low + high) / 2;
        if serves(middle) {
            low = middle;
        } else {
            high = middle;
        }
    }
    low
}

fn sheet_text(sheet: &Sheet) -> String {
    match sheet {
        Ok(curves) => format!("{} curves", curves.len()),
        Err(fault) => format!("refused {} at {}", fault.refusal.number(), fault.place),
    }
}

fn totals(sheets: &[Sheet]) -> String {
    let mut text = format!("sheets {}\n", sheets.len());
    for word in ["still", "no", "ph", "pre"] {
        let curves = sheets.iter().flatten().flatten();
        let many = curves.filter(|curve| curve.verdict == word).count();
        text += &format!("{word} {many}\n");
    }
    for number in SHEET_REFUSALS {
        let faults = sheets.iter().filter_map(|sheet| sheet.as_ref().err());
        let many = faults.filter(|f| f.refusal.number() == number).count();
        text += &format!("refused {number} {many}\n");
    }
    let measured = measured(sheets);
    let sum: i128 = measured.iter().map(|(m, _, _)| m).sum();
    text += &format!("sum {}\n", with_point(sum));
    // The first in order that no other passes.
    let longest = measured
        .iter()
        .find(|(m, _, _)| measured.iter().all(|(other, _, _)| other <= m));
    text += &match longest {
        None => "longest none\n".to_string(),
        Some((m, s, c)) => format!("longest {} sheet {s} curve {c}\n", with_point(*m)),
    };
    text
}

/// Every length with the numbers of its sheet and of its curve, in order.
fn measured(sheets: &[Sheet]) -> Vec<(i128, usize, usize)> {
    let mut list = Vec::new();
    for (sheet, s) in sheets.iter().zip(1..) {
        for (curve, c) in sheet.iter().flatten().zip(1..) {
            list.extend(curve.hundredths.map(|m| (m, s, c)));
        }
    }
    list
}

/// Hundredths with a point before the last two digits.
fn with_point(hundredths: i128) -> String {
    format!("{}.{:02}", hundredths / 100, hundredths % 100)
}

#[cfg(test)]
mod tests {
    use super::*;
    use crate::curve::curve;
    use crate::sheet::{header_bytes, record_bytes};

    fn named(sheets: &[Vec<u8>]) -> Vec<(String, Vec<u8>)> {
        sheets
            .iter()
            .map(|s| ("s".to_string(), s.clone()))
            .collect()
    }

    fn sheet_of(curves: &[Curve]) -> Vec<u8> {
        let records = curves.iter().map(|c| record_bytes(c).expect("small"));
        [header_bytes(7)]
            .into_iter()
            .chain(records)
            .flatten()
            .collect()
    }

    fn tail(text: &str, lines: usize) -> Vec<&str> {
        let all: Vec<&str> = text.lines().collect();
        all[all.len() - lines..].to_vec()
    }

    #[test]
    fn a_box_of_no_sheets() {
        let (text, refused) = report(&[]);
        let expected =
            "sheets 0\nstill 0\nno 0\nph 0\npre 0\nrefused 1 0\nrefused 2 0\nrefused 3 0\n\
                        refused 4 0\nrefused 5 0\nrefused 6 0\nsum 0.00\nlongest none\n";
        assert_eq!((text.as_str(), refused), (expected, false));
    }

    /// Case 6 is 31 long, case 2 is 2 long, and the diagonal is √2·3/… = 3·√2 = 4.2426… long.
    #[test]
    fn lengths_are_cut_down() {
        let c6 = curve(&[(0, 0), (6, 0), (12, 3), (17, 7), (23, 10), (29, 10)]);
        let c2 = curve(&[(0, 0), (1, 0), (1, 1), (0, 1)]);
        let diagonal = curve(&[(0, 0), (1, 1), (2, 2), (3, 3)]);
        let (text, _) = report(&named(&[sheet_of(&[c2, diagonal]), sheet_of(&[c6])]));
        assert_eq!(
            tail(&text, 2),
            ["sum 37.24", "longest 31.00 sheet 2 curve 1"]
        );
    }

    #[test]
    fn the_first_of_equals_is_longest() {
        let c2 = curve(&[(0, 0), (1, 0), (1, 1), (0, 1)]);
        let turned = curve(&[(0, 0), (0, 1), (-1, 1), (-1, 0)]);
        let still = curve(&[(3, 3); 4]);
        let (text, _) = report(&named(&[sheet_of(&[still, turned]), sheet_of(&[c2])]));
        assert_eq!(tail(&text, 2), ["sum 4.00", "longest 2.00 sheet 1 curve 2"]);
    }

    #[test]
    fn a_refused_sheet_adds_its_refusal_alone() {
        let c2 = curve(&[(0, 0), (1, 0), (1, 1), (0, 1)]);
        let mut damaged = sheet_of(&[c2]);
        damaged.push(0);
        let (text, refused) = report(&named(&[damaged]));
        assert!(refused);
        assert!(text.starts_with("1 s: refused 2 at 42\nsheets 1\nstill 0\nno 0\nph 0\npre 0\n"));
        assert_eq!(tail(&text, 2), ["sum 0.00", "longest none"]);
    }

    /// A header is no curve, and sheets of two missions are as good as of one.
    #[test]
    fn curves_count_whoever_they_are_for() {
        let c2 = curve(&[(0, 0), (1, 0), (1, 1), (0, 1)]);
        let sheet = sheet_of(&[c2]);
        let headerless = sheet[6..].to_vec();
        let mut other = sheet.clone();
        other[4] = 8;
        let (text, _) = report(&named(&[sheet, other, sheet_of(&[]), headerless]));
        let lines = "1 s: 1 curves\n2 s: 1 curves\n3 s: 0 curves\n4 s: refused 4 at 0\nsheets 4\n";
        assert!(text.starts_with(lines), "{text}");
        assert!(text.contains("\npre 2\n") && text.contains("\nrefused 4 1\n"));
    }

    #[test]
    fn a_thousand_and_one_more() {
        let (text, refused) = report(&named(&vec![Vec::new(); 1_000]));
        assert!(!refused && text.contains("\nsheets 1000\n"));
        let (text, refused) = report(&named(&vec![Vec::new(); 1_001]));
        assert!(refused && text.contains("\nsheets 1000\n"));
        assert_eq!(tail(&text, 1), ["refused 20 at 1001"]);
    }
}
