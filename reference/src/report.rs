//! The report of a sheet.

use crate::curve::Curve;
use crate::measure::{length, Length};
use crate::refusal::Refusal;
use crate::sheet::{check, kind_name};
use crate::verdict::{recognise, Ph, Verdict};

/// The report's text; that of a refused sheet comes back as the error.
pub fn report(sheet: &[u8]) -> Result<String, String> {
    let refused = |refusal: Refusal, place| format!("refused {} at {place}\n", refusal.number());
    let listing = check(sheet).map_err(|fault| refused(fault.refusal, fault.place))?;
    let mission = listing
        .mission
        .map_or("none".to_string(), |m| m.to_string());
    let mut text = format!("mission {mission} sheet {}\n", listing.records.len());
    for (record, number) in listing.records.iter().zip(1..) {
        let kind = kind_name(&record.curve);
        text += &format!("{number} {kind} {}\n", verdict_text(&record.curve));
    }
    Ok(text)
}

fn verdict_text(curve: &Curve) -> String {
    match recognise(curve).expect("a checked sheet has its coordinates in range") {
        Verdict::Still => "still".to_string(),
        Verdict::No => "no".to_string(),
        Verdict::Ph(Ph { c, .. }) => format!("ph c={c}"),
        Verdict::Pre(_) => {
            let Length { c, a, b } = length(curve).expect("pre has a length");
            format!("pre c={c} len={a}/{b}")
        }
    }
}

#[cfg(test)]
mod tests {
    use super::*;
    use crate::curve::curve;
    use crate::sheet::{header_bytes, record_bytes};

    fn sheet_of(mission: u16, curves: &[Curve], erased: usize) -> Vec<u8> {
        let records = curves
            .iter()
            .flat_map(|c| record_bytes(c).expect("small coordinates"));
        let mut bytes = header_bytes(mission);
        bytes.extend(records.chain(vec![0xFF; erased]));
        bytes
    }

    #[test]
    fn sample_report() {
        let line = curve(&[(0, 0), (1, 0), (2, 0), (3, 0), (4, 0), (5, 0)]);
        let sheet = sheet_of(7, &[line, curve(&[(-1, -1); 4])], 10);
        let expected = "mission 7 sheet 2\n1 C5 pre c=1 len=60/12\n2 C3 still\n";
        assert_eq!(report(&sheet).as_deref(), Ok(expected));
    }

    #[test]
    fn other_verdicts() {
        let ph = curve(&[(0, 0), (0, 0), (1, 0), (3, 0)]);
        let no = curve(&[(0, 0), (1, 0), (1, 1), (2, 1)]);
        let sheet = sheet_of(u16::MAX, &[ph, no], 0);
        let expected = "mission 65535 sheet 2\n1 C3 ph c=4\n2 C3 no\n";
        assert_eq!(report(&sheet).as_deref(), Ok(expected));
    }

    #[test]
    fn empty_and_refused() {
        for erased in [0, 1, 6, 4_096] {
            let none = "mission none sheet 0\n";
            assert_eq!(report(&vec![0xFF; erased]).as_deref(), Ok(none));
        }
        let alone = report(&sheet_of(0, &[], 3));
        assert_eq!(alone.as_deref(), Ok("mission 0 sheet 0\n"));
        let mut sheet = sheet_of(7, &[curve(&[(0, 0); 4])], 9);
        let headerless = "refused 4 at 0\n".to_string();
        assert_eq!(report(&sheet[6..]), Err(headerless));
        sheet[46] = 7;
        let refused = "refused 3 at 46\n".to_string();
        assert_eq!(report(&sheet), Err(refused));
        let too_long = "refused 1 at 0\n".to_string();
        assert_eq!(report(&[0; 4_097]), Err(too_long));
    }
}
