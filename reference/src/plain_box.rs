//! The report of a box of sheets by plain code, to time the proved program against.

use plain::Totals;
use std::io::{Read, Write};

fn main() -> std::io::Result<()> {
    let mut out = std::io::stdout().lock();
    let mut totals = Totals::default();
    let mut bytes = Vec::with_capacity(4_097);
    for name in std::env::args().skip(1) {
        bytes.clear();
        std::fs::File::open(&name)?
            .take(4_097)
            .read_to_end(&mut bytes)?;
        let told = match totals.add(&bytes) {
            Ok(count) => format!("{count} curves"),
            Err(fault) => format!("refused {} at {}", fault.number, fault.place),
        };
        out.write_all(format!("{} {name}: {told}\n", totals.sheets).as_bytes())?;
    }
    out.write_all(text(&totals).as_bytes())
}

fn text(totals: &Totals) -> String {
    let with_point = |m: u64| format!("{}.{:02}", m / 100, m % 100);
    let mut text = format!("sheets {}\n", totals.sheets);
    for (word, many) in ["still", "no", "ph", "pre"].iter().zip(totals.verdicts) {
        text += &format!("{word} {many}\n");
    }
    for (many, number) in totals.refused.iter().zip(1..) {
        text += &format!("refused {number} {many}\n");
    }
    text += &format!("sum {}\n", with_point(totals.sum));
    text + &match totals.longest {
        None => "longest none\n".to_string(),
        Some((m, s, c)) => format!("longest {} sheet {s} curve {c}\n", with_point(m)),
    }
}
