//! The second program: answers to the calls of the document, by other means than the proved crates.
//! It makes expected outputs and is compared with the compiled library.
//!
//!     reference expect FILE               answer every call of a script, a line each
//!     reference report FILE               the report of a sheet
//!     reference box FILE...               the report of a box of sheets
//!     reference boxes FOLDER SEED         boxes by chance, each as a folder of sheets
//!     reference sheet FILE.txt OUT        make a sheet from a readable text
//!     reference read FILE MISSION NUMBER  the curve of that number, and its record's bytes
//!     reference append FILE OUT POINTS    the sheet with one more curve
//!     reference erase FILE OUT            the sheet with every byte FF
//!     reference start FILE OUT MISSION    the sheet with that mission's header and every other byte FF
//!     reference compare COUNT SEED COMMAND...   calls by chance, compared with the library behind the command
//!
//! Status 0 is an answer, 1 a sheet or call refused or a difference, 2 a mistake in the command line or in a text.

mod build;
mod compare;
mod curve;
mod join;
mod measure;
mod offset;
mod pair;
mod parts;
mod poly;
mod refusal;
mod report;
mod root;
mod runs;
mod script;
mod sheet;
mod totals;
mod verdict;

use refusal::Refusal;
use std::io::Write;
use std::process::ExitCode;

const HELP: &str = "\
usage: reference expect FILE               answer every call of a script, a line each
       reference report FILE               the report of a sheet
       reference box FILE...               the report of a box of sheets
       reference boxes FOLDER SEED         boxes by chance, each as a folder of sheets
       reference sheet FILE.txt OUT        make a sheet from a readable text
       reference read FILE MISSION NUMBER  the curve of that number, and its record's bytes
       reference append FILE OUT POINTS    the sheet with one more curve
       reference erase FILE OUT            the sheet with every byte FF
       reference start FILE OUT MISSION    the sheet with that mission's header and every other byte FF
       reference compare COUNT SEED COMMAND...
                                           calls by chance, compared with the library behind the command

A script line is `LABEL: CALL`; empty lines and lines that begin with # are skipped. Calls:
       recognise CURVE                     length CURVE
       inflections CURVE                   offset CURVE by H in ROOM
       build P0 from W0 W1                 build P0 from W0 W1 W2
       joins A Z over T in ROOM            root N
       check RUNS                          erase RUNS
       parts RUNS / RUNS / ...             start MISSION on RUNS
       read MISSION NUMBER of RUNS         find MISSION NUMBER of RUNS
       append C3 POINTS to RUNS            append C5 POINTS to RUNS
A point or pair is (x,y), a curve 4 or 6 points with blanks between; a run of a sheet's bytes is (BYTE,HOW MANY);
a mission is a number from 0 to 65535.
Parts are fed one after another, perhaps empty ones, and then the sheet is ended: the answer is that of `check`.
A sheet text has lines `mission N`, `C3 POINTS`, `C5 POINTS`, `erased N`, `bytes 00 11 ff`, and # for comments.
Status 0 is an answer, 1 a sheet or call refused or a difference, 2 a mistake in the command line or in a text.
";

/// What a command ends with: the text of an answer, the text of a refusal, a text beside files that could not be read, or a mistake.
enum End {
    Answer(String),
    Refused(String),
    Partly(String),
    Mistake(String),
}

fn main() -> ExitCode {
    let words: Vec<String> = std::env::args().skip(1).collect();
    let words: Vec<&str> = words.iter().map(String::as_str).collect();
    let (text, status) = match run(&words).unwrap_or_else(End::Mistake) {
        End::Answer(text) => (text, 0),
        End::Refused(text) => (text, 1),
        End::Partly(text) => (text, 2),
        End::Mistake(why) => {
            eprintln!("reference: {why}");
            return ExitCode::from(2);
        }
    };
    if let Err(why) = std::io::stdout().write_all(text.as_bytes()) {
        eprintln!("reference: standard output: {why}");
        return ExitCode::from(2);
    }
    ExitCode::from(status)
}

fn run(words: &[&str]) -> Result<End, String> {
    match words {
        ["--help" | "-h"] => Ok(End::Answer(HELP.to_string())),
        ["expect", file] => in_file(file, script::expect(&text_of(file)?)).map(End::Answer),
        ["report", file] => Ok(match report::report(&bytes_of(file)?) {
            Ok(text) => End::Answer(text),
            Err(text) => End::Refused(text),
        }),
        ["box", files @ ..] => Ok(box_report(files)),
        ["boxes", folder, seed] => {
            compare::boxes::make(folder.as_ref(), whole(seed)?)
                .map_err(|why| format!("{folder}: {why}"))?;
            Ok(End::Answer(String::new()))
        }
        ["sheet", file, out] => {
            let bytes = in_file(file, script::sheet_bytes(&text_of(file)?))?;
            write(out, &bytes)
        }
        ["read", file, mission, number] => read(&bytes_of(file)?, mission, number),
        ["append", file, out, points @ ..] => {
            let curve = script::curve(points)?;
            changed(file, out, |bytes| sheet::append(bytes, &curve))
        }
        ["erase", file, out] => changed(file, out, sheet::erase),
        ["start", file, out, mission] => {
            let mission = script::number(mission)?;
            changed(file, out, |bytes| sheet::start(bytes, mission))
        }
        ["compare", count, seed, command @ ..] => {
            let (count, seed) = (whole(count)?, whole(seed)?);
            let compared = compare::compare(count, seed, command)?;
            Ok(compared.map_or_else(End::Refused, End::Answer))
        }
        _ => Err(format!("no such command\n{HELP}")),
    }
}

fn bytes_of(file: &str) -> Result<Vec<u8>, String> {
    in_file(file, std::fs::read(file).map_err(|why| why.to_string()))
}

fn text_of(file: &str) -> Result<String, String> {
    in_file(
        file,
        std::fs::read_to_string(file).map_err(|why| why.to_string()),
    )
}

fn whole(word: &str) -> Result<u64, String> {
    word.parse()
        .map_err(|_| format!("`{word}` is no whole number"))
}

/// Puts the file's name before what is wrong with it.
fn in_file<T>(file: &str, read: Result<T, String>) -> Result<T, String> {
    read.map_err(|why| format!("{file}: {why}"))
}

fn write(out: &str, bytes: &[u8]) -> Result<End, String> {
    in_file(
        out,
        std::fs::write(out, bytes).map_err(|why| why.to_string()),
    )?;
    Ok(End::Answer(String::new()))
}

/// A file that cannot be read is named on the error output, and is no sheet.
fn box_report(files: &[&str]) -> End {
    let (read, unread): (Vec<_>, Vec<_>) = files
        .iter()
        .map(|file| bytes_of(file).map(|bytes| (file.to_string(), bytes)))
        .partition(Result::is_ok);
    let sheets: Vec<(String, Vec<u8>)> = read.into_iter().flatten().collect();
    let complaints: Vec<String> = unread.into_iter().filter_map(Result::err).collect();
    for why in &complaints {
        eprintln!("reference: {why}");
    }
    match totals::report(&sheets) {
        (text, _) if !complaints.is_empty() => End::Partly(text),
        (text, true) => End::Refused(text),
        (text, false) => End::Answer(text),
    }
}

fn refused(refusal: Refusal) -> End {
    End::Refused(format!("refused {}\n", refusal.number()))
}

fn read(sheet: &[u8], mission: &str, number: &str) -> Result<End, String> {
    let (mission, number) = (script::number(mission)?, script::number(number)?);
    Ok(match sheet::read(sheet, mission, number) {
        Err(refusal) => refused(refusal),
        Ok(curve) => {
            let points: Vec<String> = curve.points().iter().map(|p| p.to_string()).collect();
            let record = sheet::find(sheet, mission, number);
            let hex: Vec<String> = record.iter().map(|byte| format!("{byte:02x}")).collect();
            End::Answer(format!("{}\n{}\n", points.join(" "), hex.join(" ")))
        }
    })
}

/// A call that changes a sheet: the changed bytes go to `out`, unless the call refuses.
fn changed(
    file: &str,
    out: &str,
    call: impl Fn(&mut [u8]) -> Result<(), Refusal>,
) -> Result<End, String> {
    let mut bytes = bytes_of(file)?;
    match call(&mut bytes) {
        Ok(()) => write(out, &bytes),
        Err(refusal) => Ok(refused(refusal)),
    }
}
