//! A call of the library and its answer, as plain values, with a readable form of both.

use std::fmt;

#[derive(Clone, Copy, Debug, PartialEq, Eq)]
pub enum Function {
    Recognise = 1,
    Length = 2,
    Inflections = 3,
    Offset = 4,
    Build = 5,
    Joins = 6,
    Check = 7,
    Read = 8,
    Find = 9,
    Erase = 10,
    Append = 11,
    Report = 12,
    Root = 13,
    PartsStart = 14,
    PartsFeed = 15,
    PartsEnd = 16,
    PartsAsk = 17,
    Start = 18,
}

pub const FUNCTIONS: [(Function, &str); 18] = [
    (Function::Recognise, "yard_recognise"),
    (Function::Length, "yard_length"),
    (Function::Inflections, "yard_inflections"),
    (Function::Offset, "yard_offset"),
    (Function::Build, "yard_build"),
    (Function::Joins, "yard_joins"),
    (Function::Check, "yard_check"),
    (Function::Read, "yard_read"),
    (Function::Find, "yard_find"),
    (Function::Erase, "yard_erase"),
    (Function::Append, "yard_append"),
    (Function::Report, "yard_report"),
    (Function::Root, "yard_root"),
    (Function::PartsStart, "yard_parts_start"),
    (Function::PartsFeed, "yard_parts_feed"),
    (Function::PartsEnd, "yard_parts_end"),
    (Function::PartsAsk, "yard_parts_ask"),
    (Function::Start, "yard_start"),
];

impl Function {
    pub fn name(self) -> &'static str {
        FUNCTIONS[self as usize - 1].1
    }
}

/// What a call holds besides its function. Each function uses those that its prototype names, and the others are empty.
#[derive(Clone, Debug, Default, PartialEq, Eq)]
pub struct Areas {
    /// The numbers of a curve, or of w.
    pub numbers: Vec<i64>,
    /// A sheet, or a part of one.
    pub sheet: Vec<u8>,
    /// What is written whole, or the state of a check by parts.
    pub out: Vec<i64>,
    pub text: Vec<u8>,
}

#[derive(Clone, Debug, PartialEq, Eq)]
pub struct Call {
    pub function: Function,
    /// h; x and y; the parts of a, z and T; a mission, and behind it perhaps a curve's number; or the number whose root
    /// is asked. Of a curve's number and of that one these are the bits.
    pub singles: [i64; 6],
    pub before: Areas,
}

#[derive(Clone, Debug, PartialEq, Eq)]
pub struct Answer {
    pub returned: i64,
    pub after: Areas,
}

impl fmt::Display for Call {
    fn fmt(&self, f: &mut fmt::Formatter) -> fmt::Result {
        let name = self.function.name();
        write!(
            f,
            "{name}, single numbers{}{}",
            row(&self.singles),
            self.before
        )
    }
}

impl fmt::Display for Answer {
    fn fmt(&self, f: &mut fmt::Formatter) -> fmt::Result {
        write!(f, "{}{}", self.returned, self.after)
    }
}

/// A line for each area that holds anything.
impl fmt::Display for Areas {
    fn fmt(&self, f: &mut fmt::Formatter) -> fmt::Result {
        let lines = [
            ("numbers", self.numbers.len(), row(&self.numbers)),
            ("sheet", self.sheet.len(), hex(&self.sheet)),
            ("out", self.out.len(), row(&self.out)),
            (
                "text",
                self.text.len(),
                format!(" {}", self.text.escape_ascii()),
            ),
        ];
        for (name, count, values) in lines.iter().filter(|line| line.1 > 0) {
            write!(f, "\n    {name} ({count}):{values}")?;
        }
        Ok(())
    }
}

fn row(numbers: &[i64]) -> String {
    numbers.iter().map(|x| format!(" {x}")).collect()
}

fn hex(bytes: &[u8]) -> String {
    bytes.iter().map(|x| format!(" {x:02x}")).collect()
}
