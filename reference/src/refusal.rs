//! The refusal table: every refusal by its number.

#[derive(Clone, Copy, Debug, PartialEq, Eq)]
pub enum Refusal {
    TooLong = 1,
    Cut = 2,
    Leftover = 3,
    Kind = 4,
    Length = 5,
    Range = 6,
    Number = 7,
    Still = 8,
    NotPh = 9,
    NoPreimage = 10,
    Root = 11,
    Room = 12,
    Thirds = 13,
    DeadEnd = 14,
    NoMission = 15,
    OtherMission = 16,
    Ended = 19,
    Full = 20,
}

/// The names of those that the calls for C know.
const NAMES: [(Refusal, &str); 17] = [
    (Refusal::TooLong, "TOO LONG"),
    (Refusal::Cut, "CUT"),
    (Refusal::Leftover, "LEFTOVER"),
    (Refusal::Kind, "KIND"),
    (Refusal::Length, "LENGTH"),
    (Refusal::Range, "RANGE"),
    (Refusal::Number, "NUMBER"),
    (Refusal::Still, "STILL"),
    (Refusal::NotPh, "NOT PH"),
    (Refusal::NoPreimage, "NO PREIMAGE"),
    (Refusal::Root, "ROOT"),
    (Refusal::Room, "ROOM"),
    (Refusal::Thirds, "THIRDS"),
    (Refusal::DeadEnd, "DEAD END"),
    (Refusal::NoMission, "NO MISSION"),
    (Refusal::OtherMission, "OTHER MISSION"),
    (Refusal::Ended, "ENDED"),
];

/// The name of the refusal of that number, which a call for C knows.
pub fn name_of(number: i64) -> &'static str {
    let of_number = |row: &&(Refusal, _)| i64::from(row.0.number()) == number;
    let row = NAMES.iter().find(of_number);
    row.expect("a refusal that a call for C knows").1
}

impl Refusal {
    pub fn number(self) -> u8 {
        self as u8
    }

    /// Refuses with this refusal where its cause holds.
    pub fn when(self, cause: bool) -> Result<(), Refusal> {
        if cause {
            Err(self)
        } else {
            Ok(())
        }
    }
}
