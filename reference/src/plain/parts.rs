//! The sheet in parts: whole records are tested where they lie in a part, and only one that is cut is kept.

use crate::sheet::{cut, erased, first, found, Fault, Found, SHEET_LIMIT, TOO_LONG};

const LONGEST_RECORD: usize = 52;

/// What the bytes so far end in.
enum Tail {
    /// A record that is not whole, or nothing.
    Open,
    Erased,
    Fault(Fault),
}

pub struct Parts {
    /// Of all bytes; one more than a sheet may have stands for all that are more.
    length: usize,
    count: i64,
    /// Where the open record begins.
    place: usize,
    tail: Tail,
    ended: bool,
    /// How many bytes of the open record have come, and these.
    held: usize,
    record: [u8; LONGEST_RECORD],
}

impl Default for Parts {
    fn default() -> Parts {
        Parts {
            length: 0,
            count: 0,
            place: 0,
            tail: Tail::Open,
            ended: false,
            held: 0,
            record: [0; LONGEST_RECORD],
        }
    }
}

impl Parts {
    /// False where the sheet has ended: nothing is fed then.
    pub fn feed(&mut self, part: &[u8]) -> bool {
        if self.ended {
            return false;
        }
        match self.tail {
            Tail::Open => self.feed_open(part),
            Tail::Erased => self.feed_erased(part, self.length),
            Tail::Fault(_) => (),
        }
        self.length = (SHEET_LIMIT + 1).min(self.length + part.len());
        true
    }

    /// At place 0 a header is open, and behind it curves are.
    #[inline(always)]
    fn found(&self, rest: &[u8]) -> Found {
        if self.place == 0 {
            first(rest)
        } else {
            found(rest)
        }
    }

    /// The open record first, and then those of the part.
    fn feed_open(&mut self, part: &[u8]) {
        let mut rest = part;
        if self.held > 0 {
            let more = part.len().min(LONGEST_RECORD - self.held);
            let held = self.held + more;
            self.record[self.held..held].copy_from_slice(&part[..more]);
            match self.found(&self.record[..held]) {
                Found::Short => self.held = held,
                Found::Record(length) => {
                    rest = &part[length - self.held..];
                    self.pass(length);
                }
                other => self.stop(other, part),
            }
            if self.held > 0 {
                return;
            }
        }
        self.feed_records(rest);
    }

    fn pass(&mut self, length: usize) {
        self.count += i64::from(self.place > 0);
        self.place += length;
        self.held = 0;
    }

    /// Records that begin where the part does.
    fn feed_records(&mut self, part: &[u8]) {
        let mut rest = part;
        loop {
            match self.found(rest) {
                Found::Record(length) => {
                    self.pass(length);
                    rest = &rest[length..];
                }
                Found::Short => {
                    self.record[..rest.len()].copy_from_slice(rest);
                    self.held = rest.len();
                    return;
                }
                other => return self.stop(other, rest),
            }
        }
    }

    /// No record follows. Of what is erased, some may be held already: that is FF.
    fn stop(&mut self, found: Found, rest: &[u8]) {
        match found {
            Found::Fault(number) => {
                let place = self.place;
                self.tail = Tail::Fault(Fault { number, place });
            }
            _ => self.feed_erased(rest, self.place + self.held),
        }
    }

    /// Bytes from a place on, which have to be FF.
    fn feed_erased(&mut self, part: &[u8], from: usize) {
        self.tail = erased(part, from).map_or(Tail::Erased, Tail::Fault);
    }

    /// What the check says of all that has come.
    pub fn end(&mut self) -> Result<i64, Fault> {
        self.ended = true;
        if self.length > SHEET_LIMIT {
            return Err(TOO_LONG);
        }
        let fault = match self.tail {
            Tail::Open => cut(&self.record[..self.held], self.place),
            Tail::Erased => None,
            Tail::Fault(fault) => Some(fault),
        };
        fault.map_or(Ok(self.count), Err)
    }
}
