//! Is a sheet sound that comes in parts, as over the bench cable?
//!
//!     rustc --edition 2021 examples/cable.rs $(pkg-config --libs yard) -o target/cable
//!     target/cable samples/mission.sheet 10
//!
//! `./yard install` makes the library. The words are a sheet's file and how many bytes a part has at most. Of the sheet
//! nothing is kept but the library's state. Status 0 is an answer, 1 a refusal, 2 a mistake in the words or the file.
use std::fs::File;
use std::io::{self, Read};
use std::process::ExitCode;

/// YARD_PARTS_NUMBERS of yard.h, which declares these calls for C.
const NUMBERS: usize = 13;

extern "C" {
    fn yard_parts_start(state: *mut i64, room: usize) -> i64;
    fn yard_parts_feed(state: *mut i64, room: usize, part: *const u8, len: usize) -> i64;
    fn yard_parts_end(state: *mut i64, room: usize) -> i64;
}

/// A sheet of which some parts have come. Its end takes it, so that no part follows.
struct Sheet {
    state: [i64; NUMBERS],
}

// SAFETY, of each call: the areas have the sizes that are said, none is null, and they do not overlap.
impl Sheet {
    fn start() -> Sheet {
        let mut state = [0; NUMBERS];
        unsafe { yard_parts_start(state.as_mut_ptr(), NUMBERS) };
        Sheet { state }
    }

    fn feed(&mut self, part: &[u8]) {
        let state = self.state.as_mut_ptr();
        let returned = unsafe { yard_parts_feed(state, NUMBERS, part.as_ptr(), part.len()) };
        assert_eq!(returned, 0, "a sheet that has not ended takes every part");
    }

    /// How many curves the sheet has, or the number of the refusal and the byte of the fault.
    fn end(mut self) -> Result<i64, (i64, i64)> {
        match unsafe { yard_parts_end(self.state.as_mut_ptr(), NUMBERS) } {
            curves @ 0.. => Ok(curves),
            refused => Err((-(refused % 32), -(refused / 32))),
        }
    }
}

/// The sheet of a file, and how many parts it came in.
fn read(name: &str, most: usize) -> io::Result<(Sheet, u64)> {
    let mut file = File::open(name)?;
    let mut part = vec![0; most];
    let mut sheet = Sheet::start();
    let mut parts = 0;
    loop {
        match file.read(&mut part)? {
            0 => return Ok((sheet, parts)),
            len => sheet.feed(&part[..len]),
        }
        parts += 1;
    }
}

fn main() -> ExitCode {
    let words: Vec<String> = std::env::args().collect();
    let most = words.get(2).and_then(|word| word.parse().ok());
    let (3, Some(most @ 1..=4096)) = (words.len(), most) else {
        eprintln!("cable: the words are a sheet's file and how many bytes a part has, 1 to 4096");
        return ExitCode::from(2);
    };
    match read(&words[1], most).map(|(sheet, parts)| (sheet.end(), parts)) {
        Ok((Ok(curves), parts)) => println!("{parts} parts: {curves} curves"),
        Ok((Err((number, place)), parts)) => {
            println!("{parts} parts: refused {number} at {place}");
            return ExitCode::from(1);
        }
        Err(error) => {
            eprintln!("cable: {}: {error}", words[1]);
            return ExitCode::from(2);
        }
    }
    ExitCode::SUCCESS
}
