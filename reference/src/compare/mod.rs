//! The comparison of this program with the compiled library, over pipes, on calls made by chance from a seed.

pub mod boxes;
mod call;
mod calls;
mod chance;
mod cuts;
mod ends;
mod face;
#[cfg(test)]
mod plain_tests;
mod shapes;
mod sheets;
mod states;
mod tally;
mod wire;

use call::{Answer, Call};
use chance::Chance;
use std::io::{BufReader, BufWriter, Read, Write};
use std::process::{Child, ChildStdin, Command, Stdio};
use std::sync::mpsc::{channel, Receiver, Sender};
use tally::Tally;

/// From so many calls on, every outcome must have occurred.
const LONG: u64 = 20_000;

/// What a comparison ends with: the tally, or what is wrong.
pub type Compared = Result<String, String>;

/// Sends every cut of some small sheets and `count` calls by chance to the command and compares each answer whole. The outer error is a mistake in the command.
pub fn compare(count: u64, seed: u64, command: &[&str]) -> Result<Compared, String> {
    let (program, words) = command.split_first().ok_or("no command to compare with")?;
    let mut starting = Command::new(program);
    starting
        .args(words)
        .stdin(Stdio::piped())
        .stdout(Stdio::piped());
    let mut library = starting
        .spawn()
        .map_err(|why| format!("{program}: {why}"))?;
    let (sender, calls) = channel();
    let input = library.stdin.take().expect("a piped input");
    let writer = std::thread::spawn(move || send(count, seed, input, sender));
    let compared = compare_all(count, &mut library, calls);
    // After a difference the library may still wait for someone to take its answers.
    if compared.is_err() {
        let _ = library.kill();
    }
    let status = library.wait().map_err(|why| why.to_string())?;
    writer.join().expect("the writer ends where the pipe does");
    Ok(match compared {
        Ok(_) if !status.success() => Err(format!("the library's program ended with {status}\n")),
        compared => compared,
    })
}

/// The channel needs no limit: the pipes have one. Where the pipe is closed, the reader knows why.
fn send(count: u64, seed: u64, input: ChildStdin, sender: Sender<Call>) {
    let mut chance = Chance::new(seed);
    let mut input = BufWriter::with_capacity(1 << 16, input);
    let by_chance = (0..count).map(|_| calls::call(&mut chance));
    for call in cuts::every_cut().into_iter().chain(by_chance) {
        if input.write_all(&wire::call_bytes(&call)).is_err() || sender.send(call).is_err() {
            return;
        }
    }
    let _ = input.flush();
}

fn compare_all(count: u64, library: &mut Child, calls: Receiver<Call>) -> Compared {
    let output = library.stdout.take().expect("a piped output");
    let mut output = BufReader::with_capacity(1 << 16, output);
    let mut tally = Tally::new();
    let cuts = cuts::every_cut().len() as u64;
    let mut compared = 0;
    for call in calls {
        compared += 1;
        let expected = face::answer(&call);
        let bytes = wire::answer_bytes(&expected);
        let mut told = vec![0; bytes.len()];
        if let Err(why) = output.read_exact(&mut told) {
            return Err(format!("call {compared} has no answer ({why}): {call}\n"));
        }
        if told != bytes {
            return Err(difference(compared, &call, &expected, &told));
        }
        // What chance has to meet, the cuts do not meet for it.
        if compared > cuts {
            tally.add(&call, &expected);
        }
    }
    if compared < count + cuts {
        return Err(format!("no call was taken after call {compared}\n"));
    }
    if output.read(&mut [0]).map_err(|why| why.to_string())? > 0 {
        return Err("the library's program answered more than it was asked\n".to_string());
    }
    summary(count, cuts, &tally)
}

fn summary(count: u64, cuts: u64, tally: &Tally) -> Compared {
    let (text, never) = (tally.text(), tally.never_met());
    if count >= LONG && !never.is_empty() {
        return Err(format!("{text}never met: {}\n", never.join("; ")));
    }
    Ok(format!(
        "{text}{count} calls and {cuts} cuts compared, no difference\n"
    ))
}

fn difference(number: u64, call: &Call, expected: &Answer, told: &[u8]) -> String {
    let (told, whole) = wire::answer_of(told, expected);
    let guards = if whole {
        ""
    } else {
        "\n    and a write outside an area"
    };
    format!("call {number} differs: {call}\nsecond program: {expected}\nlibrary: {told}{guards}\n")
}
