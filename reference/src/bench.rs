//! What the program does with its files.

use crate::arguments::Arguments;
use crate::failure::Failure;
use crate::gaps::Gaps;
use crate::line::Ticked;
use crate::output::Output;
use crate::play::play;
use std::fs::File;
use std::io::{self, Read, StdoutLock, Write};

/// How many more bytes there is at least room made for where a file turns out longer than expected.
const PIECE: usize = 64 * 1024;

/// Plays or checks the files, or tells what went wrong, without the program's name.
pub fn run(arguments: &Arguments) -> Result<(), String> {
    let mut output = Output::new(io::stdout().lock());
    for file in &arguments.files {
        let done = if arguments.check {
            check(file, &mut output)
        } else {
            show(file, arguments, &mut output)
        };
        // What was printed before stands. Where it cannot be written, that came before the failure.
        output
            .flush()
            .map_err(Failure::CannotBeWritten)
            .and(done)
            .map_err(|failure| failure.told_of(file).to_string())?;
    }
    Ok(())
}

/// Prints a text that is no answer to files.
pub fn print(text: &str) -> Result<(), String> {
    let mut stdout = io::stdout().lock();
    stdout
        .write_all(text.as_bytes())
        .and_then(|()| stdout.flush())
        .map_err(|error| Failure::CannotBeWritten(error).told_of("-").to_string())
}

/// Plays a file and prints its ticks and its gaps.
fn show(file: &str, arguments: &Arguments, output: &mut Output<StdoutLock>) -> Result<(), Failure> {
    if arguments.files.len() > 1 {
        output
            .line(&format!("== {file}"))
            .map_err(Failure::CannotBeWritten)?;
    }
    let gaps = if arguments.quiet {
        play_file(file, |_| Ok(()))
    } else {
        play_file(file, |ticked| output.tick(ticked))
    }?;
    output
        .line(&gaps.to_string())
        .map_err(Failure::CannotBeWritten)
}

/// Plays a file and prints in one line whether it is taken.
fn check(file: &str, output: &mut Output<StdoutLock>) -> Result<(), Failure> {
    let line = match play_file(file, |_| Ok(())) {
        Ok(gaps) => format!("{file}: taken: {gaps}"),
        Err(failure) => failure.told_of(file).to_string(),
    };
    output.line(&line).map_err(Failure::CannotBeWritten)
}

fn play_file(file: &str, tell: impl FnMut(&Ticked) -> io::Result<()>) -> Result<Gaps, Failure> {
    let bytes = read(file).map_err(|error| match error.kind() {
        io::ErrorKind::OutOfMemory => Failure::NoMemory,
        _ => Failure::CannotBeRead(error),
    })?;
    let text = std::str::from_utf8(&bytes).map_err(|error| Failure::NoText {
        byte: error.valid_up_to(),
    })?;
    play(text, tell)
}

fn read(file: &str) -> io::Result<Vec<u8>> {
    if file == "-" {
        return read_all(io::stdin().lock(), 0);
    }
    let file = File::open(file)?;
    let length = file.metadata().map_or(0, |metadata| metadata.len());
    read_all(file, length)
}

/// Reads all bytes, of which there are about as many as expected. Room for them is made before they are read, since
/// `fs::read` and `read_to_end` of Rust 1.63 abort the program where there is not enough memory.
fn read_all(mut from: impl Read, expected: u64) -> io::Result<Vec<u8>> {
    let mut bytes = Vec::new();
    // With one byte more than expected, the end is seen without more room.
    let mut more = usize::try_from(expected).map_or(usize::MAX, |length| length.saturating_add(1));
    loop {
        bytes
            .try_reserve(more)
            .map_err(|_| io::ErrorKind::OutOfMemory)?;
        let room = bytes.capacity() - bytes.len();
        if from.by_ref().take(room as u64).read_to_end(&mut bytes)? < room {
            return Ok(bytes);
        }
        more = PIECE;
    }
}
