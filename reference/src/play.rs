//! Plays a scenario from its first line to its last.

use crate::failure::Failure;
use crate::gaps::Gaps;
use crate::head::Head;
use crate::impossible::Impossible;
use crate::line::{Line, Ticked, Undone};
use crate::refusal::Refusal;
use crate::statement::{self, Statement};
use crate::words::Lines;
use std::io;

/// Plays a text, and tells each tick as it comes.
pub fn play(text: &str, mut tell: impl FnMut(&Ticked) -> io::Result<()>) -> Result<Gaps, Failure> {
    let mut lines = Lines::of(text);
    let mut line = Line::new(&Head::read(&mut lines))?;
    for (number, words) in lines {
        match step(&mut line, words) {
            Ok(None) => (),
            Ok(Some(ticked)) => tell(&ticked).map_err(Failure::CannotBeWritten)?,
            Err(undone) => return Err(failure(undone, number)),
        }
    }
    Ok(line.gaps())
}

/// Plays a line after the head.
#[inline]
fn step(line: &mut Line, words: &[u8]) -> Result<Option<Ticked>, Undone> {
    let impossible = match statement::read(words).map_err(Impossible::Unreadable)? {
        None => return Ok(None),
        Some(Statement::Event(event)) => return line.step(event),
        Some(Statement::Brake(_)) => Impossible::ComesOnce("brake"),
        Some(Statement::Blur(_)) => Impossible::ComesOnce("blur"),
        Some(Statement::Controllers(_)) => Impossible::ComesOnce("controllers"),
        Some(Statement::Train(_)) => Impossible::TrainComesFirst,
    };
    Err(impossible.into())
}

#[cold]
fn failure(undone: Undone, line: usize) -> Failure {
    match undone {
        Undone::NoMemory => Failure::NoMemory,
        Undone::Impossible(why) => Failure::Refused(Refusal::Impossible { line, why }),
    }
}
