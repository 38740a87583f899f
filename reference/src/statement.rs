//! What a line of a scenario says.

use crate::event::Event;
use crate::impossible::{Expected, Unreadable};
use crate::train::Start;
use crate::words::Words;

#[derive(Clone, Copy, Debug, PartialEq, Eq)]
pub enum Statement {
    Brake(u64),
    Blur(u64),
    Controllers(u64),
    Train(Start),
    Event(Event),
}

/// Reads a line; one without a word, or with a comment, says nothing.
#[inline]
pub fn read(line: &[u8]) -> Result<Option<Statement>, Box<Unreadable>> {
    let mut words = Words::of(line);
    let first = match words.next() {
        None => return Ok(None),
        Some(comment) if comment.starts_with(b"#") => return Ok(None),
        Some(first) => first,
    };
    let statement = match first {
        b"brake" => Statement::Brake(words.number()?),
        b"blur" => Statement::Blur(words.number()?),
        b"controllers" => Statement::Controllers(words.number()?),
        b"train" => Statement::Train(start(&mut words)?),
        _ => Statement::Event(event(first, &mut words)?),
    };
    words.end()?;
    Ok(Some(statement))
}

fn start(words: &mut Words) -> Result<Start, Box<Unreadable>> {
    Ok(Start {
        low: words.number()?,
        front: words.number()?,
        high: words.number()?,
        end: words.number()?,
        length: words.number()?,
    })
}

#[inline]
fn event(first: &[u8], words: &mut Words) -> Result<Event, Box<Unreadable>> {
    Ok(match first {
        b"tick" => tick(words)?,
        b"mark" => Event::Mark {
            train: words.number()?,
        },
        b"report" => Event::Report {
            train: words.number()?,
        },
        b"hear" => {
            let (controller, message) = pair(words, "message")?;
            Event::Hear {
                controller,
                message,
            }
        }
        b"tell" => {
            let (controller, train) = pair(words, "train")?;
            Event::Tell { controller, train }
        }
        b"grant" => {
            let (controller, train) = pair(words, "train")?;
            Event::Grant { controller, train }
        }
        b"take" => {
            words.word("message")?;
            Event::Take {
                message: words.number()?,
            }
        }
        b"restart" => Event::Restart {
            controller: words.number()?,
        },
        _ => return Err(Unreadable::new(Expected::FirstWord, Some(first))),
    })
}

#[inline]
fn tick(words: &mut Words) -> Result<Event, Box<Unreadable>> {
    let train = words.number()?;
    words.word("wish")?;
    let wish = words.wish()?;
    words.word("speed")?;
    let speed = words.number()?;
    Ok(Event::Tick { train, wish, speed })
}

/// Two numbers with a word between them.
#[inline]
fn pair(words: &mut Words, between: &'static str) -> Result<(u64, u64), Box<Unreadable>> {
    let first = words.number()?;
    words.word(between)?;
    Ok((first, words.number()?))
}
