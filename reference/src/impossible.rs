//! Why a line of a file cannot be: it cannot be read, comes too late, or is an event that cannot be.

use std::fmt;

#[derive(Clone, Debug, PartialEq, Eq)]
pub enum Impossible {
    /// Boxed, so that reading a line has little to hand back where nothing is wrong.
    Unreadable(Box<Unreadable>),
    /// `brake`, `blur` or `controllers` a second time or after the head.
    ComesOnce(&'static str),
    TrainComesFirst,
    NoController(u64),
    NoTrain(u64),
    NoTrainBehind(u64),
    NotSentYet(u64),
    NoGrant(u64),
    SpeedTooHigh {
        most: u64,
    },
}

/// A line that is none of those that there are.
#[derive(Clone, Debug, PartialEq, Eq)]
pub struct Unreadable {
    expected: Expected,
    found: Found,
}

/// What has to stand at a place of a line.
#[derive(Clone, Copy, Debug, PartialEq, Eq)]
pub enum Expected {
    FirstWord,
    Number,
    Wish,
    Word(&'static str),
    EndOfLine,
}

#[derive(Clone, Debug, PartialEq, Eq)]
enum Found {
    Word(String),
    WordOf { bytes: usize },
    EndOfLine,
}

impl Unreadable {
    #[cold]
    pub fn new(expected: Expected, found: Option<&[u8]>) -> Box<Self> {
        let found = match found {
            None => Found::EndOfLine,
            Some(word) if word.len() <= 40 && word.iter().all(u8::is_ascii_graphic) => {
                Found::Word(String::from_utf8_lossy(word).into_owned())
            }
            Some(word) => Found::WordOf { bytes: word.len() },
        };
        Box::new(Self { expected, found })
    }
}

impl fmt::Display for Impossible {
    fn fmt(&self, f: &mut fmt::Formatter<'_>) -> fmt::Result {
        match self {
            Self::Unreadable(unreadable) => unreadable.fmt(f),
            Self::ComesOnce(word) => write!(f, "{word} comes once, before the first event"),
            Self::TrainComesFirst => f.write_str("train comes before the first event"),
            Self::NoController(controller) => write!(f, "there is no controller {controller}"),
            Self::NoTrain(train) => write!(f, "there is no train {train}"),
            Self::NoTrainBehind(train) => write!(f, "there is no train behind train {train}"),
            Self::NotSentYet(message) => write!(f, "no message {message} was sent yet"),
            Self::NoGrant(message) => write!(
                f,
                "message {message} is a report, and only a grant can be taken"
            ),
            Self::SpeedTooHigh { most } => write!(f, "the speed can be at most {most}"),
        }
    }
}

impl fmt::Display for Unreadable {
    fn fmt(&self, f: &mut fmt::Formatter<'_>) -> fmt::Result {
        write!(f, "expected {}, found {}", self.expected, self.found)
    }
}

impl fmt::Display for Expected {
    fn fmt(&self, f: &mut fmt::Formatter<'_>) -> fmt::Result {
        match self {
            Self::FirstWord => f.write_str(
                "brake, blur, controllers, train, tick, mark, report, hear, tell, grant, \
                 take or restart",
            ),
            Self::Number => f.write_str("a number below 2^64 without sign or leading zero"),
            Self::Wish => f.write_str("a wish from 0 to 10000"),
            Self::Word(word) => write!(f, "'{word}'"),
            Self::EndOfLine => f.write_str("the end of the line"),
        }
    }
}

impl fmt::Display for Found {
    fn fmt(&self, f: &mut fmt::Formatter<'_>) -> fmt::Result {
        match self {
            Self::Word(word) => write!(f, "'{word}'"),
            Self::WordOf { bytes } => write!(f, "a word of {bytes} bytes"),
            Self::EndOfLine => f.write_str("the end of the line"),
        }
    }
}
