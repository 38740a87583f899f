//! What can go wrong with a file, and how it is told.

use crate::refusal::Refusal;
use std::fmt;
use std::io;

#[derive(Debug)]
pub enum Failure {
    CannotBeRead(io::Error),
    NoText {
        byte: usize,
    },
    Refused(Refusal),
    NoMemory,
    /// What is printed cannot be written: this alone is not the file's failure.
    CannotBeWritten(io::Error),
}

impl From<Refusal> for Failure {
    fn from(refusal: Refusal) -> Self {
        Self::Refused(refusal)
    }
}

impl Failure {
    /// This failure of the file as it is told, without the program's name.
    pub fn told_of<'a>(&'a self, file: &'a str) -> impl fmt::Display + 'a {
        Told {
            file,
            failure: self,
        }
    }
}

struct Told<'a> {
    file: &'a str,
    failure: &'a Failure,
}

impl fmt::Display for Told<'_> {
    fn fmt(&self, f: &mut fmt::Formatter<'_>) -> fmt::Result {
        let file = self.file;
        match self.failure {
            Failure::CannotBeRead(error) => write!(f, "{file}: cannot be read: {error}"),
            Failure::NoText { byte } => {
                write!(f, "{file}: is no text: byte {byte} is not UTF-8")
            }
            Failure::Refused(refusal @ Refusal::Impossible { line, .. }) => {
                write!(f, "{file}:{}: {refusal}", line + 1)
            }
            Failure::Refused(refusal) => write!(f, "{file}: {refusal}"),
            Failure::NoMemory => write!(f, "{file}: there is not enough memory"),
            Failure::CannotBeWritten(error) => {
                write!(f, "what it prints cannot be written: {error}")
            }
        }
    }
}
