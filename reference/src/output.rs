//! What the program prints, gathered so that it is written in large pieces.

use crate::line::Ticked;
use crate::unit::Answer;
use std::io::{self, Write};

const PIECE: usize = 64 * 1024;

pub struct Output<W: Write> {
    to: W,
    gathered: Vec<u8>,
}

impl<W: Write> Output<W> {
    pub fn new(to: W) -> Self {
        Self {
            to,
            gathered: Vec::with_capacity(PIECE + 256),
        }
    }

    /// Prints the line of a tick. It is put together by hand, since most of what is printed is such lines.
    #[inline]
    pub fn tick(&mut self, ticked: &Ticked) -> io::Result<()> {
        self.number(ticked.train as u64);
        self.gathered.extend_from_slice(match ticked.answer {
            Answer::Drive => b" drives ",
            Answer::Brake => b" brakes ",
        });
        self.number(ticked.speed);
        self.gathered.extend_from_slice(b" at ");
        self.number(ticked.front);
        self.end_line()
    }

    pub fn line(&mut self, line: &str) -> io::Result<()> {
        self.gathered.extend_from_slice(line.as_bytes());
        self.end_line()
    }

    /// Writes all that was printed so far.
    pub fn flush(&mut self) -> io::Result<()> {
        self.write()?;
        self.to.flush()
    }

    /// Writes what is gathered. What could not be written is not tried again.
    fn write(&mut self) -> io::Result<()> {
        let written = self.to.write_all(&self.gathered);
        self.gathered.clear();
        written
    }

    #[inline]
    fn number(&mut self, number: u64) {
        let mut digits = [0; 20];
        let mut first = digits.len();
        let mut rest = number;
        loop {
            first -= 1;
            digits[first] = b'0' + (rest % 10) as u8;
            rest /= 10;
            if rest == 0 {
                break;
            }
        }
        self.gathered.extend_from_slice(&digits[first..]);
    }

    #[inline]
    fn end_line(&mut self) -> io::Result<()> {
        self.gathered.push(b'\n');
        if self.gathered.len() < PIECE {
            Ok(())
        } else {
            self.write()
        }
    }
}

#[cfg(test)]
mod tests {
    use super::*;

    #[test]
    fn numbers_are_printed_as_they_are() {
        for number in [0, 7, 10, 99, 1_000_000_000, u64::MAX] {
            let mut output = Output::new(Vec::new());
            output.number(number);
            output.flush().unwrap();
            assert_eq!(output.to, number.to_string().as_bytes());
        }
    }

    #[test]
    fn pieces_follow_each_other() {
        let ticked = Ticked {
            train: 63,
            answer: Answer::Brake,
            speed: 10_000,
            front: 1_000_000_000,
        };
        let line = "63 brakes 10000 at 1000000000\n";
        let mut output = Output::new(Vec::new());
        for _ in 0..10_000 {
            output.tick(&ticked).unwrap();
        }
        output.flush().unwrap();
        assert!(output.to == line.repeat(10_000).as_bytes());
    }
}
