//! The lines of a text, the words of a line, and the numbers among them.

use crate::impossible::{Expected, Unreadable};
use crate::HIGHEST_WISH;

/// The lines of a text, each with its number, counted from 0.
#[derive(Clone, Debug)]
pub struct Lines<'a> {
    rest: &'a [u8],
    next: usize,
}

impl<'a> Lines<'a> {
    pub fn of(text: &'a str) -> Self {
        Self {
            rest: text.as_bytes(),
            next: 0,
        }
    }
}

impl<'a> Iterator for Lines<'a> {
    type Item = (usize, &'a [u8]);

    #[inline]
    fn next(&mut self) -> Option<Self::Item> {
        if self.rest.is_empty() {
            return None;
        }
        let line = match self.rest.iter().position(|&byte| byte == b'\n') {
            Some(end) => {
                let line = &self.rest[..end];
                self.rest = &self.rest[end + 1..];
                line
            }
            None => std::mem::take(&mut self.rest),
        };
        let number = self.next;
        self.next += 1;
        Some((number, line.strip_suffix(b"\r").unwrap_or(line)))
    }
}

/// The words of a line that are still to come.
#[derive(Clone, Debug)]
pub struct Words<'a>(&'a [u8]);

impl<'a> Words<'a> {
    #[inline]
    pub fn of(line: &'a [u8]) -> Self {
        Self(line)
    }

    #[inline]
    pub fn word(&mut self, word: &'static str) -> Result<(), Box<Unreadable>> {
        self.skip_blanks();
        match self.0.strip_prefix(word.as_bytes()) {
            Some(rest) if ends_word(rest) => {
                self.0 = rest;
                Ok(())
            }
            _ => Err(Unreadable::new(Expected::Word(word), self.next())),
        }
    }

    #[inline]
    pub fn number(&mut self) -> Result<u64, Box<Unreadable>> {
        self.number_up_to(u64::MAX, Expected::Number)
    }

    #[inline]
    pub fn wish(&mut self) -> Result<u64, Box<Unreadable>> {
        self.number_up_to(HIGHEST_WISH, Expected::Wish)
    }

    #[inline]
    fn number_up_to(&mut self, most: u64, expected: Expected) -> Result<u64, Box<Unreadable>> {
        self.skip_blanks();
        match number(self.0) {
            Some((number, rest)) if number <= most && ends_word(rest) => {
                self.0 = rest;
                Ok(number)
            }
            _ => Err(Unreadable::new(expected, self.next())),
        }
    }

    #[inline]
    fn skip_blanks(&mut self) {
        while let [first, rest @ ..] = self.0 {
            if !is_blank(*first) {
                break;
            }
            self.0 = rest;
        }
    }

    #[inline]
    pub fn end(&mut self) -> Result<(), Box<Unreadable>> {
        match self.next() {
            None => Ok(()),
            found => Err(Unreadable::new(Expected::EndOfLine, found)),
        }
    }
}

impl<'a> Iterator for Words<'a> {
    type Item = &'a [u8];

    #[inline]
    fn next(&mut self) -> Option<Self::Item> {
        self.skip_blanks();
        if self.0.is_empty() {
            return None;
        }
        let end = self.0.iter().position(|&byte| is_blank(byte));
        let (word, rest) = self.0.split_at(end.unwrap_or(self.0.len()));
        self.0 = rest;
        Some(word)
    }
}

#[inline]
fn is_blank(byte: u8) -> bool {
    byte == b' ' || byte == b'\t'
}

/// Whether a word is over before these bytes.
#[inline]
fn ends_word(bytes: &[u8]) -> bool {
    bytes.first().map_or(true, |&byte| is_blank(byte))
}

/// The number at the beginning of the bytes, and what comes after its digits.
#[inline]
fn number(bytes: &[u8]) -> Option<(u64, &[u8])> {
    let (mut number, mut rest) = digit(bytes)?;
    while let Some((digit, after)) = digit(rest) {
        if number == 0 {
            return None;
        }
        number = number.checked_mul(10)?.checked_add(digit)?;
        rest = after;
    }
    Some((number, rest))
}

/// The digit at the beginning of the bytes, and what comes after it.
#[inline]
fn digit(bytes: &[u8]) -> Option<(u64, &[u8])> {
    let (&first, rest) = bytes.split_first()?;
    first
        .is_ascii_digit()
        .then(|| (u64::from(first - b'0'), rest))
}

#[cfg(test)]
mod tests {
    use super::*;

    #[test]
    fn numbers() {
        let number = |word: &str| Words::of(word.as_bytes()).number().ok();
        assert_eq!(number("0"), Some(0));
        assert_eq!(number(" 10\t"), Some(10));
        assert_eq!(number("18446744073709551615"), Some(u64::MAX));
        let none = [
            "",
            "00",
            "01",
            "-1",
            "+1",
            "1.5",
            "1_0",
            "0x1",
            "1\r",
            "\u{661}",
            "18446744073709551616",
            "99999999999999999999",
            "100000000000000000000000000000",
        ];
        for word in none {
            assert_eq!(number(word), None, "{word}");
        }
    }

    #[test]
    fn lines_end_in_line_feeds() {
        let lines: Vec<_> = Lines::of("a\r\n\nb\rc\r\r\n d\r").collect();
        let expected: [&[u8]; 4] = [b"a", b"", b"b\rc\r", b" d"];
        assert_eq!(lines.len(), expected.len());
        for (number, line) in lines {
            assert_eq!(line, expected[number]);
        }
    }

    #[test]
    fn words_have_blanks_and_tabs_between_them() {
        let words: Vec<_> = Words::of(b"\t a  b\x0bc\t\xc2\xa0 \r ").collect();
        let expected: [&[u8]; 4] = [b"a", b"b\x0bc", b"\xc2\xa0", b"\r"];
        assert_eq!(words, expected);
    }
}
