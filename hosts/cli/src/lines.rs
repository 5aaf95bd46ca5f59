//! Lines of hex, cut out of input that comes in parts of any length.

use crate::hex;
use crate::words::counted;
use std::fmt;

/// Hex digits of the longest frame.
const LONGEST: usize = 2 * btpu::raw::MAX_FRAME;
/// Characters of a line that are kept at most, so that blanks behind the longest frame have room.
const KEPT: usize = 2 * LONGEST;

/// What is wrong with a line.
#[derive(Clone, Copy, Debug, PartialEq, Eq)]
pub enum BadLine {
    TooLong,
    OddDigits { digits: usize },
    Blank { column: usize },
    NoHexDigit { character: u8, column: usize },
}

impl fmt::Display for BadLine {
    fn fmt(&self, f: &mut fmt::Formatter) -> fmt::Result {
        match *self {
            BadLine::TooLong => write!(f, "longer than any frame (2,048 octets, 4,096 hex digits)"),
            BadLine::OddDigits { digits } => {
                let digits = counted(digits, "hex digit");
                write!(f, "{digits}, an odd number: half an octet is missing")
            }
            BadLine::Blank { column } => {
                write!(f, "a blank between the hex digits, at column {column}")
            }
            BadLine::NoHexDigit { character, column } if character.is_ascii_graphic() => write!(
                f,
                "'{}' at column {column} is no hex digit",
                char::from(character)
            ),
            BadLine::NoHexDigit { character, column } => {
                write!(
                    f,
                    "octet 0x{character:02x} at column {column} is no hex digit"
                )
            }
        }
    }
}

/// Takes a line's number, from 1, and its frame.
pub trait TakeLine<E> {
    fn take_line(&mut self, number: u64, line: Result<&[u8], BadLine>) -> Result<(), E>;
}

/// The line that is begun, and the number of lines before it.
#[derive(Default)]
pub struct Lines {
    before: u64,
    indent: usize,
    kept: Vec<u8>,
    too_long: bool,
    frame: Vec<u8>,
}

impl Lines {
    /// Takes a part of the input; hands on each line that ends in it. Empty lines and lines that start with # are passed over.
    pub fn part<E>(&mut self, mut part: &[u8], to: &mut impl TakeLine<E>) -> Result<(), E> {
        while let Some(end) = part.iter().position(|&c| c == b'\n') {
            if self.kept.is_empty() && self.indent == 0 {
                self.hand_on(&part[..end], 0, false, to)?;
            } else {
                self.keep(&part[..end]);
                self.hand_on_kept(to)?;
            }
            part = &part[end + 1..];
        }
        self.keep(part);
        Ok(())
    }

    /// The number of a line that is begun, if there is one.
    pub fn begun(&self) -> Option<u64> {
        (!self.kept.is_empty()).then_some(self.before + 1)
    }

    /// Hands on a last line that has no end of line.
    pub fn last<E>(&mut self, to: &mut impl TakeLine<E>) -> Result<(), E> {
        self.hand_on_kept(to)
    }

    /// Adds to the line begun. Blanks at its front are counted, not kept.
    fn keep(&mut self, mut part: &[u8]) {
        if self.kept.is_empty() {
            let behind = part.trim_ascii_start();
            self.indent += part.len() - behind.len();
            part = behind;
        }
        let room = KEPT - self.kept.len();
        self.too_long |= part.len() > room;
        self.kept.extend_from_slice(&part[..part.len().min(room)]);
    }

    fn hand_on_kept<E>(&mut self, to: &mut impl TakeLine<E>) -> Result<(), E> {
        let mut kept = std::mem::take(&mut self.kept);
        let indent = std::mem::take(&mut self.indent);
        let too_long = std::mem::take(&mut self.too_long);
        let handed_on = self.hand_on(&kept, indent, too_long, to);
        kept.clear();
        self.kept = kept;
        handed_on
    }

    fn hand_on<E>(
        &mut self,
        line: &[u8],
        indent: usize,
        too_long: bool,
        to: &mut impl TakeLine<E>,
    ) -> Result<(), E> {
        self.before += 1;
        let text = line.trim_ascii_start();
        let indent = indent + line.len() - text.len();
        let text = text.trim_ascii_end();
        if text.is_empty() || text[0] == b'#' {
            return Ok(());
        }
        if too_long || text.len() > LONGEST {
            return to.take_line(self.before, Err(BadLine::TooLong));
        }
        if text.len().is_multiple_of(2) && hex::decode(text, &mut self.frame) {
            return to.take_line(self.before, Ok(&self.frame));
        }
        to.take_line(self.before, Err(fault(text, indent)))
    }
}

/// What is wrong with a text that is no row of pairs of hex digits.
fn fault(text: &[u8], indent: usize) -> BadLine {
    match text.iter().position(|&c| !hex::is_digit(c)) {
        None => BadLine::OddDigits { digits: text.len() },
        Some(at) if text[at].is_ascii_whitespace() => BadLine::Blank {
            column: indent + at + 1,
        },
        Some(at) => BadLine::NoHexDigit {
            character: text[at],
            column: indent + at + 1,
        },
    }
}

#[cfg(test)]
mod tests {
    use super::*;

    type Taken = (u64, Result<Vec<u8>, BadLine>);

    struct List(Vec<Taken>);

    impl TakeLine<()> for List {
        fn take_line(&mut self, number: u64, line: Result<&[u8], BadLine>) -> Result<(), ()> {
            self.0.push((number, line.map(<[u8]>::to_vec)));
            Ok(())
        }
    }

    fn taken(input: &[u8], part: usize) -> Vec<Taken> {
        let (mut lines, mut list) = (Lines::default(), List(Vec::new()));
        for part in input.chunks(part) {
            lines.part(part, &mut list).unwrap();
            assert!(lines.kept.capacity() <= 2 * KEPT);
        }
        lines.last(&mut list).unwrap();
        list.0
    }

    #[test]
    fn lines_are_the_same_in_parts_of_any_length() {
        let long = "0".repeat(LONGEST);
        let input = format!(
            "00ff\n\n  AbCd \t\r\n# words\n  # more\n012\n0g\n 01 02\n{long}\n{long}00\n#{long}{long}{long}\n{}\n{long}   \r\n{long}{long}{long}\n\u{e9}\n7f",
            " ".repeat(3 * KEPT)
        );
        let expected: Vec<Taken> = vec![
            (1, Ok(vec![0, 0xff])),
            (3, Ok(vec![0xab, 0xcd])),
            (6, Err(BadLine::OddDigits { digits: 3 })),
            (
                7,
                Err(BadLine::NoHexDigit {
                    character: b'g',
                    column: 2,
                }),
            ),
            (8, Err(BadLine::Blank { column: 4 })),
            (9, Ok(vec![0; 2048])),
            (10, Err(BadLine::TooLong)),
            (13, Ok(vec![0; 2048])),
            (14, Err(BadLine::TooLong)),
            (
                15,
                Err(BadLine::NoHexDigit {
                    character: 0xc3,
                    column: 1,
                }),
            ),
            (16, Ok(vec![0x7f])),
        ];
        for part in [1, 2, 3, 7, 100, 4096, 4097, 1 << 20] {
            assert_eq!(taken(input.as_bytes(), part), expected, "parts of {part}");
        }
    }

    #[test]
    fn nothing_is_no_line() {
        assert_eq!(taken(b"", 1), vec![]);
        assert_eq!(taken(b"\n\n\n", 2), vec![]);
    }
}
