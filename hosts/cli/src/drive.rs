//! Takes the lines of an input as they come.

use crate::input::{Arrival, Input};
use crate::lines::{Lines, TakeLine};
use crate::outcome::Failure;
use std::time::Duration;

pub trait Taker: TakeLine<Failure> {
    /// Called after each part of the input, and when a time that it named has passed. `paused` says that
    /// nothing more is waiting. Answers in what time to call again if nothing comes.
    fn settle(&mut self, paused: bool) -> Result<Option<Duration>, Failure>;
}

/// How the input ended.
pub enum InputEnd {
    Whole,
    Unreadable(String),
}

/// Says too that the line begun is lost.
fn cut(words: String, lines: &Lines) -> String {
    match lines.begun() {
        Some(number) => format!("{words}; line {number} is cut and not taken"),
        None => words,
    }
}

/// Takes an input to its end. The taker is to be settled once more then, by its owner.
pub fn drive(input: &Input, first: Vec<u8>, taker: &mut impl Taker) -> Result<InputEnd, Failure> {
    let mut lines = Lines::default();
    let mut arrival = Arrival::Octets(first);
    loop {
        match arrival {
            Arrival::Octets(part) => {
                lines.part(&part, taker)?;
                arrival = input.waiting();
                if let Arrival::Octets(_) = arrival {
                    taker.settle(false)?;
                }
            }
            Arrival::Nothing => {
                let again = taker.settle(true)?;
                arrival = input.next(again);
            }
            Arrival::End => {
                lines.last(taker)?;
                return Ok(InputEnd::Whole);
            }
            Arrival::Unreadable(words) => return Ok(InputEnd::Unreadable(cut(words, &lines))),
        }
    }
}

#[cfg(test)]
mod tests {
    use super::*;
    use crate::lines::BadLine;

    struct Count(u64);

    impl TakeLine<Failure> for Count {
        fn take_line(&mut self, _: u64, _: Result<&[u8], BadLine>) -> Result<(), Failure> {
            self.0 += 1;
            Ok(())
        }
    }

    #[test]
    fn a_line_cut_by_a_read_error_is_named() {
        let mut lines = Lines::default();
        let mut count = Count(0);
        assert!(lines.part(b"0000\n00", &mut count).is_ok());
        assert_eq!(count.0, 1);
        let words = cut("unreadable".to_string(), &lines);
        assert_eq!(words, "unreadable; line 2 is cut and not taken");
        assert!(lines.part(b"\n", &mut count).is_ok());
        assert_eq!(cut("unreadable".to_string(), &lines), "unreadable");
    }
}
