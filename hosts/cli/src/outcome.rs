//! How a command ends, and what it says on standard error.

use std::fmt::Display;
use std::io::{self, Write};
use std::path::Path;

/// A command that was carried out: exit 0, or 1 if bad lines or refused frames were among its input.
#[derive(Clone, Copy, Debug, PartialEq, Eq)]
pub enum Verdict {
    Clean,
    Faults,
}

impl Verdict {
    pub fn of_faults(faults: u64) -> Verdict {
        if faults == 0 {
            Verdict::Clean
        } else {
            Verdict::Faults
        }
    }
}

/// A command that could not be carried out.
#[derive(Debug)]
pub enum Failure {
    /// The command line makes no sense: exit 2.
    Usage(String),
    /// Something can't be read or written, or is not what it must be: exit 1.
    Error(String),
    /// Nobody reads standard output any more: exit 0, without a word.
    ClosedPipe,
}

pub type Ended = Result<Verdict, Failure>;

/// A failure that names the file and what the system says.
pub fn file_error(path: &Path, what: &str, error: &io::Error) -> Failure {
    Failure::Error(format!("{} {what}: {error}", path.display()))
}

/// Lines for standard error, gathered while input flows. Nothing depends on whether they can be written.
pub struct Notes {
    command: &'static str,
    waiting: Vec<u8>,
}

const ENOUGH: usize = 1 << 16;

impl Notes {
    pub fn new(command: &'static str) -> Notes {
        Notes {
            command,
            waiting: Vec::new(),
        }
    }

    /// A line that starts with the command's name.
    pub fn say(&mut self, words: impl Display) {
        let _ = writeln!(self.waiting, "btpu {}: {words}", self.command);
        if self.waiting.len() >= ENOUGH {
            self.flush();
        }
    }

    pub fn flush(&mut self) {
        let _ = io::stderr().write_all(&self.waiting);
        self.waiting.clear();
    }
}

impl Drop for Notes {
    fn drop(&mut self) {
        self.flush();
    }
}
