//! Standard output: lines are gathered, and written when they are flushed.

use crate::hex;
use crate::outcome::Failure;
use std::fs::File;
use std::io::{self, ErrorKind, Write};
use std::os::fd::AsFd;

const ENOUGH: usize = 1 << 16;

pub struct Output {
    to: File,
    waiting: Vec<u8>,
    synced: bool,
}

impl Output {
    pub fn standard() -> Result<Output, Failure> {
        let own = io::stdout().as_fd().try_clone_to_owned().map_err(failure)?;
        Ok(Output {
            to: File::from(own),
            waiting: Vec::with_capacity(2 * ENOUGH),
            synced: true,
        })
    }

    /// Where the next lines are added.
    pub fn text(&mut self) -> &mut Vec<u8> {
        &mut self.waiting
    }

    pub fn line(&mut self, words: impl std::fmt::Display) {
        let _ = writeln!(self.waiting, "{words}");
    }

    /// Whether so much is waiting that it is to be written.
    pub fn is_full(&self) -> bool {
        self.waiting.len() >= ENOUGH
    }

    pub fn flush(&mut self) -> Result<(), Failure> {
        self.synced &= self.waiting.is_empty();
        let written = self.to.write_all(&self.waiting);
        self.waiting.clear();
        written.map_err(failure)
    }

    /// Brings what was flushed to the disk, where standard output is a file on one.
    pub fn sync(&mut self) -> Result<(), Failure> {
        if self.synced {
            return Ok(());
        }
        self.synced = true;
        match self.to.sync_data() {
            Err(error) if !is_no_disk(&error) => Err(failure(error)),
            _ => Ok(()),
        }
    }

    pub fn flush_full(&mut self) -> Result<(), Failure> {
        if self.is_full() {
            return self.flush();
        }
        Ok(())
    }
}

/// Pipes and terminals can't be synced.
fn is_no_disk(error: &io::Error) -> bool {
    use ErrorKind::{InvalidInput, ReadOnlyFilesystem, Unsupported};
    matches!(
        error.kind(),
        InvalidInput | ReadOnlyFilesystem | Unsupported
    )
}

fn failure(error: io::Error) -> Failure {
    if error.kind() == ErrorKind::BrokenPipe {
        return Failure::ClosedPipe;
    }
    Failure::Error(format!("standard output can't be written: {error}"))
}

/// The line for a bundle, up to what names its octets: `bundle NUMBER|- LENGTH `.
pub fn bundle_front(number: Option<u32>, length: usize, text: &mut Vec<u8>) {
    let _ = match number {
        Some(number) => write!(text, "bundle {number} {length} "),
        None => write!(text, "bundle - {length} "),
    };
}

/// The whole line for a bundle, with its octets in hex.
pub fn bundle_line(number: Option<u32>, octets: &[u8], text: &mut Vec<u8>) {
    bundle_front(number, octets.len(), text);
    hex::encode(octets, text);
    text.push(b'\n');
}
