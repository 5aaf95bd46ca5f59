//! State files. Numbers are big-endian.
//!
//! octets  0 to 7    the kind: `BTPU-SND` for a sender, `BTPU-RCV` for a receiver
//! octets  8 to 11   the version, 1
//! octets 12 to 15   the length of the content
//! then              the content
//! last 4 octets     CRC-32 of all octets before
//!
//! Content of a sender: its image (24 octets), then its frame buffer. Content of a receiver: the number of
//! bundles written to files so far (8 octets), its image (3,144 octets), its pool (4,096 octets for each
//! transfer of its window). Draft and window stand in the image. A receiver that was stored before windows
//! could be chosen has zero in place of the window, and a pool of 65,536 octets: its window is 16.

use crate::checksum::crc32;
use crate::outcome::Failure;
use crate::replace::Replaced;
use std::path::Path;

const FRONT: usize = 16;
const BEHIND: usize = 4;
const VERSION: u32 = 1;
/// More octets than any state file has.
const BEYOND: u64 = 1 << 17;

#[derive(Clone, Copy, Debug, PartialEq, Eq)]
pub enum Kind {
    Sender,
    Receiver,
}

impl Kind {
    fn magic(self) -> &'static [u8; 8] {
        match self {
            Kind::Sender => b"BTPU-SND",
            Kind::Receiver => b"BTPU-RCV",
        }
    }

    fn words(self) -> &'static str {
        match self {
            Kind::Sender => "a sender",
            Kind::Receiver => "a receiver",
        }
    }

    fn other(self) -> Kind {
        match self {
            Kind::Sender => Kind::Receiver,
            Kind::Receiver => Kind::Sender,
        }
    }
}

pub struct StateFile {
    file: Replaced,
    kind: Kind,
    /// The content as it was stored last.
    stored: Option<Vec<u8>>,
}

impl StateFile {
    /// Opens a state file and reads it if it is there.
    pub fn open(path: &Path, kind: Kind) -> Result<StateFile, Failure> {
        let file = Replaced::open(path)?;
        let stored = match file.read(BEYOND)? {
            None => None,
            Some(octets) => {
                let content = unwrap(kind, &octets).map_err(|words| refused(path, &words))?;
                Some(content.to_vec())
            }
        };
        Ok(StateFile { file, kind, stored })
    }

    /// What the file held, None if there was no file.
    pub fn stored(&self) -> Option<&[u8]> {
        self.stored.as_deref()
    }

    /// Why the content that was found can't be used.
    pub fn refuse(&self, words: &str) -> Failure {
        refused(self.file.named(), words)
    }

    /// Replaces the file as a whole, unless it holds this already.
    pub fn store(&mut self, content: Vec<u8>) -> Result<(), Failure> {
        if self.stored() == Some(&content) {
            return Ok(());
        }
        self.file.replace(&wrap(self.kind, &content))?;
        self.stored = Some(content);
        Ok(())
    }
}

fn refused(path: &Path, words: &str) -> Failure {
    Failure::Error(format!(
        "state file {}: {words}. It is left as it is: put a good copy in its place, or name another file to start anew",
        path.display()
    ))
}

fn wrap(kind: Kind, content: &[u8]) -> Vec<u8> {
    let mut octets = Vec::with_capacity(FRONT + content.len() + BEHIND);
    octets.extend_from_slice(kind.magic());
    octets.extend_from_slice(&VERSION.to_be_bytes());
    octets.extend_from_slice(&(content.len() as u32).to_be_bytes());
    octets.extend_from_slice(content);
    let sum = crc32(&octets);
    octets.extend_from_slice(&sum.to_be_bytes());
    octets
}

/// The content, or what is wrong with the file.
fn unwrap(kind: Kind, octets: &[u8]) -> Result<&[u8], String> {
    if octets.is_empty() {
        return Err("it is empty".to_string());
    }
    let magic = &octets[..octets.len().min(8)];
    if magic == kind.other().magic() {
        let (other, own) = (kind.other().words(), kind.words());
        return Err(format!("it keeps the state of {other}, not of {own}"));
    }
    if !kind.magic().starts_with(magic) {
        return Err("it is no state file of btpu".to_string());
    }
    if octets.len() < FRONT {
        return Err(format!("it is cut short after {} octets", octets.len()));
    }
    let version = number(&octets[8..12]);
    if version != VERSION {
        return Err(format!(
            "it has version {version}, and version 1 is expected"
        ));
    }
    let whole = FRONT as u64 + u64::from(number(&octets[12..16])) + BEHIND as u64;
    let found = octets.len() as u64;
    if found < whole {
        return Err(format!("it is cut short after {found} of {whole} octets"));
    }
    if found > whole {
        return Err(format!("it is longer than the {whole} octets of a state"));
    }
    let (summed, sum) = octets.split_at(octets.len() - BEHIND);
    if crc32(summed) != number(sum) {
        return Err("it is damaged: its checksum does not fit".to_string());
    }
    Ok(&summed[FRONT..])
}

fn number(octets: &[u8]) -> u32 {
    octets.iter().fold(0, |n, &octet| n << 8 | u32::from(octet))
}

#[cfg(test)]
mod tests {
    use super::*;

    #[test]
    fn wraps_and_unwraps() {
        let octets = wrap(Kind::Sender, b"content");
        assert_eq!(unwrap(Kind::Sender, &octets), Ok(&b"content"[..]));
        assert!(unwrap(Kind::Receiver, &octets)
            .unwrap_err()
            .contains("of a sender"));
    }

    #[test]
    fn every_cut_every_flipped_bit_and_more_octets_are_refused() {
        let octets = wrap(Kind::Receiver, b"content of a state");
        for length in 0..octets.len() {
            assert!(unwrap(Kind::Receiver, &octets[..length]).is_err());
        }
        for bit in 0..8 * octets.len() {
            let mut damaged = octets.clone();
            damaged[bit / 8] ^= 1 << (bit % 8);
            assert!(unwrap(Kind::Receiver, &damaged).is_err(), "bit {bit}");
        }
        let longer = [&octets[..], &[0]].concat();
        assert!(unwrap(Kind::Receiver, &longer)
            .unwrap_err()
            .contains("longer"));
    }
}
