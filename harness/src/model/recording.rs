//! Recordings: a count of frames, their lengths, a count of octets and the octets.

use super::{wire, Refusal};

pub const MAX_FRAMES: usize = 1024;
pub const MAX_OCTETS: usize = 61_440;

const COUNT: usize = 4;
const LENGTH: usize = 2;

/// A recording that was read.
#[derive(Clone, Copy, Debug, PartialEq, Eq)]
pub struct Recording<'a> {
    /// The frames' lengths as they are recorded.
    lengths: &'a [[u8; LENGTH]],
    octets: &'a [u8],
}

impl<'a> Recording<'a> {
    pub fn read(recording: &'a [u8]) -> Result<Recording<'a>, Refusal> {
        let (frames, rest) = read_count(recording, MAX_FRAMES)?;
        let (lengths, rest) = part(rest, LENGTH * frames)?;
        let (count, rest) = read_count(rest, MAX_OCTETS)?;
        let (octets, behind) = part(rest, count)?;
        let (lengths, _) = lengths.as_chunks();
        let read = Recording { lengths, octets };
        check(read.lengths(), octets)?;
        if !behind.is_empty() {
            return Err(Refusal::LeftOver);
        }
        Ok(read)
    }

    pub fn lengths(&self) -> impl ExactSizeIterator<Item = u16> + Clone + 'a {
        self.lengths
            .iter()
            .map(|&octets| u16::from_be_bytes(octets))
    }

    pub fn octets(&self) -> &'a [u8] {
        self.octets
    }

    /// Where the octets start in the recording.
    pub fn start(&self) -> usize {
        2 * COUNT + LENGTH * self.lengths.len()
    }

    pub fn frames(&self) -> impl Iterator<Item = &'a [u8]> + 'a {
        let mut rest = self.octets;
        self.lengths().map(move |length| {
            let (frame, behind) = rest.split_at(length.into());
            rest = behind;
            frame
        })
    }
}

/// Writes a recording to the front of the output; the answer is its length.
pub fn write(lengths: &[u16], octets: &[u8], output: &mut [u8]) -> Result<usize, Refusal> {
    if lengths.len() > MAX_FRAMES || octets.len() > MAX_OCTETS {
        return Err(Refusal::CountAboveLimit);
    }
    check(lengths.iter().copied(), octets)?;
    let size = 2 * COUNT + LENGTH * lengths.len() + octets.len();
    let output = output.get_mut(..size).ok_or(Refusal::OutputTooShort)?;
    let (count, rest) = output.split_at_mut(COUNT);
    count.copy_from_slice(&(lengths.len() as u32).to_be_bytes());
    let (list, rest) = rest.split_at_mut(LENGTH * lengths.len());
    for (to, length) in list.as_chunks_mut().0.iter_mut().zip(lengths) {
        *to = length.to_be_bytes();
    }
    let (count, rest) = rest.split_at_mut(COUNT);
    count.copy_from_slice(&(octets.len() as u32).to_be_bytes());
    rest.copy_from_slice(octets);
    Ok(size)
}

/// A count within its limit, and what follows it.
fn read_count(octets: &[u8], limit: usize) -> Result<(usize, &[u8]), Refusal> {
    let (&count, rest) = octets.split_first_chunk().ok_or(Refusal::CutShort)?;
    match u32::from_be_bytes(count) as usize {
        count if count <= limit => Ok((count, rest)),
        _ => Err(Refusal::CountAboveLimit),
    }
}

/// That many octets, and what follows them.
fn part(octets: &[u8], length: usize) -> Result<(&[u8], &[u8]), Refusal> {
    octets.split_at_checked(length).ok_or(Refusal::CutShort)
}

/// What the frames' lengths and the octets must satisfy where their counts are within the limits.
fn check(lengths: impl Iterator<Item = u16> + Clone, octets: &[u8]) -> Result<(), Refusal> {
    let allowed = 1..=wire::MAX_FRAME;
    if !lengths
        .clone()
        .all(|length| allowed.contains(&length.into()))
    {
        return Err(Refusal::RecordedLength);
    }
    if lengths.map(usize::from).sum::<usize>() != octets.len() {
        return Err(Refusal::OctetCount);
    }
    Ok(())
}
