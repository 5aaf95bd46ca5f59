//! Messages of a frame.

use super::draft::{Draft, Layout, Layout00, Layout02};

pub const MAX_FRAME: usize = 2048;

/// What makes a message malformed, in the order in which it is looked for.
#[derive(Clone, Copy, Debug, PartialEq, Eq)]
pub enum Fault {
    HeaderCut,
    LengthPastFrame,
    HintsPastMessage,
    ContentLength,
}

#[derive(Clone, Copy, Debug, PartialEq, Eq)]
pub enum Message<'a> {
    /// Padding, or a type passed over by its length.
    Passed,
    Bundle(&'a [u8]),
    /// A transfer segment or a transfer end, in draft 00 a transfer start.
    Piece(Piece<'a>),
    Cancel(u32),
}

#[derive(Clone, Copy, Debug, PartialEq, Eq)]
pub struct Piece<'a> {
    pub number: u32,
    pub index: u32,
    /// Whether it carries the final index: an end, or in draft 00 a start, which stands for an end.
    pub end: bool,
    pub data: &'a [u8],
}

const BUNDLE: u8 = 2;
const CANCEL: u8 = 5;

/// Reads the message that starts at `at`, which must lie inside the frame, and the place after it.
///
/// Always inline: left to the compiler, some loops over messages take twice the time.
#[inline(always)]
pub fn read<L: Layout>(frame: &[u8], at: usize) -> Result<(Message<'_>, usize), Fault> {
    let rest = &frame[at..];
    if rest[0] == 0 {
        let run = rest.iter().take_while(|&&octet| octet == 0).count();
        return Ok((Message::Passed, at + run));
    }
    let Some((&[kind, second, high, low], rest)) = rest.split_first_chunk::<4>() else {
        return Err(Fault::HeaderCut);
    };
    let length = u32::from_be_bytes([0, second & L::LENGTH, high, low]) as usize;
    let Some(body) = rest.get(..length) else {
        return Err(Fault::LengthPastFrame);
    };
    let next = at + 4 + length;
    if !(BUNDLE..=CANCEL).contains(&kind) {
        return Ok((Message::Passed, next));
    }
    let content = if second & L::HINTS == 0 {
        body
    } else {
        after_hints(body).ok_or(Fault::HintsPastMessage)?
    };
    let message = match kind {
        BUNDLE => Message::Bundle(content),
        // The two types of pieces; the draft says which one carries the final index.
        3 | 4 => {
            let (number, rest) = content.split_first_chunk().ok_or(Fault::ContentLength)?;
            let (index, data) = rest.split_first_chunk().ok_or(Fault::ContentLength)?;
            Message::Piece(Piece {
                number: u32::from_be_bytes(*number),
                index: u32::from_be_bytes(*index),
                end: kind == L::DRAFT.piece_type(true),
                data,
            })
        }
        _ => {
            let number = content.try_into().map_err(|_| Fault::ContentLength)?;
            Message::Cancel(u32::from_be_bytes(number))
        }
    };
    Ok((message, next))
}

/// What stands behind a chain of at least one hint, or nothing if the chain runs past the message.
fn after_hints(mut rest: &[u8]) -> Option<&[u8]> {
    loop {
        let (&[kind, length], value) = rest.split_first_chunk::<2>()?;
        rest = value.get(usize::from(length)..)?;
        if kind & 1 == 0 {
            return Some(rest);
        }
    }
}

/// Checks a whole frame; the answer is whether `place` is a good place in it.
pub fn check(draft: Draft, frame: &[u8], place: u64) -> Result<bool, (Fault, usize)> {
    match draft {
        Draft::D00 => check_in::<Layout00>(frame, place),
        Draft::D02 => check_in::<Layout02>(frame, place),
    }
}

fn check_in<L: Layout>(frame: &[u8], place: u64) -> Result<bool, (Fault, usize)> {
    let mut good = place == frame.len() as u64;
    let mut at = 0;
    while at < frame.len() {
        good |= place == at as u64;
        at = match read::<L>(frame, at) {
            Ok((_, next)) => next,
            Err(fault) => return Err((fault, at)),
        };
    }
    Ok(good)
}
