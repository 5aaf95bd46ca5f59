//! Two more receivers in plain Rust that the exported call is measured against: `inplace` works on the
//! exported image and makes every check of document 01, `natural` keeps a state of its own. Both go by the
//! window of the state. They share with the model only the types of messages, windows and answers.

pub mod inplace;
pub mod natural;

use crate::model::receiver::CELL;
use crate::model::wire::{Fault, Message, Piece, MAX_FRAME};
use crate::model::{Refusal, Window};

const BUNDLE: u32 = 2;
const SEGMENT: u32 = 3;
const END: u32 = 4;
const CANCEL: u32 = 5;

const HINTS: u32 = 1 << 23;
const LENGTH: u32 = (1 << 20) - 1;

/// Start and length of a piece in its row's part of the pool.
type Span = (u16, u16);

/// Reads the message that starts at `at`, and the place after it.
#[inline(always)]
fn read(frame: &[u8], at: usize) -> Result<(Message<'_>, usize), Fault> {
    let Some((&header, rest)) = frame[at..].split_first_chunk() else {
        let padding = frame[at..].iter().take_while(|&&octet| octet == 0).count();
        return match padding {
            0 => Err(Fault::HeaderCut),
            _ => Ok((Message::Passed, at + padding)),
        };
    };
    let header = u32::from_be_bytes(header);
    let kind = header >> 24;
    if kind == 0 {
        return Ok((Message::Passed, padding_end(frame, at, header)));
    }
    let length = (header & LENGTH) as usize;
    let body = rest.get(..length).ok_or(Fault::LengthPastFrame)?;
    let next = at + 4 + length;
    if !(BUNDLE..=CANCEL).contains(&kind) {
        return Ok((Message::Passed, next));
    }
    let content = match header & HINTS {
        0 => body,
        _ => after_hints(body).ok_or(Fault::HintsPastMessage)?,
    };
    Ok((message(kind, content)?, next))
}

#[inline(always)]
fn message(kind: u32, content: &[u8]) -> Result<Message<'_>, Fault> {
    Ok(match kind {
        BUNDLE => Message::Bundle(content),
        SEGMENT | END => {
            let (&number, rest) = content.split_first_chunk().ok_or(Fault::ContentLength)?;
            let (&index, data) = rest.split_first_chunk().ok_or(Fault::ContentLength)?;
            Message::Piece(Piece {
                number: u32::from_be_bytes(number),
                index: u32::from_be_bytes(index),
                end: kind == END,
                data,
            })
        }
        _ => {
            let number = content.try_into().map_err(|_| Fault::ContentLength)?;
            Message::Cancel(u32::from_be_bytes(number))
        }
    })
}

/// The end of a padding whose first four octets are `header`.
#[inline(always)]
fn padding_end(frame: &[u8], at: usize, header: u32) -> usize {
    if header != 0 {
        return at + header.leading_zeros() as usize / 8;
    }
    let rest = frame[at..].iter();
    at + rest.take_while(|&&octet| octet == 0).count()
}

fn after_hints(mut rest: &[u8]) -> Option<&[u8]> {
    loop {
        let (&[kind, length], value) = rest.split_first_chunk()?;
        rest = value.get(usize::from(length)..)?;
        if kind & 1 == 0 {
            return Some(rest);
        }
    }
}

/// Checks the length of a frame, all its messages, and that the place is a good one.
fn check(frame: &[u8], place: u64) -> Result<(), Refusal> {
    if frame.is_empty() || frame.len() > MAX_FRAME {
        return Err(Refusal::FrameLength);
    }
    let mut good = place == frame.len() as u64;
    let mut at = 0;
    while at < frame.len() {
        good |= place == at as u64;
        at = match read(frame, at) {
            Ok((_, next)) => next,
            Err(fault) => return Err(Refusal::Malformed(fault, at)),
        };
    }
    match good {
        true => Ok(()),
        false => Err(Refusal::BadPlace),
    }
}

/// How a transfer number lies to the greatest one so far.
enum Entry {
    Outside,
    Inside,
    /// So many numbers enter the window.
    New(u32),
}

#[inline(always)]
fn entry(window: Window, greatest: u32, number: u32) -> Entry {
    let size = window.number();
    let behind = greatest.wrapping_sub(number);
    if behind < size {
        return Entry::Inside;
    }
    match number.wrapping_sub(greatest) {
        ahead if ahead <= (1 << 31) - 1 + size / 2 => Entry::New(ahead.min(size)),
        _ => Entry::Outside,
    }
}

/// Joins pieces that have `octets` octets together to the front of the output.
fn join(pieces: &[Span], octets: usize, cell: &[u8; CELL], output: &mut [u8]) {
    let output = &mut output[..octets];
    let mut filled = 0;
    for &(from, length) in pieces {
        let (from, length) = (usize::from(from), usize::from(length));
        copy_over(&cell[from..], length, &mut output[filled..]);
        filled += length;
    }
}

/// Copies so many octets, and perhaps some more, which the next piece overwrites.
#[inline(always)]
fn copy_over(from: &[u8], length: usize, to: &mut [u8]) {
    const BLOCK: usize = 64;
    if length <= BLOCK {
        if let (Some(from), Some(to)) = (from.first_chunk::<BLOCK>(), to.first_chunk_mut::<BLOCK>())
        {
            *to = *from;
            return;
        }
    }
    to[..length].copy_from_slice(&from[..length]);
}
