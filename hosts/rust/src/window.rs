//! A receiver's image, read for showing.

use crate::raw::RECEIVER_IMAGE;
use crate::WindowSize;

const ROWS_START: usize = 8;
const ROW: usize = 196;
const INDEXES: usize = 4;
const LENGTHS: usize = 68;

/// The transfers that a receiver knows of: those with the greatest number so far and the numbers before it,
/// as many as its [`WindowSize`] says.
#[derive(Clone, Debug, PartialEq, Eq)]
pub struct Window {
    /// The greatest transfer number so far.
    pub greatest: Option<u32>,
    /// One row for each transfer number of the window; number n has row n modulo the number of rows.
    pub rows: Vec<Row>,
}

/// What a receiver knows of one transfer.
#[derive(Clone, Debug, PartialEq, Eq)]
pub struct Row {
    /// The transfer that the row stands for; none as long as no transfer number is known.
    pub number: Option<u32>,
    /// How far the transfer is.
    pub phase: Phase,
    /// The highest index of the transfer, if it is known: in draft 02 that of its end, in draft 00 that of
    /// its start.
    pub last: Option<u8>,
    /// The pieces held, in order of arrival.
    pub pieces: Vec<Piece>,
}

/// A piece of a bundle that a receiver holds.
#[derive(Clone, Copy, Debug, PartialEq, Eq)]
pub struct Piece {
    /// Its place among the pieces of the bundle, from 0; in draft 00 counted from the last piece.
    pub index: u8,
    /// Its octets.
    pub length: u16,
}

/// How far a transfer is.
#[derive(Clone, Copy, Debug, PartialEq, Eq)]
pub enum Phase {
    /// Nothing of it has come.
    Free,
    /// Pieces are held, and some are missing.
    Open,
    /// Its bundle was handed out.
    Done,
    /// The sender cancelled it.
    Cancelled,
    /// Its pieces contradict each other or exceed 64 pieces or 4,096 octets; what comes of it is passed
    /// over.
    GivenUp,
}

impl Window {
    /// The window of a sound image.
    pub(crate) fn of(image: &[u8; RECEIVER_IMAGE]) -> Window {
        let greatest = u32::from_be_bytes([image[4], image[5], image[6], image[7]]);
        let greatest = (image[0] == 1).then_some(greatest);
        let rows = WindowSize::of(image).transfers();
        let octets = image[ROWS_START..].chunks_exact(ROW).take(rows);
        let number = |row| number(greatest, row as u32, rows as u32);
        let row = |(row, octets)| Row::of(number(row), octets);
        Window {
            greatest,
            rows: octets.enumerate().map(row).collect(),
        }
    }
}

impl Row {
    fn of(number: Option<u32>, octets: &[u8]) -> Row {
        let held = usize::from(octets[3]);
        let indexes = octets[INDEXES..LENGTHS].iter();
        let lengths = octets[LENGTHS..].chunks_exact(2);
        let piece = |(&index, length): (&u8, &[u8])| Piece {
            index,
            length: u16::from_be_bytes([length[0], length[1]]),
        };
        Row {
            number,
            phase: Phase::of(octets[0]),
            last: (octets[1] == 1).then_some(octets[2]),
            pieces: indexes.zip(lengths).take(held).map(piece).collect(),
        }
    }
}

impl Phase {
    fn of(octet: u8) -> Phase {
        match octet {
            0 => Phase::Free,
            1 => Phase::Open,
            2 => Phase::Done,
            3 => Phase::Cancelled,
            4 => Phase::GivenUp,
            other => unreachable!("a sound image has no phase {other}"),
        }
    }
}

/// The number within the window that has this row.
fn number(greatest: Option<u32>, row: u32, rows: u32) -> Option<u32> {
    greatest.map(|greatest| greatest.wrapping_sub(greatest.wrapping_sub(row) % rows))
}
