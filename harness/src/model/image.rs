//! The octet images of the states.

use super::draft::Draft;
use super::receiver::{self, Phase, Row, MAX_PIECES};
use super::sender::{self, Transfer};
use super::window::{Window, MAX_ROWS};
use super::Settings;

pub const RECEIVER: usize = 8 + MAX_ROWS * ROW;
pub const ROW: usize = 4 + 3 * MAX_PIECES;
pub const SENDER: usize = 24;

impl receiver::State {
    /// Nothing for an image that is no state or holds an entry without meaning that is not zero.
    pub fn decode(image: &[u8; RECEIVER]) -> Option<receiver::State> {
        let (head, rows) = image.split_first_chunk::<8>()?;
        if head[3] != 0 {
            return None;
        }
        let settings = Settings {
            draft: Draft::of_octet(head[2])?,
            window: Window::of_number(head[1].into())?,
        };
        let greatest = u32::from_be_bytes([head[4], head[5], head[6], head[7]]);
        let mut state = receiver::State {
            greatest: optional(head[0], greatest)?,
            ..receiver::State::start(settings)
        };
        for (row, octets) in state.rows.iter_mut().zip(rows.chunks_exact(ROW)) {
            decode_row(row, octets)?;
        }
        Some(state)
    }

    pub fn encode(&self, image: &mut [u8; RECEIVER]) {
        let (head, rows) = image.split_at_mut(8);
        head.fill(0);
        head[0] = self.greatest.is_some().into();
        head[1] = self.settings.window.octet();
        head[2] = self.settings.draft.octet();
        head[4..].copy_from_slice(&self.greatest.unwrap_or(0).to_be_bytes());
        for (row, octets) in self.rows.iter().zip(rows.chunks_exact_mut(ROW)) {
            encode_row(row, octets);
        }
    }
}

fn decode_row(row: &mut Row, octets: &[u8]) -> Option<()> {
    row.phase = match octets[0] {
        0 => Phase::Free,
        1 => Phase::Open,
        2 => Phase::Done,
        3 => Phase::Cancelled,
        4 => Phase::GivenUp,
        _ => return None,
    };
    row.last = optional(octets[1], octets[2])?;
    row.held = octets[3];
    row.index.copy_from_slice(&octets[4..4 + MAX_PIECES]);
    let lengths = octets[4 + MAX_PIECES..].chunks_exact(2);
    for (length, octets) in row.length.iter_mut().zip(lengths) {
        *length = u16::from_be_bytes([octets[0], octets[1]]);
    }
    Some(())
}

fn encode_row(row: &Row, octets: &mut [u8]) {
    octets[0] = match row.phase {
        Phase::Free => 0,
        Phase::Open => 1,
        Phase::Done => 2,
        Phase::Cancelled => 3,
        Phase::GivenUp => 4,
    };
    octets[1] = row.last.is_some().into();
    octets[2] = row.last.unwrap_or(0);
    octets[3] = row.held;
    octets[4..4 + MAX_PIECES].copy_from_slice(&row.index);
    let lengths = octets[4 + MAX_PIECES..].chunks_exact_mut(2);
    for (octets, length) in lengths.zip(&row.length) {
        octets.copy_from_slice(&length.to_be_bytes());
    }
}

/// An entry with a flag of its own; without it the entry is zero.
fn optional<T: PartialEq + From<u8>>(flag: u8, entry: T) -> Option<Option<T>> {
    match flag {
        0 if entry == T::from(0) => Some(None),
        1 => Some(Some(entry)),
        _ => None,
    }
}

impl sender::State {
    /// Nothing for an image that is no state or holds an entry without meaning that is not zero.
    pub fn decode(image: &[u8; SENDER]) -> Option<sender::State> {
        let two = |at: usize| u16::from_be_bytes([image[at], image[at + 1]]);
        let four = |at: usize| u32::from(two(at)) << 16 | u32::from(two(at + 2));
        let begun = match image[8] {
            0 if image[12..] == [0; 12] => None,
            1 => Some(Transfer {
                number: four(12),
                length: two(16),
                placed: two(18),
                next_index: four(20),
            }),
            _ => return None,
        };
        if image[10..12] != [0; 2] {
            return None;
        }
        Some(sender::State {
            draft: Draft::of_octet(image[9])?,
            frame_size: two(0),
            fill: two(2),
            next_number: four(4),
            begun,
        })
    }

    pub fn encode(&self, image: &mut [u8; SENDER]) {
        image.fill(0);
        image[0..2].copy_from_slice(&self.frame_size.to_be_bytes());
        image[2..4].copy_from_slice(&self.fill.to_be_bytes());
        image[4..8].copy_from_slice(&self.next_number.to_be_bytes());
        image[9] = self.draft.octet();
        if let Some(transfer) = self.begun {
            image[8] = 1;
            image[12..16].copy_from_slice(&transfer.number.to_be_bytes());
            image[16..18].copy_from_slice(&transfer.length.to_be_bytes());
            image[18..20].copy_from_slice(&transfer.placed.to_be_bytes());
            image[20..24].copy_from_slice(&transfer.next_index.to_be_bytes());
        }
    }
}
