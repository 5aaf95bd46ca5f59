//! The receiving call on the image itself. Every call checks that the image is a sound state, as the
//! exported one does, and keeps what the check finds out about Open rows; nothing else is decoded.

use std::array::from_fn;

use super::{check, entry, join, read, Entry};
use crate::model::image::{RECEIVER, ROW};
use crate::model::interface::NO_NUMBER;
use crate::model::receiver::{CELL, MAX_PIECES, MIN_OUTPUT};
use crate::model::wire::{Message, Piece};
use crate::model::{Refusal, Window, MAX_ROWS};

type Row = [u8; ROW];
type Pool = [[u8; CELL]];

const FREE: u8 = 0;
const OPEN: u8 = 1;
const DONE: u8 = 2;
const CANCELLED: u8 = 3;
const GIVEN_UP: u8 = 4;

const HEAD: usize = 8;
const INDEXES: usize = 4;
const LENGTHS: usize = INDEXES + MAX_PIECES;

/// Of an Open row: which indexes are held, and how many octets.
#[derive(Clone, Copy, Default)]
struct Held {
    present: u64,
    octets: usize,
}

/// An image that is a sound state.
struct State<'a> {
    window: Window,
    head: &'a mut [u8; HEAD],
    rows: &'a mut [Row; MAX_ROWS],
    held: [Held; MAX_ROWS],
}

impl<'a> State<'a> {
    fn of(image: &'a mut [u8; RECEIVER]) -> Option<State<'a>> {
        let (head, rows) = image.split_first_chunk_mut::<HEAD>()?;
        let rows: &mut [Row; MAX_ROWS] = rows.as_chunks_mut().0.try_into().ok()?;
        let mut held = [Held::default(); MAX_ROWS];
        let window = Window::of_number(head[1].into())?;
        match head {
            [1, _, 0, 0, ..] => {
                let (kept, beyond) = rows.split_at(window.rows());
                for (held, row) in held.iter_mut().zip(kept) {
                    *held = check_row(row)?;
                }
                if !zero(beyond.as_flattened()) {
                    return None;
                }
            }
            [0, _, 0, 0, 0, 0, 0, 0] if zero(rows.as_flattened()) => {}
            _ => return None,
        }
        Some(State {
            window,
            head,
            rows,
            held,
        })
    }

    /// Places the number in the window and answers its row, or nothing if it lies outside.
    #[inline]
    fn enter(&mut self, number: u32) -> Option<usize> {
        let [known, _, _, _, greatest @ ..] = self.head;
        if *known == 0 {
            *known = 1;
            *greatest = number.to_be_bytes();
        }
        match entry(self.window, u32::from_be_bytes(*greatest), number) {
            Entry::Outside => return None,
            Entry::Inside => {}
            Entry::New(entered) => {
                *greatest = number.to_be_bytes();
                for back in 0..entered {
                    self.empty(self.window.row_of(number.wrapping_sub(back)), FREE);
                }
            }
        }
        Some(self.window.row_of(number))
    }

    fn empty(&mut self, row: usize, phase: u8) {
        self.rows[row] = [0; ROW];
        self.rows[row][0] = phase;
        self.held[row] = Held::default();
    }

    fn cancel(&mut self, number: u32) {
        if let Some(row) = self.enter(number) {
            if self.rows[row][0] <= OPEN {
                self.empty(row, CANCELLED);
            }
        }
    }

    /// Treats a message; the answer is the length of the bundle that it hands out, and its number.
    #[inline(always)]
    fn treat(
        &mut self,
        message: Message,
        pool: &mut Pool,
        output: &mut [u8],
    ) -> Option<(usize, u64)> {
        match message {
            Message::Passed => None,
            Message::Bundle(content) => {
                output[..content.len()].copy_from_slice(content);
                Some((content.len(), NO_NUMBER))
            }
            Message::Cancel(number) => {
                self.cancel(number);
                None
            }
            Message::Piece(piece) => {
                let length = self.take(&piece, pool, output)?;
                Some((length, piece.number.into()))
            }
        }
    }

    /// Treats a piece; the answer is the length of the bundle that it completes.
    #[inline]
    fn take(&mut self, piece: &Piece, pool: &mut Pool, output: &mut [u8]) -> Option<usize> {
        let at = self.enter(piece.number)?;
        let (row, held) = (&mut self.rows[at], &mut self.held[at]);
        if row[0] > OPEN {
            return None;
        }
        if piece.index >= MAX_PIECES as u32 || contradicts(row, held, piece) {
            self.empty(at, GIVEN_UP);
            return None;
        }
        if held.present >> piece.index & 1 == 1 {
            return None;
        }
        let cell = &mut pool[at];
        let Some(to) = cell[held.octets..].get_mut(..piece.data.len()) else {
            self.empty(at, GIVEN_UP);
            return None;
        };
        to.copy_from_slice(piece.data);
        store(row, held, piece);
        if row[1] == 0 || row[3] != row[2] + 1 {
            return None;
        }
        let octets = held.octets;
        join_row(row, octets, cell, output);
        self.empty(at, DONE);
        Some(octets)
    }
}

fn zero(octets: &[u8]) -> bool {
    let (words, rest) = octets.as_chunks();
    let any = words
        .iter()
        .fold(0, |any, &word| any | u64::from_ne_bytes(word));
    any == 0 && rest.iter().all(|&octet| octet == 0)
}

/// What a row holds, if it is sound.
#[inline]
fn check_row(row: &Row) -> Option<Held> {
    match *row {
        [OPEN, ..] => check_open(row),
        [..=GIVEN_UP, 0, 0, 0, ref pieces @ ..] if zero(pieces) => Some(Held::default()),
        _ => None,
    }
}

fn check_open(row: &Row) -> Option<Held> {
    let [_, known, last, count, pieces @ ..] = row;
    let (indexes, lengths) = pieces.split_first_chunk::<MAX_PIECES>()?;
    let lengths: &[[u8; 2]; MAX_PIECES] = lengths.as_chunks().0.try_into().ok()?;
    if !(1..=MAX_PIECES as u8).contains(count) {
        return None;
    }
    let (octets, no_length) = length_entries(lengths, *count);
    let present = present(&indexes[..usize::from(*count)]);
    let last_is_sound = match (known, last) {
        (0, 0) => true,
        // The greatest index held is the last, and one below it is missing.
        (1, 0..=63) => present >> last == 1 && *count <= *last,
        _ => false,
    };
    let sound = indexes_are_sound(indexes, *count)
        && no_length
        && present.count_ones() == u32::from(*count)
        && octets <= CELL
        && last_is_sound;
    sound.then_some(Held { present, octets })
}

/// Whether all indexes are below 64, and those beyond the pieces zero.
#[inline(always)]
fn indexes_are_sound(indexes: &[u8; MAX_PIECES], count: u8) -> bool {
    zero(&from_fn::<_, MAX_PIECES, _>(|place| {
        let wrong = if place as u8 >= count { !0 } else { !63 };
        indexes[place] & wrong
    }))
}

/// The sum of the lengths, and whether those beyond the pieces are zero.
#[inline(always)]
fn length_entries(lengths: &[[u8; 2]; MAX_PIECES], count: u8) -> (usize, bool) {
    let (mut high, mut low, mut beyond) = (0u16, 0u16, 0);
    for (place, &length) in lengths.iter().enumerate() {
        // 64 octets add up to less than 65,536.
        let length = u16::from_le_bytes(length);
        high += length & 0xff;
        low += length >> 8;
        beyond |= if place as u16 >= u16::from(count) {
            length
        } else {
            0
        };
    }
    (256 * usize::from(high) + usize::from(low), beyond == 0)
}

/// Which indexes are held. Four sets, so that one entry need not wait for another.
#[inline(always)]
fn present(indexes: &[u8]) -> u64 {
    let (groups, rest) = indexes.as_chunks::<4>();
    let mut sets = [0u64; 4];
    for group in groups {
        for (set, index) in sets.iter_mut().zip(group) {
            *set |= 1 << (index & 63);
        }
    }
    for (set, index) in sets.iter_mut().zip(rest) {
        *set |= 1 << (index & 63);
    }
    sets[0] | sets[1] | sets[2] | sets[3]
}

#[inline(always)]
fn contradicts(row: &Row, held: &Held, piece: &Piece) -> bool {
    let last = u32::from(row[2]);
    match row[1] {
        0 => piece.end && held.present >> piece.index != 0,
        _ => piece.index > last || piece.end != (piece.index == last),
    }
}

/// Enters a piece into its row.
#[inline(always)]
fn store(row: &mut Row, held: &mut Held, piece: &Piece) {
    let place = usize::from(row[3]);
    let length = (piece.data.len() as u16).to_be_bytes();
    row[0] = OPEN;
    row[3] += 1;
    row[INDEXES + place] = piece.index as u8;
    row[LENGTHS + 2 * place..][..2].copy_from_slice(&length);
    if piece.end {
        row[1] = 1;
        row[2] = piece.index as u8;
    }
    held.present |= 1 << piece.index;
    held.octets += piece.data.len();
}

/// Joins the pieces of a row that lacks none.
fn join_row(row: &Row, octets: usize, cell: &[u8; CELL], output: &mut [u8]) {
    let count = usize::from(row[3]);
    let mut pieces = [(0, 0); MAX_PIECES];
    let mut from = 0;
    let lengths = row[LENGTHS..].as_chunks().0;
    for (index, &length) in row[INDEXES..][..count].iter().zip(lengths) {
        let length = u16::from_be_bytes(length);
        pieces[usize::from(index & 63)] = (from, length);
        from += length;
    }
    join(&pieces[..count], octets, cell, output);
}

pub fn receive(
    image: &mut [u8; RECEIVER],
    pool: &mut [u8],
    frame: &[u8],
    place: u64,
    output: &mut [u8],
    result: &mut [u64; 4],
) -> u32 {
    let Some(mut state) = State::of(image) else {
        return Refusal::UnsoundState.returned();
    };
    let (cells, []) = pool.as_chunks_mut() else {
        return Refusal::PoolOrOutputSize.returned();
    };
    if cells.len() != state.window.rows() || output.len() < MIN_OUTPUT {
        return Refusal::PoolOrOutputSize.returned();
    }
    if let Err(refusal) = check(frame, place) {
        return refusal.returned();
    }
    let mut at = place as usize;
    while at < frame.len() {
        let Ok((message, next)) = read(frame, at) else {
            unreachable!("the whole frame was checked");
        };
        if let Some((length, number)) = state.treat(message, cells, output) {
            *result = [1, length as u64, next as u64, number];
            return 0;
        }
        at = next;
    }
    result[0] = 0;
    0
}
