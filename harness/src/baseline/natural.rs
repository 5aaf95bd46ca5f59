//! A receiver for a host in Rust: a state of its own that nobody else can touch, so that no call checks
//! it; pieces by index; the indexes held as bits.

use super::{check, entry, join, read, Entry, Span};
use crate::model::burst::{Bundles, Notes, Taken, MAX_BUNDLES, MAX_FRAMES};
use crate::model::interface::NO_NUMBER;
use crate::model::receiver::{self, Answer, Phase, CELL, MAX_PIECES};
use crate::model::wire::{Message, Piece};
use crate::model::{Refusal, Window};

#[derive(Clone, Copy)]
struct Row {
    phase: Phase,
    last: Option<u8>,
    present: u64,
    octets: usize,
    /// Of the indexes that are present.
    pieces: [Span; MAX_PIECES],
}

#[derive(Clone)]
pub struct Receiver {
    window: Window,
    greatest: Option<u32>,
    /// As many as the window says, of both.
    rows: Box<[Row]>,
    pool: Box<[[u8; CELL]]>,
}

impl Row {
    fn empty(&mut self, phase: Phase) {
        self.phase = phase;
        self.last = None;
        self.present = 0;
        self.octets = 0;
    }

    fn is_settled(&self) -> bool {
        !matches!(self.phase, Phase::Free | Phase::Open)
    }

    fn contradicts(&self, piece: &Piece) -> bool {
        match self.last.map(u32::from) {
            Some(last) => piece.index > last || piece.end != (piece.index == last),
            None => piece.end && self.present >> piece.index != 0,
        }
    }

    /// Treats a piece; the answer is the length of the bundle that it completes.
    #[inline]
    fn take(
        &mut self,
        piece: &Piece,
        cell: &mut [u8; CELL],
        output: &mut [u8; CELL],
    ) -> Option<usize> {
        if self.is_settled() {
            return None;
        }
        if piece.index >= MAX_PIECES as u32 || self.contradicts(piece) {
            self.empty(Phase::GivenUp);
            return None;
        }
        if self.present >> piece.index & 1 == 1 {
            return None;
        }
        let Some(to) = cell[self.octets..].get_mut(..piece.data.len()) else {
            self.empty(Phase::GivenUp);
            return None;
        };
        to.copy_from_slice(piece.data);
        self.phase = Phase::Open;
        self.present |= 1 << piece.index;
        self.pieces[piece.index as usize] = (self.octets as u16, piece.data.len() as u16);
        self.octets += piece.data.len();
        if piece.end {
            self.last = Some(piece.index as u8);
        }
        let last = self.last?;
        if self.present != u64::MAX >> (MAX_PIECES as u8 - 1 - last) {
            return None;
        }
        let octets = self.octets;
        join(&self.pieces[..=usize::from(last)], octets, cell, output);
        self.empty(Phase::Done);
        Some(octets)
    }

    /// The same row; pieces that are not present may be others.
    fn become_like(&mut self, row: &Row) {
        if row.present != 0 {
            *self = *row;
        } else {
            self.empty(row.phase);
        }
    }

    fn restored(row: &receiver::Row) -> Row {
        let mut restored = Row {
            phase: row.phase,
            last: row.last,
            present: 0,
            octets: 0,
            pieces: [(0, 0); MAX_PIECES],
        };
        let pieces = row.index.iter().zip(row.length);
        for (&index, length) in pieces.take(usize::from(row.held)) {
            restored.present |= 1 << index;
            restored.pieces[usize::from(index)] = (restored.octets as u16, length);
            restored.octets += usize::from(length);
        }
        restored
    }
}

impl Receiver {
    /// A receiver with the model's state, which must be sound, and a pool of the window's size.
    pub fn restored(state: &receiver::State, pool: &[u8]) -> Receiver {
        let window = state.settings.window;
        let rows = &state.rows[..window.rows()];
        Receiver {
            window,
            greatest: state.greatest,
            rows: rows.iter().map(Row::restored).collect(),
            pool: pool.as_chunks().0.into(),
        }
    }

    /// Goes back to the state of another receiver of the same window; the pool stays.
    pub fn become_like(&mut self, receiver: &Receiver) {
        self.greatest = receiver.greatest;
        for (row, other) in self.rows.iter_mut().zip(receiver.rows.iter()) {
            row.become_like(other);
        }
    }

    /// Places the number in the window and answers its row, or nothing if it lies outside.
    #[inline]
    fn enter(&mut self, number: u32) -> Option<usize> {
        match entry(self.window, *self.greatest.get_or_insert(number), number) {
            Entry::Outside => return None,
            Entry::Inside => {}
            Entry::New(entered) => {
                self.greatest = Some(number);
                for back in 0..entered {
                    self.rows[self.window.row_of(number.wrapping_sub(back))].empty(Phase::Free);
                }
            }
        }
        Some(self.window.row_of(number))
    }

    fn cancel(&mut self, number: u32) {
        if let Some(row) = self.enter(number) {
            if !self.rows[row].is_settled() {
                self.rows[row].empty(Phase::Cancelled);
            }
        }
    }

    /// Treats a message; the answer is the length of the bundle that it hands out, and its number.
    #[inline(always)]
    fn treat(&mut self, message: Message, output: &mut [u8; CELL]) -> Option<(usize, Option<u32>)> {
        match message {
            Message::Passed => None,
            Message::Bundle(content) => {
                output[..content.len()].copy_from_slice(content);
                Some((content.len(), None))
            }
            Message::Cancel(number) => {
                self.cancel(number);
                None
            }
            Message::Piece(piece) => {
                let row = self.enter(piece.number)?;
                let length = self.rows[row].take(&piece, &mut self.pool[row], output)?;
                Some((length, Some(piece.number)))
            }
        }
    }

    /// Treats the messages from `place` up to the first bundle, which is put into the output.
    pub fn receive(
        &mut self,
        frame: &[u8],
        place: usize,
        output: &mut [u8; CELL],
    ) -> Result<Answer, Refusal> {
        check(frame, place as u64)?;
        let mut at = place;
        while at < frame.len() {
            let Ok((message, next)) = read(frame, at) else {
                unreachable!("the whole frame was checked");
            };
            if let Some((length, number)) = self.treat(message, output) {
                return Ok(Answer::Bundle {
                    length,
                    next,
                    number,
                });
            }
            at = next;
        }
        Ok(Answer::Finished)
    }

    /// Takes a burst, with one check for each frame.
    pub fn receive_burst(
        &mut self,
        (sizes, octets): (&[u16], &[u8]),
        (first, mut place): (usize, usize),
        mut bundles: Bundles,
        (places, reasons): Notes,
    ) -> Result<Taken, Refusal> {
        let mut rest = burst_rest(sizes, octets, (first, place), bundles.0)?;
        let mut taken = Taken::default();
        for (number, &size) in sizes.iter().enumerate().skip(first) {
            let (frame, behind) = rest.split_at(size.into());
            match check(frame, place as u64) {
                Ok(()) => {
                    place = self.take(frame, place, &mut bundles, &mut taken);
                    if place < frame.len() {
                        taken.next = (number, place);
                        return Ok(taken);
                    }
                }
                Err(Refusal::BadPlace) => return Err(Refusal::BadPlace),
                Err(_) if is_full(&bundles, &taken) => {
                    taken.next = (number, 0);
                    return Ok(taken);
                }
                Err(refusal) => {
                    places[taken.refused] = number as u32;
                    reasons[taken.refused] = refusal.number();
                    taken.refused += 1;
                }
            }
            place = 0;
            rest = behind;
        }
        taken.next = (sizes.len(), 0);
        Ok(taken)
    }

    /// Takes a frame that was checked; the answer is where it stopped, or the frame's length.
    #[inline]
    fn take(
        &mut self,
        frame: &[u8],
        mut at: usize,
        bundles: &mut Bundles,
        taken: &mut Taken,
    ) -> usize {
        while at < frame.len() && taken.bundles < MAX_BUNDLES {
            let Some(room) = bundles.0[taken.octets..].first_chunk_mut() else {
                break;
            };
            let Ok((message, next)) = read(frame, at) else {
                unreachable!("the whole frame was checked");
            };
            if let Some((length, number)) = self.treat(message, room) {
                bundles.1[taken.bundles] = length as u16;
                bundles.2[taken.bundles] = number.map_or(NO_NUMBER, u64::from);
                taken.bundles += 1;
                taken.octets += length;
            }
            at = next;
        }
        at
    }
}

fn is_full(bundles: &Bundles, taken: &Taken) -> bool {
    taken.bundles == MAX_BUNDLES || bundles.0.len() - taken.octets < CELL
}

/// The octets from the first frame on, if nothing is wrong with the list as a whole.
fn burst_rest<'a>(
    sizes: &[u16],
    octets: &'a [u8],
    (first, place): (usize, usize),
    output: &[u8],
) -> Result<&'a [u8], Refusal> {
    let sum = |sizes: &[u16]| sizes.iter().map(|&size| usize::from(size)).sum::<usize>();
    if output.len() < CELL {
        return Err(Refusal::PoolOrOutputSize);
    }
    if sizes.len() > MAX_FRAMES {
        return Err(Refusal::FrameLength);
    }
    if sum(sizes) != octets.len() {
        return Err(Refusal::OctetCount);
    }
    if first > sizes.len() || first == sizes.len() && place != 0 {
        return Err(Refusal::BadPlace);
    }
    Ok(&octets[sum(&sizes[..first])..])
}
