//! The receiving side: window, rows and the receiving call.

use super::draft::{Draft, Layout, Layout00, Layout02};
use super::window::{Distance, Window, MAX_ROWS};
use super::wire::{self, Message, Piece};
use super::{Refusal, Settings};

pub const MAX_PIECES: usize = 64;
pub const CELL: usize = 4096;
pub const MIN_OUTPUT: usize = CELL;

#[derive(Clone, Copy, Debug, PartialEq, Eq)]
pub enum Phase {
    Free,
    Open,
    Done,
    Cancelled,
    GivenUp,
}

/// One transfer of the window. The pieces stand in order of arrival.
#[derive(Clone, Copy, Debug, PartialEq, Eq)]
pub struct Row {
    pub phase: Phase,
    /// The final index, once an end has told it, or in draft 00 a start.
    pub last: Option<u8>,
    pub held: u8,
    pub index: [u8; MAX_PIECES],
    pub length: [u16; MAX_PIECES],
}

#[derive(Clone, Debug, PartialEq, Eq)]
pub struct State {
    pub settings: Settings,
    pub greatest: Option<u32>,
    /// As many as the window says; those beyond carry no meaning.
    pub rows: [Row; MAX_ROWS],
}

#[derive(Clone, Copy, Debug, PartialEq, Eq)]
pub enum Answer {
    Finished,
    Bundle {
        length: usize,
        next: usize,
        number: Option<u32>,
    },
}

/// Why a piece contradicts its row (step 3).
#[derive(Clone, Copy, Debug, PartialEq, Eq)]
pub enum Contradiction {
    AboveLast,
    OtherLast,
    HeldAboveEnd,
    OtherKind,
}

/// The step that decided about a piece.
#[derive(Clone, Copy, Debug, PartialEq, Eq)]
pub enum Step {
    Settled,
    IndexTooGreat,
    Contradicts(Contradiction),
    Held,
    Overflow,
    Stored,
    /// Stored, and the bundle of this length was handed out.
    Completed(usize),
}

/// What tests may want to see of a call. The empty observer costs nothing.
pub trait Observer {
    fn distance(&mut self, _window: Window, _case: Distance, _difference: u32, _number: u32) {}
    /// A number enters the window, so that its row becomes Free.
    fn frees(&mut self, _window: Window, _row: usize, _before: Phase) {}
    /// `end` says whether the piece carries the final index.
    fn step(&mut self, _step: Step, _end: bool) {}
    fn cancel(&mut self, _before: Phase) {}
    /// A bundle is joined from pieces that came in this order, with these indexes and lengths.
    fn join(&mut self, _indexes: &[u8], _lengths: &[u16]) {}
}

impl Observer for () {}

impl Row {
    pub const fn empty(phase: Phase) -> Row {
        Row {
            phase,
            last: None,
            held: 0,
            index: [0; MAX_PIECES],
            length: [0; MAX_PIECES],
        }
    }

    fn is_sound(&self) -> bool {
        if self.phase == Phase::Open {
            return self.open_is_sound();
        }
        self.last.is_none()
            && self.held == 0
            && self.index == [0; MAX_PIECES]
            && self.length == [0; MAX_PIECES]
    }

    fn open_is_sound(&self) -> bool {
        let held = usize::from(self.held);
        if held == 0 || held > MAX_PIECES {
            return false;
        }
        let (index, no_index) = self.index.split_at(held);
        let (_, no_length) = self.length.split_at(held);
        if no_index.iter().any(|&entry| entry != 0) || no_length.iter().any(|&entry| entry != 0) {
            return false;
        }
        let mut present = 0u64;
        for &index in index {
            if usize::from(index) >= MAX_PIECES || present >> index & 1 == 1 {
                return false;
            }
            present |= 1 << index;
        }
        if self.octets() > CELL {
            return false;
        }
        match self.last {
            None => true,
            Some(last) if usize::from(last) >= MAX_PIECES => false,
            Some(last) => {
                let all = u64::MAX >> (63 - last);
                present & !all == 0 && present >> last & 1 == 1 && present != all
            }
        }
    }

    fn indexes(&self) -> &[u8] {
        &self.index[..usize::from(self.held)]
    }

    fn octets(&self) -> usize {
        // Entries beyond the pieces held are zero.
        self.length
            .iter()
            .map(|&length| u32::from(length))
            .sum::<u32>() as usize
    }

    fn contradiction(&self, index: u8, end: bool) -> Option<Contradiction> {
        match self.last {
            Some(last) if index > last => Some(Contradiction::AboveLast),
            Some(last) if end && index != last => Some(Contradiction::OtherLast),
            Some(last) if !end && index == last => Some(Contradiction::OtherKind),
            None if end && self.indexes().iter().any(|&held| held > index) => {
                Some(Contradiction::HeldAboveEnd)
            }
            None if end && self.indexes().contains(&index) => Some(Contradiction::OtherKind),
            _ => None,
        }
    }

    fn cancel(&mut self) {
        if matches!(self.phase, Phase::Free | Phase::Open) {
            *self = Row::empty(Phase::Cancelled);
        }
    }

    fn take(
        &mut self,
        draft: Draft,
        cell: &mut [u8],
        piece: &Piece,
        output: &mut [u8],
        observer: &mut impl Observer,
    ) -> Step {
        if !matches!(self.phase, Phase::Free | Phase::Open) {
            return Step::Settled;
        }
        if piece.index >= MAX_PIECES as u32 {
            *self = Row::empty(Phase::GivenUp);
            return Step::IndexTooGreat;
        }
        let index = piece.index as u8;
        if let Some(contradiction) = self.contradiction(index, piece.end) {
            *self = Row::empty(Phase::GivenUp);
            return Step::Contradicts(contradiction);
        }
        if self.indexes().contains(&index) {
            return Step::Held;
        }
        let octets = self.octets();
        let after = octets + piece.data.len();
        if after > CELL {
            *self = Row::empty(Phase::GivenUp);
            return Step::Overflow;
        }
        cell[octets..after].copy_from_slice(piece.data);
        self.phase = Phase::Open;
        self.index[usize::from(self.held)] = index;
        self.length[usize::from(self.held)] = piece.data.len() as u16;
        self.held += 1;
        if piece.end {
            self.last = Some(index);
        }
        // The indexes held are different and none is above the last one, so their count decides.
        if self.last.is_some_and(|last| self.held == last + 1) {
            observer.join(self.indexes(), &self.length[..usize::from(self.held)]);
            self.join(draft, cell, output);
            *self = Row::empty(Phase::Done);
            return Step::Completed(after);
        }
        Step::Stored
    }

    /// Joins the pieces in rising order of index, in draft 00 in falling order; every index below `held`
    /// must be held.
    fn join(&self, draft: Draft, cell: &[u8], output: &mut [u8]) {
        let mut piece_at = [(0, 0); MAX_PIECES];
        let mut from = 0;
        for (&index, &length) in self.indexes().iter().zip(&self.length) {
            let to = from + usize::from(length);
            piece_at[usize::from(index)] = (from, to);
            from = to;
        }
        let pieces = &mut piece_at[..usize::from(self.held)];
        if draft == Draft::D00 {
            pieces.reverse();
        }
        let mut filled = 0;
        for &(from, to) in &*pieces {
            output[filled..filled + to - from].copy_from_slice(&cell[from..to]);
            filled += to - from;
        }
    }
}

impl State {
    pub const fn start(settings: Settings) -> State {
        State {
            settings,
            greatest: None,
            rows: [Row::empty(Phase::Free); MAX_ROWS],
        }
    }

    pub fn is_sound(&self) -> bool {
        // Rows beyond the window carry no meaning, and no row does without a greatest number.
        let kept = match self.greatest {
            Some(_) => self.settings.window.rows(),
            None => 0,
        };
        let free = self.rows[kept..].iter().all(|row| row.phase == Phase::Free);
        free && self.rows.iter().all(Row::is_sound)
    }

    /// Places the number in the window and answers its row, or nothing if it lies outside.
    fn enter(&mut self, number: u32, observer: &mut impl Observer) -> Option<usize> {
        let window = self.settings.window;
        let row = window.row_of(number);
        let Some(greatest) = self.greatest else {
            observer.distance(window, Distance::First, 0, number);
            self.greatest = Some(number);
            return Some(row);
        };
        let difference = number.wrapping_sub(greatest);
        let case = window.distance(difference);
        observer.distance(window, case, difference, number);
        match case {
            Distance::Outside => return None,
            Distance::New => {
                self.greatest = Some(number);
                for back in 0..difference.min(window.number()) {
                    let row = window.row_of(number.wrapping_sub(back));
                    observer.frees(window, row, self.rows[row].phase);
                    self.rows[row] = Row::empty(Phase::Free);
                }
            }
            Distance::First | Distance::Same | Distance::Behind => {}
        }
        Some(row)
    }

    /// Treats one message. A bundle that it hands out is put into the output; the answer is its length
    /// and its transfer number. Always inline, as `wire::read` is.
    #[inline(always)]
    pub fn treat(
        &mut self,
        message: Message,
        pool: &mut [u8],
        output: &mut [u8],
        observer: &mut impl Observer,
    ) -> Option<(usize, Option<u32>)> {
        match message {
            Message::Passed => {}
            Message::Bundle(content) => {
                output[..content.len()].copy_from_slice(content);
                return Some((content.len(), None));
            }
            Message::Cancel(number) => {
                if let Some(row) = self.enter(number, observer) {
                    observer.cancel(self.rows[row].phase);
                    self.rows[row].cancel();
                }
            }
            Message::Piece(piece) => {
                let row = self.enter(piece.number, observer)?;
                let cell = &mut pool[CELL * row..CELL * (row + 1)];
                let step = self.rows[row].take(self.settings.draft, cell, &piece, output, observer);
                observer.step(step, piece.end);
                if let Step::Completed(length) = step {
                    return Some((length, Some(piece.number)));
                }
            }
        }
        None
    }

    /// Treats messages of a frame that was checked, up to the first bundle handed out.
    fn take<L: Layout>(
        &mut self,
        pool: &mut [u8],
        frame: &[u8],
        mut at: usize,
        output: &mut [u8],
        observer: &mut impl Observer,
    ) -> Answer {
        while at < frame.len() {
            let Ok((message, next)) = wire::read::<L>(frame, at) else {
                unreachable!("the whole frame was checked");
            };
            if let Some((length, number)) = self.treat(message, pool, output, observer) {
                return Answer::Bundle {
                    length,
                    next,
                    number,
                };
            }
            at = next;
        }
        Answer::Finished
    }
}

/// What the receiving call refuses of a frame, and of a place in it.
#[inline]
pub fn check_frame(draft: Draft, frame: &[u8], place: u64) -> Result<(), Refusal> {
    if frame.is_empty() || frame.len() > wire::MAX_FRAME {
        return Err(Refusal::FrameLength);
    }
    match wire::check(draft, frame, place) {
        Ok(true) => Ok(()),
        Ok(false) => Err(Refusal::BadPlace),
        Err((fault, at)) => Err(Refusal::Malformed(fault, at)),
    }
}

/// The receiving call.
pub fn receive(
    state: &mut State,
    pool: &mut [u8],
    frame: &[u8],
    place: u64,
    output: &mut [u8],
    observer: &mut impl Observer,
) -> Result<Answer, Refusal> {
    if !state.is_sound() {
        return Err(Refusal::UnsoundState);
    }
    let Settings { draft, window } = state.settings;
    if pool.len() != window.pool() || output.len() < MIN_OUTPUT {
        return Err(Refusal::PoolOrOutputSize);
    }
    check_frame(draft, frame, place)?;
    let at = place as usize;
    Ok(match draft {
        Draft::D00 => state.take::<Layout00>(pool, frame, at, output, observer),
        Draft::D02 => state.take::<Layout02>(pool, frame, at, output, observer),
    })
}
