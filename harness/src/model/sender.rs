//! The sending side: one frame being filled, and at most one transfer begun.

use super::draft::Draft;
use super::Refusal;

pub const MIN_FRAME: usize = 128;
pub const MAX_FRAME: usize = 2048;
pub const MAX_BUNDLE: usize = 4096;
const MAX_PIECES: u64 = 64;

const HEADER: usize = 4;
const PIECE_HEADER: usize = 12;
const CANCEL_LENGTH: usize = 8;

const PADDING: u8 = 1;
const BUNDLE: u8 = 2;
const CANCEL: u8 = 5;

#[derive(Clone, Copy, Debug, PartialEq, Eq)]
pub struct Transfer {
    pub number: u32,
    pub length: u16,
    pub placed: u16,
    pub next_index: u32,
}

#[derive(Clone, Copy, Debug, PartialEq, Eq)]
pub struct State {
    pub draft: Draft,
    pub frame_size: u16,
    pub fill: u16,
    pub next_number: u32,
    pub begun: Option<Transfer>,
}

#[derive(Clone, Copy, Debug, PartialEq, Eq)]
pub enum Answer {
    Placed,
    PlacedAndReady,
    Ready,
    Nothing,
}

impl State {
    pub fn start(draft: Draft, frame_size: u64, first_number: u32) -> Result<State, Refusal> {
        if !(MIN_FRAME as u64..=MAX_FRAME as u64).contains(&frame_size) {
            return Err(Refusal::FrameSize);
        }
        Ok(State {
            draft,
            frame_size: frame_size as u16,
            fill: 0,
            next_number: first_number,
            begun: None,
        })
    }

    pub fn is_sound(&self) -> bool {
        let size = usize::from(self.frame_size);
        if !(MIN_FRAME..=MAX_FRAME).contains(&size) || self.fill >= self.frame_size {
            return false;
        }
        let Some(transfer) = self.begun else {
            return true;
        };
        let length = usize::from(transfer.length);
        if self.fill != 0
            || length <= size - HEADER
            || length > MAX_BUNDLE
            || transfer.placed == 0
            || transfer.placed >= transfer.length
        {
            return false;
        }
        let next = u64::from(transfer.next_index);
        let pieces = u64::from(self.pieces(length - usize::from(transfer.placed)));
        match self.draft {
            Draft::D00 => next + 1 == pieces,
            Draft::D02 => next >= 1 && next + pieces <= MAX_PIECES,
        }
    }

    /// In how many pieces octets go that an empty frame begins with.
    fn pieces(&self, octets: usize) -> u32 {
        octets.div_ceil(usize::from(self.frame_size) - PIECE_HEADER) as u32
    }

    fn admit(&self, frame: &[u8]) -> Result<(), Refusal> {
        if !self.is_sound() {
            return Err(Refusal::UnsoundState);
        }
        if frame.len() != usize::from(self.frame_size) {
            return Err(Refusal::FrameBufferSize);
        }
        Ok(())
    }

    /// Counts `octets` more in the frame; the answer is whether it is ready.
    fn advance(&mut self, octets: usize) -> Answer {
        self.fill += octets as u16;
        if self.fill < self.frame_size {
            return Answer::Placed;
        }
        self.fill = 0;
        Answer::PlacedAndReady
    }

    fn close(&mut self, frame: &mut [u8]) -> Answer {
        let rest = &mut frame[usize::from(self.fill)..];
        rest.fill(0);
        if rest.len() >= HEADER {
            let length = rest.len() - HEADER;
            put_header(rest, PADDING, length);
        }
        self.fill = 0;
        Answer::Ready
    }

    /// Adds at most one message of the bundle, or closes the frame.
    #[inline]
    pub fn place(&mut self, bundle: &[u8], frame: &mut [u8]) -> Result<Answer, Refusal> {
        self.admit(frame)?;
        if bundle.is_empty() || bundle.len() > MAX_BUNDLE {
            return Err(Refusal::BundleLength);
        }
        match self.begun {
            Some(transfer) if usize::from(transfer.length) != bundle.len() => {
                return Err(Refusal::OtherLength)
            }
            _ => {}
        }
        let whole = bundle.len() + HEADER;
        if whole > frame.len() {
            return Ok(self.place_piece(bundle, frame));
        }
        let room = &mut frame[usize::from(self.fill)..];
        if whole > room.len() {
            return Ok(self.close(frame));
        }
        put_header(room, BUNDLE, bundle.len());
        room[HEADER..whole].copy_from_slice(bundle);
        Ok(self.advance(whole))
    }

    fn place_piece(&mut self, bundle: &[u8], frame: &mut [u8]) -> Answer {
        let room = &mut frame[usize::from(self.fill)..];
        if room.len() <= PIECE_HEADER {
            return self.close(frame);
        }
        let first = self.begun.is_none();
        let room_for_data = room.len() - PIECE_HEADER;
        let transfer = self
            .begun
            .unwrap_or_else(|| self.begin(bundle.len(), room_for_data));
        let remaining = &bundle[usize::from(transfer.placed)..];
        let octets = remaining.len().min(room_for_data);
        let last = octets == remaining.len();
        let end = match self.draft {
            Draft::D00 => first,
            Draft::D02 => last,
        };
        put_header(room, self.draft.piece_type(end), octets + 8);
        room[4..8].copy_from_slice(&transfer.number.to_be_bytes());
        room[8..12].copy_from_slice(&transfer.next_index.to_be_bytes());
        room[PIECE_HEADER..PIECE_HEADER + octets].copy_from_slice(&remaining[..octets]);
        self.begun = (!last).then(|| Transfer {
            placed: transfer.placed + octets as u16,
            next_index: match self.draft {
                Draft::D00 => transfer.next_index - 1,
                Draft::D02 => transfer.next_index + 1,
            },
            ..transfer
        });
        self.advance(PIECE_HEADER + octets)
    }

    /// Takes the next number for a transfer whose first piece carries so many octets.
    fn begin(&mut self, length: usize, octets: usize) -> Transfer {
        let number = self.next_number;
        self.next_number = number.wrapping_add(1);
        Transfer {
            number,
            length: length as u16,
            placed: 0,
            next_index: match self.draft {
                Draft::D00 => self.pieces(length - octets),
                Draft::D02 => 0,
            },
        }
    }

    pub fn cancel(&mut self, frame: &mut [u8]) -> Result<Answer, Refusal> {
        self.admit(frame)?;
        let transfer = self.begun.take().ok_or(Refusal::NothingBegun)?;
        // A transfer begun has fill 0, so there is room and the frame does not become full.
        put_header(frame, CANCEL, CANCEL_LENGTH - HEADER);
        frame[HEADER..CANCEL_LENGTH].copy_from_slice(&transfer.number.to_be_bytes());
        Ok(self.advance(CANCEL_LENGTH))
    }

    pub fn flush(&mut self, frame: &mut [u8]) -> Result<Answer, Refusal> {
        self.admit(frame)?;
        if self.fill == 0 {
            return Ok(Answer::Nothing);
        }
        Ok(self.close(frame))
    }
}

fn put_header(to: &mut [u8], kind: u8, length: usize) {
    to[..HEADER].copy_from_slice(&(u32::from(kind) << 24 | length as u32).to_be_bytes());
}
