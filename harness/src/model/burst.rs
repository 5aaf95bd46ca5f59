//! A burst: many frames in one call.

use super::draft::{Draft, Layout, Layout00, Layout02};
use super::interface::NO_NUMBER;
use super::receiver::{self, State, MIN_OUTPUT};
use super::{wire, Refusal, Settings};

pub const MAX_FRAMES: usize = 64;
pub const MAX_BUNDLES: usize = 256;

/// Where bundles go: their octets one behind the other, the length of each, and its transfer number or
/// `NO_NUMBER`.
pub type Bundles<'a> = (
    &'a mut [u8],
    &'a mut [u16; MAX_BUNDLES],
    &'a mut [u64; MAX_BUNDLES],
);

/// Where refused frames are noted: their places in the list, and the numbers of their refusals.
pub type Notes<'a> = (&'a mut [u32; MAX_FRAMES], &'a mut [u32; MAX_FRAMES]);

#[derive(Clone, Copy, Debug, Default, PartialEq, Eq)]
pub struct Taken {
    pub bundles: usize,
    /// Octets of all bundles.
    pub octets: usize,
    /// Where the next call goes on: a frame, or the number of frames, and a place in it.
    pub next: (usize, usize),
    pub refused: usize,
}

/// Takes frames, given by their lengths and joined octets, from a frame and a place in it on.
pub fn receive_burst(
    state: &mut State,
    pool: &mut [u8],
    (sizes, octets): (&[u16], &[u8]),
    (first, place): (u64, u64),
    bundles: Bundles,
    notes: Notes,
) -> Result<Taken, Refusal> {
    if !state.is_sound() {
        return Err(Refusal::UnsoundState);
    }
    let Settings { draft, window } = state.settings;
    if pool.len() != window.pool() || bundles.0.len() < MIN_OUTPUT {
        return Err(Refusal::PoolOrOutputSize);
    }
    if sizes.len() > MAX_FRAMES {
        return Err(Refusal::FrameLength);
    }
    if sizes.iter().map(|&size| usize::from(size)).sum::<usize>() != octets.len() {
        return Err(Refusal::OctetCount);
    }
    let frames = cut(sizes, octets);
    if !is_good_start(draft, &frames, first, place) {
        return Err(Refusal::BadPlace);
    }
    let mut burst = Burst {
        state,
        pool,
        bundles,
        notes,
        taken: Taken::default(),
    };
    burst.taken.next = burst.take_all(&frames, first as usize, place as usize);
    Ok(burst.taken)
}

fn cut<'a>(sizes: &[u16], mut octets: &'a [u8]) -> Vec<&'a [u8]> {
    let mut frames = Vec::with_capacity(sizes.len());
    for &size in sizes {
        let (frame, behind) = octets.split_at(size.into());
        frames.push(frame);
        octets = behind;
    }
    frames
}

/// A frame that a single call refuses for itself is a good start with any place.
fn is_good_start(draft: Draft, frames: &[&[u8]], first: u64, place: u64) -> bool {
    let count = frames.len() as u64;
    if first >= count {
        return first == count && place == 0;
    }
    let frame = frames[first as usize];
    receiver::check_frame(draft, frame, place) != Err(Refusal::BadPlace)
}

struct Burst<'a> {
    state: &'a mut State,
    pool: &'a mut [u8],
    bundles: Bundles<'a>,
    notes: Notes<'a>,
    taken: Taken,
}

impl Burst<'_> {
    /// The answer is where the next call goes on.
    fn take_all(&mut self, frames: &[&[u8]], first: usize, mut place: usize) -> (usize, usize) {
        for (number, frame) in frames.iter().enumerate().skip(first) {
            let draft = self.state.settings.draft;
            let stopped = match (receiver::check_frame(draft, frame, place as u64), draft) {
                (Ok(()), Draft::D00) => self.take::<Layout00>(frame, place),
                (Ok(()), Draft::D02) => self.take::<Layout02>(frame, place),
                (Err(refusal), _) => self.note(number, refusal),
            };
            if let Some(place) = stopped {
                return (number, place);
            }
            place = 0;
        }
        (frames.len(), 0)
    }

    /// Whether the call stops before a message or a refused frame that is next.
    fn is_full(&self) -> bool {
        let left = self.bundles.0.len() - self.taken.octets;
        self.taken.bundles == MAX_BUNDLES || left < MIN_OUTPUT
    }

    /// Treats the messages of a frame that was checked; the answer is where it stopped before the end.
    fn take<L: Layout>(&mut self, frame: &[u8], place: usize) -> Option<usize> {
        let mut at = place;
        while at < frame.len() {
            if self.is_full() {
                return Some(at);
            }
            let Ok((message, next)) = wire::read::<L>(frame, at) else {
                unreachable!("the whole frame was checked");
            };
            let room = &mut self.bundles.0[self.taken.octets..];
            if let Some((length, number)) = self.state.treat(message, self.pool, room, &mut ()) {
                self.bundles.1[self.taken.bundles] = length as u16;
                self.bundles.2[self.taken.bundles] = number.map_or(NO_NUMBER, u64::from);
                self.taken.bundles += 1;
                self.taken.octets += length;
            }
            at = next;
        }
        None
    }

    /// Notes a refused frame, unless the call stops before it.
    fn note(&mut self, number: usize, refusal: Refusal) -> Option<usize> {
        if self.is_full() {
            return Some(0);
        }
        self.notes.0[self.taken.refused] = number as u32;
        self.notes.1[self.taken.refused] = refusal.number();
        self.taken.refused += 1;
        None
    }
}
