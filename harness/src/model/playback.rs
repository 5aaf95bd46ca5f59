//! Playback of a recording on a fresh receiver of draft 02 and window 16.

use super::draft::{Draft, Layout02};
use super::receiver::{Observer, State};
use super::recording::{Recording, MAX_FRAMES, MAX_OCTETS};
use super::window::Window;
use super::{wire, Refusal, Settings};

/// As many bundles as a recording can hold: every one takes a header at least.
pub const MIN_LENGTHS: usize = MAX_OCTETS / 4;

/// Where bundles go: their octets one behind the other, and the length of each.
pub type Bundles<'a> = (&'a mut [u8], &'a mut [u16]);

/// Where refused frames are noted: their places in the recording, and the numbers of their refusals.
pub type Notes<'a> = (&'a mut [u32], &'a mut [u32]);

#[derive(Clone, Copy, Debug, Default, PartialEq, Eq)]
pub struct Played {
    /// Messages treated.
    pub messages: u64,
    pub bundles: usize,
    /// Octets of all bundles.
    pub octets: usize,
    pub refused: usize,
}

/// Plays a recording until so many messages are treated, which may be inside a frame.
pub fn play(
    recording: &[u8],
    limit: u64,
    pool: &mut [u8],
    bundles: Bundles,
    (places, reasons): Notes,
    observer: &mut impl Observer,
) -> Result<Played, Refusal> {
    let recording = Recording::read(recording)?;
    if pool.len() != Window::PLAYBACK.pool() {
        return Err(Refusal::PoolOrOutputSize);
    }
    if bundles.0.len() < MAX_OCTETS
        || bundles.1.len() < MIN_LENGTHS
        || places.len() < MAX_FRAMES
        || reasons.len() < MAX_FRAMES
    {
        return Err(Refusal::OutputTooShort);
    }
    let mut player = Player {
        state: State::start(Settings::new(Draft::D02, Window::PLAYBACK)),
        pool,
        bundles,
        played: Played::default(),
    };
    for (place, frame) in recording.frames().enumerate() {
        if player.played.messages == limit {
            break;
        }
        match wire::check(Draft::D02, frame, 0) {
            Ok(_) => player.take(frame, limit, observer),
            Err((fault, at)) => {
                places[player.played.refused] = place as u32;
                reasons[player.played.refused] = Refusal::Malformed(fault, at).number();
                player.played.refused += 1;
            }
        }
    }
    Ok(player.played)
}

struct Player<'a> {
    state: State,
    pool: &'a mut [u8],
    bundles: Bundles<'a>,
    played: Played,
}

impl Player<'_> {
    /// Treats the messages of a frame that was checked, to its end or up to the limit.
    fn take(&mut self, frame: &[u8], limit: u64, observer: &mut impl Observer) {
        let (output, lengths) = &mut self.bundles;
        let mut at = 0;
        while at < frame.len() && self.played.messages < limit {
            let Ok((message, next)) = wire::read::<Layout02>(frame, at) else {
                unreachable!("the whole frame was checked");
            };
            let room = &mut output[self.played.octets..];
            if let Some((length, _)) = self.state.treat(message, self.pool, room, observer) {
                lengths[self.played.bundles] = length as u16;
                self.played.bundles += 1;
                self.played.octets += length;
            }
            self.played.messages += 1;
            at = next;
        }
    }
}
