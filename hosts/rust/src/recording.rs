//! Recordings: written, opened and played.

use crate::raw::{self, PLAYED_BUNDLES, RECORDED_FRAMES, RECORDED_OCTETS};
use crate::{Refusal, WindowSize};

/// A recording that was opened: frames in order, at most 1,024 with at most 61,440 octets.
///
/// A recording has no draft: frames of either draft may be written and read back. A playback reads them as
/// draft 02, with a window of 16; a [`Receiver`](crate::Receiver) of another window may hand out fewer bundles
/// of the same frames.
///
/// ```
/// use btpu::Recording;
///
/// let frames: [&[u8]; 2] = [&[2, 0, 0, 2, b'h', b'i'], &[2, 0, 0, 9]];
/// let octets = Recording::write(frames)?;
///
/// let recording = Recording::open(&octets)?;
/// assert!(recording.frames().eq(frames));
///
/// let playback = recording.play(u64::MAX);
/// assert!(playback.bundles().eq([b"hi"]));
/// assert_eq!(playback.refused[0].place, 1);
/// assert_eq!(playback.refused[0].words(), "a length runs past the frame");
/// # Ok::<(), btpu::Refusal>(())
/// ```
#[derive(Clone, Debug)]
pub struct Recording<'a> {
    recording: &'a [u8],
    sizes: Vec<u16>,
    octets: &'a [u8],
}

impl<'a> Recording<'a> {
    /// The window of the receiver on which a recording is played.
    pub const WINDOW: WindowSize = WindowSize::Sixteen;

    /// A recording of these frames, in this order.
    ///
    /// # Errors
    ///
    /// Refusals 17 and 18.
    pub fn write<F: AsRef<[u8]>>(frames: impl IntoIterator<Item = F>) -> Result<Vec<u8>, Refusal> {
        let mut sizes = Vec::new();
        let mut octets = Vec::new();
        for frame in frames {
            // A frame with a length beyond 16 bits is refused: it has too many octets.
            sizes.push(u16::try_from(frame.as_ref().len()).unwrap_or(u16::MAX));
            octets.extend_from_slice(frame.as_ref());
        }
        let mut recording = vec![0; 8 + 2 * sizes.len() + octets.len()];
        let mut result = [0; 4];
        let returned = raw::record(&sizes, &octets, &mut recording, &mut result);
        Refusal::from_returned(returned)?;
        Ok(recording)
    }

    /// Reads a recording, which is checked as a whole.
    ///
    /// # Errors
    ///
    /// Refusals 16 to 20.
    pub fn open(recording: &'a [u8]) -> Result<Recording<'a>, Refusal> {
        let mut sizes = [0; RECORDED_FRAMES];
        let mut result = [0; 4];
        let returned = raw::recording_open(recording, &mut sizes, &mut result);
        Refusal::from_returned(returned)?;
        let [frames, octets, start, _] = result.map(|entry| entry as usize);
        Ok(Recording {
            recording,
            sizes: sizes[..frames].to_vec(),
            octets: &recording[start..start + octets],
        })
    }

    /// The frames, in order.
    pub fn frames(&self) -> impl ExactSizeIterator<Item = &'a [u8]> + '_ {
        parts(self.octets, &self.sizes)
    }

    /// Plays the recording on a fresh receiver of draft 02, with a window of 16, until `limit` messages are
    /// treated, or to its end.
    ///
    /// A run of padding counts as one message; a refused frame has none.
    pub fn play(&self, limit: u64) -> Playback {
        let mut octets = vec![0; RECORDED_OCTETS];
        let mut lengths = vec![0; PLAYED_BUNDLES];
        let mut places = [0; RECORDED_FRAMES];
        let mut reasons = [0; RECORDED_FRAMES];
        let mut result = [0; 4];
        let returned = raw::play(
            self.recording,
            limit,
            &mut vec![0; Recording::WINDOW.pool()],
            (&mut octets, &mut lengths),
            (&mut places, &mut reasons),
            &mut result,
        );
        assert_eq!(returned, 0, "it was opened, and all that is lent suffices");
        let [_, bundles, joined, refused] = result.map(|entry| entry as usize);
        octets.truncate(joined);
        lengths.truncate(bundles);
        let notes = places.into_iter().zip(reasons).take(refused);
        Playback {
            messages: result[0],
            octets,
            lengths,
            refused: notes.map(RefusedFrame::noted).collect(),
        }
    }
}

/// What came out of a playback.
#[derive(Clone, Debug, PartialEq, Eq)]
pub struct Playback {
    /// The number of messages treated.
    pub messages: u64,
    octets: Vec<u8>,
    lengths: Vec<u16>,
    /// The frames that were looked at and refused, in order.
    pub refused: Vec<RefusedFrame>,
}

impl Playback {
    /// The bundles in the order in which they were handed out.
    pub fn bundles(&self) -> impl ExactSizeIterator<Item = &[u8]> {
        parts(&self.octets, &self.lengths)
    }
}

/// A frame that a playback or a burst refused.
#[derive(Clone, Copy, Debug, PartialEq, Eq)]
pub struct RefusedFrame {
    /// Its place in the recording, or in the list of frames, from 0.
    pub place: usize,
    /// The number of the refusal: 4, 6, 7 or 8; in a burst also 3.
    pub number: u32,
}

impl RefusedFrame {
    pub(crate) fn noted((place, number): (u32, u32)) -> RefusedFrame {
        RefusedFrame {
            place: place as usize,
            number,
        }
    }

    /// The same with so many frames more before it.
    pub(crate) fn behind(self, frames: usize) -> RefusedFrame {
        RefusedFrame {
            place: frames + self.place,
            ..self
        }
    }

    /// The refusal in words.
    pub fn words(&self) -> &'static str {
        Refusal::from_number(self.number, 0).map_or("", Refusal::words)
    }
}

/// Octets cut into parts of these lengths.
pub(crate) fn parts<'a, 's>(
    mut octets: &'a [u8],
    lengths: &'s [u16],
) -> impl ExactSizeIterator<Item = &'a [u8]> + use<'a, 's> {
    lengths.iter().map(move |&length| {
        let (part, behind) = octets.split_at(length.into());
        octets = behind;
        part
    })
}
