//! Refusals: their numbers and their words.

use std::error::Error;
use std::fmt;

/// Why a call was refused. A refused call changed nothing.
///
/// Numbers and meanings are those of `include/btpu.h`. Where a frame is refused for one of its messages,
/// `place` is the octet of the frame, from 0, at which that message starts.
///
/// ```
/// use btpu::{Receiver, Refusal};
///
/// // A message with a length of 4, of which one octet is there.
/// let refusal = Receiver::new().receive(&[2, 0, 0, 4, 0x41]).unwrap_err();
/// assert_eq!(refusal, Refusal::Length { place: 0 });
/// assert_eq!(refusal.to_string(), "refusal 6 at octet 0: a length runs past the frame");
/// ```
#[derive(Clone, Copy, Debug, PartialEq, Eq)]
#[non_exhaustive]
pub enum Refusal {
    /// 1: an image is not a sound state.
    State,
    /// 2: a pool or an output that is lent has not the length asked for.
    Lent,
    /// 3: a frame of 0 or more than 2,048 octets; of a burst in [`raw`](crate::raw), more than 64 frames.
    FrameLength,
    /// 4: fewer than 4 octets are left for a header.
    Header {
        /// Where the message starts.
        place: u32,
    },
    /// 5: never given; reserved flag bits are ignored, and draft 00 has none.
    Flag {
        /// Where the message starts.
        place: u32,
    },
    /// 6: a length runs past the frame.
    Length {
        /// Where the message starts.
        place: u32,
    },
    /// 7: a chain of hints runs past its message; draft 00 has none.
    Hints {
        /// Where the message starts.
        place: u32,
    },
    /// 8: the content of a transfer message is too short, or of a cancel not 4 octets.
    Content {
        /// Where the message starts.
        place: u32,
    },
    /// 9: not the start of a message nor the end of the frame.
    Place,
    /// 10: a frame buffer that is not of the frame size.
    FrameBuffer,
    /// 11: a bundle of 0 or more than 4,096 octets.
    Bundle,
    /// 12: a bundle that has not the length of the transfer begun.
    OtherLength,
    /// 13: no transfer is begun.
    NotBegun,
    /// 14: a frame size outside 128 to 2,048.
    FrameSize,
    /// 16: octets of a recording are missing.
    CutShort,
    /// 17: a recording of more than 1,024 frames or 61,440 octets.
    OverLimit,
    /// 18: a recorded frame with a length outside 1 to 2,048.
    RecordedLength,
    /// 19: the octets of a recording, or of a burst in [`raw`](crate::raw), are not the sum of the lengths.
    OctetCount,
    /// 20: octets stand behind a recording.
    LeftOver,
    /// 21: a window that is not 4, 8 or 16.
    Window,
    /// 24: an output or a list that is lent is too short.
    ShortOutput,
}

impl Refusal {
    /// The number of the refusal.
    pub fn number(self) -> u32 {
        match self {
            Refusal::State => 1,
            Refusal::Lent => 2,
            Refusal::FrameLength => 3,
            Refusal::Header { .. } => 4,
            Refusal::Flag { .. } => 5,
            Refusal::Length { .. } => 6,
            Refusal::Hints { .. } => 7,
            Refusal::Content { .. } => 8,
            Refusal::Place => 9,
            Refusal::FrameBuffer => 10,
            Refusal::Bundle => 11,
            Refusal::OtherLength => 12,
            Refusal::NotBegun => 13,
            Refusal::FrameSize => 14,
            Refusal::CutShort => 16,
            Refusal::OverLimit => 17,
            Refusal::RecordedLength => 18,
            Refusal::OctetCount => 19,
            Refusal::LeftOver => 20,
            Refusal::Window => 21,
            Refusal::ShortOutput => 24,
        }
    }

    /// Where in the frame the bad message starts, for the numbers 4 to 8.
    pub fn place(self) -> Option<u32> {
        match self {
            Refusal::Header { place }
            | Refusal::Flag { place }
            | Refusal::Length { place }
            | Refusal::Hints { place }
            | Refusal::Content { place } => Some(place),
            _ => None,
        }
    }

    /// The refusal in words.
    pub fn words(self) -> &'static str {
        match self {
            Refusal::State => "not a sound state",
            Refusal::Lent => "pool not 4,096 octets times the window, or output below 4,096",
            Refusal::FrameLength => "frame of 0 or more than 2,048 octets",
            Refusal::Header { .. } => "fewer than 4 octets left for a header",
            Refusal::Flag { .. } => "reserved flag bits",
            Refusal::Length { .. } => "a length runs past the frame",
            Refusal::Hints { .. } => "a chain of hints runs past its message",
            Refusal::Content { .. } => {
                "content of a transfer message too short, or of a cancel not 4 octets"
            }
            Refusal::Place => "not a good place",
            Refusal::FrameBuffer => "frame buffer not of the frame size",
            Refusal::Bundle => "bundle of 0 or more than 4,096 octets",
            Refusal::OtherLength => "not the length of the transfer begun",
            Refusal::NotBegun => "no transfer is begun",
            Refusal::FrameSize => "frame size outside 128 to 2,048",
            Refusal::CutShort => "octets of the recording are missing",
            Refusal::OverLimit => "more than 1,024 frames or 61,440 octets",
            Refusal::RecordedLength => "a frame's length outside 1 to 2,048",
            Refusal::OctetCount => "the octets are not the sum of the lengths",
            Refusal::LeftOver => "octets behind the recording",
            Refusal::Window => "window not 4, 8 or 16",
            Refusal::ShortOutput => "output too short",
        }
    }

    /// What a function of [`raw`](crate::raw) returned: 0, or a number and 256 times a place.
    ///
    /// ```
    /// use btpu::Refusal;
    ///
    /// assert_eq!(Refusal::from_returned(0), Ok(()));
    /// assert_eq!(Refusal::from_returned(13), Err(Refusal::NotBegun));
    /// assert_eq!(Refusal::from_returned(8 + 256 * 300), Err(Refusal::Content { place: 300 }));
    /// ```
    ///
    /// # Panics
    ///
    /// For a number that is no refusal's; the library returns none.
    pub fn from_returned(returned: u32) -> Result<(), Refusal> {
        match returned & 0xff {
            0 => Ok(()),
            number => match Refusal::from_number(number, returned >> 8) {
                Some(refusal) => Err(refusal),
                None => panic!("{number} is the number of no refusal"),
            },
        }
    }

    /// The refusal with a number, if there is one; `place` counts for 4 to 8.
    pub fn from_number(number: u32, place: u32) -> Option<Refusal> {
        Some(match number {
            1 => Refusal::State,
            2 => Refusal::Lent,
            3 => Refusal::FrameLength,
            4 => Refusal::Header { place },
            5 => Refusal::Flag { place },
            6 => Refusal::Length { place },
            7 => Refusal::Hints { place },
            8 => Refusal::Content { place },
            9 => Refusal::Place,
            10 => Refusal::FrameBuffer,
            11 => Refusal::Bundle,
            12 => Refusal::OtherLength,
            13 => Refusal::NotBegun,
            14 => Refusal::FrameSize,
            16 => Refusal::CutShort,
            17 => Refusal::OverLimit,
            18 => Refusal::RecordedLength,
            19 => Refusal::OctetCount,
            20 => Refusal::LeftOver,
            21 => Refusal::Window,
            24 => Refusal::ShortOutput,
            _ => return None,
        })
    }
}

impl fmt::Display for Refusal {
    fn fmt(&self, f: &mut fmt::Formatter) -> fmt::Result {
        write!(f, "refusal {}", self.number())?;
        if let Some(place) = self.place() {
            write!(f, " at octet {place}")?;
        }
        write!(f, ": {}", self.words())
    }
}

impl Error for Refusal {}

/// Why stored octets are no receiver or sender.
#[derive(Clone, Copy, Debug, PartialEq, Eq)]
pub enum RestoreError {
    /// They are not as many as a save has.
    Length {
        /// Octets given.
        found: usize,
        /// Octets of a save; where its image is cut short, the least it could have.
        expected: usize,
    },
    /// The image in them is not a sound state.
    Refused(Refusal),
}

impl fmt::Display for RestoreError {
    fn fmt(&self, f: &mut fmt::Formatter) -> fmt::Result {
        match self {
            RestoreError::Length { found, expected } => {
                write!(f, "{found} octets stored, not {expected}")
            }
            RestoreError::Refused(refusal) => refusal.fmt(f),
        }
    }
}

impl Error for RestoreError {}
