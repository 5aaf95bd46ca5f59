//! Receiver and sender of document 01, as the requests of document 02 leave it, for draft 02 and for draft
//! 00 and for every window, and recordings, in plain Rust, written from these papers and document 000 alone.
//!
//! The exported interface is compared with this model, and its speed is measured against it.

use std::fmt;

pub mod burst;
mod draft;
pub mod image;
pub mod interface;
pub mod playback;
pub mod receiver;
pub mod recording;
pub mod sender;
mod window;
pub mod wire;

pub use draft::{Draft, Layout, Layout00, Layout02};
pub use window::{Distance, Window, MAX_ROWS};

/// What a receiver is set to at its start, and keeps in its state.
#[derive(Clone, Copy, Debug, PartialEq, Eq)]
pub struct Settings {
    pub draft: Draft,
    pub window: Window,
}

impl Settings {
    pub const fn new(draft: Draft, window: Window) -> Settings {
        Settings { draft, window }
    }

    /// Every draft with every window.
    pub fn all() -> impl Iterator<Item = Settings> + Clone {
        let windows = |draft| Window::ALL.map(|window| Settings { draft, window });
        Draft::BOTH.into_iter().flat_map(windows)
    }
}

impl fmt::Display for Settings {
    fn fmt(&self, to: &mut fmt::Formatter) -> fmt::Result {
        write!(to, "{}, {}", self.draft, self.window)
    }
}

/// The cases of the papers' refusals; 5 is never given, and 7 never in draft 00.
#[derive(Clone, Copy, Debug, PartialEq, Eq)]
pub enum Refusal {
    UnsoundState,
    PoolOrOutputSize,
    FrameLength,
    /// The first bad message of the frame and its start.
    Malformed(wire::Fault, usize),
    BadPlace,
    FrameBufferSize,
    BundleLength,
    OtherLength,
    NothingBegun,
    FrameSize,
    CutShort,
    CountAboveLimit,
    RecordedLength,
    OctetCount,
    LeftOver,
    NoWindow,
    OutputTooShort,
}

impl Refusal {
    /// What a call returns: the number, and above it the start of a bad message.
    pub fn returned(self) -> u32 {
        match self {
            Refusal::Malformed(_, at) => self.number() | (at as u32) << 8,
            _ => self.number(),
        }
    }

    /// The number in the papers.
    pub fn number(self) -> u32 {
        match self {
            Refusal::UnsoundState => 1,
            Refusal::PoolOrOutputSize => 2,
            Refusal::FrameLength => 3,
            Refusal::Malformed(wire::Fault::HeaderCut, _) => 4,
            Refusal::Malformed(wire::Fault::LengthPastFrame, _) => 6,
            Refusal::Malformed(wire::Fault::HintsPastMessage, _) => 7,
            Refusal::Malformed(wire::Fault::ContentLength, _) => 8,
            Refusal::BadPlace => 9,
            Refusal::FrameBufferSize => 10,
            Refusal::BundleLength => 11,
            Refusal::OtherLength => 12,
            Refusal::NothingBegun => 13,
            Refusal::FrameSize => 14,
            Refusal::CutShort => 16,
            Refusal::CountAboveLimit => 17,
            Refusal::RecordedLength => 18,
            Refusal::OctetCount => 19,
            Refusal::LeftOver => 20,
            Refusal::NoWindow => 21,
            Refusal::OutputTooShort => 24,
        }
    }
}
