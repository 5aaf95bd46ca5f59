//! The two drafts of the protocol, and where their messages differ.

use std::fmt;

/// The draft that a receiver or a sender is set to at its start.
#[derive(Clone, Copy, Debug, PartialEq, Eq)]
pub enum Draft {
    /// Document 000: lengths of 24 bits, no flags, indexes that fall to 0 from that of the start.
    D00,
    /// Document 003: flags, hints, indexes that rise from 0 to that of the end.
    D02,
}

impl Draft {
    pub const BOTH: [Draft; 2] = [Draft::D00, Draft::D02];

    /// How an image says it.
    pub const fn octet(self) -> u8 {
        match self {
            Draft::D00 => 1,
            Draft::D02 => 0,
        }
    }

    /// Nothing for an octet that says no draft.
    pub fn of_octet(octet: u8) -> Option<Draft> {
        Draft::BOTH.into_iter().find(|draft| draft.octet() == octet)
    }

    pub const fn other(self) -> Draft {
        match self {
            Draft::D00 => Draft::D02,
            Draft::D02 => Draft::D00,
        }
    }

    /// The type of a segment or of an end, for which a start stands in draft 00.
    pub const fn piece_type(self, end: bool) -> u8 {
        match (self, end) {
            (Draft::D00, true) | (Draft::D02, false) => 3,
            (Draft::D00, false) | (Draft::D02, true) => 4,
        }
    }
}

impl fmt::Display for Draft {
    fn fmt(&self, to: &mut fmt::Formatter) -> fmt::Result {
        to.write_str(match self {
            Draft::D00 => "draft 00",
            Draft::D02 => "draft 02",
        })
    }
}

/// What a draft makes of a header's second octet. The drafts are types here, so that a loop over messages
/// is compiled for each of them.
pub trait Layout {
    const DRAFT: Draft;
    /// The bits that belong to the length.
    const LENGTH: u8;
    /// The bit that says that hints follow. The others are ignored.
    const HINTS: u8;
}

pub struct Layout00;
pub struct Layout02;

impl Layout for Layout00 {
    const DRAFT: Draft = Draft::D00;
    const LENGTH: u8 = 0xff;
    const HINTS: u8 = 0;
}

impl Layout for Layout02 {
    const DRAFT: Draft = Draft::D02;
    const LENGTH: u8 = 0x0f;
    const HINTS: u8 = 0x80;
}
