//! The drafts of the protocol.

use std::fmt;

/// A draft of the protocol. A receiver or sender is set to one when it is made, and keeps it, also over
/// save and restore.
///
/// A frame does not say of which draft it is, so that frames of the other draft are not told apart: a
/// receiver reads every frame as one of its own draft. It may refuse them, give up their transfers, or
/// misread them and hand out a single piece as a bundle. Set receivers and senders of one link to the same
/// draft.
#[derive(Clone, Copy, Debug, Default, PartialEq, Eq, Hash)]
pub enum Draft {
    /// draft-ietf-dtn-btpu-00: the first piece of a transfer is a start and has the highest index, and
    /// indexes fall to 0. Lengths have 24 bits, and there are neither flags nor hints.
    Draft00,
    /// draft-ietf-dtn-btpu-02: indexes rise from 0, and the last piece of a transfer is an end. Headers
    /// have flags, and may have hints behind them.
    #[default]
    Draft02,
}

impl Draft {
    /// Both drafts.
    pub const ALL: [Draft; 2] = [Draft::Draft00, Draft::Draft02];

    /// The draft in a sound image.
    pub(crate) fn of(octet: u8) -> Draft {
        match octet {
            0 => Draft::Draft02,
            1 => Draft::Draft00,
            other => unreachable!("a sound image has no draft {other}"),
        }
    }
}

/// `00` or `02`.
impl fmt::Display for Draft {
    fn fmt(&self, f: &mut fmt::Formatter) -> fmt::Result {
        f.pad(match self {
            Draft::Draft00 => "00",
            Draft::Draft02 => "02",
        })
    }
}
