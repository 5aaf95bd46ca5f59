//! Counts of the cases that generated calls have reached.

use crate::generate::Change;
use crate::model::Draft;

mod cases;
mod recordings;
mod windows;

pub use cases::Cases;
pub use recordings::Recordings;
pub use windows::{edges, Windows, NO_WINDOWS, STARTED};

/// Numbers that no call gives, and further ones that none gives with an image of draft 00.
pub const NEVER_GIVEN: [usize; 4] = [5, 15, 22, 23];
pub const NEVER_GIVEN_00: [usize; 1] = [7];

/// Lengths of frames at the edges of what is allowed.
pub const FRAME_LENGTHS: [usize; 4] = [0, 1, 2048, 2049];

/// Frame sizes at the edges of what the sender's start allows.
pub const FRAME_SIZES: [u64; 4] = [127, 128, 2048, 2049];

#[derive(Clone, Debug, Default, PartialEq, Eq)]
pub struct Coverage {
    pub scenarios: u64,
    pub receiving_calls: u64,
    pub sending_calls: u64,
    pub starts: u64,
    /// Those that name neither draft nor window.
    pub plain_starts: u64,
    pub checks: u64,
    pub recording_calls: u64,
    pub burst_calls: u64,
    /// By number; entry 0 counts the calls that were not refused.
    pub refusals: [u64; 25],
    drafts: [Cases; 2],
    /// Frames taken with at least 1,000 hints in one chain.
    pub long_chains: u64,
    /// Frames taken a second time with other reserved bits: well formed, and malformed.
    reserved_frames: [u64; 2],
    /// Their changed headers, of types 1 to 5 and of others; and by the bits changed, from the lowest.
    reserved_types: [u64; 6],
    reserved_bits: [u64; 3],
    pub recordings: Recordings,
}

impl Coverage {
    /// What calls with images of a draft have reached.
    pub fn of(&self, draft: Draft) -> &Cases {
        &self.drafts[usize::from(draft.octet())]
    }

    pub fn of_mut(&mut self, draft: Draft) -> &mut Cases {
        &mut self.drafts[usize::from(draft.octet())]
    }

    /// Counts a frame that was taken a second time with other reserved bits.
    pub fn reserved(&mut self, changes: &[Change], malformed: bool) {
        self.reserved_frames[usize::from(malformed)] += u64::from(!changes.is_empty());
        for &(kind, bits) in changes {
            self.reserved_types[usize::from(kind.min(6)) - 1] += 1;
            for (place, count) in self.reserved_bits.iter_mut().enumerate() {
                *count += u64::from(bits >> (4 + place) & 1);
            }
        }
    }

    pub fn calls(&self) -> u64 {
        self.receiving_calls
            + self.sending_calls
            + self.starts
            + self.checks
            + self.recording_calls
            + self.burst_calls
    }

    /// Every count of a case with its name.
    pub fn cases(&self) -> Vec<(String, u64)> {
        let frames = ["well-formed frame", "malformed frame"];
        let types = ["1", "2", "3", "4", "5", "6 to 255"];
        let bits = ["0x10", "0x20", "0x40"];
        let drafts = Draft::BOTH.map(|draft| self.of(draft).cases(draft));
        [
            drafts.concat(),
            named("start", &["plain"], &[self.plain_starts]),
            named("frame", &["chain of 1,000 hints"], &[self.long_chains]),
            named("other reserved bits", &frames, &self.reserved_frames),
            named("other reserved bits in type", &types, &self.reserved_types),
            named("other reserved bit", &bits, &self.reserved_bits),
            self.recordings.cases(),
        ]
        .concat()
    }
}

/// Counts with their names.
fn named(what: &str, names: &[&str], counts: &[u64]) -> Vec<(String, u64)> {
    assert_eq!(names.len(), counts.len());
    let names = names.iter().map(|name| format!("{what}: {name}"));
    names.zip(counts.iter().copied()).collect()
}
