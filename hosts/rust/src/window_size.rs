//! How many transfers a receiver keeps.

use std::fmt;

use crate::raw::{self, RECEIVER_IMAGE, RECEIVER_WINDOW};
use crate::Refusal;

/// How many transfers a receiver keeps: those with the greatest number that it has seen and with the numbers
/// before it. A receiver is given one when it is made, and keeps it, also over save and restore.
///
/// So many transfers may be under way at a time, their pieces in any order. Nothing is handed out of one that
/// is further behind: what comes of it is passed over without a word, and pieces of it that were held are
/// lost. A smaller window takes less memory, 4,096 octets for each transfer. In return fewer transfers may be
/// mixed, and a piece that was lost must be repeated sooner: with a window of 4 before the fourth transfer
/// after its own begins.
///
/// Receivers of one link may have different windows, and a sender has none.
///
/// ```
/// use btpu::{Refusal, WindowSize};
///
/// assert_eq!(WindowSize::default(), WindowSize::Eight);
/// assert_eq!(WindowSize::Four.transfers(), 4);
/// assert_eq!(WindowSize::Four.pool(), 16_384);
/// // A number that comes from a setting.
/// assert_eq!(WindowSize::try_from(16), Ok(WindowSize::Sixteen));
/// assert_eq!(WindowSize::try_from(5), Err(Refusal::Window));
/// ```
#[derive(Clone, Copy, Debug, Default, PartialEq, Eq, PartialOrd, Ord, Hash)]
pub enum WindowSize {
    /// 4 transfers, in 16,384 octets.
    Four,
    /// 8 transfers, in 32,768 octets.
    #[default]
    Eight,
    /// 16 transfers, in 65,536 octets.
    Sixteen,
}

impl WindowSize {
    /// All three.
    pub const ALL: [WindowSize; 3] = [WindowSize::Four, WindowSize::Eight, WindowSize::Sixteen];

    /// How many transfers: 4, 8 or 16.
    pub const fn transfers(self) -> usize {
        match self {
            WindowSize::Four => 4,
            WindowSize::Eight => 8,
            WindowSize::Sixteen => 16,
        }
    }

    /// Octets of the pool of a receiver with this window.
    pub const fn pool(self) -> usize {
        raw::pool(self.transfers() as u32)
    }

    /// The window in a sound image.
    pub(crate) fn of(image: &[u8; RECEIVER_IMAGE]) -> WindowSize {
        let transfers = u32::from(image[RECEIVER_WINDOW]);
        match WindowSize::try_from(transfers) {
            Ok(size) => size,
            Err(_) => unreachable!("a sound image has no window of {transfers}"),
        }
    }
}

/// The window of so many transfers. Other numbers than 4, 8 and 16 are refused as a receiver's start refuses
/// them, with 21.
impl TryFrom<u32> for WindowSize {
    type Error = Refusal;

    fn try_from(transfers: u32) -> Result<WindowSize, Refusal> {
        match transfers {
            4 => Ok(WindowSize::Four),
            8 => Ok(WindowSize::Eight),
            16 => Ok(WindowSize::Sixteen),
            _ => Err(Refusal::Window),
        }
    }
}

/// `4`, `8` or `16`.
impl fmt::Display for WindowSize {
    fn fmt(&self, f: &mut fmt::Formatter) -> fmt::Result {
        self.transfers().fmt(f)
    }
}
