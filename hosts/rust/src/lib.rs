//! Bundle transfer over frames, for the host of a board: a [`Sender`], a [`Receiver`] and [`Recording`]s.
//!
//! A *bundle* is a packet of 1 to 4,096 octets that one side has and the other side wants. A *frame* is
//! one unit of the link, of 1 to 2,048 octets. The link has one direction: there are no acknowledgements,
//! and frames may be lost, repeated or come in another order. A sender cuts bundles into pieces and fills
//! frames of a fixed size with them; a receiver takes the frames that arrive and hands out each bundle
//! when all its pieces are there. Where the loss of a frame matters, send frames more than once: a bundle
//! in pieces is still handed out once, one that is sent whole each time it comes.
//!
//! ```
//! use btpu::{Receiver, Sender};
//!
//! let bundle = vec![0x55; 3000];
//!
//! // Frames of 512 octets; the first transfer has the number 7.
//! let mut sender = Sender::new(512, 7)?;
//! let mut frames = Vec::new();
//! sender.send(&bundle, |frame| frames.push(frame.to_vec()))?;
//! sender.finish(|frame| frames.push(frame.to_vec()))?;
//! assert_eq!(frames.len(), 6);
//!
//! let mut receiver = Receiver::new();
//! let mut received = Vec::new();
//! for frame in frames.iter().rev() {
//!     received.extend(receiver.receive(frame)?);
//! }
//! assert_eq!(received.len(), 1);
//! assert_eq!(received[0].number, Some(7));
//! assert_eq!(received[0].octets, bundle);
//! # Ok::<(), btpu::Refusal>(())
//! ```
//!
//! # Drafts
//!
//! There are two drafts of the protocol, draft-ietf-dtn-btpu-02 and draft-ietf-dtn-btpu-00. A receiver or
//! sender is set to one [`Draft`] when it is made: `new` makes it of draft 02, `of_draft` of the draft
//! given. All else is the same for both, but a frame does not say of which draft it is: give the frames of
//! a sender to receivers of its own draft. Those of the other draft read them as their own, and may refuse
//! them, or hand out something else. A recording has no draft, and is played as draft 02.
//!
//! ```
//! use btpu::{Draft, Receiver, Sender};
//!
//! let mut sender = Sender::of_draft(Draft::Draft00, 512, 7)?;
//! let mut receiver = Receiver::of_draft(sender.draft());
//! let mut received = Vec::new();
//! let mut link = |frame: &[u8]| received.extend(receiver.receive(frame).expect("a good frame"));
//! sender.send(&[0x55; 3000], &mut link)?;
//! sender.finish(&mut link)?;
//! assert_eq!(received[0].octets, [0x55; 3000]);
//! # Ok::<(), btpu::Refusal>(())
//! ```
//!
//! # Windows
//!
//! A receiver keeps the transfers with the greatest number that it has seen and with the numbers before it,
//! its *window*: 8 of them, or 4 or 16 if it is made by [`Receiver::with_window`]. Each takes 4,096 octets of
//! memory. Pieces of older transfers are passed over without a word, and what was held of a transfer that
//! falls out of the window is lost. [`WindowSize`] says what a small window costs.
//!
//! ```
//! use btpu::{Draft, Receiver, WindowSize};
//!
//! let receiver = Receiver::with_window(Draft::Draft02, WindowSize::Four);
//! assert_eq!(receiver.window_size(), WindowSize::Four);
//! assert_eq!(Receiver::new().window_size(), WindowSize::Eight);
//! ```
//!
//! # Refusals
//!
//! A call that cannot be carried out is refused with a [`Refusal`]: it changes nothing, and the receiver
//! or sender goes on as if it had not been made. A frame that is damaged in transit is refused as a whole
//! if its messages cannot be read; damage to the octets of a bundle is not noticed, so that bundles carry
//! their own check or the link drops damaged frames.
//!
//! # Transfer numbers
//!
//! A bundle sent in pieces is a *transfer*, with a number. A sender counts them up, from the first number
//! that it is given, and goes on with 0 after 4,294,967,295. A number must not be used again within the
//! window of a receiver: not by a sender after a restart, nor by two senders on one link. A bundle that has
//! room in one frame is sent whole, and takes no number.
//!
//! # Restarts
//!
//! Receiver and sender live in memory alone. [`Receiver::save`] and [`Sender::save`] give octets to be
//! stored, from which `restore` makes the same receiver or sender again, also in the middle of a transfer.
//! Without them a restart loses
//!
//! - of a receiver: the pieces of unfinished transfers, and which bundles were handed out, so that one may
//!   be handed out again when its frames are repeated;
//! - of a sender: the frame that is being filled, how far the transfer begun is, and the next transfer
//!   number, which has to be chosen anew.
//!
//! The bundle being sent belongs to the caller and is in no save.
//!
//! # The library
//!
//! All calls go to a static library, libboard.a, through the C interface `include/btpu.h`; [`raw`] has its
//! functions. The build takes it from `target/staticlib` of the repository, where `./staticlib`
//! puts it, or libbtpu.a from the directory named by the environment variable `BTPU_LIB_DIR`. A call
//! takes up to `BTPU_STACK` octets of the stack, [`Recording::play`] up to `BTPU_PLAY_STACK`.

#![deny(missing_docs)]
#![deny(unsafe_code)]
#![forbid(unsafe_op_in_unsafe_fn)]

mod draft;
#[allow(unsafe_code)]
pub mod raw;
mod receiver;
mod recording;
mod refusal;
mod sender;
mod window;
mod window_size;

pub use draft::Draft;
pub use receiver::{Bundle, Bundles, Burst, Receiver};
pub use recording::{Playback, Recording, RefusedFrame};
pub use refusal::{Refusal, RestoreError};
pub use sender::{Sender, Sent};
pub use window::{Phase, Piece, Row, Window};
pub use window_size::WindowSize;
