//! The receiving side.

use std::fmt;
use std::iter::FusedIterator;

use crate::raw::{self, MIN_OUTPUT, RECEIVER_DRAFT, RECEIVER_IMAGE};
use crate::window::Window;
use crate::{Draft, Refusal, RestoreError, WindowSize};

mod burst;

pub use burst::Burst;

/// A bundle that was received.
#[derive(Clone, Debug, PartialEq, Eq)]
pub struct Bundle {
    /// The number of its transfer; none if it came in one message, outside of any transfer.
    pub number: Option<u32>,
    /// What was sent. It may be empty: a receiver takes what the [`Sender`](crate::Sender) here refuses.
    pub octets: Vec<u8>,
}

impl Bundle {
    /// A bundle with its number, or [`NO_NUMBER`](raw::NO_NUMBER), as the library gives them.
    fn handed_out((octets, number): (&[u8], u64)) -> Bundle {
        Bundle {
            number: u32::try_from(number).ok(),
            octets: octets.to_vec(),
        }
    }
}

/// A receiver: frames in, bundles out.
///
/// Frames may come in any order, more than once, and with losses. A bundle in pieces is handed out when its
/// last missing piece has come, and only once while its number is within the window: the greatest transfer
/// number seen and those before it, 8 in all, or as many as the [`WindowSize`] given says. Pieces of older
/// transfers are passed over. A bundle that came whole in one message has no number and is handed out each
/// time its frame comes.
///
/// ```
/// use btpu::Receiver;
///
/// let mut receiver = Receiver::new();
/// // Two pieces of transfer 5, the second one first.
/// let last = [4, 0, 0, 9, 0, 0, 0, 5, 0, 0, 0, 1, b'b'];
/// let first = [3, 0, 0, 9, 0, 0, 0, 5, 0, 0, 0, 0, b'a'];
/// assert_eq!(receiver.receive(&last)?, []);
/// let bundles = receiver.receive(&first)?;
/// assert_eq!(bundles[0].number, Some(5));
/// assert_eq!(bundles[0].octets, b"ab");
/// assert_eq!(receiver.receive(&first)?, [], "it was handed out already");
/// # Ok::<(), btpu::Refusal>(())
/// ```
#[derive(Clone)]
pub struct Receiver {
    image: Box<[u8; RECEIVER_IMAGE]>,
    pool: Box<[u8]>,
}

impl Receiver {
    /// A fresh receiver of draft 02 with a window of 8.
    pub fn new() -> Receiver {
        Receiver::of_draft(Draft::Draft02)
    }

    /// A fresh receiver of a draft, with a window of 8.
    ///
    /// ```
    /// use btpu::{Draft, Receiver};
    ///
    /// let mut receiver = Receiver::of_draft(Draft::Draft00);
    /// // Two pieces of transfer 5: a segment with index 0, which is the last one, and the start.
    /// let last = [4, 0, 0, 9, 0, 0, 0, 5, 0, 0, 0, 0, b'b'];
    /// let first = [3, 0, 0, 9, 0, 0, 0, 5, 0, 0, 0, 1, b'a'];
    /// assert_eq!(receiver.receive(&last)?, []);
    /// assert_eq!(receiver.receive(&first)?[0].octets, b"ab");
    /// # Ok::<(), btpu::Refusal>(())
    /// ```
    pub fn of_draft(draft: Draft) -> Receiver {
        Receiver::with_window(draft, WindowSize::default())
    }

    /// A fresh receiver of a draft and with a window.
    ///
    /// ```
    /// use btpu::{Draft, Receiver, WindowSize};
    ///
    /// let mut small = Receiver::with_window(Draft::Draft02, WindowSize::Four);
    /// let mut greater = Receiver::new();
    /// // The end of transfer 5, then transfer 9 and only then the rest of 5.
    /// let frames = [
    ///     [4, 0, 0, 9, 0, 0, 0, 5, 0, 0, 0, 1, b'b'],
    ///     [4, 0, 0, 9, 0, 0, 0, 9, 0, 0, 0, 0, b'c'],
    ///     [3, 0, 0, 9, 0, 0, 0, 5, 0, 0, 0, 0, b'a'],
    /// ];
    /// assert_eq!(small.receive_burst(frames).bundles.len(), 1, "5 is four behind");
    /// assert_eq!(greater.receive_burst(frames).bundles.len(), 2);
    /// assert_eq!(small.pool().len(), 16_384);
    /// assert_eq!(greater.pool().len(), 32_768);
    /// ```
    pub fn with_window(draft: Draft, size: WindowSize) -> Receiver {
        let mut receiver = Receiver {
            image: Box::new([0; RECEIVER_IMAGE]),
            pool: vec![0; size.pool()].into(),
        };
        let start = match draft {
            Draft::Draft00 => raw::receiver_start_00,
            Draft::Draft02 => raw::receiver_start_window,
        };
        let returned = start(&mut receiver.image, size.transfers() as u32);
        assert_eq!(returned, 0, "a receiver's start refuses no such window");
        receiver
    }

    /// The draft that the receiver is set to.
    pub fn draft(&self) -> Draft {
        Draft::of(self.image[RECEIVER_DRAFT])
    }

    /// How many transfers the receiver keeps.
    pub fn window_size(&self) -> WindowSize {
        WindowSize::of(&self.image)
    }

    /// Takes a frame to its end; the answer is all bundles that it completes, in their order.
    ///
    /// A frame has 1 to 2,048 octets. The whole frame is checked first: if a message of it is bad, the
    /// frame is refused and has no effect at all. Frames that have come together are taken faster by
    /// [`receive_burst`](Receiver::receive_burst).
    ///
    /// ```
    /// use btpu::{Receiver, Refusal};
    ///
    /// let mut receiver = Receiver::new();
    /// let bundles = receiver.receive(&[2, 0, 0, 2, b'h', b'i', 2, 0, 0, 1, b'!'])?;
    /// assert_eq!(bundles.len(), 2);
    /// assert_eq!(bundles[0].octets, b"hi");
    ///
    /// let refused = receiver.receive(&[2, 0, 0, 1, b'?', 2, 0, 0, 9]);
    /// assert_eq!(refused, Err(Refusal::Length { place: 5 }));
    /// # Ok::<(), Refusal>(())
    /// ```
    ///
    /// # Errors
    ///
    /// Refusals 3, 4, 6 and 8; in draft 02 also 7.
    pub fn receive(&mut self, frame: &[u8]) -> Result<Vec<Bundle>, Refusal> {
        self.bundles(frame).collect()
    }

    /// The bundles that a frame completes, one after the other; each `next` treats the frame's messages up
    /// to the next bundle.
    ///
    /// The iterator must be driven to its end: the messages behind the last bundle taken from it are not
    /// treated, and are lost if it is dropped before. A refusal comes first and ends it.
    ///
    /// ```
    /// use btpu::Receiver;
    ///
    /// let mut receiver = Receiver::new();
    /// for bundle in receiver.bundles(&[2, 0, 0, 2, b'h', b'i', 2, 0, 0, 1, b'!']) {
    ///     println!("{} octets", bundle?.octets.len());
    /// }
    /// # Ok::<(), btpu::Refusal>(())
    /// ```
    pub fn bundles<'a>(&'a mut self, frame: &'a [u8]) -> Bundles<'a> {
        Bundles {
            receiver: self,
            frame,
            next: Some(0),
        }
    }

    /// Treats the messages from `place` on, up to the first bundle; with it comes the next place.
    fn step(&mut self, frame: &[u8], place: u64) -> Result<Option<(Bundle, u64)>, Refusal> {
        let mut output = [0; MIN_OUTPUT];
        let mut result = [0; 4];
        let (image, pool) = (&mut self.image, &mut self.pool);
        let returned = raw::receive(image, pool, frame, place, &mut output, &mut result);
        Refusal::from_returned(returned)?;
        let [answer, length, next, number] = result;
        let bundle = || Bundle::handed_out((&output[..length as usize], number));
        Ok((answer != 0).then(|| (bundle(), next)))
    }

    /// The image of the state, as `include/btpu.h` lays it out.
    pub fn image(&self) -> &[u8; RECEIVER_IMAGE] {
        &self.image
    }

    /// The pool with the pieces held: those of row r in order of arrival from octet 4,096 times r on.
    pub fn pool(&self) -> &[u8] {
        &self.pool
    }

    /// The transfers that the receiver knows of, for showing.
    ///
    /// ```
    /// use btpu::{Phase, Receiver};
    ///
    /// let mut receiver = Receiver::new();
    /// receiver.receive(&[3, 0, 0, 9, 0, 0, 0, 5, 0, 0, 0, 0, b'a'])?;
    /// let window = receiver.window();
    /// assert_eq!(window.greatest, Some(5));
    /// assert_eq!(window.rows[5].phase, Phase::Open);
    /// assert_eq!(window.rows[5].pieces[0].length, 1);
    /// # Ok::<(), btpu::Refusal>(())
    /// ```
    pub fn window(&self) -> Window {
        Window::of(&self.image)
    }

    /// All that a receiver is, to be stored: its image, then its pool.
    ///
    /// Stored after each frame and restored after a restart, the receiver goes on with the pieces it held.
    /// Store it when the frame's bundles are passed on: a bundle may then be handed out twice over a
    /// restart, but none is lost. A receiver made by [`new`](Receiver::new) after a restart has lost its
    /// pieces, and hands out once more what comes again.
    pub fn save(&self) -> Vec<u8> {
        [&self.image[..], &self.pool[..]].concat()
    }

    /// The receiver that was saved.
    ///
    /// The image is checked to be a sound state. Octets that were damaged so that another sound state
    /// stands there, or damaged in the pool, are not noticed: where the storage is not trusted, keep a
    /// checksum with the save.
    ///
    /// Draft and window are those of the save. One that was made before windows could be chosen has zero in
    /// the window's octet, [`RECEIVER_WINDOW`](raw::RECEIVER_WINDOW), and is refused; its window was 16, and
    /// with 16 in that octet it is restored.
    ///
    /// ```
    /// use btpu::{Receiver, Refusal, RestoreError};
    ///
    /// let mut receiver = Receiver::new();
    /// receiver.receive(&[3, 0, 0, 9, 0, 0, 0, 5, 0, 0, 0, 0, b'a'])?;
    /// let mut saved = receiver.save();
    ///
    /// let mut receiver = Receiver::restore(&saved)?;
    /// let bundles = receiver.receive(&[4, 0, 0, 9, 0, 0, 0, 5, 0, 0, 0, 1, b'b'])?;
    /// assert_eq!(bundles[0].octets, b"ab");
    ///
    /// saved[0] = 2;
    /// let refused = Receiver::restore(&saved).unwrap_err();
    /// assert_eq!(refused, RestoreError::Refused(Refusal::State));
    /// # Ok::<(), Box<dyn std::error::Error>>(())
    /// ```
    ///
    /// # Errors
    ///
    /// Another length than image and pool have together, or refusal 1.
    pub fn restore(saved: &[u8]) -> Result<Receiver, RestoreError> {
        let length = |size: WindowSize| RestoreError::Length {
            found: saved.len(),
            expected: RECEIVER_IMAGE + size.pool(),
        };
        let Some((image, pool)) = saved.split_first_chunk::<RECEIVER_IMAGE>() else {
            return Err(length(WindowSize::Four));
        };
        let checked = Refusal::from_returned(raw::receiver_check(image));
        checked.map_err(RestoreError::Refused)?;
        let size = WindowSize::of(image);
        if pool.len() != size.pool() {
            return Err(length(size));
        }
        Ok(Receiver {
            image: Box::new(*image),
            pool: pool.into(),
        })
    }
}

impl Default for Receiver {
    fn default() -> Receiver {
        Receiver::new()
    }
}

impl fmt::Debug for Receiver {
    fn fmt(&self, f: &mut fmt::Formatter) -> fmt::Result {
        f.debug_struct("Receiver")
            .field("draft", &self.draft())
            .field("window_size", &self.window_size())
            .field("window", &self.window())
            .finish_non_exhaustive()
    }
}

/// The bundles that a frame completes; [`Receiver::bundles`] makes it.
///
/// Dropped before its end, it leaves the messages that follow untreated.
#[must_use = "the messages of the frame are treated only as the iterator goes on"]
#[derive(Debug)]
pub struct Bundles<'a> {
    receiver: &'a mut Receiver,
    frame: &'a [u8],
    next: Option<u64>,
}

impl Iterator for Bundles<'_> {
    type Item = Result<Bundle, Refusal>;

    fn next(&mut self) -> Option<Result<Bundle, Refusal>> {
        let place = self.next.take()?;
        match self.receiver.step(self.frame, place) {
            Ok(None) => None,
            Ok(Some((bundle, next))) => {
                // A call at the frame's end treats nothing.
                self.next = (next != self.frame.len() as u64).then_some(next);
                Some(Ok(bundle))
            }
            Err(refusal) => Some(Err(refusal)),
        }
    }
}

impl FusedIterator for Bundles<'_> {}
