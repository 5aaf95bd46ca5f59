//! The sending side.

use std::fmt;

use crate::raw::{self, MIN_FRAME_SIZE, SENDER_BEGUN, SENDER_DRAFT, SENDER_IMAGE};
use crate::{Draft, Refusal, RestoreError};

/// What a call of a sender did.
#[derive(Clone, Copy, Debug, PartialEq, Eq)]
pub enum Sent {
    /// A message was added to the frame.
    Placed,
    /// A message was added, and the frame is full: send it.
    PlacedAndReady,
    /// The frame was closed by padding: send it. Nothing was placed.
    Ready,
    /// There was nothing to flush.
    Nothing,
}

impl Sent {
    /// Whether the frame is complete and has to be sent before the next call.
    pub fn is_ready(self) -> bool {
        matches!(self, Sent::PlacedAndReady | Sent::Ready)
    }
}

/// A sender: bundles in, frames out.
///
/// A bundle of 1 to 4,096 octets is put into the frame that is being filled, whole if it has room there
/// or in a frame of its own, else in pieces over several frames; the pieces are one transfer and carry
/// its number. Several bundles may share a frame. Each transfer takes the next number; after
/// 4,294,967,295 comes 0.
///
/// A number must not be used again while receivers have it in their window, which is the greatest number
/// they have seen and up to 15 before it: they would pass over the new bundle, or join pieces of both. After
/// a restart either [`restore`](Sender::restore) the sender, or start it with a number that comes after the
/// last one used, by not more than 2,147,483,649: receivers with the smallest window pass over numbers further
/// on.
///
/// ```
/// use btpu::Sender;
///
/// let mut sender = Sender::new(128, 7)?;
/// let mut frames = Vec::new();
/// sender.send(&[0x55; 300], |frame| frames.push(frame.to_vec()))?;
/// sender.send(b"a short one", |frame| frames.push(frame.to_vec()))?;
/// sender.finish(|frame| frames.push(frame.to_vec()))?;
/// assert_eq!(frames.len(), 3);
/// assert!(frames.iter().all(|frame| frame.len() == 128));
/// assert_eq!(sender.next_number(), 8, "the short one came whole into the third frame");
/// # Ok::<(), btpu::Refusal>(())
/// ```
pub struct Sender {
    image: [u8; SENDER_IMAGE],
    frame: Vec<u8>,
}

impl Sender {
    /// A fresh sender of draft 02 with frames of `frame_size` octets, whose first transfer has the number
    /// `first_number`.
    ///
    /// # Errors
    ///
    /// Refusal 14: a frame size outside 128 to 2,048.
    pub fn new(frame_size: usize, first_number: u32) -> Result<Sender, Refusal> {
        Sender::of_draft(Draft::Draft02, frame_size, first_number)
    }

    /// The same of a draft.
    ///
    /// ```
    /// use btpu::{Draft, Sender};
    ///
    /// let mut sender = Sender::of_draft(Draft::Draft00, 128, 7)?;
    /// sender.place(&[0x55; 300])?;
    /// // The start of transfer 7, with 116 octets of its bundle; two pieces follow, with the indexes 1 and 0.
    /// assert_eq!(sender.frame()[..12], [3, 0, 0, 124, 0, 0, 0, 7, 0, 0, 0, 2]);
    /// # Ok::<(), btpu::Refusal>(())
    /// ```
    ///
    /// # Errors
    ///
    /// As [`new`](Sender::new).
    pub fn of_draft(draft: Draft, frame_size: usize, first_number: u32) -> Result<Sender, Refusal> {
        let start = match draft {
            Draft::Draft00 => raw::sender_start_00,
            Draft::Draft02 => raw::sender_start,
        };
        let mut image = [0; SENDER_IMAGE];
        let returned = start(&mut image, frame_size as u64, first_number);
        Refusal::from_returned(returned)?;
        Ok(Sender {
            image,
            frame: vec![0; frame_size],
        })
    }

    /// Adds at most one message with octets of the bundle to the frame, or closes the frame.
    ///
    /// Call it with the same bundle until the bundle is at its end: that is after [`Sent::Placed`] or
    /// [`Sent::PlacedAndReady`] while no transfer [is begun](Sender::is_begun). Where the answer
    /// [is ready](Sent::is_ready), send the [`frame`](Sender::frame) before the next call.
    /// [`send`](Sender::send) does all this.
    ///
    /// The sender keeps the length of the bundle whose transfer is begun, not its octets: another bundle
    /// of the same length is not noticed.
    ///
    /// ```
    /// use btpu::{Sender, Sent};
    ///
    /// let bundle = [0x55; 200];
    /// let mut sender = Sender::new(128, 7)?;
    /// assert_eq!(sender.place(&bundle)?, Sent::PlacedAndReady);
    /// println!("to send: {:?}", sender.frame());
    /// assert!(sender.is_begun());
    /// assert_eq!(sender.place(&bundle)?, Sent::Placed);
    /// assert!(!sender.is_begun());
    /// # Ok::<(), btpu::Refusal>(())
    /// ```
    ///
    /// # Errors
    ///
    /// Refusals 11 and 12; sender and frame stay as they were.
    pub fn place(&mut self, bundle: &[u8]) -> Result<Sent, Refusal> {
        let mut result = [0; 4];
        let returned = raw::place(&mut self.image, bundle, &mut self.frame, &mut result);
        sent(returned, result)
    }

    /// Gives up the transfer begun and adds a cancel for it to the frame, so that receivers pass over what
    /// came of it. The answer is [`Sent::Placed`].
    ///
    /// # Errors
    ///
    /// Refusal 13: no transfer is begun.
    pub fn cancel(&mut self) -> Result<Sent, Refusal> {
        let mut result = [0; 4];
        let returned = raw::cancel(&mut self.image, &mut self.frame, &mut result);
        sent(returned, result)
    }

    /// Closes a frame that is begun. The answer is [`Sent::Ready`], or [`Sent::Nothing`] if the frame is
    /// empty.
    ///
    /// # Errors
    ///
    /// None: a sender that was made here is sound.
    pub fn flush(&mut self) -> Result<Sent, Refusal> {
        let mut result = [0; 4];
        let returned = raw::flush(&mut self.image, &mut self.frame, &mut result);
        sent(returned, result)
    }

    /// The frame buffer: a frame to send after an answer that [is ready](Sent::is_ready).
    pub fn frame(&self) -> &[u8] {
        &self.frame
    }

    /// Places a bundle to its end and hands each frame that becomes ready to `link`.
    ///
    /// The end of the bundle may stay in the frame that is being filled, until more bundles fill it or
    /// [`finish`](Sender::finish) closes it. Where the transfer of this bundle is begun, it goes on.
    ///
    /// # Errors
    ///
    /// Refusals 11 and 12, before any frame; the sender stays as it was.
    pub fn send(&mut self, bundle: &[u8], mut link: impl FnMut(&[u8])) -> Result<(), Refusal> {
        loop {
            let sent = self.place(bundle)?;
            if sent.is_ready() {
                link(&self.frame);
            }
            if sent != Sent::Ready && !self.is_begun() {
                return Ok(());
            }
        }
    }

    /// Closes the frame that is being filled, if there is one, and hands it to `link`.
    ///
    /// # Errors
    ///
    /// As [`flush`](Sender::flush).
    pub fn finish(&mut self, mut link: impl FnMut(&[u8])) -> Result<(), Refusal> {
        if self.flush()?.is_ready() {
            link(&self.frame);
        }
        Ok(())
    }

    /// The number of the next transfer.
    pub fn next_number(&self) -> u32 {
        u32::from_be_bytes([self.image[4], self.image[5], self.image[6], self.image[7]])
    }

    /// The octets of a frame.
    pub fn frame_size(&self) -> usize {
        frame_size(&self.image)
    }

    /// Whether a transfer is begun and not yet at its end.
    pub fn is_begun(&self) -> bool {
        self.image[SENDER_BEGUN] == 1
    }

    /// The draft that the sender is set to.
    pub fn draft(&self) -> Draft {
        Draft::of(self.image[SENDER_DRAFT])
    }

    /// The image of the state, as `include/btpu.h` lays it out.
    pub fn image(&self) -> &[u8; SENDER_IMAGE] {
        &self.image
    }

    /// All that a sender is, to be stored: its image, then its frame buffer.
    ///
    /// Of a transfer that is begun, the bundle is not in it: store that too, to go on with it.
    pub fn save(&self) -> Vec<u8> {
        [&self.image[..], &self.frame[..]].concat()
    }

    /// The sender that was saved; it goes on with the frame, the transfer and the number where it was.
    ///
    /// The image is checked to be a sound state. Octets that were damaged so that another sound state
    /// stands there, or damaged in the frame, are not noticed: where the storage is not trusted, keep a
    /// checksum with the save. A save that is older than the last frame sent would use transfer numbers of
    /// that frame again: store the save first, then send the frame.
    ///
    /// ```
    /// use btpu::Sender;
    ///
    /// let bundle = [0x55; 300];
    /// let mut sender = Sender::new(128, 7)?;
    /// sender.place(&bundle)?;
    /// let saved = sender.save();
    ///
    /// let mut sender = Sender::restore(&saved)?;
    /// assert!(sender.is_begun());
    /// sender.send(&bundle, |frame| println!("to send: {frame:?}"))?;
    /// sender.finish(|frame| println!("to send: {frame:?}"))?;
    /// # Ok::<(), Box<dyn std::error::Error>>(())
    /// ```
    ///
    /// # Errors
    ///
    /// Another length than image and frame have together, or refusal 1.
    pub fn restore(saved: &[u8]) -> Result<Sender, RestoreError> {
        let length = |frame_size| RestoreError::Length {
            found: saved.len(),
            expected: SENDER_IMAGE + frame_size,
        };
        let Some((image, frame)) = saved.split_first_chunk::<SENDER_IMAGE>() else {
            return Err(length(MIN_FRAME_SIZE));
        };
        let checked = Refusal::from_returned(raw::sender_check(image));
        checked.map_err(RestoreError::Refused)?;
        if frame.len() != frame_size(image) {
            return Err(length(frame_size(image)));
        }
        Ok(Sender {
            image: *image,
            frame: frame.to_vec(),
        })
    }
}

impl fmt::Debug for Sender {
    fn fmt(&self, f: &mut fmt::Formatter) -> fmt::Result {
        f.debug_struct("Sender")
            .field("draft", &self.draft())
            .field("frame_size", &self.frame_size())
            .field("next_number", &self.next_number())
            .field("is_begun", &self.is_begun())
            .finish_non_exhaustive()
    }
}

fn frame_size(image: &[u8; SENDER_IMAGE]) -> usize {
    u16::from_be_bytes([image[0], image[1]]).into()
}

fn sent(returned: u32, result: [u64; 4]) -> Result<Sent, Refusal> {
    Refusal::from_returned(returned)?;
    Ok(match result[0] {
        0 => Sent::Placed,
        1 => Sent::PlacedAndReady,
        2 => Sent::Ready,
        3 => Sent::Nothing,
        other => unreachable!("no answer {other}"),
    })
}
