//! Many frames at once.

use super::{Bundle, Receiver};
use crate::raw::{self, BURST_BUNDLES, BURST_FRAMES, BURST_RESULT, MAX_FRAME, MIN_OUTPUT};
use crate::recording::{parts, RefusedFrame};

/// What came out of a burst; [`Receiver::receive_burst`] makes it.
#[must_use = "the bundles are handed out only once"]
#[derive(Clone, Debug, Default, PartialEq, Eq)]
pub struct Burst {
    /// The bundles, in the order in which they were handed out.
    pub bundles: Vec<Bundle>,
    /// The frames that were refused, in order, with their places in the list of frames.
    pub refused: Vec<RefusedFrame>,
}

impl Receiver {
    /// Takes all frames that have come together, each to its end; the answer is all bundles that they
    /// complete, and the frames that were refused.
    ///
    /// Bundles and receiver are the same as with [`receive`](Receiver::receive) for one frame after the
    /// other, in less time: the state is read and checked once for up to 64 frames. A refused frame has
    /// no effect, and does not keep those behind it from being taken. There may be any number of frames;
    /// frames that come one by one should rather be taken as they come.
    ///
    /// ```
    /// use btpu::Receiver;
    ///
    /// let mut receiver = Receiver::new();
    /// let frames: [&[u8]; 3] = [
    ///     &[4, 0, 0, 9, 0, 0, 0, 5, 0, 0, 0, 1, b'b'],
    ///     &[2, 0, 0, 9, b'?'],
    ///     &[3, 0, 0, 9, 0, 0, 0, 5, 0, 0, 0, 0, b'a', 2, 0, 0, 1, b'!'],
    /// ];
    /// let burst = receiver.receive_burst(frames);
    ///
    /// assert_eq!(burst.bundles.len(), 2);
    /// assert_eq!(burst.bundles[0].number, Some(5));
    /// assert_eq!(burst.bundles[0].octets, b"ab");
    /// assert_eq!(burst.bundles[1].octets, b"!");
    ///
    /// assert_eq!(burst.refused.len(), 1);
    /// assert_eq!(burst.refused[0].place, 1);
    /// assert_eq!(burst.refused[0].words(), "a length runs past the frame");
    /// ```
    pub fn receive_burst<F: AsRef<[u8]>>(&mut self, frames: impl IntoIterator<Item = F>) -> Burst {
        let mut burst = Burst::default();
        let mut some = Frames::default();
        for frame in frames {
            some.add(frame.as_ref());
            if some.sizes.len() == BURST_FRAMES {
                self.take_frames(&some, &mut burst);
                some = some.behind();
            }
        }
        self.take_frames(&some, &mut burst);
        burst
    }

    /// Takes up to 64 frames, by as many calls as the bundles need.
    fn take_frames(&mut self, frames: &Frames, burst: &mut Burst) {
        let count = frames.sizes.len() as u64;
        // Room for all that came in these frames: only with bundles that were begun before, or with more
        // than 256, does one call not suffice.
        let mut output = vec![0; frames.octets.len() + MIN_OUTPUT];
        let mut from = (0, 0);
        while from.0 < count {
            from = self.take_some(frames, from, &mut output, burst);
        }
    }

    /// One call; the answer is where the next one goes on.
    fn take_some(
        &mut self,
        frames: &Frames,
        from: (u64, u64),
        output: &mut [u8],
        burst: &mut Burst,
    ) -> (u64, u64) {
        let mut lengths = [0; BURST_BUNDLES];
        let mut numbers = [0; BURST_BUNDLES];
        let mut places = [0; BURST_FRAMES];
        let mut reasons = [0; BURST_FRAMES];
        let mut result = [0; BURST_RESULT];
        let returned = raw::receive_burst(
            &mut self.image,
            &mut self.pool,
            (&frames.sizes, &frames.octets),
            from,
            (output, &mut lengths, &mut numbers),
            (&mut places, &mut reasons),
            &mut result,
        );
        assert_eq!(
            returned, 0,
            "the state is sound, and all else is as asked for"
        );
        let [count, octets, frame, place, refused] = result;
        let bundles = parts(&output[..octets as usize], &lengths[..count as usize]);
        burst
            .bundles
            .extend(bundles.zip(numbers).map(Bundle::handed_out));
        let notes = places.into_iter().zip(reasons).take(refused as usize);
        let notes = notes.map(RefusedFrame::noted);
        burst
            .refused
            .extend(notes.map(|note| note.behind(frames.before)));
        (frame, place)
    }
}

/// Some frames of a list.
#[derive(Default)]
struct Frames {
    /// How many frames of the list stand before them.
    before: usize,
    sizes: Vec<u16>,
    octets: Vec<u8>,
}

impl Frames {
    fn add(&mut self, frame: &[u8]) {
        // A frame that is too long is refused whatever it holds: one octet too many suffices, and always
        // has a length of 16 bits.
        let frame = &frame[..frame.len().min(MAX_FRAME + 1)];
        self.sizes.push(frame.len() as u16);
        self.octets.extend_from_slice(frame);
    }

    /// None yet, behind these; their memory is used again.
    fn behind(mut self) -> Frames {
        self.before += self.sizes.len();
        self.sizes.clear();
        self.octets.clear();
        self
    }
}
