//! The functions of `include/btpu.h`, each over arrays and slices.
//!
//! A function returns what the library returns: 0, or a refusal, which
//! [`Refusal::from_returned`](crate::Refusal::from_returned) takes apart. A refused call changes nothing
//! that is lent to it. `include/btpu.h` says what the entries of a result mean; programs that do not need
//! this use [`Receiver`](crate::Receiver), [`Sender`](crate::Sender) and [`Recording`](crate::Recording).

/// Octets of a receiver's image.
pub const RECEIVER_IMAGE: usize = 3144;
/// Octets of a sender's image.
pub const SENDER_IMAGE: usize = 24;
/// Octets of a receiver's pool for each transfer of its window.
pub const POOL_PER_ROW: usize = 4096;
/// The window of [`receiver_start`].
pub const PLAIN_WINDOW: u32 = 8;
/// The greatest window.
pub const MAX_WINDOW: u32 = 16;
/// The window of [`play`].
pub const PLAY_WINDOW: u32 = 16;
/// Octets of output that [`receive`] and [`receive_burst`] ask for at least.
pub const MIN_OUTPUT: usize = 4096;
/// Octets of a bundle at most.
pub const MAX_BUNDLE: usize = 4096;
/// Octets of a frame at most.
pub const MAX_FRAME: usize = 2048;
/// The smallest frame size of a sender.
pub const MIN_FRAME_SIZE: usize = 128;
/// The greatest frame size of a sender.
pub const MAX_FRAME_SIZE: usize = 2048;
/// The octet of a receiver's image that has its window: 4, 8 or 16.
pub const RECEIVER_WINDOW: usize = 1;
/// The octet of a receiver's image that has its draft: 1 for draft 00, 0 for draft 02.
pub const RECEIVER_DRAFT: usize = 2;
/// The octet of a sender's image that tells whether a transfer is begun: 1 if so, else 0.
pub const SENDER_BEGUN: usize = 8;
/// The octet of a sender's image that has its draft: 1 for draft 00, 0 for draft 02.
pub const SENDER_DRAFT: usize = 9;
/// The transfer number of a bundle that came in one message, outside of any transfer.
pub const NO_NUMBER: u64 = 1 << 32;
/// Frames of a burst at most.
pub const BURST_FRAMES: usize = 64;
/// Bundles that come out of one call of [`receive_burst`] at most.
pub const BURST_BUNDLES: usize = 256;
/// Entries of the result of [`receive_burst`].
pub const BURST_RESULT: usize = 5;
/// Frames of a recording at most.
pub const RECORDED_FRAMES: usize = 1024;
/// Octets of all frames of a recording at most.
pub const RECORDED_OCTETS: usize = 61_440;
/// Octets of a recording at most.
pub const MAX_RECORDING: usize = 63_496;
/// Bundles that come out of a playback at most.
pub const PLAYED_BUNDLES: usize = 15_360;

/// Octets of the pool of a receiver with this window.
pub const fn pool(window: u32) -> usize {
    POOL_PER_ROW * window as usize
}

/// Where the bundles of a burst go: their octets, the length of each, and its transfer number or
/// [`NO_NUMBER`].
pub type BurstBundles<'a> = (
    &'a mut [u8],
    &'a mut [u16; BURST_BUNDLES],
    &'a mut [u64; BURST_BUNDLES],
);

/// Where the refused frames of a burst are noted: their places in the list, and their refusals' numbers.
pub type BurstNotes<'a> = (&'a mut [u32; BURST_FRAMES], &'a mut [u32; BURST_FRAMES]);

mod exported {
    extern "C" {
        pub fn btpu_receiver_start(state: *mut u8) -> u32;
        pub fn btpu_receiver_start_window(state: *mut u8, window: u32) -> u32;
        pub fn btpu_receiver_start_00(state: *mut u8, window: u32) -> u32;
        pub fn btpu_receiver_check(state: *const u8) -> u32;
        pub fn btpu_receive(
            state: *mut u8,
            pool: *mut u8,
            pool_len: u64,
            frame: *const u8,
            frame_len: u64,
            place: u64,
            output: *mut u8,
            output_len: u64,
            result: *mut u64,
        ) -> u32;
        pub fn btpu_receive_burst(
            state: *mut u8,
            pool: *mut u8,
            pool_len: u64,
            sizes: *const u16,
            frames: u64,
            octets: *const u8,
            octets_len: u64,
            frame: u64,
            place: u64,
            output: *mut u8,
            output_len: u64,
            lengths: *mut u16,
            numbers: *mut u64,
            places: *mut u32,
            reasons: *mut u32,
            result: *mut u64,
        ) -> u32;
        pub fn btpu_sender_start(state: *mut u8, frame_size: u64, first_number: u32) -> u32;
        pub fn btpu_sender_start_00(state: *mut u8, frame_size: u64, first_number: u32) -> u32;
        pub fn btpu_sender_check(state: *const u8) -> u32;
        pub fn btpu_place(
            state: *mut u8,
            bundle: *const u8,
            bundle_len: u64,
            frame: *mut u8,
            frame_len: u64,
            result: *mut u64,
        ) -> u32;
        pub fn btpu_cancel(state: *mut u8, frame: *mut u8, frame_len: u64, result: *mut u64)
            -> u32;
        pub fn btpu_flush(state: *mut u8, frame: *mut u8, frame_len: u64, result: *mut u64) -> u32;
        pub fn btpu_record(
            sizes: *const u16,
            frames: u64,
            octets: *const u8,
            octets_len: u64,
            output: *mut u8,
            output_len: u64,
            result: *mut u64,
        ) -> u32;
        pub fn btpu_recording_open(
            recording: *const u8,
            recording_len: u64,
            sizes: *mut u16,
            result: *mut u64,
        ) -> u32;
        pub fn btpu_play(
            recording: *const u8,
            recording_len: u64,
            limit: u64,
            pool: *mut u8,
            pool_len: u64,
            output: *mut u8,
            output_len: u64,
            lengths: *mut u16,
            lengths_len: u64,
            places: *mut u32,
            places_len: u64,
            reasons: *mut u32,
            reasons_len: u64,
            result: *mut u64,
        ) -> u32;
    }
}

// Why the calls below are sound: the pointers come from arrays and slices, so that they are aligned and
// valid during the call for the lengths given, or declared in the header; writable ones come from exclusive
// borrows, so that none of them overlaps with another; and the library keeps no pointer after a call.

/// Writes the image of a fresh receiver of draft 02 with a window of 8. Refusals: none.
#[inline]
pub fn receiver_start(state: &mut [u8; RECEIVER_IMAGE]) -> u32 {
    unsafe { exported::btpu_receiver_start(state.as_mut_ptr()) }
}

/// Writes the image of a fresh receiver of draft 02 with a window of 4, 8 or 16. Refusal: 21.
#[inline]
pub fn receiver_start_window(state: &mut [u8; RECEIVER_IMAGE], window: u32) -> u32 {
    unsafe { exported::btpu_receiver_start_window(state.as_mut_ptr(), window) }
}

/// Writes the image of a fresh receiver of draft 00 with a window of 4, 8 or 16. Refusal: 21.
#[inline]
pub fn receiver_start_00(state: &mut [u8; RECEIVER_IMAGE], window: u32) -> u32 {
    unsafe { exported::btpu_receiver_start_00(state.as_mut_ptr(), window) }
}

/// Whether an image is a sound state. Refusal: 1.
#[inline]
pub fn receiver_check(state: &[u8; RECEIVER_IMAGE]) -> u32 {
    unsafe { exported::btpu_receiver_check(state.as_ptr()) }
}

/// Treats the messages of a frame from `place` on, up to the first bundle handed out. The pool has exactly
/// [`pool`]`(window)` octets, by the window of the image. Refusals: 1 to 9.
#[inline]
pub fn receive(
    state: &mut [u8; RECEIVER_IMAGE],
    pool: &mut [u8],
    frame: &[u8],
    place: u64,
    output: &mut [u8],
    result: &mut [u64; 4],
) -> u32 {
    unsafe {
        exported::btpu_receive(
            state.as_mut_ptr(),
            pool.as_mut_ptr(),
            pool.len() as u64,
            frame.as_ptr(),
            frame.len() as u64,
            place,
            output.as_mut_ptr(),
            output.len() as u64,
            result.as_mut_ptr(),
        )
    }
}

/// Takes up to 64 frames, given by their lengths and joined octets, from a frame and a place in it on. The
/// pool is that of [`receive`]. Refusals: 1, 2, 3, 19, 9.
#[inline]
pub fn receive_burst(
    state: &mut [u8; RECEIVER_IMAGE],
    pool: &mut [u8],
    (sizes, octets): (&[u16], &[u8]),
    (frame, place): (u64, u64),
    (output, lengths, numbers): BurstBundles,
    (places, reasons): BurstNotes,
    result: &mut [u64; BURST_RESULT],
) -> u32 {
    unsafe {
        exported::btpu_receive_burst(
            state.as_mut_ptr(),
            pool.as_mut_ptr(),
            pool.len() as u64,
            sizes.as_ptr(),
            sizes.len() as u64,
            octets.as_ptr(),
            octets.len() as u64,
            frame,
            place,
            output.as_mut_ptr(),
            output.len() as u64,
            lengths.as_mut_ptr(),
            numbers.as_mut_ptr(),
            places.as_mut_ptr(),
            reasons.as_mut_ptr(),
            result.as_mut_ptr(),
        )
    }
}

/// Writes the image of a fresh sender of draft 02. Refusal: 14.
#[inline]
pub fn sender_start(state: &mut [u8; SENDER_IMAGE], frame_size: u64, first_number: u32) -> u32 {
    unsafe { exported::btpu_sender_start(state.as_mut_ptr(), frame_size, first_number) }
}

/// Writes the image of a fresh sender of draft 00. Refusal: 14.
#[inline]
pub fn sender_start_00(state: &mut [u8; SENDER_IMAGE], frame_size: u64, first_number: u32) -> u32 {
    unsafe { exported::btpu_sender_start_00(state.as_mut_ptr(), frame_size, first_number) }
}

/// Whether an image is a sound state. Refusal: 1.
#[inline]
pub fn sender_check(state: &[u8; SENDER_IMAGE]) -> u32 {
    unsafe { exported::btpu_sender_check(state.as_ptr()) }
}

/// Adds at most one message with octets of the bundle to the frame, or closes the frame.
/// Refusals: 1, 10, 11, 12.
#[inline]
pub fn place(
    state: &mut [u8; SENDER_IMAGE],
    bundle: &[u8],
    frame: &mut [u8],
    result: &mut [u64; 4],
) -> u32 {
    unsafe {
        exported::btpu_place(
            state.as_mut_ptr(),
            bundle.as_ptr(),
            bundle.len() as u64,
            frame.as_mut_ptr(),
            frame.len() as u64,
            result.as_mut_ptr(),
        )
    }
}

/// Gives up the transfer begun and adds a cancel for it to the frame. Refusals: 1, 10, 13.
#[inline]
pub fn cancel(state: &mut [u8; SENDER_IMAGE], frame: &mut [u8], result: &mut [u64; 4]) -> u32 {
    unsafe {
        exported::btpu_cancel(
            state.as_mut_ptr(),
            frame.as_mut_ptr(),
            frame.len() as u64,
            result.as_mut_ptr(),
        )
    }
}

/// Closes a frame that is begun. Refusals: 1, 10.
#[inline]
pub fn flush(state: &mut [u8; SENDER_IMAGE], frame: &mut [u8], result: &mut [u64; 4]) -> u32 {
    unsafe {
        exported::btpu_flush(
            state.as_mut_ptr(),
            frame.as_mut_ptr(),
            frame.len() as u64,
            result.as_mut_ptr(),
        )
    }
}

/// Writes frames as a recording to the front of the output. Refusals: 17, 18, 19, 24.
#[inline]
pub fn record(sizes: &[u16], octets: &[u8], output: &mut [u8], result: &mut [u64; 4]) -> u32 {
    unsafe {
        exported::btpu_record(
            sizes.as_ptr(),
            sizes.len() as u64,
            octets.as_ptr(),
            octets.len() as u64,
            output.as_mut_ptr(),
            output.len() as u64,
            result.as_mut_ptr(),
        )
    }
}

/// Reads a recording; the lengths of its frames go to `sizes`, followed by zeros. Refusals: 16 to 20.
#[inline]
pub fn recording_open(
    recording: &[u8],
    sizes: &mut [u16; RECORDED_FRAMES],
    result: &mut [u64; 4],
) -> u32 {
    unsafe {
        exported::btpu_recording_open(
            recording.as_ptr(),
            recording.len() as u64,
            sizes.as_mut_ptr(),
            result.as_mut_ptr(),
        )
    }
}

/// Plays a recording on a fresh receiver of draft 02 with a window of 16, until `limit` messages are treated
/// or all are. Bundles go to an output and a list of their lengths, refused frames to their places and
/// reasons. The pool has exactly [`pool`]`(`[`PLAY_WINDOW`]`)` octets. Refusals: 16 to 20, 2, 24.
#[inline]
pub fn play(
    recording: &[u8],
    limit: u64,
    pool: &mut [u8],
    (output, lengths): (&mut [u8], &mut [u16]),
    (places, reasons): (&mut [u32], &mut [u32]),
    result: &mut [u64; 4],
) -> u32 {
    unsafe {
        exported::btpu_play(
            recording.as_ptr(),
            recording.len() as u64,
            limit,
            pool.as_mut_ptr(),
            pool.len() as u64,
            output.as_mut_ptr(),
            output.len() as u64,
            lengths.as_mut_ptr(),
            lengths.len() as u64,
            places.as_mut_ptr(),
            places.len() as u64,
            reasons.as_mut_ptr(),
            reasons.len() as u64,
            result.as_mut_ptr(),
        )
    }
}
