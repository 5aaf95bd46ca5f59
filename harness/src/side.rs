//! One interface for the two sides that are compared.

use crate::model::{interface, Draft};
use btpu::raw::{self, BURST_RESULT, RECEIVER_IMAGE, RECORDED_FRAMES, SENDER_IMAGE};

pub use btpu::raw::{BurstBundles, BurstNotes};

pub trait Side {
    const NAME: &'static str;
    /// The start that names nothing: draft 02, and the window that it now means.
    fn receiver_plain_start(state: &mut [u8; RECEIVER_IMAGE]) -> u32;
    /// The start of a draft and a window, which may be none.
    fn receiver_start(draft: Draft, window: u32, state: &mut [u8; RECEIVER_IMAGE]) -> u32;
    fn receiver_check(state: &[u8; RECEIVER_IMAGE]) -> u32;
    fn receive(
        state: &mut [u8; RECEIVER_IMAGE],
        pool: &mut [u8],
        frame: &[u8],
        place: u64,
        output: &mut [u8],
        result: &mut [u64; 4],
    ) -> u32;
    fn receive_burst(
        state: &mut [u8; RECEIVER_IMAGE],
        pool: &mut [u8],
        frames: (&[u16], &[u8]),
        from: (u64, u64),
        bundles: BurstBundles,
        notes: BurstNotes,
        result: &mut [u64; BURST_RESULT],
    ) -> u32;
    fn sender_start(
        draft: Draft,
        state: &mut [u8; SENDER_IMAGE],
        frame_size: u64,
        first_number: u32,
    ) -> u32;
    fn sender_check(state: &[u8; SENDER_IMAGE]) -> u32;
    fn place(
        state: &mut [u8; SENDER_IMAGE],
        bundle: &[u8],
        frame: &mut [u8],
        result: &mut [u64; 4],
    ) -> u32;
    fn cancel(state: &mut [u8; SENDER_IMAGE], frame: &mut [u8], result: &mut [u64; 4]) -> u32;
    fn flush(state: &mut [u8; SENDER_IMAGE], frame: &mut [u8], result: &mut [u64; 4]) -> u32;
    fn record(sizes: &[u16], octets: &[u8], output: &mut [u8], result: &mut [u64; 4]) -> u32;
    fn recording_open(
        recording: &[u8],
        sizes: &mut [u16; RECORDED_FRAMES],
        result: &mut [u64; 4],
    ) -> u32;
    fn play(
        recording: &[u8],
        limit: u64,
        pool: &mut [u8],
        bundles: (&mut [u8], &mut [u16]),
        notes: (&mut [u32], &mut [u32]),
        result: &mut [u64; 4],
    ) -> u32;
}

pub struct Model;
pub struct Exported;

impl Side for Model {
    const NAME: &'static str = "model";

    fn receiver_plain_start(state: &mut [u8; RECEIVER_IMAGE]) -> u32 {
        interface::receiver_start(state)
    }

    fn receiver_start(draft: Draft, window: u32, state: &mut [u8; RECEIVER_IMAGE]) -> u32 {
        match draft {
            Draft::D00 => interface::receiver_start_00(state, window),
            Draft::D02 => interface::receiver_start_window(state, window),
        }
    }

    fn receiver_check(state: &[u8; RECEIVER_IMAGE]) -> u32 {
        interface::receiver_check(state)
    }

    fn receive(
        state: &mut [u8; RECEIVER_IMAGE],
        pool: &mut [u8],
        frame: &[u8],
        place: u64,
        output: &mut [u8],
        result: &mut [u64; 4],
    ) -> u32 {
        interface::receive(state, pool, frame, place, output, result, &mut ())
    }

    fn receive_burst(
        state: &mut [u8; RECEIVER_IMAGE],
        pool: &mut [u8],
        frames: (&[u16], &[u8]),
        from: (u64, u64),
        bundles: BurstBundles,
        notes: BurstNotes,
        result: &mut [u64; BURST_RESULT],
    ) -> u32 {
        interface::receive_burst(state, pool, frames, from, bundles, notes, result)
    }

    fn sender_start(
        draft: Draft,
        state: &mut [u8; SENDER_IMAGE],
        frame_size: u64,
        first_number: u32,
    ) -> u32 {
        match draft {
            Draft::D00 => interface::sender_start_00(state, frame_size, first_number),
            Draft::D02 => interface::sender_start(state, frame_size, first_number),
        }
    }

    fn sender_check(state: &[u8; SENDER_IMAGE]) -> u32 {
        interface::sender_check(state)
    }

    fn place(
        state: &mut [u8; SENDER_IMAGE],
        bundle: &[u8],
        frame: &mut [u8],
        result: &mut [u64; 4],
    ) -> u32 {
        interface::place(state, bundle, frame, result)
    }

    fn cancel(state: &mut [u8; SENDER_IMAGE], frame: &mut [u8], result: &mut [u64; 4]) -> u32 {
        interface::cancel(state, frame, result)
    }

    fn flush(state: &mut [u8; SENDER_IMAGE], frame: &mut [u8], result: &mut [u64; 4]) -> u32 {
        interface::flush(state, frame, result)
    }

    fn record(sizes: &[u16], octets: &[u8], output: &mut [u8], result: &mut [u64; 4]) -> u32 {
        interface::record(sizes, octets, output, result)
    }

    fn recording_open(
        recording: &[u8],
        sizes: &mut [u16; RECORDED_FRAMES],
        result: &mut [u64; 4],
    ) -> u32 {
        interface::recording_open(recording, sizes, result)
    }

    fn play(
        recording: &[u8],
        limit: u64,
        pool: &mut [u8],
        bundles: (&mut [u8], &mut [u16]),
        notes: (&mut [u32], &mut [u32]),
        result: &mut [u64; 4],
    ) -> u32 {
        interface::play(recording, limit, pool, bundles, notes, result, &mut ())
    }
}

impl Side for Exported {
    const NAME: &'static str = "exported";

    fn receiver_plain_start(state: &mut [u8; RECEIVER_IMAGE]) -> u32 {
        raw::receiver_start(state)
    }

    fn receiver_start(draft: Draft, window: u32, state: &mut [u8; RECEIVER_IMAGE]) -> u32 {
        match draft {
            Draft::D00 => raw::receiver_start_00(state, window),
            Draft::D02 => raw::receiver_start_window(state, window),
        }
    }

    fn receiver_check(state: &[u8; RECEIVER_IMAGE]) -> u32 {
        raw::receiver_check(state)
    }

    fn receive(
        state: &mut [u8; RECEIVER_IMAGE],
        pool: &mut [u8],
        frame: &[u8],
        place: u64,
        output: &mut [u8],
        result: &mut [u64; 4],
    ) -> u32 {
        raw::receive(state, pool, frame, place, output, result)
    }

    fn receive_burst(
        state: &mut [u8; RECEIVER_IMAGE],
        pool: &mut [u8],
        frames: (&[u16], &[u8]),
        from: (u64, u64),
        bundles: BurstBundles,
        notes: BurstNotes,
        result: &mut [u64; BURST_RESULT],
    ) -> u32 {
        raw::receive_burst(state, pool, frames, from, bundles, notes, result)
    }

    fn sender_start(
        draft: Draft,
        state: &mut [u8; SENDER_IMAGE],
        frame_size: u64,
        first_number: u32,
    ) -> u32 {
        match draft {
            Draft::D00 => raw::sender_start_00(state, frame_size, first_number),
            Draft::D02 => raw::sender_start(state, frame_size, first_number),
        }
    }

    fn sender_check(state: &[u8; SENDER_IMAGE]) -> u32 {
        raw::sender_check(state)
    }

    fn place(
        state: &mut [u8; SENDER_IMAGE],
        bundle: &[u8],
        frame: &mut [u8],
        result: &mut [u64; 4],
    ) -> u32 {
        raw::place(state, bundle, frame, result)
    }

    fn cancel(state: &mut [u8; SENDER_IMAGE], frame: &mut [u8], result: &mut [u64; 4]) -> u32 {
        raw::cancel(state, frame, result)
    }

    fn flush(state: &mut [u8; SENDER_IMAGE], frame: &mut [u8], result: &mut [u64; 4]) -> u32 {
        raw::flush(state, frame, result)
    }

    fn record(sizes: &[u16], octets: &[u8], output: &mut [u8], result: &mut [u64; 4]) -> u32 {
        raw::record(sizes, octets, output, result)
    }

    fn recording_open(
        recording: &[u8],
        sizes: &mut [u16; RECORDED_FRAMES],
        result: &mut [u64; 4],
    ) -> u32 {
        raw::recording_open(recording, sizes, result)
    }

    fn play(
        recording: &[u8],
        limit: u64,
        pool: &mut [u8],
        bundles: (&mut [u8], &mut [u16]),
        notes: (&mut [u32], &mut [u32]),
        result: &mut [u64; 4],
    ) -> u32 {
        raw::play(recording, limit, pool, bundles, notes, result)
    }
}
