//! The model behind the same interface as the exported library: images in, numbers out.

use super::burst;
use super::draft::Draft;
use super::playback::{self, Bundles, Notes};
use super::receiver::{self, Observer};
use super::recording::{self, Recording, MAX_FRAMES};
use super::sender::{self, Answer};
use super::window::Window;
use super::{image, Refusal, Settings};

/// The transfer number of a bundle that came in a bundle message.
pub const NO_NUMBER: u64 = 1 << 32;

pub fn receiver_start(image: &mut [u8; image::RECEIVER]) -> u32 {
    receiver::State::start(Settings::new(Draft::D02, Window::PLAIN)).encode(image);
    0
}

pub fn receiver_start_window(image: &mut [u8; image::RECEIVER], window: u32) -> u32 {
    start_receiver(Draft::D02, image, window)
}

pub fn receiver_start_00(image: &mut [u8; image::RECEIVER], window: u32) -> u32 {
    start_receiver(Draft::D00, image, window)
}

fn start_receiver(draft: Draft, image: &mut [u8; image::RECEIVER], window: u32) -> u32 {
    match Window::of_number(window) {
        Some(window) => {
            receiver::State::start(Settings { draft, window }).encode(image);
            0
        }
        None => Refusal::NoWindow.returned(),
    }
}

pub fn receiver_check(image: &[u8; image::RECEIVER]) -> u32 {
    let state = receiver::State::decode(image);
    check(state.is_some_and(|state| state.is_sound()))
}

fn check(sound: bool) -> u32 {
    match sound {
        true => 0,
        false => Refusal::UnsoundState.returned(),
    }
}

pub fn receive(
    image: &mut [u8; image::RECEIVER],
    pool: &mut [u8],
    frame: &[u8],
    place: u64,
    output: &mut [u8],
    result: &mut [u64; 4],
    observer: &mut impl Observer,
) -> u32 {
    let Some(mut state) = receiver::State::decode(image) else {
        return Refusal::UnsoundState.returned();
    };
    match receiver::receive(&mut state, pool, frame, place, output, observer) {
        Ok(answer) => {
            match answer {
                receiver::Answer::Finished => result[0] = 0,
                receiver::Answer::Bundle {
                    length,
                    next,
                    number,
                } => {
                    let number = number.map_or(NO_NUMBER, u64::from);
                    *result = [1, length as u64, next as u64, number];
                }
            }
            state.encode(image);
            0
        }
        Err(refusal) => refusal.returned(),
    }
}

pub fn receive_burst(
    image: &mut [u8; image::RECEIVER],
    pool: &mut [u8],
    frames: (&[u16], &[u8]),
    from: (u64, u64),
    bundles: burst::Bundles,
    notes: burst::Notes,
    result: &mut [u64; 5],
) -> u32 {
    let Some(mut state) = receiver::State::decode(image) else {
        return Refusal::UnsoundState.returned();
    };
    match burst::receive_burst(&mut state, pool, frames, from, bundles, notes) {
        Ok(taken) => {
            let (frame, place) = taken.next;
            let entries = [taken.bundles, taken.octets, frame, place, taken.refused];
            *result = entries.map(|entry| entry as u64);
            state.encode(image);
            0
        }
        Err(refusal) => refusal.returned(),
    }
}

pub fn sender_start(image: &mut [u8; image::SENDER], frame_size: u64, first_number: u32) -> u32 {
    start_sender(Draft::D02, image, frame_size, first_number)
}

pub fn sender_start_00(image: &mut [u8; image::SENDER], frame_size: u64, first_number: u32) -> u32 {
    start_sender(Draft::D00, image, frame_size, first_number)
}

fn start_sender(
    draft: Draft,
    image: &mut [u8; image::SENDER],
    frame_size: u64,
    first_number: u32,
) -> u32 {
    match sender::State::start(draft, frame_size, first_number) {
        Ok(state) => {
            state.encode(image);
            0
        }
        Err(refusal) => refusal.returned(),
    }
}

pub fn sender_check(image: &[u8; image::SENDER]) -> u32 {
    let state = sender::State::decode(image);
    check(state.is_some_and(|state| state.is_sound()))
}

pub fn place(
    image: &mut [u8; image::SENDER],
    bundle: &[u8],
    frame: &mut [u8],
    result: &mut [u64; 4],
) -> u32 {
    send(image, result, |state| state.place(bundle, frame))
}

pub fn cancel(image: &mut [u8; image::SENDER], frame: &mut [u8], result: &mut [u64; 4]) -> u32 {
    send(image, result, |state| state.cancel(frame))
}

pub fn flush(image: &mut [u8; image::SENDER], frame: &mut [u8], result: &mut [u64; 4]) -> u32 {
    send(image, result, |state| state.flush(frame))
}

fn send(
    image: &mut [u8; image::SENDER],
    result: &mut [u64; 4],
    call: impl FnOnce(&mut sender::State) -> Result<Answer, Refusal>,
) -> u32 {
    let Some(mut state) = sender::State::decode(image) else {
        return Refusal::UnsoundState.returned();
    };
    match call(&mut state) {
        Ok(answer) => {
            result[0] = match answer {
                Answer::Placed => 0,
                Answer::PlacedAndReady => 1,
                Answer::Ready => 2,
                Answer::Nothing => 3,
            };
            state.encode(image);
            0
        }
        Err(refusal) => refusal.returned(),
    }
}

pub fn record(sizes: &[u16], octets: &[u8], output: &mut [u8], result: &mut [u64; 4]) -> u32 {
    match recording::write(sizes, octets, output) {
        Ok(length) => {
            result[0] = length as u64;
            0
        }
        Err(refusal) => refusal.returned(),
    }
}

pub fn recording_open(
    recording: &[u8],
    sizes: &mut [u16; MAX_FRAMES],
    result: &mut [u64; 4],
) -> u32 {
    match Recording::read(recording) {
        Ok(recording) => {
            let lengths = recording.lengths();
            result[0] = lengths.len() as u64;
            result[1] = recording.octets().len() as u64;
            result[2] = recording.start() as u64;
            sizes.fill(0);
            for (size, length) in sizes.iter_mut().zip(lengths) {
                *size = length;
            }
            0
        }
        Err(refusal) => refusal.returned(),
    }
}

pub fn play(
    recording: &[u8],
    limit: u64,
    pool: &mut [u8],
    bundles: Bundles,
    notes: Notes,
    result: &mut [u64; 4],
    observer: &mut impl Observer,
) -> u32 {
    match playback::play(recording, limit, pool, bundles, notes, observer) {
        Ok(played) => {
            *result = [
                played.messages,
                played.bundles as u64,
                played.octets as u64,
                played.refused as u64,
            ];
            0
        }
        Err(refusal) => refusal.returned(),
    }
}
