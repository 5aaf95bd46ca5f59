//! Frames to be recorded, and recordings, good and damaged.

use super::{
    bundle_length, damage_frame, disorder, fill_up, first_number, frame_size, honest_messages,
    hostile_frame, hostile_message, message, pack, random_frame, with_reserved_bits, Piece, BUNDLE,
    MAX_FRAME,
};
use crate::model::sender::{Answer, State};
use crate::model::{Draft, Settings, Window};
use crate::random::Random;
use btpu::raw::{RECORDED_FRAMES, RECORDED_OCTETS};

/// What a playback receives with.
pub const PLAYBACK: Settings = Settings::new(Draft::D02, Window::PLAYBACK);

/// The frames' lengths and their octets one behind the other.
pub fn joined(frames: &[Vec<u8>]) -> (Vec<u16>, Vec<u8>) {
    let sizes = frames.iter().map(|frame| frame.len() as u16).collect();
    (sizes, frames.concat())
}

/// A recording, put together by its layout alone.
pub fn recording(sizes: &[u16], octets: &[u8]) -> Vec<u8> {
    let mut recording = (sizes.len() as u32).to_be_bytes().to_vec();
    recording.extend(sizes.iter().flat_map(|size| size.to_be_bytes()));
    recording.extend((octets.len() as u32).to_be_bytes());
    recording.extend(octets);
    recording
}

/// A recording of these frames.
pub fn recorded(frames: &[Vec<u8>]) -> Vec<u8> {
    let (sizes, octets) = joined(frames);
    recording(&sizes, &octets)
}

/// The frames of a sender that places some bundles.
pub fn sent_frames(random: &mut Random, draft: Draft) -> Vec<Vec<u8>> {
    let size = frame_size(random);
    let mut frame = random.octets(size);
    let mut frames = Vec::new();
    let first = first_number(random);
    let mut state = State::start(draft, size as u64, first).expect("a good frame size");
    for _ in 0..random.within(1, 8) {
        let length = bundle_length(random).max(1);
        let bundle = random.octets(length);
        loop {
            let answer = state.place(&bundle, &mut frame).expect("a good bundle");
            if answer != Answer::Placed {
                frames.push(frame.clone());
            }
            if answer != Answer::Ready && state.begun.is_none() {
                break;
            }
        }
    }
    if state.flush(&mut frame) == Ok(Answer::Ready) {
        frames.push(frame);
    }
    frames
}

fn hostile_frames(random: &mut Random, settings: Settings) -> Vec<Vec<u8>> {
    let greatest = Some(first_number(random));
    let count = random.within(1, 12);
    (0..count)
        .map(|_| hostile_frame(random, settings, greatest))
        .collect()
}

fn honest_frames(random: &mut Random, draft: Draft) -> Vec<Vec<u8>> {
    let transfers = random.within(1, 12);
    let messages = honest_messages(random, draft, transfers);
    let size = random.pick(&[60, 200, 1000, MAX_FRAME]);
    pack(random, &messages, size)
}

/// Frames for a recording or a burst: honest, a sender's, hostile, malformed and random ones mixed.
pub fn recorded_frames(random: &mut Random, settings: Settings) -> Vec<Vec<u8>> {
    let draft = settings.draft;
    let mut frames = match random.below(8) {
        0..=2 => honest_frames(random, draft),
        3..=4 => sent_frames(random, draft),
        5..=6 => hostile_frames(random, settings),
        _ => [
            honest_frames(random, draft),
            hostile_frames(random, settings),
        ]
        .concat(),
    };
    for _ in 0..random.below(4) {
        let at = random.below(frames.len() + 1);
        frames.insert(at, random_frame(random));
    }
    let damaged = random.pick(&[3, 8, usize::MAX]);
    for frame in &mut frames {
        if !frame.is_empty() && random.once_in(damaged) {
            damage_frame(random, draft, frame);
        }
        if draft == Draft::D02 && random.once_in(12) {
            *frame = with_reserved_bits(random, frame).0;
        }
    }
    let reach = random.pick(&[0, 0, 2, 20]);
    within_limits(disorder(random, frames, reach))
}

/// A few short frames, so that a recording can be tried in many ways.
pub fn small_frames(random: &mut Random, settings: Settings) -> Vec<Vec<u8>> {
    let mut greatest = Some(first_number(random));
    let mut frames: Vec<Vec<u8>> = (0..random.below(6))
        .map(|_| {
            let count = random.within(1, 3);
            let messages = (0..count).map(|_| hostile_message(random, settings, &mut greatest));
            let short = messages.filter(|message| message.len() <= 30);
            short.collect::<Vec<_>>().concat()
        })
        .collect();
    for frame in &mut frames {
        if frame.is_empty() {
            frame.push(random.pick(&[0, 2]));
        } else if random.once_in(5) {
            damage_frame(random, settings.draft, frame);
        }
    }
    within_limits(frames)
}

/// Without frames of a length that cannot be recorded, and cut to what a recording can hold.
fn within_limits(mut frames: Vec<Vec<u8>>) -> Vec<Vec<u8>> {
    let mut octets = 0;
    frames.retain(|frame| (1..=MAX_FRAME).contains(&frame.len()));
    frames.retain(|frame| {
        octets += frame.len();
        octets <= RECORDED_OCTETS
    });
    frames.truncate(RECORDED_FRAMES);
    frames
}

/// Recordings as full as they can be, in one of some ways, of frames for a playback.
pub fn full_frames(random: &mut Random) -> Vec<Vec<u8>> {
    match random.below(4) {
        0 => {
            // 60 octets for each of 1,024 frames, refused where a message does not fit.
            let mut greatest = Some(first_number(random));
            let frame = |_| {
                let mut frame = hostile_message(random, PLAYBACK, &mut greatest);
                frame.resize(RECORDED_OCTETS / RECORDED_FRAMES, 0);
                frame
            };
            (0..RECORDED_FRAMES).map(frame).collect()
        }
        1 => {
            let empty = message(BUNDLE, &[], &[]);
            let frame = empty.repeat(MAX_FRAME / empty.len());
            vec![frame; RECORDED_OCTETS / MAX_FRAME]
        }
        2 => {
            let frame = |_| match random.below(4) {
                0 => vec![random.within(1, 255) as u8; random.within(1, 3)],
                1 => vec![2, 0, 0, random.within(1, 255) as u8],
                2 => vec![random.within(2, 5) as u8, 0x80, 0, 1, random.octet()],
                _ => vec![random.within(3, 5) as u8, 0, 0, 3, 0, 0, random.octet()],
            };
            (0..RECORDED_FRAMES).map(frame).collect()
        }
        _ => full_transfers(random),
    }
}

/// Transfers of two pieces, each of which fills a frame of 2,048 octets.
fn full_transfers(random: &mut Random) -> Vec<Vec<u8>> {
    let first = first_number(random);
    let mut frames: Vec<Vec<u8>> = (0..RECORDED_OCTETS / MAX_FRAME)
        .map(|at| {
            let number = first.wrapping_add(at as u32 / 2);
            let length = random.within(1900, MAX_FRAME - 12);
            let data = random.octets(length);
            let piece = Piece::sent(Draft::D02, number, at % 2, 2);
            let mut frame = piece.message(Draft::D02, &[], &data);
            fill_up(random, Draft::D02, &mut frame);
            frame
        })
        .collect();
    if random.once_in(2) {
        frames = disorder(random, frames, 12);
    }
    frames
}

/// The ways in which lengths and octets make no recording, each with its refusal.
pub const UNRECORDABLE: [(&str, u32); 6] = [
    ("too many frames", 17),
    ("too many octets", 17),
    ("a frame of 0 octets", 18),
    ("a frame above 2,048 octets", 18),
    ("fewer octets than the lengths say", 19),
    ("more octets than the lengths say", 19),
];

/// Lengths and octets that make no recording, in the way of that place in the list, at times with later
/// faults besides.
pub fn unrecordable(random: &mut Random, way: usize, frames: &[Vec<u8>]) -> (Vec<u16>, Vec<u8>) {
    let (mut sizes, mut octets) = joined(frames);
    match way {
        0 => {
            let count = RECORDED_FRAMES + random.pick(&[1, 2, 1000]);
            (sizes, octets) = (vec![1; count], random.octets(count));
        }
        1 => {
            let more = random.pick(&[1, 2, 4096]);
            octets = random.octets(RECORDED_OCTETS + more);
            let parts = octets.chunks(MAX_FRAME);
            sizes = parts.map(|part| part.len() as u16).collect();
        }
        2 => {
            sizes.truncate(RECORDED_FRAMES - 1);
            sizes.insert(random.below(sizes.len() + 1), 0);
        }
        3 => {
            let any = random.within(MAX_FRAME + 1, 65_535);
            let length = random.pick(&[2049, 2050, 4096, 32_768, 61_440, 65_535, any]);
            sizes = vec![length as u16];
            octets = random.octets(length.min(RECORDED_OCTETS));
        }
        4 => fewer_octets(random, &mut sizes, &mut octets),
        _ => more_octets(random, &mut sizes, &mut octets),
    }
    (sizes, octets)
}

/// Takes octets away, or has lengths whose sum is greater than 16 bits hold.
fn fewer_octets(random: &mut Random, sizes: &mut Vec<u16>, octets: &mut Vec<u8>) {
    if octets.is_empty() || random.once_in(4) {
        *sizes = vec![MAX_FRAME as u16; 32];
        let length = random.pick(&[0, 1, 2048, 4096, RECORDED_OCTETS]);
        *octets = random.octets(length);
    } else {
        octets.truncate(random.below(octets.len()));
    }
}

/// Adds octets, or takes a length away.
fn more_octets(random: &mut Random, sizes: &mut Vec<u16>, octets: &mut Vec<u8>) {
    let most = RECORDED_OCTETS - octets.len();
    if most == 0 || random.once_in(3) && !sizes.is_empty() {
        sizes.pop();
    } else {
        let more = random.pick(&[1, 2, 100, most]).min(most);
        octets.extend(random.octets(more));
    }
}

/// Damages a recording: bits, cuts, octets added, counts and lengths changed.
pub fn damage_recording(random: &mut Random, recording: &mut Vec<u8>) {
    let whole = recording.len();
    let frames = match recording.first_chunk() {
        Some(&count) => (u32::from_be_bytes(count) as usize).min(whole / 2),
        None => 0,
    };
    let second = 4 + 2 * frames;
    match random.below(8) {
        0 if whole > 0 => {
            for _ in 0..random.within(1, 3) {
                let at = random.below(whole.min(second + 8));
                recording[at] ^= 1 << random.below(8);
            }
        }
        1 => recording.truncate(random.below(whole + 1)),
        2 => {
            let edges = [0, 3, 4, second - 1, second, second + 3, second + 4, whole];
            let edge = random.pick(&edges);
            recording.truncate(random.pick(&[edge, edge.saturating_sub(1)]));
        }
        3 => {
            let more = random.pick(&[1, 1, 2, 100]);
            recording.extend(random.octets(more));
        }
        4 => change_count(random, recording, 0, RECORDED_FRAMES),
        5 => change_count(random, recording, second, RECORDED_OCTETS),
        _ if frames > 0 => change_length(random, recording, frames),
        _ => recording.push(0),
    }
}

/// Changes the count at a place, if it is there.
fn change_count(random: &mut Random, recording: &mut [u8], at: usize, limit: usize) {
    let Some(octets) = recording.get_mut(at..at + 4) else {
        return;
    };
    let count = u32::from_be_bytes((&*octets).try_into().expect("four octets"));
    let other = random.pick(&[
        0,
        1,
        count.wrapping_sub(1),
        count.wrapping_add(1),
        count | 1 << 16,
        limit as u32,
        limit as u32 + 1,
        1 << 31,
        u32::MAX,
    ]);
    octets.copy_from_slice(&other.to_be_bytes());
}

/// Changes a frame's length, or moves octets from one frame to another.
fn change_length(random: &mut Random, recording: &mut [u8], frames: usize) {
    let mut change = |random: &mut Random, by: fn(&mut Random, u16) -> u16| {
        let at = 4 + 2 * random.below(frames);
        if let Some(octets) = recording.get_mut(at..at + 2) {
            let length = by(random, u16::from_be_bytes([octets[0], octets[1]]));
            octets.copy_from_slice(&length.to_be_bytes());
        }
    };
    match random.below(3) {
        0 => change(random, |random, _| random.pick(&[0, 2049, 4096, 65_535])),
        1 => change(random, |random, length| {
            length.wrapping_add(random.pick(&[1, 2, 256, 65_535]))
        }),
        _ => {
            change(random, |_, length| length.wrapping_add(1));
            change(random, |_, length| length.wrapping_sub(1));
        }
    }
}
