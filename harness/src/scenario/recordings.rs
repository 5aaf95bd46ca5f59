//! Scenarios of recordings: written, damaged, played.

use crate::compare::{Lending, PlayMemory, Played, Received, ReceiverPair, Trial, PLAY_POOL};
use crate::generate::{self, PLAYBACK, UNRECORDABLE};
use crate::model::{Draft, Window};

/// Recordings as full as they can be cost time, so they are tried once in so many runs.
const FULL_ONCE_IN: usize = 4;

/// Frames to be recorded; a playback is of draft 02, also where they are of draft 00, and of window 16.
fn recorded_frames(trial: &mut Trial) -> Vec<Vec<u8>> {
    trial.set(PLAYBACK);
    let settings = trial.settings_of_frames();
    generate::recorded_frames(&mut trial.random, settings)
}

/// What is written is read back, and what was read is written again; then what cannot be written.
pub fn recordings(trial: &mut Trial) {
    let frames = recorded_frames(trial);
    let (sizes, octets) = generate::joined(&frames);
    let expected = generate::recording(&sizes, &octets);
    let whole = expected.len();
    let longer = whole + trial.random.within(1, 3000);
    for output in [whole, whole + 1, longer] {
        let written = trial.record(&sizes, &octets, output);
        trial.check(written.as_ref() == Ok(&expected), "another recording");
    }
    for output in [0, whole - 1, trial.random.below(whole)] {
        let written = trial.record(&sizes, &octets, output);
        trial.check(written == Err(24), "too short an output");
    }
    write_again(trial, &expected, &sizes);
    for (way, (name, number)) in UNRECORDABLE.into_iter().enumerate() {
        let (sizes, octets) = generate::unrecordable(&mut trial.random, way, &frames);
        let whole = 8 + 2 * sizes.len() + octets.len();
        let output = trial.random.pick(&[0, whole - 1, whole, whole + 1]);
        let written = trial.record(&sizes, &octets, output);
        trial.check(written == Err(number), name);
    }
}

/// Opens a good recording with frames of these sizes and writes it again.
fn write_again(trial: &mut Trial, recording: &[u8], sizes: &[u16]) {
    let Ok(opened) = trial.open(recording) else {
        trial.fail("a good recording is refused");
    };
    trial.check(opened.sizes == sizes, "other sizes than were written");
    let octets = &recording[opened.start..opened.start + opened.octets];
    let written = trial.record(sizes, octets, recording.len());
    trial.check(written.as_deref() == Ok(recording), "not written as read");
}

/// Good recordings after damage of some kind, and what cannot be written, opened and played.
pub fn damaged_recordings(trial: &mut Trial) {
    let frames = match trial.random.below(4) {
        0 => recorded_frames(trial),
        _ => generate::small_frames(&mut trial.random, PLAYBACK),
    };
    let recording = generate::recorded(&frames);
    let enough = PlayMemory::least(&mut trial.random);
    for _ in 0..trial.random.within(6, 16) {
        let mut damaged = recording.clone();
        for _ in 0..trial.random.within(1, 2) {
            generate::damage_recording(&mut trial.random, &mut damaged);
        }
        let number = open_and_play(trial, &damaged, &enough);
        if trial.random.once_in(4) {
            let (short, refusal) = too_little(trial, &enough);
            let limit = trial.random.draw();
            let played = trial.play(&damaged, limit, &short);
            let expected = number.unwrap_or(refusal);
            trial.check(played == Err(expected), "the reader's numbers come first");
        }
    }
    for _ in 0..2 {
        let way = trial.random.below(UNRECORDABLE.len());
        let (name, number) = UNRECORDABLE[way];
        let (sizes, octets) = generate::unrecordable(&mut trial.random, way, &frames);
        let mut recording = generate::recording(&sizes, &octets);
        if trial.random.once_in(3) {
            recording.push(0);
        }
        let refused = open_and_play(trial, &recording, &enough);
        trial.check(refused == Some(number), name);
    }
}

/// Opens and plays what may be a recording; the answer is the refusal of both.
fn open_and_play(trial: &mut Trial, recording: &[u8], memory: &PlayMemory) -> Option<u32> {
    let opened = trial.open(recording);
    let played = trial.play(recording, u64::MAX, memory);
    match (opened, played) {
        (Ok(opened), Ok(_)) => {
            let octets = &recording[opened.start..];
            let written = trial.record(&opened.sizes, octets, recording.len());
            trial.check(written.as_deref() == Ok(recording), "not written as read");
            None
        }
        (Err(number), Err(other)) if number == other => Some(number),
        _ => trial.fail("opened and played in other ways"),
    }
}

/// Memory of which one part at least is wrong, and the refusal.
fn too_little(trial: &mut Trial, enough: &PlayMemory) -> (PlayMemory, u32) {
    let mut memory = enough.clone();
    let parts = trial.random.within(1, 2);
    for _ in 0..parts {
        let by = trial.random.pick(&[1, 1, 2, 1000]);
        match trial.random.below(5) {
            0 => {
                let [four, eight, _] = Window::ALL.map(Window::pool);
                let near = [PLAY_POOL - 1, PLAY_POOL + 1, 2 * PLAY_POOL];
                let length = trial.random.pick(&[&[0, four, eight], &near[..]].concat());
                memory.pool = trial.random.octets(length);
            }
            1 => memory.output -= by,
            2 => memory.lengths -= by,
            3 => memory.places = memory.places.saturating_sub(by),
            _ => memory.reasons = memory.reasons.saturating_sub(by),
        }
    }
    let number = if memory.pool.len() == PLAY_POOL {
        24
    } else {
        2
    };
    (memory, number)
}

/// Playbacks with many limits; without a limit, what comes out is what single calls hand out.
pub fn playbacks(trial: &mut Trial) {
    let frames = recorded_frames(trial);
    let recording = generate::recorded(&frames);
    let mut memory = PlayMemory::least(&mut trial.random);
    let all = as_single_calls(trial, &frames, &recording, &mut memory);
    let total = all.messages;
    let any = trial.random.below(total as usize + 1) as u64;
    // A limit cut to fewer bits would end the playback early.
    let far = [1 << 16, 1 << 32, (1 << 32) + any, 1 << 63];
    let far = trial.random.pick(&far);
    for limit in [0, 1, any, total.saturating_sub(1), total, total + 1, far] {
        part_of(trial, &recording, limit, &memory, &all);
    }
    for _ in 0..4 {
        let (short, number) = too_little(trial, &memory);
        let limit = trial.random.pick(&[0, 1, total, u64::MAX]);
        let played = trial.play(&recording, limit, &short);
        trial.check(played == Err(number), "too little memory");
    }
    memory.output += trial.random.below(5000);
    memory.lengths += trial.random.below(2000);
    memory.places += trial.random.below(100);
    memory.reasons += trial.random.below(100);
    part_of(trial, &recording, u64::MAX, &memory, &all);
}

/// Plays all of a recording, and takes its frames one by one by single calls.
fn as_single_calls(
    trial: &mut Trial,
    frames: &[Vec<u8>],
    recording: &[u8],
    memory: &mut PlayMemory,
) -> Played {
    trial.set(PLAYBACK);
    let mut receiver = ReceiverPair::start(trial);
    memory.pool = receiver.pool().to_vec();
    let Ok(played) = trial.play(recording, u64::MAX, memory) else {
        trial.fail("a good recording is refused");
    };
    let singly = take_singly(trial, &mut receiver, frames);
    trial.check(played.bundles == singly.bundles, "other bundles");
    trial.check(played.refused == singly.refused, "other frames refused");
    trial.check(played.messages == singly.messages, "messages treated");
    trial.check(played.pool == singly.pool, "another pool");
    trial.coverage.recordings.taken_singly += 1;
    played
}

/// Takes frames to their ends by single calls.
fn take_singly(trial: &mut Trial, receiver: &mut ReceiverPair, frames: &[Vec<u8>]) -> Played {
    let mut bundles = Vec::new();
    let mut refused = Vec::new();
    for (place, frame) in (0..).zip(frames) {
        let before = receiver.image().to_vec();
        let mut at = 0;
        loop {
            match receiver.receive(trial, frame, at, Lending::default()) {
                Received::Bundle {
                    length,
                    next,
                    number,
                } => {
                    bundles.push(receiver.bundle(length).to_vec());
                    at = next;
                    let several = number.is_some_and(|number| held_before(&before, number));
                    trial.coverage.recordings.out_of_several_frames += u64::from(several);
                }
                Received::Finished => break,
                Received::Refused(number) => {
                    refused.push((place, number));
                    break;
                }
            }
        }
    }
    Played {
        messages: frames
            .iter()
            .filter_map(|frame| generate::message_count(Draft::D02, frame))
            .sum(),
        bundles,
        refused,
        pool: receiver.pool().to_vec(),
    }
}

/// Whether a state held pieces of a transfer.
fn held_before(image: &[u8], number: u32) -> bool {
    let greatest = image[4..8].try_into().expect("four octets");
    let behind = u32::from_be_bytes(greatest).wrapping_sub(number) as usize;
    let rows = PLAYBACK.window.rows();
    image[0] == 1 && behind < rows && generate::row(image, number as usize % rows)[0] == 1
}

/// Plays with a limit and compares with a playback of all.
fn part_of(trial: &mut Trial, recording: &[u8], limit: u64, memory: &PlayMemory, all: &Played) {
    let Ok(part) = trial.play(recording, limit, memory) else {
        trial.fail("a good recording is refused");
    };
    let messages = limit.min(all.messages);
    trial.check(part.messages == messages, "messages treated");
    let bundles = all.bundles.starts_with(&part.bundles);
    trial.check(bundles, "bundles that a greater limit does not give");
    let refused = all.refused.starts_with(&part.refused);
    trial.check(refused, "notes that a greater limit does not give");
    if limit > all.messages {
        trial.check(part == *all, "another playback of all");
    }
    if limit == 0 {
        trial.check(part.refused.is_empty(), "a frame is looked at");
        trial.check(part.pool == memory.pool, "the pool is written to");
    }
}

/// Recordings as full as they can be; most runs do nothing.
pub fn full_recordings(trial: &mut Trial) {
    if !trial.random.once_in(FULL_ONCE_IN) {
        return;
    }
    let frames = generate::full_frames(&mut trial.random);
    let recording = generate::recorded(&frames);
    write_again(trial, &recording, &generate::joined(&frames).0);
    let memory = PlayMemory::least(&mut trial.random);
    let Ok(all) = trial.play(&recording, u64::MAX, &memory) else {
        trial.fail("a good recording is refused");
    };
    let limit = trial.random.below(all.messages as usize + 1) as u64;
    part_of(trial, &recording, limit, &memory, &all);
}

/// A recording as full as it can be, played and taken by single calls.
pub fn full_by_single_calls(trial: &mut Trial) {
    let frames = generate::full_frames(&mut trial.random);
    let recording = generate::recorded(&frames);
    let mut memory = PlayMemory::least(&mut trial.random);
    as_single_calls(trial, &frames, &recording, &mut memory);
}

/// Every beginning of a recording; none but the whole is a recording.
pub fn every_beginning(trial: &mut Trial) {
    let frames = generate::small_frames(&mut trial.random, PLAYBACK);
    let recording = generate::recorded(&frames);
    let memory = PlayMemory::least(&mut trial.random);
    for length in 0..recording.len() {
        let refused = open_and_play(trial, &recording[..length], &memory);
        trial.check(refused == Some(16), "cut short");
    }
    let refused = open_and_play(trial, &recording, &memory);
    trial.check(refused.is_none(), "a good recording is refused");
}

/// A recording with every single bit flipped, which may also leave a recording.
pub fn every_bit(trial: &mut Trial) {
    let frames = generate::small_frames(&mut trial.random, PLAYBACK);
    let mut recording = generate::recorded(&frames);
    let memory = PlayMemory::least(&mut trial.random);
    for bit in 0..8 * recording.len() {
        recording[bit / 8] ^= 1 << (bit % 8);
        open_and_play(trial, &recording, &memory);
        recording[bit / 8] ^= 1 << (bit % 8);
    }
}

/// Playbacks with every limit up to one more than there are messages.
pub fn every_limit(trial: &mut Trial) {
    let frames = recorded_frames(trial);
    let recording = generate::recorded(&frames);
    let mut memory = PlayMemory::least(&mut trial.random);
    let all = as_single_calls(trial, &frames, &recording, &mut memory);
    for limit in 0..=all.messages + 1 {
        part_of(trial, &recording, limit, &memory, &all);
    }
}
