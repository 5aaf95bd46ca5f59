//! Counts of the cases that calls for recordings have reached.

use super::named;
use crate::compare::{PlayMemory, Played};
use crate::generate::message_count;
use crate::model::recording::Recording;
use crate::model::{Draft, Window};
use btpu::raw::{PLAYED_BUNDLES, RECORDED_FRAMES, RECORDED_OCTETS};

const RECORD_REFUSED: [&str; 7] = [
    "17 frames",
    "17 octets",
    "18 of 0",
    "18 above 2,048",
    "19 fewer octets",
    "19 more octets",
    "24",
];

/// The reader's refusals, each of 16 and 17 at its places.
const READER_REFUSED: [&str; 12] = [
    "16 first count",
    "16 lengths",
    "16 second count",
    "16 octets",
    "17 first count",
    "17 first count, cut short",
    "17 second count",
    "18 of 0",
    "18 above 2,048",
    "19 fewer octets",
    "19 more octets",
    "20",
];

/// What is wrong alone where a playback is refused for its memory.
const MEMORY_REFUSED: [&str; 5] = [
    "2 pool",
    "24 output",
    "24 lengths",
    "24 places",
    "24 reasons",
];

/// Pools that are refused since they are of another window than the playback's.
const SMALLER: [Window; 2] = [Window::Four, Window::Eight];

const NOTED: [u32; 4] = [4, 6, 7, 8];

const STOPS: [&str; 6] = [
    "limit 0",
    "inside a frame",
    "before a good frame",
    "before a refused frame",
    "at the end with the limit reached",
    "at the end below the limit",
];

const EXTREMES: [&str; 4] = [
    "1,024 frames",
    "61,440 octets",
    "15,360 bundles",
    "1,024 refused frames",
];

#[derive(Clone, Debug, Default, PartialEq, Eq)]
pub struct Recordings {
    /// Into an output of just their length, and into a longer one.
    pub written: [u64; 2],
    pub opened: u64,
    /// Playbacks that were compared with single receiving calls.
    pub taken_singly: u64,
    /// Bundles of such playbacks with pieces out of several frames.
    pub out_of_several_frames: u64,
    record_refused: [u64; RECORD_REFUSED.len()],
    open_refused: [u64; READER_REFUSED.len()],
    play_refused: [u64; READER_REFUSED.len()],
    memory_refused: [u64; MEMORY_REFUSED.len()],
    smaller_pools: [u64; SMALLER.len()],
    noted: [u64; NOTED.len()],
    stops: [u64; STOPS.len()],
    extremes: [u64; EXTREMES.len()],
}

impl Recordings {
    pub fn record_refused(&mut self, sizes: &[u16], octets: &[u8], number: u32) {
        let case = match number {
            17 => usize::from(sizes.len() <= RECORDED_FRAMES),
            18 => 2 + usize::from(first_bad(sizes.iter().copied()) != Some(0)),
            19 => 4 + usize::from(octets.len() > sum(sizes.iter().copied())),
            _ => 6,
        };
        self.record_refused[case] += 1;
    }

    pub fn open_refused(&mut self, recording: &[u8], number: u32) {
        self.open_refused[reader_case(recording, number)] += 1;
    }

    pub fn play_refused(&mut self, recording: &[u8], memory: &PlayMemory, number: u32) {
        let wrong = memory.wrong();
        for (count, window) in self.smaller_pools.iter_mut().zip(SMALLER) {
            *count += u64::from(number == 2 && memory.pool.len() == window.pool());
        }
        if (16..=20).contains(&number) {
            self.play_refused[reader_case(recording, number)] += 1;
        } else if wrong.iter().filter(|&&wrong| wrong).count() == 1 {
            for (count, wrong) in self.memory_refused.iter_mut().zip(wrong) {
                *count += u64::from(wrong);
            }
        }
    }

    pub fn played(&mut self, recording: &[u8], limit: u64, played: &Played) {
        let recording = Recording::read(recording).expect("it was played");
        for (count, number) in self.noted.iter_mut().zip(NOTED) {
            let noted = played.refused.iter().filter(|note| note.1 == number);
            *count += noted.count() as u64;
        }
        self.stops[stop(&recording, limit)] += 1;
        let reached = [
            recording.lengths().len() == RECORDED_FRAMES,
            recording.octets().len() == RECORDED_OCTETS,
            played.bundles.len() == PLAYED_BUNDLES,
            played.refused.len() == RECORDED_FRAMES,
        ];
        for (count, reached) in self.extremes.iter_mut().zip(reached) {
            *count += u64::from(reached);
        }
    }

    /// Every count of a case with its name.
    pub fn cases(&self) -> Vec<(String, u64)> {
        let noted = NOTED.map(|number| number.to_string());
        let noted = noted.each_ref().map(String::as_str);
        let pools = ["of window 4", "of window 8"];
        let written = ["output just long enough", "longer output"];
        let played = ["as single calls", "bundle out of several frames"];
        let counts = [self.taken_singly, self.out_of_several_frames];
        [
            named("recorded", &written, &self.written),
            named("record refused", &RECORD_REFUSED, &self.record_refused),
            named("recording", &["opened"], &[self.opened]),
            named("open refused", &READER_REFUSED, &self.open_refused),
            named("play refused", &READER_REFUSED, &self.play_refused),
            named("play refused", &MEMORY_REFUSED, &self.memory_refused),
            named("play refused, pool", &pools, &self.smaller_pools),
            named("noted", &noted, &self.noted),
            named("playback stopped", &STOPS, &self.stops),
            named("played", &played, &counts),
        ]
        .concat()
    }

    /// The cases that cost time, and so are reached less often.
    pub fn extremes(&self) -> Vec<(String, u64)> {
        named("played", &EXTREMES, &self.extremes)
    }
}

fn first_bad(mut sizes: impl Iterator<Item = u16>) -> Option<u16> {
    sizes.find(|size| !(1..=2048).contains(size))
}

fn sum(sizes: impl Iterator<Item = u16>) -> usize {
    sizes.map(usize::from).sum()
}

/// The place in the list of the reader's refusals.
fn reader_case(recording: &[u8], number: u32) -> usize {
    let count = |at: usize| {
        let octets = recording.get(at..at + 4)?;
        Some(u32::from_be_bytes(octets.try_into().ok()?) as usize)
    };
    let Some(frames) = count(0) else {
        return 0;
    };
    if frames > RECORDED_FRAMES {
        return 4 + usize::from(recording.len() < 8 + 2 * frames);
    }
    let Some(lengths) = recording.get(4..4 + 2 * frames) else {
        return 1;
    };
    let Some(octets) = count(4 + 2 * frames) else {
        return 2;
    };
    let (pairs, _) = lengths.as_chunks();
    let sizes = pairs.iter().map(|&pair| u16::from_be_bytes(pair));
    match number {
        16 => 3,
        17 => 6,
        18 => 7 + usize::from(first_bad(sizes) != Some(0)),
        19 => 9 + usize::from(octets > sum(sizes)),
        _ => 11,
    }
}

/// Where a playback with this limit stops, as a place in the list of stops.
fn stop(recording: &Recording, limit: u64) -> usize {
    if limit == 0 {
        return 0;
    }
    let mut left = limit;
    let mut counts = recording
        .frames()
        .map(|frame| message_count(Draft::D02, frame));
    while let Some(count) = counts.next() {
        let Some(count) = count else {
            continue;
        };
        if count > left {
            return 1;
        }
        left -= count;
        if left == 0 {
            return match counts.next() {
                Some(Some(_)) => 2,
                Some(None) => 3,
                None => 4,
            };
        }
    }
    5
}
