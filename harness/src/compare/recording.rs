//! Recordings written, opened and played on both sides at once.

use super::{Lent, Trial};
use crate::model::{interface, Draft, Window};
use crate::random::Random;
use btpu::raw::{self, PLAYED_BUNDLES, RECORDED_FRAMES, RECORDED_OCTETS};

/// Octets of a playback's pool.
pub const PLAY_POOL: usize = Window::PLAYBACK.pool();

/// A list lent to both sides, and what it held before.
pub(super) struct Both<T> {
    before: Vec<T>,
    pub(super) model: Vec<T>,
    pub(super) exported: Lent<T>,
}

impl<T: Copy + PartialEq + From<u8>> Both<T> {
    pub(super) fn new(before: Vec<T>) -> Both<T> {
        Both {
            model: before.clone(),
            exported: Lent::new(&before),
            before,
        }
    }

    /// Checks that the sides agree and that all entries behind those written stay.
    #[track_caller]
    pub(super) fn check(&self, trial: &Trial, written: usize, what: &str) {
        trial.same(&self.model, self.exported.get(), what);
        trial.check(self.exported.guards_stay(), "written past what was lent");
        if self.model[written..] != self.before[written..] {
            trial.fail(&format!("{what} changed from {written} on"));
        }
    }
}

pub(super) fn shorts(random: &mut Random, count: usize) -> Vec<u16> {
    (0..count).map(|_| random.draw() as u16).collect()
}

pub(super) fn words(random: &mut Random, count: usize) -> Vec<u32> {
    (0..count).map(|_| random.word()).collect()
}

/// What an opened recording was found to hold.
#[derive(Clone, Debug, PartialEq, Eq)]
pub struct Opened {
    pub sizes: Vec<u16>,
    /// Where the octets start in the recording, and how many they are.
    pub start: usize,
    pub octets: usize,
}

/// What is lent to a playback: a pool, and the lengths of the rest.
#[derive(Clone, Debug)]
pub struct PlayMemory {
    pub pool: Vec<u8>,
    pub output: usize,
    pub lengths: usize,
    pub places: usize,
    pub reasons: usize,
}

impl PlayMemory {
    /// Just enough.
    pub fn least(random: &mut Random) -> PlayMemory {
        PlayMemory {
            pool: random.octets(PLAY_POOL),
            output: RECORDED_OCTETS,
            lengths: PLAYED_BUNDLES,
            places: RECORDED_FRAMES,
            reasons: RECORDED_FRAMES,
        }
    }

    /// What is not as it must be: pool, output, lengths, places, reasons.
    pub fn wrong(&self) -> [bool; 5] {
        [
            self.pool.len() != PLAY_POOL,
            self.output < RECORDED_OCTETS,
            self.lengths < PLAYED_BUNDLES,
            self.places < RECORDED_FRAMES,
            self.reasons < RECORDED_FRAMES,
        ]
    }
}

/// What came out of a playback.
#[derive(Clone, Debug, PartialEq, Eq)]
pub struct Played {
    pub messages: u64,
    pub bundles: Vec<Vec<u8>>,
    /// The place of each refused frame and its refusal's number.
    pub refused: Vec<(u32, u32)>,
    pub pool: Vec<u8>,
}

/// The memory of one playback on both sides.
struct Playing {
    recording: Lent,
    pool: Both<u8>,
    output: Both<u8>,
    lengths: Both<u16>,
    places: Both<u32>,
    reasons: Both<u32>,
}

impl Playing {
    fn new(trial: &mut Trial, recording: &[u8], memory: &PlayMemory) -> Playing {
        let random = &mut trial.random;
        Playing {
            recording: Lent::new(recording),
            pool: Both::new(memory.pool.clone()),
            output: Both::new(random.octets(memory.output)),
            lengths: Both::new(shorts(random, memory.lengths)),
            places: Both::new(words(random, memory.places)),
            reasons: Both::new(words(random, memory.reasons)),
        }
    }

    fn model(
        &mut self,
        trial: &mut Trial,
        recording: &[u8],
        limit: u64,
        result: &mut [u64; 4],
    ) -> u32 {
        interface::play(
            recording,
            limit,
            &mut self.pool.model,
            (&mut self.output.model, &mut self.lengths.model),
            (&mut self.places.model, &mut self.reasons.model),
            result,
            trial.coverage.of_mut(Draft::D02),
        )
    }

    fn exported(&mut self, limit: u64, result: &mut [u64; 4]) -> u32 {
        raw::play(
            self.recording.get(),
            limit,
            self.pool.exported.lend(),
            (self.output.exported.lend(), self.lengths.exported.lend()),
            (self.places.exported.lend(), self.reasons.exported.lend()),
            result,
        )
    }

    /// Checks the memory after a call that wrote so many entries to the front of each list.
    fn check(&self, trial: &Trial, [pool, bundles, octets, refused]: [usize; 4]) {
        self.pool.check(trial, pool, "pool");
        self.output.check(trial, octets, "output");
        self.lengths.check(trial, bundles, "lengths");
        self.places.check(trial, refused, "places");
        self.reasons.check(trial, refused, "reasons");
    }

    fn played(self, trial: &Trial, [messages, bundles, octets, refused]: [u64; 4]) -> Played {
        let mut rest = &self.output.model[..octets as usize];
        let mut cut = Vec::with_capacity(bundles as usize);
        for &length in &self.lengths.model[..bundles as usize] {
            let Some((bundle, behind)) = rest.split_at_checked(length.into()) else {
                trial.fail("lengths beyond the octets");
            };
            cut.push(bundle.to_vec());
            rest = behind;
        }
        trial.check(rest.is_empty(), "octets of no bundle");
        let notes = self.places.model.into_iter().zip(self.reasons.model);
        Played {
            messages,
            bundles: cut,
            refused: notes.take(refused as usize).collect(),
            pool: self.pool.model,
        }
    }
}

impl Trial<'_> {
    /// Writes a recording into an output of this length; the answer is the recording or the refusal.
    pub fn record(&mut self, sizes: &[u16], octets: &[u8], output: usize) -> Result<Vec<u8>, u32> {
        let lent = self.begin_call();
        self.coverage.recording_calls += 1;
        let mut output = Both::new(self.random.octets(output));
        let lent_sizes = Lent::new(sizes);
        let lent_octets = Lent::new(octets);
        let (mut result, mut exported_result) = (lent, lent);
        let returned = interface::record(sizes, octets, &mut output.model, &mut result);
        let exported = raw::record(
            lent_sizes.get(),
            lent_octets.get(),
            output.exported.lend(),
            &mut exported_result,
        );
        let number = self.same_answer(None, (returned, result), (exported, exported_result));
        self.untouched(sizes, &lent_sizes, "sizes");
        self.untouched(octets, &lent_octets, "octets");
        if number != 0 {
            self.check(result == lent, "result of a refused call");
            output.check(self, 0, "output");
            let recordings = &mut self.coverage.recordings;
            recordings.record_refused(sizes, octets, number);
            return Err(number);
        }
        self.check(result[1..] == lent[1..], "result without meaning");
        let written = result[0] as usize;
        self.check(written <= output.model.len(), "written past the output");
        output.check(self, written, "output");
        let longer = written < output.model.len();
        self.coverage.recordings.written[usize::from(longer)] += 1;
        output.model.truncate(written);
        Ok(output.model)
    }

    /// Opens a recording; the answer is what it holds or the refusal.
    pub fn open(&mut self, recording: &[u8]) -> Result<Opened, u32> {
        let lent = self.begin_call();
        self.coverage.recording_calls += 1;
        let mut sizes = Both::new(shorts(&mut self.random, RECORDED_FRAMES));
        let lent_recording = Lent::new(recording);
        let (mut result, mut exported_result) = (lent, lent);
        let model = sizes.model.as_mut_slice().try_into();
        let model: &mut [u16; RECORDED_FRAMES] = model.expect("as many as frames at most");
        let returned = interface::recording_open(recording, model, &mut result);
        let exported = raw::recording_open(
            lent_recording.get(),
            sizes.exported.array(),
            &mut exported_result,
        );
        let number = self.same_answer(None, (returned, result), (exported, exported_result));
        self.untouched(recording, &lent_recording, "recording");
        if number != 0 {
            self.check(result == lent, "result of a refused call");
            sizes.check(self, 0, "sizes");
            self.coverage.recordings.open_refused(recording, number);
            return Err(number);
        }
        self.check(result[3] == lent[3], "result without meaning");
        sizes.check(self, RECORDED_FRAMES, "sizes");
        let [frames, octets, start, _] = result.map(|entry| entry as usize);
        self.check(frames <= RECORDED_FRAMES, "more frames than there may be");
        let (sizes, zeros) = sizes.model.split_at(frames);
        self.check(zeros.iter().all(|&entry| entry == 0), "sizes of no frame");
        self.check(start + octets == recording.len(), "where the octets are");
        self.coverage.recordings.opened += 1;
        Ok(Opened {
            sizes: sizes.to_vec(),
            start,
            octets,
        })
    }

    /// Plays a recording with this memory; the answer is what came out or the refusal.
    pub fn play(
        &mut self,
        recording: &[u8],
        limit: u64,
        memory: &PlayMemory,
    ) -> Result<Played, u32> {
        let lent = self.begin_call();
        self.coverage.recording_calls += 1;
        let mut playing = Playing::new(self, recording, memory);
        let (mut result, mut exported_result) = (lent, lent);
        let returned = playing.model(self, recording, limit, &mut result);
        let exported = playing.exported(limit, &mut exported_result);
        let number = self.same_answer(None, (returned, result), (exported, exported_result));
        self.untouched(recording, &playing.recording, "recording");
        if number != 0 {
            self.check(result == lent, "result of a refused call");
            playing.check(self, [0; 4]);
            let recordings = &mut self.coverage.recordings;
            recordings.play_refused(recording, memory, number);
            return Err(number);
        }
        let [_, bundles, octets, refused] = result.map(|entry| entry as usize);
        self.check(result[0] <= limit, "more messages than the limit");
        self.check(bundles <= PLAYED_BUNDLES, "more bundles than there may be");
        self.check(octets <= RECORDED_OCTETS, "more octets than there may be");
        self.check(refused <= RECORDED_FRAMES, "more notes than there may be");
        playing.check(self, [PLAY_POOL, bundles, octets, refused]);
        let played = playing.played(self, result);
        self.coverage.recordings.played(recording, limit, &played);
        Ok(played)
    }
}
