//! Bursts on both sides at once.

use super::recording::{shorts, words, Both};
use super::{Lent, ReceiverPair, Trial};
use crate::model::interface;
use btpu::raw::{self, BurstBundles, BurstNotes, BURST_BUNDLES, BURST_FRAMES, BURST_RESULT};

/// What a burst is given: frames, where it starts, and the length of an output.
#[derive(Clone, Copy, Debug)]
pub struct Burst<'a> {
    pub sizes: &'a [u16],
    pub octets: &'a [u8],
    pub from: (u64, u64),
    /// Another pool of this length in place of the carried one.
    pub other_pool: Option<usize>,
    pub output: usize,
}

/// What came out of a burst.
#[derive(Clone, Debug, PartialEq, Eq)]
pub struct Taken {
    /// Numbers and octets.
    pub bundles: Vec<(u64, Vec<u8>)>,
    /// The place of each refused frame and its refusal's number.
    pub refused: Vec<(u32, u32)>,
    /// Where the next call goes on.
    pub next: (u64, u64),
}

/// The memory of one burst on both sides, besides image and pool.
struct Bursting {
    sizes: Lent<u16>,
    octets: Lent,
    output: Both<u8>,
    lengths: Both<u16>,
    numbers: Both<u64>,
    places: Both<u32>,
    reasons: Both<u32>,
}

/// A list as an array of this length.
fn array<T, const LENGTH: usize>(list: &mut [T]) -> &mut [T; LENGTH] {
    list.try_into().expect("the array's length")
}

impl Bursting {
    fn new(trial: &mut Trial, burst: &Burst) -> Bursting {
        let random = &mut trial.random;
        Bursting {
            sizes: Lent::new(burst.sizes),
            octets: Lent::new(burst.octets),
            output: Both::new(random.octets(burst.output)),
            lengths: Both::new(shorts(random, BURST_BUNDLES)),
            numbers: Both::new((0..BURST_BUNDLES).map(|_| random.draw()).collect()),
            places: Both::new(words(random, BURST_FRAMES)),
            reasons: Both::new(words(random, BURST_FRAMES)),
        }
    }

    fn model(&mut self) -> (BurstBundles<'_>, BurstNotes<'_>) {
        let bundles = (
            &mut self.output.model[..],
            array(&mut self.lengths.model),
            array(&mut self.numbers.model),
        );
        let notes = (
            array(&mut self.places.model),
            array(&mut self.reasons.model),
        );
        (bundles, notes)
    }

    fn exported(&mut self) -> ((&[u16], &[u8]), BurstBundles<'_>, BurstNotes<'_>) {
        let frames = (self.sizes.get(), self.octets.get());
        let bundles = (
            self.output.exported.lend(),
            self.lengths.exported.array(),
            self.numbers.exported.array(),
        );
        let notes = (self.places.exported.array(), self.reasons.exported.array());
        (frames, bundles, notes)
    }

    /// Checks the memory after a call that wrote so many entries to the front of each list.
    fn check(&self, trial: &Trial, burst: &Burst, [bundles, octets, refused]: [usize; 3]) {
        trial.untouched(burst.sizes, &self.sizes, "sizes");
        trial.untouched(burst.octets, &self.octets, "octets");
        self.output.check(trial, octets, "output");
        self.lengths.check(trial, bundles, "lengths");
        self.numbers.check(trial, bundles, "numbers");
        self.places.check(trial, refused, "places");
        self.reasons.check(trial, refused, "reasons");
    }

    fn taken(self, trial: &Trial, result: [u64; BURST_RESULT]) -> Taken {
        let [count, octets, frame, place, refused] = result;
        let mut rest = &self.output.model[..octets as usize];
        let mut bundles = Vec::with_capacity(count as usize);
        let listed = self.lengths.model.iter().zip(self.numbers.model);
        for (&length, number) in listed.take(count as usize) {
            let Some((bundle, behind)) = rest.split_at_checked(length.into()) else {
                trial.fail("lengths beyond the octets");
            };
            bundles.push((number, bundle.to_vec()));
            rest = behind;
        }
        trial.check(rest.is_empty(), "octets of no bundle");
        let notes = self.places.model.into_iter().zip(self.reasons.model);
        Taken {
            bundles,
            refused: notes.take(refused as usize).collect(),
            next: (frame, place),
        }
    }
}

impl ReceiverPair {
    /// A burst; the answer is what came out or the refusal.
    pub fn receive_burst(&mut self, trial: &mut Trial, burst: Burst) -> Result<Taken, u32> {
        trial.calls += 1;
        trial.coverage.burst_calls += 1;
        let (draft, settings) = (self.draft(), self.settings());
        let lent = [(); BURST_RESULT].map(|_| trial.random.draw());
        let mut memory = Bursting::new(trial, &burst);
        let [model, exported] = self.call_burst(trial, &burst, &mut memory, lent);
        let number = trial.same_answer(draft, model, exported);
        self.after_burst(trial, number);
        trial.check(self.settings() == settings, "another draft or window");
        let result = model.1;
        if number != 0 {
            trial.check(result == lent, "result of a refused call");
            memory.check(trial, &burst, [0; 3]);
            if let (2, Some(length), Some(settings)) = (number, burst.other_pool, settings) {
                let cases = trial.coverage.of_mut(settings.draft);
                let cases = cases.of_mut(settings.window);
                cases.refused_pool(length, true);
            }
            return Err(number);
        }
        let [count, octets, frame, _, refused] = result.map(|entry| entry as usize);
        memory.check(trial, &burst, [count, octets, refused]);
        let taken = memory.taken(trial, result);
        if let Some(settings) = settings {
            let cases = trial.coverage.of_mut(settings.draft);
            cases.taken(&taken, frame < burst.sizes.len());
            cases.of_mut(settings.window).bursts += 1;
        }
        Ok(taken)
    }

    /// The call on both sides, with what was returned and left in the result.
    fn call_burst(
        &mut self,
        trial: &mut Trial,
        burst: &Burst,
        memory: &mut Bursting,
        lent: [u64; BURST_RESULT],
    ) -> [(u32, [u64; BURST_RESULT]); 2] {
        let (mut result, mut exported_result) = (lent, lent);
        let other = burst.other_pool;
        let mut other = other.map(|length| Both::new(trial.random.octets(length)));
        let (bundles, notes) = memory.model();
        let returned = interface::receive_burst(
            &mut self.image,
            other
                .as_mut()
                .map_or(&mut self.pool, |pool| &mut pool.model),
            (burst.sizes, burst.octets),
            burst.from,
            bundles,
            notes,
            &mut result,
        );
        let pool = other.as_mut().map(|pool| &mut pool.exported);
        let (frames, bundles, notes) = memory.exported();
        let exported = raw::receive_burst(
            self.exported_image.array(),
            pool.unwrap_or(&mut self.exported_pool).lend(),
            frames,
            burst.from,
            bundles,
            notes,
            &mut exported_result,
        );
        if let Some(pool) = other {
            let carried_out = returned == 0;
            let written = if carried_out { pool.model.len() } else { 0 };
            pool.check(trial, written, "other pool");
        }
        [(returned, result), (exported, exported_result)]
    }

    /// Compares image and pool, which stay where the call was refused.
    fn after_burst(&mut self, trial: &mut Trial, number: u32) {
        self.same_image(trial);
        trial.same(&self.pool, self.exported_pool.get(), "pool");
        trial.check(self.exported_pool.guards_stay(), "written past the pool");
        trial.check((number == 1) != self.sound, "refusal 1 against the check");
        if number != 0 {
            trial.same(&self.image, &self.image_before, "state of a refused call");
            trial.same(&self.pool, &self.pool_before, "pool of a refused call");
            return;
        }
        self.image_before = self.image;
        self.pool_before.copy_from_slice(&self.pool);
        self.check(trial);
        trial.check(self.sound, "the state left is not sound");
    }
}
