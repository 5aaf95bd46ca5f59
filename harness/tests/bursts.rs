//! Bursts: the exported call against the model, and against single calls, in both drafts and every window.

use btpu::raw::{BURST_BUNDLES, BURST_FRAMES, BURST_RESULT, MAX_FRAME, MIN_OUTPUT, RECEIVER_IMAGE};
use harness::baseline::natural;
use harness::board::HandedOut;
use harness::generate::{self, BUNDLE, RECEIVER_DAMAGE};
use harness::model::receiver::State;
use harness::model::{Draft, Settings, Window};
use harness::random::Random;
use harness::side::{Exported, Model, Side};

const SEED: u64 = 256;
const ROUNDS: u64 = 3_000;
const FLOOR: u64 = 100;

/// Calls for one list at most, where a call is compared with the model.
const CALLS: u64 = 8;

/// Octets behind the output that are not lent.
const GUARD: usize = 64;

/// Lengths and joined octets of frames, and the frame and place to start from.
struct Call<'a> {
    sizes: &'a [u16],
    octets: &'a [u8],
    from: (u64, u64),
}

/// All that may be written to.
#[derive(Clone)]
struct Memory {
    image: [u8; RECEIVER_IMAGE],
    pool: Vec<u8>,
    output: Vec<u8>,
    lengths: [u16; BURST_BUNDLES],
    numbers: [u64; BURST_BUNDLES],
    places: [u32; BURST_FRAMES],
    reasons: [u32; BURST_FRAMES],
    result: [u64; BURST_RESULT],
}

impl Memory {
    /// A state with a pool and an output of these lengths; all else holds anything.
    fn new(random: &mut Random, image: [u8; RECEIVER_IMAGE], pool: usize, output: usize) -> Memory {
        Memory {
            image,
            pool: random.octets(pool),
            output: random.octets(output + GUARD),
            lengths: [(); BURST_BUNDLES].map(|_| random.draw() as u16),
            numbers: [(); BURST_BUNDLES].map(|_| random.draw()),
            places: [(); BURST_FRAMES].map(|_| random.word()),
            reasons: [(); BURST_FRAMES].map(|_| random.word()),
            result: [(); BURST_RESULT].map(|_| random.draw()),
        }
    }

    fn fresh(random: &mut Random, settings: Settings, output: usize) -> Memory {
        let image = generate::fresh_receiver(settings);
        Memory::new(random, image, settings.window.pool(), output)
    }

    fn room(&self) -> usize {
        self.output.len() - GUARD
    }

    fn call<S: Side>(&mut self, call: &Call) -> u32 {
        let room = self.room();
        S::receive_burst(
            &mut self.image,
            &mut self.pool,
            (call.sizes, call.octets),
            call.from,
            (
                &mut self.output[..room],
                &mut self.lengths,
                &mut self.numbers,
            ),
            (&mut self.places, &mut self.reasons),
            &mut self.result,
        )
    }

    /// What differs from another memory behind so many entries of output, bundles and notes.
    fn difference(&self, other: &Memory, from: [usize; 3]) -> Option<&'static str> {
        let [octets, bundles, refused] = from;
        let same = [
            (self.output[octets..] == other.output[octets..], "output"),
            (
                self.lengths[bundles..] == other.lengths[bundles..],
                "lengths",
            ),
            (
                self.numbers[bundles..] == other.numbers[bundles..],
                "numbers",
            ),
            (self.places[refused..] == other.places[refused..], "places"),
            (
                self.reasons[refused..] == other.reasons[refused..],
                "reasons",
            ),
        ];
        same.iter().find(|(same, _)| !same).map(|(_, name)| *name)
    }

    #[track_caller]
    fn check_same(&self, other: &Memory) {
        assert_eq!(self.result, other.result);
        assert!(self.image == other.image, "image");
        assert!(self.pool == other.pool, "pool");
        assert_eq!(self.difference(other, [0; 3]), None);
    }

    /// The bundles with their numbers, and the notes, that a call left.
    fn handed_out(&self) -> HandedOut {
        let [count, octets, _, _, refused] = self.result.map(|entry| entry as usize);
        let mut rest = &self.output[..octets];
        let mut bundles = Vec::new();
        for (&length, &number) in self.lengths.iter().zip(&self.numbers).take(count) {
            let (bundle, behind) = rest.split_at(length.into());
            bundles.push((number, bundle.to_vec()));
            rest = behind;
        }
        assert!(rest.is_empty(), "octets of no bundle");
        let notes = self.places.into_iter().zip(self.reasons);
        (bundles, notes.take(refused).collect())
    }
}

/// What was reached.
#[derive(Default)]
struct Tally {
    calls: u64,
    /// By number; entry 0 counts calls that were carried out.
    refused: [u64; 20],
    noted: [u64; 9],
    /// Stops with all bundles out, with too little output, before the front of a frame and inside.
    full: u64,
    short: u64,
    at_front: u64,
    inside: u64,
}

impl Tally {
    /// The call on both sides, with all that is lent compared; the answer is the refusal's number or 0.
    #[track_caller]
    fn call(&mut self, memory: &mut Memory, call: &Call) -> u32 {
        let before = memory.clone();
        let mut exported = memory.clone();
        let returned = memory.call::<Model>(call);
        assert_eq!(exported.call::<Exported>(call), returned);
        memory.check_same(&exported);
        self.calls += 1;
        self.refused[returned as usize] += 1;
        if returned == 0 {
            self.carried_out(memory, &before, call.sizes.len());
        } else {
            memory.check_same(&before);
        }
        returned
    }

    #[track_caller]
    fn carried_out(&mut self, memory: &Memory, before: &Memory, frames: usize) {
        assert_eq!(Exported::receiver_check(&memory.image), 0);
        let [count, octets, frame, place, refused] = memory.result.map(|entry| entry as usize);
        let stays = memory.difference(before, [octets, count, refused]);
        assert_eq!(stays, None, "changed behind what was written");
        for &reason in &memory.reasons[..refused] {
            self.noted[reason as usize] += 1;
        }
        if frame == frames {
            assert_eq!(place, 0, "place at the number of frames");
            return;
        }
        let full = count == BURST_BUNDLES;
        let short = memory.room() - octets < MIN_OUTPUT;
        assert!(frame < frames && (full || short), "a stop without need");
        self.full += u64::from(full);
        self.short += u64::from(short);
        self.at_front += u64::from(place == 0);
        self.inside += u64::from(place != 0);
    }

    fn check_all_reached(&self, settings: Settings) {
        println!(
            "{settings}: {} calls, refused {:?}, noted {:?}, stops: {} full, {} short, {} at a front, {} inside",
            self.calls, self.refused, self.noted, self.full, self.short, self.at_front, self.inside
        );
        for number in [0, 1, 2, 3, 19, 9] {
            assert!(
                self.refused[number] >= FLOOR,
                "{settings}: refusal {number}"
            );
        }
        for number in [3, 4, 6, 8] {
            assert!(self.noted[number] >= FLOOR, "{settings}: noted {number}");
        }
        assert_eq!(self.noted[5], 0);
        match settings.draft {
            Draft::D00 => assert_eq!(self.noted[7], 0),
            Draft::D02 => assert!(self.noted[7] >= FLOOR, "noted 7"),
        }
        for stops in [self.full, self.short, self.at_front, self.inside] {
            assert!(stops >= FLOOR, "stops");
        }
    }
}

/// As many messages with bundles of this length as a frame has room for.
fn dense_frame(random: &mut Random, length: usize) -> Vec<u8> {
    let message = generate::message(BUNDLE, &[], &random.octets(length));
    message.repeat(MAX_FRAME / message.len())
}

fn any_frame(random: &mut Random, settings: Settings, greatest: Option<u32>) -> Vec<u8> {
    let Settings { draft, window } = settings;
    match random.below(16) {
        0 => generate::random_frame(random),
        1 => vec![random.pick(&[0, 2]); random.pick(&[0, 1, 2048, 2049])],
        2..=4 => {
            let length = random.pick(&[0, 0, 1, 20, 500, 2044]);
            dense_frame(random, length)
        }
        5..=6 => {
            let mut frame = generate::hostile_frame(random, settings, greatest);
            generate::damage_frame(random, draft, &mut frame);
            frame
        }
        7 => {
            let other = Settings::new(draft.other(), window);
            generate::hostile_frame(random, other, greatest)
        }
        _ => generate::hostile_frame(random, settings, greatest),
    }
}

/// Up to 66 frames, most of them for boards of these settings.
fn any_frames(random: &mut Random, settings: Settings, greatest: Option<u32>) -> Vec<Vec<u8>> {
    if random.once_in(3) {
        let mut frames = generate::recorded_frames(random, settings);
        frames.truncate(BURST_FRAMES + 2);
        return frames;
    }
    let most = random.pick(&[0, 3, 10, 66]);
    let few = random.below(most + 1);
    let count = random.pick(&[64, 65, few, few, few]);
    let frames = (0..count).map(|_| any_frame(random, settings, greatest));
    let mut frames: Vec<_> = frames.collect();
    if count > 0 && random.once_in(12) {
        let longest = vec![2; usize::from(u16::MAX)];
        frames[random.below(count)] = longest;
    }
    frames
}

/// A frame and a place in it, or neither.
fn any_start(random: &mut Random, draft: Draft, frames: &[Vec<u8>]) -> (u64, u64) {
    let count = frames.len() as u64;
    let far = random.pick(&[1, 2, 1 << 32, u64::MAX]);
    match random.below(10) {
        0 => return (count, random.pick(&[0, far])),
        1 => return (random.pick(&[count + 1, far.saturating_add(count)]), 0),
        2..=4 => return (0, 0),
        _ => {}
    }
    if frames.is_empty() {
        return (0, 0);
    }
    let frame = random.below(frames.len());
    let good = generate::good_places(draft, &frames[frame]);
    let good = good[random.below(good.len())];
    let length = frames[frame].len();
    let any = random.below(length + 3) as u64;
    let place = random.pick(&[0, good, good, good, length as u64, any, far]);
    (frame as u64, place)
}

fn any_memory(random: &mut Random, settings: Settings) -> Memory {
    let image = match random.below(12) {
        0 => {
            let damage = random.below(RECEIVER_DAMAGE.len());
            generate::unsound_receiver(random, settings, damage)
        }
        1..=5 => generate::sound_receiver(random, settings),
        _ => generate::fresh_receiver(settings),
    };
    let right = settings.window.pool();
    let others = Window::ALL.map(Window::pool);
    let others = others.into_iter().filter(|&pool| pool != right);
    let pool = match random.below(16) {
        0 => random.pick(&[0, 1, right - 1, right + 1]),
        1 => random.pick(&others.collect::<Vec<_>>()),
        _ => right,
    };
    let outputs = [4096, 4096, 4097, 8192, 8192, 12_000, 40_000, 300_000];
    let output = match random.below(16) {
        0 => random.pick(&[0, 1, 4095]),
        _ => random.pick(&outputs),
    };
    Memory::new(random, image, pool, output)
}

/// Makes the octets another number than the sum of the lengths, at times by 2^16.
fn spoil_sum(random: &mut Random, octets: &mut Vec<u8>) {
    match random.below(3) {
        0 => octets.push(0),
        1 if octets.len() >= 1 << 16 => octets.truncate(octets.len() - (1 << 16)),
        _ if octets.is_empty() => octets.push(2),
        _ => octets.truncate(octets.len() - 1),
    }
}

/// Takes frames from a start on, by some calls, unless the first is refused.
fn take(tally: &mut Tally, memory: &mut Memory, sizes: &[u16], octets: &[u8], from: (u64, u64)) {
    let mut call = Call {
        sizes,
        octets,
        from,
    };
    for _ in 0..CALLS {
        if tally.call(memory, &call) != 0 || memory.result[2] == sizes.len() as u64 {
            break;
        }
        call.from = (memory.result[2], memory.result[3]);
    }
}

#[test]
fn random_bursts() {
    for settings in Settings::all() {
        let mut tally = Tally::default();
        for round in 0..ROUNDS {
            random_lists(&mut tally, settings, &mut Random::new(SEED + round));
        }
        tally.check_all_reached(settings);
    }
}

fn random_lists(tally: &mut Tally, settings: Settings, random: &mut Random) {
    let mut memory = any_memory(random, settings);
    for _ in 0..random.within(1, 3) {
        let greatest = Some(u32::from_be_bytes(
            [0, 1, 2, 3].map(|at| memory.image[4 + at]),
        ));
        let frames = any_frames(random, settings, greatest);
        let (sizes, mut octets) = generate::joined(&frames);
        if random.once_in(16) {
            spoil_sum(random, &mut octets);
        }
        let from = any_start(random, settings.draft, &frames);
        take(tally, &mut memory, &sizes, &octets, from);
    }
}

/// What comes of frames taken from a start on.
#[derive(Debug, PartialEq)]
struct Outcome {
    bundles: Vec<(u64, Vec<u8>)>,
    refused: Vec<(u32, u32)>,
    image: Vec<u8>,
    pool: Vec<u8>,
}

/// By calls that go on until all frames are taken.
fn by_bursts(
    start: &Memory,
    frames: &[Vec<u8>],
    from: (u64, u64),
    mut one: impl FnMut(&mut Memory, &Call) -> u32,
) -> Outcome {
    let (sizes, octets) = generate::joined(frames);
    let mut memory = start.clone();
    let (mut bundles, mut refused) = (Vec::new(), Vec::new());
    let mut call = Call {
        sizes: &sizes,
        octets: &octets,
        from,
    };
    loop {
        assert_eq!(one(&mut memory, &call), 0);
        let handed_out = memory.handed_out();
        bundles.extend(handed_out.0);
        refused.extend(handed_out.1);
        let next = (memory.result[2], memory.result[3]);
        if next.0 == sizes.len() as u64 {
            break;
        }
        assert!(next > call.from, "a call that does not go on");
        call.from = next;
    }
    Outcome {
        bundles,
        refused,
        image: memory.image.to_vec(),
        pool: memory.pool,
    }
}

/// A receiver that the speed of bursts is measured against; its state and pool are its own. It knows draft
/// 02 alone.
fn natural(start: &Memory) -> Option<natural::Receiver> {
    let state = State::decode(&start.image).expect("a sound state");
    let known = state.settings.draft == Draft::D02;
    known.then(|| natural::Receiver::restored(&state, &start.pool))
}

fn natural_call(receiver: &mut natural::Receiver, memory: &mut Memory, call: &Call) -> u32 {
    let room = memory.room();
    let (lengths, numbers) = (&mut memory.lengths, &mut memory.numbers);
    let taken = receiver.receive_burst(
        (call.sizes, call.octets),
        (call.from.0 as usize, call.from.1 as usize),
        (&mut memory.output[..room], lengths, numbers),
        (&mut memory.places, &mut memory.reasons),
    );
    match taken {
        Ok(taken) => {
            let (frame, place) = taken.next;
            let entries = [taken.bundles, taken.octets, frame, place, taken.refused];
            memory.result = entries.map(|entry| entry as u64);
            0
        }
        Err(refusal) => refusal.returned(),
    }
}

fn by_single_calls<S: Side>(start: &Memory, frames: &[Vec<u8>], from: (u64, u64)) -> Outcome {
    let mut memory = start.clone();
    let mut output = [0; MIN_OUTPUT];
    let (mut bundles, mut refused) = (Vec::new(), Vec::new());
    let (first, mut place) = from;
    for (number, frame) in frames.iter().enumerate().skip(first as usize) {
        loop {
            let mut result = [0; 4];
            let (image, pool) = (&mut memory.image, &mut memory.pool);
            let returned = S::receive(image, pool, frame, place, &mut output, &mut result);
            if returned != 0 {
                refused.push((number as u32, returned & 0xff));
            }
            if returned != 0 || result[0] == 0 {
                break;
            }
            bundles.push((result[3], output[..result[1] as usize].to_vec()));
            place = result[2];
        }
        place = 0;
    }
    Outcome {
        bundles,
        refused,
        image: memory.image.to_vec(),
        pool: memory.pool,
    }
}

#[track_caller]
fn check_outcomes(start: &Memory, frames: &[Vec<u8>], from: (u64, u64)) -> Outcome {
    let expected = by_single_calls::<Exported>(start, frames, from);
    assert!(by_bursts(start, frames, from, Memory::call::<Exported>) == expected);
    assert!(by_bursts(start, frames, from, Memory::call::<Model>) == expected);
    if let Some(mut receiver) = natural(start) {
        let call = |memory: &mut Memory, call: &Call| natural_call(&mut receiver, memory, call);
        let found = by_bursts(start, frames, from, call);
        assert!(found.bundles == expected.bundles && found.refused == expected.refused);
    }
    expected
}

/// Any frames, and in draft 02 the same with other reserved bits.
#[test]
fn the_same_as_single_calls() {
    for settings in Settings::all() {
        let mut bundles = 0;
        for round in 0..ROUNDS / 16 {
            let random = &mut Random::new(SEED + round);
            let image = match random.once_in(2) {
                true => generate::sound_receiver(random, settings),
                false => generate::fresh_receiver(settings),
            };
            let output = random.pick(&[4096, 4097, 8192, 300_000]);
            let start = Memory::new(random, image, settings.window.pool(), output);
            let mut frames = any_frames(random, settings, Some(round as u32));
            frames.truncate(BURST_FRAMES);
            let expected = check_outcomes(&start, &frames, (0, 0));
            bundles += expected.bundles.len();
            if settings.draft == Draft::D02 {
                check_reserved_bits(random, &start, &frames, &expected);
            }
        }
        println!("{settings}: {bundles} bundles");
        assert!(bundles > 20_000);
    }
}

#[track_caller]
fn check_reserved_bits(
    random: &mut Random,
    start: &Memory,
    frames: &[Vec<u8>],
    expected: &Outcome,
) {
    let other: Vec<Vec<u8>> = frames
        .iter()
        .map(|frame| generate::with_reserved_bits(random, frame).0)
        .collect();
    let found = by_bursts(start, &other, (0, 0), Memory::call::<Exported>);
    assert!(found == *expected);
}

/// Every frame and place of small lists, with those that are not good.
#[test]
fn every_start() {
    let mut tally = Tally::default();
    let mut starts = 0;
    for round in 0..ROUNDS / 5 {
        let random = &mut Random::new(SEED + round / 6);
        let settings = Settings::all().nth(round as usize % 6).expect("six");
        let frames = generate::small_frames(random, settings);
        let (sizes, octets) = generate::joined(&frames);
        let image = generate::sound_receiver(random, settings);
        let start = Memory::new(random, image, settings.window.pool(), 4096);
        for first in 0..frames.len() + 2 {
            let length = frames.get(first).map_or(0, Vec::len);
            for place in 0..length as u64 + 3 {
                let from = (first as u64, place);
                let call = Call {
                    sizes: &sizes,
                    octets: &octets,
                    from,
                };
                let good = is_good(&start, &frames, from);
                let returned = tally.call(&mut start.clone(), &call);
                assert_eq!(
                    returned,
                    if good { 0 } else { 9 },
                    "round {round}: {from:?}"
                );
                if good {
                    check_outcomes(&start, &frames, from);
                    starts += 1;
                }
            }
        }
    }
    println!("{starts} starts, refused {:?}", tally.refused);
    assert!(starts > 6_000 && tally.refused[9] > 6_000);
}

/// By a single call of the model; at the number of frames only 0 is good.
fn is_good(start: &Memory, frames: &[Vec<u8>], (first, place): (u64, u64)) -> bool {
    let Some(frame) = frames.get(first as usize) else {
        return (first, place) == (frames.len() as u64, 0);
    };
    let Memory {
        mut image,
        mut pool,
        ..
    } = start.clone();
    let (output, result) = (&mut [0; MIN_OUTPUT], &mut [0; 4]);
    Model::receive(&mut image, &mut pool, frame, place, output, result) != 9
}

/// So many bundle messages of this length.
fn bundles(count: usize, length: usize) -> Vec<u8> {
    generate::message(BUNDLE, &[], &vec![0x42; length]).repeat(count)
}

/// A list, a start and an output's length; then the result, or a refusal's number.
type Edge = (
    &'static str,
    Vec<Vec<u8>>,
    (u64, u64),
    usize,
    Result<[u64; 5], u32>,
);

#[rustfmt::skip]
fn stops() -> Vec<Edge> {
    let full = || bundles(256, 0);
    let bad = || vec![3, 0, 0];
    let padding = || vec![0];
    let padded = [full(), padding()].concat();
    vec![
        ("256 bundles", vec![full()], (0, 0), 4096, Ok([256, 0, 1, 0, 0])),
        ("257", vec![bundles(257, 0)], (0, 0), 4096, Ok([256, 0, 0, 1024, 0])),
        ("the 257th", vec![bundles(257, 0)], (0, 1024), 4096, Ok([1, 0, 1, 0, 0])),
        ("512", vec![bundles(512, 0)], (0, 1024), 4096, Ok([256, 0, 1, 0, 0])),
        ("padding behind", vec![padded], (0, 0), 4096, Ok([256, 0, 0, 1024, 0])),
        ("a bad frame next", vec![full(), bad()], (0, 0), 4096, Ok([256, 0, 1, 0, 0])),
        ("a bad frame then", vec![full(), bad()], (1, 0), 4096, Ok([0, 0, 2, 0, 1])),
        ("an empty frame next", vec![full(), vec![]], (0, 0), 4096, Ok([256, 0, 1, 0, 0])),
        ("a frame next", vec![full(), padding()], (0, 0), 4096, Ok([256, 0, 1, 0, 0])),
        ("4,096 left, bad", vec![bundles(1, 1), bad()], (0, 0), 4097, Ok([1, 1, 2, 0, 1])),
        ("4,095 left, bad", vec![bundles(1, 1), bad()], (0, 0), 4096, Ok([1, 1, 1, 0, 0])),
        ("4,096 left", vec![bundles(1, 1), padding()], (0, 0), 4097, Ok([1, 1, 2, 0, 0])),
        ("4,095 left", vec![bundles(1, 1), padding()], (0, 0), 4096, Ok([1, 1, 1, 0, 0])),
        ("4,095 left, end", vec![bundles(1, 1)], (0, 0), 4096, Ok([1, 1, 1, 0, 0])),
        ("4,095 left, inside", vec![bundles(2, 1)], (0, 0), 4096, Ok([1, 1, 0, 5, 0])),
        ("nothing used", vec![bundles(3, 0)], (0, 0), 4096, Ok([3, 0, 1, 0, 0])),
        ("8,192", vec![bundles(1, 2044); 9], (0, 0), 8192, Ok([3, 6132, 3, 0, 0])),
        ("of 1 in 8,192", vec![bundles(300, 1)], (0, 0), 8192, Ok([256, 256, 0, 1280, 0])),
        ("of 16 in 8,192", vec![bundles(100, 16); 9], (0, 0), 8192, Ok([256, 4096, 2, 1120, 0])),
        ("of 17 in 8,192", vec![bundles(97, 17); 9], (0, 0), 8192, Ok([241, 4097, 2, 987, 0])),
    ]
}

#[rustfmt::skip]
fn starts() -> Vec<Edge> {
    let one = || bundles(1, 3);
    let bad = || vec![3, 0, 0];
    let long = |length: usize| vec![0; length];
    vec![
        ("none", vec![], (0, 0), 4096, Ok([0, 0, 0, 0, 0])),
        ("none, place 1", vec![], (0, 1), 4096, Err(9)),
        ("none, frame 1", vec![], (1, 0), 4096, Err(9)),
        ("at the end", vec![one(), bundles(1, 4)], (0, 7), 4097, Ok([1, 4, 2, 0, 0])),
        ("past the end", vec![one()], (0, 8), 4096, Err(9)),
        ("inside", vec![one()], (0, 1), 4096, Err(9)),
        ("at the count", vec![one()], (1, 0), 4096, Ok([0, 0, 1, 0, 0])),
        ("at the count, a place", vec![one()], (1, 7), 4096, Err(9)),
        ("above the count", vec![one()], (2, 0), 4096, Err(9)),
        ("far above it", vec![one()], (u64::MAX, 0), 4096, Err(9)),
        ("2^32 above 0", vec![one()], (1 << 32, 0), 4096, Err(9)),
        ("a place of 2^32", vec![one()], (0, 1 << 32), 4096, Err(9)),
        ("bad, any place", vec![bad(), one()], (0, 999), 4099, Ok([1, 3, 2, 0, 1])),
        ("bad, far place", vec![bad()], (0, u64::MAX), 4096, Ok([0, 0, 1, 0, 1])),
        ("of 0, any place", vec![vec![], one()], (0, 5), 4096, Ok([1, 3, 2, 0, 1])),
        ("of 2,049", vec![long(2049), one()], (0, 5), 4096, Ok([1, 3, 2, 0, 1])),
        ("of 2,048", vec![long(2048), one()], (0, 0), 4096, Ok([1, 3, 2, 0, 0])),
        ("of 65,535", vec![long(65_535), one()], (0, 0), 4096, Ok([1, 3, 2, 0, 1])),
        ("64 of 65,535", vec![long(65_535); 64], (0, 0), 4096, Ok([0, 0, 64, 0, 64])),
        ("64", vec![bundles(1, 0); 64], (0, 0), 4096, Ok([64, 0, 64, 0, 0])),
        ("65", vec![bundles(1, 0); 65], (0, 0), 4096, Err(3)),
        ("output of 4,095", vec![one()], (0, 0), 4095, Err(2)),
        ("no output", vec![], (0, 0), 0, Err(2)),
    ]
}

#[test]
fn edges() {
    let random = &mut Random::new(SEED);
    for settings in Settings::all() {
        for edge in [stops(), starts()].concat() {
            check_edge(random, settings, edge);
        }
    }
}

/// The frames of these lists have no flags and no pieces, and so are the same in both drafts and in every
/// window.
fn check_edge(random: &mut Random, settings: Settings, edge: Edge) {
    let (name, frames, from, output, expected) = edge;
    let (sizes, octets) = generate::joined(&frames);
    let mut memory = Memory::fresh(random, settings, output);
    let call = Call {
        sizes: &sizes,
        octets: &octets,
        from,
    };
    let found = |returned, memory: &Memory| match returned {
        0 => Ok(memory.result),
        number => Err(number),
    };
    if let Some(mut receiver) = natural(&memory) {
        let mut other = memory.clone();
        let returned = natural_call(&mut receiver, &mut other, &call);
        assert_eq!(found(returned, &other), expected, "natural: {name}");
    }
    let returned = Tally::default().call(&mut memory, &call);
    assert_eq!(found(returned, &memory), expected, "{settings}: {name}");
}

/// Every way of being wrong in some of five ways: the first one is refused.
#[test]
fn refusals_in_order() {
    let random = &mut Random::new(SEED);
    let mut tally = Tally::default();
    for settings in Settings::all() {
        for wrong in 0..32 {
            check_order(random, &mut tally, settings, wrong);
        }
    }
    println!("refused {:?}", tally.refused);
    for (number, least) in [(1, 1_000), (2, 500), (3, 200), (19, 100), (9, 50)] {
        assert!(tally.refused[number] >= least, "refusal {number}");
    }
}

fn check_order(random: &mut Random, tally: &mut Tally, settings: Settings, wrong: u32) {
    let is_wrong = |way: u32| wrong >> way & 1 == 1;
    let right = settings.window.pool();
    let mut lent = vec![(right, 4095), (right - 1, 4096), (right + 1, 4096), (0, 0)];
    let others = Window::ALL.map(Window::pool);
    lent.extend(
        others
            .into_iter()
            .filter(|&pool| pool != right)
            .map(|pool| (pool, 4096)),
    );
    for (pool, output) in lent {
        let (pool, output) = if is_wrong(1) {
            (pool, output)
        } else {
            (right, 4096)
        };
        let image = generate::fresh_receiver(settings);
        let mut memory = Memory::new(random, image, pool, output);
        memory.image[0] = if is_wrong(0) { 2 } else { 0 };
        let frames = vec![bundles(1, 2); if is_wrong(2) { 65 } else { 64 }];
        let (sizes, mut octets) = generate::joined(&frames);
        octets.truncate(octets.len() - usize::from(is_wrong(3)));
        for from in [(0, 1), (64, 1), (65, 1), (66, 0)] {
            let call = Call {
                sizes: &sizes,
                octets: &octets,
                from: if is_wrong(4) { from } else { (0, 0) },
            };
            let returned = tally.call(&mut memory.clone(), &call);
            let first = (0..5).find(|&way| is_wrong(way));
            let expected = first.map_or(0, |way| [1, 2, 3, 19, 9][way as usize]);
            assert_eq!(returned, expected, "{settings}: {wrong:b}, {from:?}");
        }
    }
}
