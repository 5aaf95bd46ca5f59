//! Time per call of the exported interface, of the model and of the baselines, on the same input.
//!
//!     bench [ROUNDS [WINDOW]]
//!
//! Boards have the window that is given, or 16; a playback has always 16. Each round times the sides one after the other, in changing order; the tables give the median
//! time per call, and the median over the rounds of the ratios within a round.

use std::hint::black_box;
use std::process::ExitCode;
use std::time::Instant;

use btpu::raw::{
    self, BurstBundles, BurstNotes, BURST_BUNDLES, BURST_FRAMES, BURST_RESULT, MIN_OUTPUT,
    PLAYED_BUNDLES, RECEIVER_IMAGE, RECORDED_FRAMES, RECORDED_OCTETS, SENDER_IMAGE,
};
use harness::baseline::{inplace, natural};
use harness::compare::PLAY_POOL;
use harness::generate::{self, Piece, BUNDLE};
use harness::model::{interface, receiver, sender, Draft, Settings, Window};
use harness::random::Random;
use harness::side::{Exported, Model, Side as _};

const ROUNDS: u32 = 31;
const ROUND_SECONDS: f64 = 0.004;
const FRAME: usize = 2048;

/// Enough for as many bundles as a burst hands out.
const BURST_OUTPUT: usize = BURST_BUNDLES * MIN_OUTPUT;

/// What a run did, so that the sides can be compared and the time be divided.
#[derive(Clone, Copy, Debug, Default, PartialEq, Eq)]
struct Work {
    calls: u64,
    octets: u64,
    digest: u64,
}

impl Work {
    fn bundle(&mut self, octets: &[u8]) {
        self.octets += octets.len() as u64;
        let ends = [octets.first(), octets.last()];
        for &octet in ends.into_iter().flatten() {
            self.digest = self.digest.wrapping_mul(31).wrapping_add(octet.into());
        }
    }
}

/// Does the work of one side once.
type Side<'a> = Box<dyn FnMut() -> Work + 'a>;

/// A workload of three sides: exported, the model on its own state, the model behind an image; and of the
/// baselines, for receiving calls of draft 02.
struct Workload<'a> {
    name: String,
    exported: Side<'a>,
    own_state: Side<'a>,
    image: Side<'a>,
    baselines: Option<Baselines<'a>>,
}

/// In place on the image, and natural on its own state.
struct Baselines<'a> {
    inplace: Side<'a>,
    natural: Side<'a>,
}

/// A workload of bursts. Single calls and bursts of the exported interface, the model behind an image, and
/// single calls and bursts of the natural receiver; all times are those per message.
struct BurstWorkload<'a> {
    name: String,
    burst: Side<'a>,
    single: Side<'a>,
    model: Side<'a>,
    natural: Side<'a>,
    natural_single: Side<'a>,
}

/// A workload of calls that have no state: exported, and the model.
struct RecordingWorkload<'a> {
    name: &'static str,
    exported: Side<'a>,
    model: Side<'a>,
}

fn main() -> ExitCode {
    let arguments: Vec<String> = std::env::args().skip(1).collect();
    let number = |place: usize, default| match arguments.get(place) {
        Some(given) => given.parse().ok(),
        None => Some(default),
    };
    let window = number(1, Window::Sixteen.number()).and_then(Window::of_number);
    let (Some(rounds @ 1..), Some(window), 0..=2) = (number(0, ROUNDS), window, arguments.len())
    else {
        eprintln!("bench [ROUNDS [WINDOW]]: a number of rounds, and a window of 4, 8 or 16");
        return ExitCode::FAILURE;
    };
    measure_all(rounds as usize, window);
    ExitCode::SUCCESS
}

fn measure_all(rounds: usize, window: Window) {
    let mut random = Random::new(1);
    println!(
        "{rounds} rounds, {window}; exported interface against the model in Rust (\"Rust\"), a receiver \
         in place on the image, and a natural one on its own state"
    );
    println!();
    println!(
        "| workload | calls | exported, ns/call | Rust, own state, ns/call | Rust, image, ns/call \
         | ratio to own state | ratio to image | in place, ns/call | natural, ns/call \
         | ratio to in place | ratio to natural |"
    );
    println!("|---|---:|---:|---:|---:|---:|---:|---:|---:|---:|---:|");
    measure_receiving(&mut random, window, rounds);
    measure_sending(&mut random, rounds);
    measure_draft_00(window, rounds);
    measure_bursts(&mut random, window, rounds);
    measure_recordings(&mut random, rounds);
}

fn measure_receiving(random: &mut Random, window: Window, rounds: usize) {
    let settings = Settings::new(Draft::D02, window);
    let of = |frames| Reception::of(settings, frames);
    let octets = |image| Reception {
        image,
        ..of(vec![vec![0]; 32])
    };
    let full = full_image(random, settings);
    let small_bundles = of(small_bundle_frames(random, 4 * 170));
    let small_pieces = of(small_piece_frames(random, settings, 64));
    let large_pieces = of(large_piece_frames(random));
    let passed = of(passed_frames(random));
    let hints = of(hint_frames(random, window));
    let free = of(vec![vec![0]; 32]);
    let (full, done) = (octets(full), octets(done_image(settings)));
    let rising = join(random, settings, (0..64).collect());
    let falling = join(random, settings, (0..64).rev().collect());
    let mut shuffled: Vec<u32> = (0..64).collect();
    random.shuffle(&mut shuffled);
    let shuffled = join(random, settings, shuffled);
    let pieces = format!("pieces of 4 octets, {} transfers mixed", together(window));
    let workloads = [
        ("receive: bundles of 8 octets", &small_bundles),
        (&format!("receive: {pieces}"), &small_pieces),
        ("receive: pieces of 2,036 octets", &large_pieces),
        ("receive: paddings and unknown types", &passed),
        ("receive: chains of hints", &hints),
        ("receive: one zero octet, all rows Free", &free),
        ("receive: one zero octet, all rows with 63 pieces", &full),
        ("idle call: one zero octet, all rows Done", &done),
        ("join: 64 pieces of 64 octets, in order", &rising),
        ("join: 64 pieces of 64 octets, in falling order", &falling),
        ("join: 64 pieces of 64 octets, in random order", &shuffled),
    ];
    for (name, reception) in workloads {
        measure(receiving(name, reception), rounds);
    }
}

fn measure_sending(random: &mut Random, rounds: usize) {
    let draft = Draft::D02;
    let large = bundles(random, 16, 4096);
    let small = bundles(random, 512, 60);
    let tiny = bundles(random, 1024, 8);
    let workloads = [
        ("place: 4,096 octets, frames of 2,048", 2048, &large),
        ("place: 4,096 octets, frames of 512", 512, &large),
        ("place: 60 octets, frames of 2,048", 2048, &small),
        ("place: 8 octets, frames of 128", 128, &tiny),
    ];
    for (name, frame_size, bundles) in workloads {
        measure(sending(name, draft, frame_size, bundles), rounds);
    }
}

/// More rows: workloads of the table again, in draft 00.
fn measure_draft_00(window: Window, rounds: usize) {
    let draft = Draft::D00;
    let settings = Settings { draft, window };
    let mut random = Random::new(2);
    let pieces = Reception::of(settings, small_piece_frames(&mut random, settings, 64));
    let large = bundles(&mut random, 16, 4096);
    let mixed = format!("{} transfers mixed", together(window));
    let workloads = [
        receiving(
            &format!("receive, draft 00: pieces of 4 octets, {mixed}"),
            &pieces,
        ),
        sending(
            "place, draft 00: 4,096 octets, frames of 512",
            draft,
            512,
            &large,
        ),
    ];
    for workload in workloads {
        measure(workload, rounds);
    }
}

/// A table of its own: 64 frames in bursts.
fn measure_bursts(random: &mut Random, window: Window, rounds: usize) {
    let settings = Settings::new(Draft::D02, window);
    let of = |frames| Reception::of(settings, frames);
    let bundles = of(small_bundle_frames(random, BURST_FRAMES * 170));
    let pieces = of(small_piece_frames(random, settings, 136));
    let large = of([large_piece_frames(random), large_piece_frames(random)].concat());
    for reception in [&bundles, &pieces, &large] {
        assert_eq!(reception.frames.len(), BURST_FRAMES);
    }
    let workloads = [
        bursts("burst: 64 frames of bundles of 8 octets", &bundles),
        bursts("burst: 64 frames of pieces of 4 octets", &pieces),
        bursts("burst: 64 frames of one piece of 2,036 octets", &large),
    ];
    println!();
    println!(
        "| workload | messages | bursts, ns/message | single calls | Rust, image, bursts \
         | natural, bursts | natural, single calls | ratio to single calls | ratio to image \
         | ratio to natural bursts | ratio to natural single calls |"
    );
    println!("|---|---:|---:|---:|---:|---:|---:|---:|---:|---:|---:|");
    for workload in workloads {
        let name = workload.name;
        let sides = [
            workload.burst,
            workload.single,
            workload.model,
            workload.natural,
            workload.natural_single,
        ];
        let (messages, times) = timed(&name, sides, rounds);
        let [burst, others @ ..] = &times;
        let medians = times.iter().map(|times| median(times.clone()));
        let medians: String = medians.map(|time| format!("| {time:.1} ")).collect();
        let ratios = others.iter().map(|other| ratio(burst, other));
        let ratios: String = ratios.map(|ratio| format!("| {ratio:.3} ")).collect();
        println!("| {name} | {messages} {medians}{ratios}|");
    }
}

/// A table of its own: calls for recordings, each of 61,440 octets of frames.
fn measure_recordings(random: &mut Random, rounds: usize) {
    let short = recorded_bundles(random);
    let long = recorded_transfers(random);
    let empty = generate::message(BUNDLE, &[], &[]);
    let dense = vec![empty.repeat(FRAME / empty.len()); RECORDED_OCTETS / FRAME];
    for frames in [&short, &long, &dense] {
        assert_eq!(frames.concat().len(), RECORDED_OCTETS);
    }
    let workloads = [
        recording("record: 1,024 frames of 60 octets", &short),
        recording("record: 30 frames of 2,048 octets", &long),
        opening("open: 1,024 frames of 60 octets", &short),
        opening("open: 30 frames of 2,048 octets", &long),
        playing("play: 1,024 frames of one bundle of 56 octets", &short),
        playing("play: 30 frames of one piece of 2,036 octets", &long),
        playing("play: 30 frames of 512 empty bundles", &dense),
    ];
    println!();
    println!("| workload | exported, ns/call | Rust, ns/call | ratio |");
    println!("|---|---:|---:|---:|");
    for workload in workloads {
        measure_recording(workload, rounds);
    }
}

fn measure(workload: Workload, rounds: usize) {
    let name = workload.name;
    let sides = [workload.exported, workload.own_state, workload.image];
    let Some(Baselines { inplace, natural }) = workload.baselines else {
        let (calls, times) = timed(&name, sides, rounds);
        println!("| {name} | {calls} {}| | | | |", model_columns(&times));
        return;
    };
    let [exported, own_state, image] = sides;
    let sides = [exported, own_state, image, inplace, natural];
    let (calls, times) = timed(&name, sides, rounds);
    println!(
        "| {name} | {calls} {}{}|",
        model_columns(&times),
        columns(&times[0], &times[3..])
    );
}

/// The exported side and the model's two.
fn model_columns(times: &[Vec<f64>]) -> String {
    let exported = median(times[0].clone());
    format!("| {exported:.0} {}", columns(&times[0], &times[1..3]))
}

/// The times of other sides, then the ratios of the exported side to them.
fn columns(exported: &[f64], others: &[Vec<f64>]) -> String {
    let times = others.iter().map(|other| median(other.clone()));
    let times: String = times.map(|time| format!("| {time:.0} ")).collect();
    let ratios = others.iter().map(|other| ratio(exported, other));
    let ratios: String = ratios.map(|ratio| format!("| {ratio:.2} ")).collect();
    times + &ratios
}

fn measure_recording(workload: RecordingWorkload, rounds: usize) {
    let sides = [workload.exported, workload.model];
    let (_, times) = timed(workload.name, sides, rounds);
    println!(
        "| {} | {:.0} | {:.0} | {:.2} |",
        workload.name,
        median(times[0].clone()),
        median(times[1].clone()),
        ratio(&times[0], &times[1])
    );
}

/// The number of calls of a run, and for each side the time per call in each round.
fn timed<const SIDES: usize>(
    name: &str,
    mut sides: [Side; SIDES],
    rounds: usize,
) -> (u64, [Vec<f64>; SIDES]) {
    let work = sides[0]();
    assert!(work.calls > 0, "{name}: no call");
    for side in &mut sides[1..] {
        assert_eq!(work, side(), "{name}");
    }
    let begin = Instant::now();
    black_box(sides[1]());
    let once = begin.elapsed().as_secs_f64().max(1e-7);
    let repeat = (ROUND_SECONDS / once).ceil().max(1.0) as u32;
    let calls = work.calls as f64 * f64::from(repeat);
    let mut times = [(); SIDES].map(|_| Vec::with_capacity(rounds));
    for round in 0..rounds {
        for turn in 0..SIDES {
            let side = (round + turn) % SIDES;
            let begin = Instant::now();
            for _ in 0..repeat {
                black_box(sides[side]());
            }
            times[side].push(begin.elapsed().as_nanos() as f64 / calls);
        }
    }
    (work.calls, times)
}

fn ratio(exported: &[f64], rust: &[f64]) -> f64 {
    let pairs = exported.iter().zip(rust);
    median(pairs.map(|(exported, rust)| exported / rust).collect())
}

fn median(mut numbers: Vec<f64>) -> f64 {
    numbers.sort_by(f64::total_cmp);
    numbers[numbers.len() / 2]
}

/// What a board starts from and receives. Each frame is taken to its end, or to its first bundle.
struct Reception {
    image: [u8; RECEIVER_IMAGE],
    pool: Vec<u8>,
    frames: Vec<Vec<u8>>,
    to_end: bool,
}

impl Reception {
    /// By a fresh board, each frame to its end.
    fn of(Settings { draft, window }: Settings, frames: Vec<Vec<u8>>) -> Reception {
        let mut image = [0; RECEIVER_IMAGE];
        let returned = Exported::receiver_start(draft, window.number(), &mut image);
        assert_eq!(returned, 0);
        Reception {
            image,
            pool: vec![0; window.pool()],
            frames,
            to_end: true,
        }
    }
}

/// The one call that completes a transfer, with all other pieces held in this order of arrival.
fn join(random: &mut Random, settings: Settings, order: Vec<u32>) -> Reception {
    let pieces = order.iter().map(|&index| {
        let piece = Piece::sent(Draft::D02, 7, index as usize, order.len());
        piece.message(Draft::D02, &[], &random.octets(64))
    });
    let mut frames: Vec<Vec<u8>> = pieces.collect();
    let completing = frames.pop().expect("one at least");
    let mut held = Reception::of(settings, vec![completing]);
    held.to_end = false;
    let mut output = vec![0; MIN_OUTPUT];
    for frame in frames {
        let mut result = [1; 4];
        let returned = raw::receive(
            &mut held.image,
            &mut held.pool,
            &frame,
            0,
            &mut output,
            &mut result,
        );
        assert_eq!((returned, result[0]), (0, 0), "a piece that is held");
    }
    held
}

/// All rows Open with as many pieces as they can hold while one is missing.
fn full_image(random: &mut Random, settings: Settings) -> [u8; RECEIVER_IMAGE] {
    let mut state = receiver::State::start(settings);
    state.greatest = Some(100);
    for row in &mut state.rows[..settings.window.rows()] {
        let mut indexes: Vec<u8> = (1..64).collect();
        random.shuffle(&mut indexes);
        row.phase = receiver::Phase::Open;
        row.last = Some(63);
        row.held = 63;
        row.index[..63].copy_from_slice(&indexes);
        row.length[..63].fill(60);
    }
    assert!(state.is_sound());
    let mut image = [0; RECEIVER_IMAGE];
    state.encode(&mut image);
    image
}

/// A board that has received, and has nothing under way.
fn done_image(settings: Settings) -> [u8; RECEIVER_IMAGE] {
    let mut state = receiver::State::start(settings);
    state.greatest = Some(100);
    state.rows[..settings.window.rows()].fill(receiver::Row::empty(receiver::Phase::Done));
    assert!(state.is_sound());
    let mut image = [0; RECEIVER_IMAGE];
    state.encode(&mut image);
    image
}

/// Octets, as of a pool, and an output, each at the start of a page, so that all sides have them placed
/// alike.
fn lent(octets: &[u8], output: usize) -> (&'static mut [u8], &'static mut [u8]) {
    const PAGE: usize = 4096;
    let pages = octets.len().next_multiple_of(PAGE);
    let memory = vec![0; PAGE + pages + output].leak();
    let start = memory.as_ptr().align_offset(PAGE);
    let (front, behind) = memory[start..].split_at_mut(pages);
    let front = &mut front[..octets.len()];
    front.copy_from_slice(octets);
    (front, &mut behind[..output])
}

fn receiving<'a>(name: &str, reception: &'a Reception) -> Workload<'a> {
    type Image = [u8; RECEIVER_IMAGE];
    type Call = fn(&mut Image, &mut [u8], &[u8], u64, &mut [u8], &mut [u64; 4]) -> u32;
    let through_image = move |call: Call| {
        let (pool, output) = lent(&reception.pool, MIN_OUTPUT);
        move || {
            let mut work = Work::default();
            let mut image = reception.image;
            for frame in &reception.frames {
                let mut place = 0;
                loop {
                    let mut result = [0; 4];
                    let returned = call(&mut image, pool, frame, place, output, &mut result);
                    assert_eq!(returned, 0);
                    work.calls += 1;
                    if result[0] == 0 {
                        break;
                    }
                    work.bundle(&output[..result[1] as usize]);
                    place = result[2];
                    if !reception.to_end {
                        break;
                    }
                }
            }
            work
        }
    };
    let state = receiver::State::decode(&reception.image).expect("a state");
    let has_baselines = state.settings.draft == Draft::D02;
    let (pool, output) = lent(&reception.pool, MIN_OUTPUT);
    let own_state = move || {
        let mut work = Work::default();
        let mut state = state.clone();
        for frame in &reception.frames {
            let mut place = 0;
            loop {
                let answer = receiver::receive(&mut state, pool, frame, place, output, &mut ());
                work.calls += 1;
                match answer.expect("not refused") {
                    receiver::Answer::Finished => break,
                    receiver::Answer::Bundle { length, next, .. } => {
                        work.bundle(&output[..length]);
                        place = next as u64;
                    }
                }
                if !reception.to_end {
                    break;
                }
            }
        }
        work
    };
    Workload {
        name: name.to_string(),
        exported: Box::new(through_image(raw::receive)),
        own_state: Box::new(own_state),
        image: Box::new(through_image(
            |image, pool, frame, place, output, result| {
                interface::receive(image, pool, frame, place, output, result, &mut ())
            },
        )),
        baselines: has_baselines.then(|| Baselines {
            inplace: Box::new(through_image(inplace::receive)),
            natural: Box::new(natural_side(reception)),
        }),
    }
}

/// The natural receiver; its state is put back before a run, as the images of the other sides are.
fn natural_side(reception: &Reception) -> impl FnMut() -> Work + '_ {
    let state = receiver::State::decode(&reception.image).expect("a state");
    let begin = natural::Receiver::restored(&state, &reception.pool);
    let mut receiver = begin.clone();
    let (_, output) = lent(&[], MIN_OUTPUT);
    let output: &mut [u8; MIN_OUTPUT] = output.try_into().expect("the output's length");
    move || {
        let mut work = Work::default();
        receiver.become_like(&begin);
        for frame in &reception.frames {
            let mut place = 0;
            loop {
                let answer = receiver.receive(frame, place, output);
                work.calls += 1;
                match answer.expect("not refused") {
                    receiver::Answer::Finished => break,
                    receiver::Answer::Bundle { length, next, .. } => {
                        work.bundle(&output[..length]);
                        place = next;
                    }
                }
                if !reception.to_end {
                    break;
                }
            }
        }
        work
    }
}

fn bursts<'a>(name: &str, reception: &'a Reception) -> BurstWorkload<'a> {
    let counts = reception.frames.iter().map(|frame| {
        let count = generate::message_count(Draft::D02, frame);
        count.expect("a good frame")
    });
    let calls: u64 = counts.sum();
    let by_message =
        move |mut side: Side<'a>| -> Side<'a> { Box::new(move || Work { calls, ..side() }) };
    let single = receiving(name, reception);
    let baselines = single.baselines.expect("those of receiving calls");
    BurstWorkload {
        name: name.to_string(),
        burst: by_message(burst_side(reception, raw::receive_burst)),
        single: by_message(single.exported),
        model: by_message(burst_side(reception, interface::receive_burst)),
        natural: by_message(natural_burst_side(reception)),
        natural_single: by_message(baselines.natural),
    }
}

/// The lists that a burst writes to.
struct Lists {
    lengths: [u16; BURST_BUNDLES],
    numbers: [u64; BURST_BUNDLES],
    places: [u32; BURST_FRAMES],
    reasons: [u32; BURST_FRAMES],
}

impl Lists {
    fn new() -> Lists {
        Lists {
            lengths: [0; BURST_BUNDLES],
            numbers: [0; BURST_BUNDLES],
            places: [0; BURST_FRAMES],
            reasons: [0; BURST_FRAMES],
        }
    }

    fn lend<'a>(&'a mut self, output: &'a mut [u8]) -> (BurstBundles<'a>, BurstNotes<'a>) {
        (
            (output, &mut self.lengths, &mut self.numbers),
            (&mut self.places, &mut self.reasons),
        )
    }

    fn add(&self, work: &mut Work, count: usize, mut output: &[u8]) {
        for &length in &self.lengths[..count] {
            let (bundle, behind) = output.split_at(length.into());
            work.bundle(bundle);
            output = behind;
        }
    }
}

type BurstCall = fn(
    &mut [u8; RECEIVER_IMAGE],
    &mut [u8],
    (&[u16], &[u8]),
    (u64, u64),
    BurstBundles,
    BurstNotes,
    &mut [u64; BURST_RESULT],
) -> u32;

/// Bursts on the image, continued until all frames are taken.
fn burst_side(reception: &Reception, call: BurstCall) -> Side<'_> {
    let (sizes, octets) = generate::joined(&reception.frames);
    let (pool, output) = lent(&reception.pool, BURST_OUTPUT);
    let mut lists = Lists::new();
    Box::new(move || {
        let mut work = Work::default();
        let mut image = reception.image;
        let mut from = (0, 0);
        while from.0 < sizes.len() as u64 {
            let mut result = [0; BURST_RESULT];
            let (bundles, notes) = lists.lend(output);
            let frames = (&sizes[..], &octets[..]);
            let returned = call(&mut image, pool, frames, from, bundles, notes, &mut result);
            assert_eq!((returned, result[4]), (0, 0));
            lists.add(&mut work, result[0] as usize, output);
            from = (result[2], result[3]);
        }
        work
    })
}

/// Bursts of the natural receiver.
fn natural_burst_side(reception: &Reception) -> Side<'_> {
    let state = receiver::State::decode(&reception.image).expect("a state");
    let begin = natural::Receiver::restored(&state, &reception.pool);
    let mut receiver = begin.clone();
    let (sizes, octets) = generate::joined(&reception.frames);
    let (_, output) = lent(&[], BURST_OUTPUT);
    let mut lists = Lists::new();
    Box::new(move || {
        let mut work = Work::default();
        receiver.become_like(&begin);
        let mut from = (0, 0);
        while from.0 < sizes.len() {
            let (bundles, notes) = lists.lend(output);
            let taken = receiver.receive_burst((&sizes, &octets), from, bundles, notes);
            let taken = taken.expect("not refused");
            lists.add(&mut work, taken.bundles, output);
            from = taken.next;
        }
        work
    })
}

fn sending<'a>(name: &str, draft: Draft, frame_size: u64, bundles: &'a [Vec<u8>]) -> Workload<'a> {
    type Image = [u8; SENDER_IMAGE];
    type Start = fn(Draft, &mut Image, u64, u32) -> u32;
    type Call = fn(&mut Image, &[u8], &mut [u8], &mut [u64; 4]) -> u32;
    let through_image = move |start: Start, call: Call| {
        let mut frame = vec![0; frame_size as usize];
        move || {
            let mut work = Work::default();
            let mut image = [0; SENDER_IMAGE];
            assert_eq!(start(draft, &mut image, frame_size, 1), 0);
            for bundle in bundles {
                loop {
                    let mut result = [0; 4];
                    let returned = call(&mut image, bundle, &mut frame, &mut result);
                    assert_eq!(returned, 0);
                    work.calls += 1;
                    if result[0] != 0 {
                        work.bundle(&frame);
                    }
                    if result[0] != 2 && image[8] == 0 {
                        break;
                    }
                }
            }
            work
        }
    };
    let mut frame = vec![0; frame_size as usize];
    let own_state = move || {
        let mut work = Work::default();
        let mut state = sender::State::start(draft, frame_size, 1).expect("a good frame size");
        for bundle in bundles {
            loop {
                let answer = state.place(bundle, &mut frame).expect("not refused");
                work.calls += 1;
                if answer != sender::Answer::Placed {
                    work.bundle(&frame);
                }
                if answer != sender::Answer::Ready && state.begun.is_none() {
                    break;
                }
            }
        }
        work
    };
    Workload {
        name: name.to_string(),
        exported: Box::new(through_image(Exported::sender_start, raw::place)),
        own_state: Box::new(own_state),
        image: Box::new(through_image(Model::sender_start, interface::place)),
        baselines: None,
    }
}

fn recording<'a>(name: &'static str, frames: &[Vec<u8>]) -> RecordingWorkload<'a> {
    type Call = fn(&[u16], &[u8], &mut [u8], &mut [u64; 4]) -> u32;
    let side = |call: Call| {
        let (sizes, octets) = generate::joined(frames);
        let (octets, output) = lent(&octets, 8 + 2 * sizes.len() + octets.len());
        move || {
            let mut work = Work::default();
            let mut result = [0; 4];
            assert_eq!(call(&sizes, octets, output, &mut result), 0);
            work.calls += 1;
            work.bundle(&output[..result[0] as usize]);
            work
        }
    };
    RecordingWorkload {
        name,
        exported: Box::new(side(raw::record)),
        model: Box::new(side(interface::record)),
    }
}

fn opening<'a>(name: &'static str, frames: &[Vec<u8>]) -> RecordingWorkload<'a> {
    type Call = fn(&[u8], &mut [u16; RECORDED_FRAMES], &mut [u64; 4]) -> u32;
    let side = |call: Call| {
        let (recording, _) = lent(&generate::recorded(frames), 0);
        let mut sizes = [0; RECORDED_FRAMES];
        move || {
            let mut work = Work::default();
            let mut result = [0; 4];
            assert_eq!(call(recording, &mut sizes, &mut result), 0);
            work.calls += 1;
            work.digest = result[2] + u64::from(sizes[0]);
            work
        }
    };
    RecordingWorkload {
        name,
        exported: Box::new(side(raw::recording_open)),
        model: Box::new(side(interface::recording_open)),
    }
}

fn playing<'a>(name: &'static str, frames: &[Vec<u8>]) -> RecordingWorkload<'a> {
    type Bundles<'b> = (&'b mut [u8], &'b mut [u16]);
    type Notes<'b> = (&'b mut [u32], &'b mut [u32]);
    type Call = fn(&[u8], u64, &mut [u8], Bundles, Notes, &mut [u64; 4]) -> u32;
    let side = |call: Call| {
        let (recording, _) = lent(&generate::recorded(frames), 0);
        let (pool, output) = lent(&[0; PLAY_POOL], RECORDED_OCTETS);
        let mut lengths = [0; PLAYED_BUNDLES];
        let mut places = [0; RECORDED_FRAMES];
        let mut reasons = [0; RECORDED_FRAMES];
        move || {
            let mut work = Work::default();
            let mut result = [0; 4];
            let bundles: Bundles = (output, &mut lengths);
            let notes: Notes = (&mut places, &mut reasons);
            let returned = call(recording, u64::MAX, pool, bundles, notes, &mut result);
            assert_eq!((returned, result[3]), (0, 0));
            work.calls += 1;
            work.bundle(&output[..result[2] as usize]);
            work
        }
    };
    RecordingWorkload {
        name,
        exported: Box::new(side(raw::play)),
        model: Box::new(side(|recording, limit, pool, bundles, notes, result| {
            interface::play(recording, limit, pool, bundles, notes, result, &mut ())
        })),
    }
}

fn bundles(random: &mut Random, count: usize, length: usize) -> Vec<Vec<u8>> {
    (0..count).map(|_| random.octets(length)).collect()
}

/// Fills frames with messages as long as they fit.
fn packed(messages: impl Iterator<Item = Vec<u8>>) -> Vec<Vec<u8>> {
    let mut frames = vec![Vec::with_capacity(FRAME)];
    for message in messages {
        if frames.last().expect("one at least").len() + message.len() > FRAME {
            frames.push(Vec::with_capacity(FRAME));
        }
        frames.last_mut().expect("one at least").extend(message);
    }
    frames
}

fn small_bundle_frames(random: &mut Random, count: usize) -> Vec<Vec<u8>> {
    packed((0..count).map(|_| generate::message(BUNDLE, &[], &random.octets(8))))
}

/// How many transfers are mixed: so many that none leaves the window before it is whole.
fn together(window: Window) -> u32 {
    window.number() / 2
}

fn small_piece_frames(random: &mut Random, settings: Settings, transfers: u32) -> Vec<Vec<u8>> {
    const PIECES: usize = 60;
    let Settings { draft, window } = settings;
    let mut messages = Vec::new();
    for first in (0..transfers).step_by(together(window) as usize) {
        let mut own = Vec::new();
        for place in 0..PIECES {
            for number in first..first + together(window) {
                let piece = Piece::sent(draft, number, place, PIECES);
                own.push(piece.message(draft, &[], &random.octets(4)));
            }
        }
        messages.extend(generate::disorder(random, own, 40));
    }
    packed(messages.into_iter())
}

fn large_piece_frames(random: &mut Random) -> Vec<Vec<u8>> {
    packed((0..32).map(|at| {
        let data = random.octets(FRAME - 12);
        let piece = Piece::sent(Draft::D02, at / 2, at as usize % 2, 2);
        piece.message(Draft::D02, &[], &data)
    }))
}

fn passed_frames(random: &mut Random) -> Vec<Vec<u8>> {
    packed((0..2_000).map(|_| generate::passed(random, Draft::D02, 12)))
}

/// Segments of a few transfers, all behind chains of hints; nothing is completed.
fn hint_frames(random: &mut Random, window: Window) -> Vec<Vec<u8>> {
    let transfers = together(window);
    packed((0..512).map(|at| {
        let hints = [0x01, 2, 7, 7, 0x03, 0, 0x04, 4, 1, 2, 3, 4];
        let piece = Piece {
            number: at / (64 * transfers) * transfers + at % transfers,
            index: 1 + at / transfers % 64 % 60,
            end: false,
        };
        piece.message(Draft::D02, &hints, &random.octets(4))
    }))
}

/// Frames of 60 octets with one bundle message each.
fn recorded_bundles(random: &mut Random) -> Vec<Vec<u8>> {
    let bundles = bundles(random, RECORDED_FRAMES, 56);
    let frames = bundles.iter();
    frames
        .map(|bundle| generate::message(BUNDLE, &[], bundle))
        .collect()
}

/// Frames of one piece each, two to a transfer.
fn recorded_transfers(random: &mut Random) -> Vec<Vec<u8>> {
    let mut frames = large_piece_frames(random);
    frames.truncate(RECORDED_OCTETS / FRAME);
    frames
}
