//! Scenarios of bursts.

use super::{some_receiver, wrong_pool};
use crate::board::HandedOut;
use crate::compare::{Burst, Lending, Received, ReceiverPair, Trial};
use crate::generate;
use btpu::raw::{BURST_FRAMES, NO_NUMBER};

/// Frames of every kind, also some that cannot be recorded.
fn frames(trial: &mut Trial) -> Vec<Vec<u8>> {
    let settings = trial.settings_of_frames();
    let random = &mut trial.random;
    let mut frames = generate::recorded_frames(random, settings);
    for _ in 0..random.below(4) {
        let at = random.below(frames.len() + 1);
        frames.insert(at, generate::random_frame(random));
    }
    if random.once_in(2) {
        // A chain of hints that runs past its message; in draft 00 a length that runs past the frame.
        let cut = vec![random.within(2, 5) as u8, 0x80, 0, 1, random.octet()];
        frames.insert(random.below(frames.len() + 1), cut);
    }
    frames.truncate(BURST_FRAMES);
    frames
}

/// Taken by bursts, with calls that are refused between, and by single calls.
pub fn bursts(trial: &mut Trial) {
    let mut receiver = some_receiver(trial);
    for _ in 0..2 {
        let frames = frames(trial);
        let mut other = receiver.clone();
        let expected = by_single_calls(trial, &mut other, &frames);
        let found = by_bursts(trial, &mut receiver, &frames);
        trial.check(found == expected, "not what single calls hand out");
        trial.check(receiver.image() == other.image(), "another state");
        trial.check(receiver.pool() == other.pool(), "another pool");
    }
}

fn by_bursts(trial: &mut Trial, receiver: &mut ReceiverPair, frames: &[Vec<u8>]) -> HandedOut {
    let (sizes, octets) = generate::joined(frames);
    let mut all = HandedOut::default();
    let mut burst = Burst {
        sizes: &sizes,
        octets: &octets,
        from: (0, 0),
        other_pool: None,
        output: trial.random.pick(&[4096, 4097, 8192, 20_000, 150_000]),
    };
    loop {
        if trial.random.once_in(2) {
            refused_between(trial, receiver, burst);
        }
        let Ok(taken) = receiver.receive_burst(trial, burst) else {
            trial.fail("a burst is refused");
        };
        all.0.extend(taken.bundles);
        all.1.extend(taken.refused);
        let on = taken.next > burst.from;
        burst.from = taken.next;
        if burst.from == (sizes.len() as u64, 0) {
            return all;
        }
        trial.check(on, "a burst that does not go on");
    }
}

/// A burst that is refused, in one of some ways.
fn refused_between(trial: &mut Trial, receiver: &mut ReceiverPair, mut burst: Burst) {
    let count = burst.sizes.len() as u64;
    let number = match trial.random.below(5) {
        0 => {
            burst.other_pool = Some(wrong_pool(trial));
            2
        }
        1 => {
            burst.output = trial.random.pick(&[0, 1, 4095]);
            2
        }
        2 => {
            burst.sizes = &[0; BURST_FRAMES + 1];
            3
        }
        3 => {
            burst.octets = match burst.octets {
                [] => &[0],
                [_, rest @ ..] => rest,
            };
            19
        }
        _ => {
            let far = trial.random.pick(&[1, 1 << 32, u64::MAX - count]);
            burst.from = trial.random.pick(&[(count, far), (count + far, 0)]);
            9
        }
    };
    let refused = receiver.receive_burst(trial, burst);
    trial.check(refused == Err(number), "another refusal");
}

fn by_single_calls(
    trial: &mut Trial,
    receiver: &mut ReceiverPair,
    frames: &[Vec<u8>],
) -> HandedOut {
    let mut all = HandedOut::default();
    for (place, frame) in frames.iter().enumerate() {
        let mut from = 0;
        loop {
            match receiver.receive(trial, frame, from, Lending::default()) {
                Received::Refused(number) => all.1.push((place as u32, number)),
                Received::Finished => {}
                Received::Bundle {
                    length,
                    next,
                    number,
                } => {
                    let bundle = receiver.bundle(length).to_vec();
                    all.0.push((number.map_or(NO_NUMBER, u64::from), bundle));
                    from = next;
                    continue;
                }
            }
            break;
        }
    }
    all
}
