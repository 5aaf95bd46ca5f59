//! Generated calls on the model and the exported interface, compared octet for octet.

use harness::compare::Trial;
use harness::coverage::{Coverage, NEVER_GIVEN, NEVER_GIVEN_00};
use harness::model::Draft;
use harness::scenario::{self, recordings, SCENARIOS};

const DEFAULT_SEED: u64 = 2_048;
const ROUNDS: u64 = 1_000;

/// No case of a draft may be reached less often, and none of those that cost time; of these half as often
/// will do with a seed that is given.
const FLOOR: u64 = 120;
const FLOOR_OF_EXTREMES: u64 = 40;

/// The seed that the environment variable BTPU_SEED gives. It is shown where a test fails.
fn seed() -> u64 {
    let seed = match std::env::var("BTPU_SEED") {
        Ok(given) => given.parse().expect("BTPU_SEED is a decimal number"),
        Err(_) => DEFAULT_SEED,
    };
    println!("BTPU_SEED={seed}");
    seed
}

#[test]
fn every_scenario_agrees_and_every_case_is_reached() {
    let mut coverage = Coverage::default();
    let mut rounds = 0;
    scenario::run_all(seed(), &mut coverage, |_| {
        rounds += 1;
        rounds <= ROUNDS
    });
    assert_eq!(coverage.scenarios, ROUNDS * SCENARIOS.len() as u64);
    let extremes = coverage.recordings.extremes();
    for (case, count) in coverage.cases().iter().chain(&extremes) {
        println!("{count:>9} {case}");
    }
    println!(
        "{} calls, {} with states of draft 00: {} receiving, {} sending, {} starts, {} checks, \
         {} for recordings, {} bursts",
        coverage.calls(),
        coverage.of(Draft::D00).calls(),
        coverage.receiving_calls,
        coverage.sending_calls,
        coverage.starts,
        coverage.checks,
        coverage.recording_calls,
        coverage.burst_calls
    );
    check_all_reached(&coverage);
}

fn check_all_reached(coverage: &Coverage) {
    for (case, count) in coverage.cases() {
        assert!(count >= FLOOR, "{case}: only {count}");
    }
    let floor = FLOOR_OF_EXTREMES / if seed() == DEFAULT_SEED { 1 } else { 2 };
    for (case, count) in coverage.recordings.extremes() {
        assert!(count >= floor, "{case}: only {count}");
    }
    for number in NEVER_GIVEN {
        assert_eq!(coverage.refusals[number], 0);
    }
    let old = coverage.of(Draft::D00);
    for number in [5].into_iter().chain(NEVER_GIVEN_00) {
        assert_eq!(old.refusals[number] + old.noted[number], 0, "draft 00");
    }
    assert!(coverage.receiving_calls >= 400_000);
    assert!(coverage.sending_calls >= 100_000);
    assert!(coverage.recording_calls >= 40_000);
    assert!(coverage.burst_calls >= 25_000);
    assert!(coverage.checks >= 500_000);
    assert!(coverage.calls() >= 1_200_000);
    for draft in Draft::BOTH {
        assert!(coverage.of(draft).calls() >= 500_000, "{draft}");
    }
    assert_eq!(coverage.refusals.iter().sum::<u64>(), coverage.calls());
}

#[test]
fn every_fill_of_the_smallest_and_the_greatest_frame() {
    let mut coverage = Coverage::default();
    let mut trial = Trial::new("every fill", seed(), &mut coverage);
    for draft in Draft::BOTH {
        trial.draft = draft;
        for size in [128, 129, 2048] {
            for fill in 0..size {
                scenario::fill_edges(&mut trial, size, fill);
            }
        }
    }
    assert_eq!(coverage.sending_calls, 2 * (128 + 129 + 2048) * 16);
}

#[test]
fn every_type_with_every_reserved_bit() {
    let mut coverage = Coverage::default();
    let mut trial = Trial::new("every type", seed(), &mut coverage);
    scenario::reserved_bits_of_every_type(&mut trial);
    assert_eq!(coverage.receiving_calls, 255 * 2 * 8);
}

#[test]
fn every_type_with_every_bit_of_a_long_length() {
    let mut coverage = Coverage::default();
    let mut trial = Trial::new("every type", seed(), &mut coverage);
    scenario::long_lengths_of_every_type(&mut trial);
    assert_eq!(coverage.receiving_calls, 255 * 9);
    assert_eq!(coverage.of(Draft::D00).refusals[6], 255 * 8);
}

/// Runs a trial with so many seeds, and with more until enough is reached; answers what it reached.
fn repeated(
    name: &'static str,
    times: u64,
    trial: fn(&mut Trial),
    enough: fn(&Coverage) -> bool,
) -> Coverage {
    let mut coverage = Coverage::default();
    let first = seed();
    let mut rounds = 0;
    while rounds < times || !enough(&coverage) {
        assert!(rounds < 20 * times, "{name}: too little is reached");
        let seed = first.wrapping_add(rounds);
        trial(&mut Trial::new(name, seed, &mut coverage));
        rounds += 1;
    }
    println!("{name}: {} calls for recordings", coverage.recording_calls);
    coverage
}

#[test]
fn every_beginning_of_some_recordings() {
    let enough = |coverage: &Coverage| coverage.refusals[16] >= 2_000;
    let coverage = repeated("every beginning", 20, recordings::every_beginning, enough);
    assert!(coverage.recordings.opened >= 20);
}

#[test]
fn every_bit_of_some_recordings() {
    let enough = |coverage: &Coverage| coverage.recording_calls >= 8_000;
    repeated("every bit", 8, recordings::every_bit, enough);
}

#[test]
fn every_limit_of_some_recordings() {
    let enough = |coverage: &Coverage| coverage.recording_calls >= 3_000;
    let coverage = repeated("every limit", 60, recordings::every_limit, enough);
    assert!(coverage.recordings.taken_singly >= 60);
}

#[test]
fn full_recordings_by_single_calls() {
    let reached = |coverage: &Coverage| {
        let extremes = coverage.recordings.extremes();
        extremes.iter().all(|&(_, count)| count >= 1)
    };
    let name = "full by single calls";
    repeated(name, 8, recordings::full_by_single_calls, reached);
}

#[test]
fn the_same_seed_makes_the_same_calls() {
    let run = |seed| {
        let mut coverage = Coverage::default();
        scenario::run_all(seed, &mut coverage, |coverage| coverage.calls() < 2_000);
        coverage
    };
    assert_eq!(run(5), run(5));
    assert_ne!(run(5), run(6));
}
