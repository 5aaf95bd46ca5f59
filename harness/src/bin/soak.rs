//! The scenarios of the differential test, in both drafts and every window, for a given time or number of
//! calls.
//!
//!     soak calls NUMBER [SEED]
//!     soak seconds NUMBER [SEED]
//!     soak scenario NAME SEED      one scenario again, as a difference names it

use std::process::ExitCode;
use std::time::{Duration, Instant};

use harness::coverage::Coverage;
use harness::model::Draft;
use harness::scenario::{self, SCENARIOS};

const PROGRESS: Duration = Duration::from_secs(10);

fn main() -> ExitCode {
    let arguments: Vec<String> = std::env::args().skip(1).collect();
    let arguments: Vec<&str> = arguments.iter().map(String::as_str).collect();
    match run(&arguments) {
        Some(()) => ExitCode::SUCCESS,
        None => {
            eprintln!(
                "soak calls NUMBER [SEED] | soak seconds NUMBER [SEED] | soak scenario NAME SEED"
            );
            ExitCode::FAILURE
        }
    }
}

fn run(arguments: &[&str]) -> Option<()> {
    let (unit, amount, seed) = match *arguments {
        ["scenario", name, seed] => return again(name, seed.parse().ok()?),
        [unit @ ("calls" | "seconds"), amount] => (unit, amount, "1"),
        [unit @ ("calls" | "seconds"), amount, seed] => (unit, amount, seed),
        _ => return None,
    };
    soak(unit == "calls", amount.parse().ok()?, seed.parse().ok()?);
    Some(())
}

fn again(name: &str, seed: u64) -> Option<()> {
    let scenario = SCENARIOS.iter().find(|scenario| scenario.0 == name)?;
    let mut coverage = Coverage::default();
    scenario::run(scenario, seed, &mut coverage);
    println!(
        "scenario {name}, seed {seed}: {} calls agree",
        coverage.calls()
    );
    Some(())
}

fn soak(by_calls: bool, amount: u64, seed: u64) {
    let begin = Instant::now();
    let mut coverage = Coverage::default();
    let mut progress = PROGRESS;
    scenario::run_all(seed, &mut coverage, |coverage| {
        let elapsed = begin.elapsed();
        if elapsed >= progress {
            progress = elapsed + PROGRESS;
            println!(
                "{:>6} s {:>12} calls {:>10} scenarios",
                elapsed.as_secs(),
                coverage.calls(),
                coverage.scenarios
            );
        }
        if by_calls {
            coverage.calls() < amount
        } else {
            elapsed.as_secs() < amount
        }
    });
    let extremes = coverage.recordings.extremes();
    for (case, count) in coverage.cases().iter().chain(&extremes) {
        println!("{count:>12} {case}");
    }
    println!(
        "seed {seed}: {} calls in {} scenarios agree, {} with states of draft 00, {} of draft 02, {:.1} s",
        coverage.calls(),
        coverage.scenarios,
        coverage.of(Draft::D00).calls(),
        coverage.of(Draft::D02).calls(),
        begin.elapsed().as_secs_f64()
    );
}
