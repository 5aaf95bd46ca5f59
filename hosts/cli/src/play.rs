//! `btpu play`: what a fresh receiver makes of a recording.

use crate::arguments::Arguments;
use crate::outcome::{file_error, Ended, Failure, Notes, Verdict};
use crate::output::{bundle_line, Output};
use crate::progress::Progress;
use crate::window_view;
use btpu::raw::MAX_RECORDING;
use btpu::{Bundle, Draft, Playback, Receiver, Recording, Refusal};
use std::ffi::OsStr;
use std::fs::File;
use std::io::{self, IsTerminal, Read};
use std::path::Path;

pub fn run(arguments: &Arguments) -> Ended {
    let file = &arguments.operands(1..=1, "FILE")?[0];
    let limit = arguments.number("--messages", 0..=u64::MAX)?;
    let name = if file == "-" {
        Path::new("standard input")
    } else {
        Path::new(file)
    };
    let octets = read(file).map_err(|error| file_error(name, "can't be read", &error))?;
    let recording = Recording::open(&octets).map_err(|refusal| {
        Failure::Error(format!("{} is no recording: {refusal}", name.display()))
    })?;
    let playback = recording.play(limit.unwrap_or(u64::MAX));
    let total = recording.frames().len() + playback.bundles().len();
    let mut progress = Progress::new(total);
    let mut walk = Walk::of(&recording, &mut progress);
    if limit.is_some() {
        // The walk goes on to the end and may give up more than a playback that stops.
        walk.given_up = None;
    }
    if io::stdout().is_terminal() {
        // Bundles are listed on the same screen.
        progress.finish();
    }
    let listed = list(&playback, &walk, &mut progress);
    progress.finish();
    listed?;
    Ok(summary(&playback, &walk))
}

/// A file's octets, at most one more than a recording has.
fn read(file: &OsStr) -> io::Result<Vec<u8>> {
    let mut octets = Vec::new();
    if file == "-" {
        front(io::stdin().lock()).read_to_end(&mut octets)?;
    } else {
        front(File::open(file)?).read_to_end(&mut octets)?;
    }
    Ok(octets)
}

fn front<R: Read>(source: R) -> io::Take<R> {
    source.take(MAX_RECORDING as u64 + 1)
}

/// The frames taken one by one: a playback names neither the numbers of its bundles nor the places of bad messages.
struct Walk {
    numbers: Vec<Option<u32>>,
    refused: Vec<(usize, Refusal)>,
    given_up: Option<String>,
}

impl Walk {
    fn of(recording: &Recording, progress: &mut Progress) -> Walk {
        let (mut numbers, mut refused) = (Vec::new(), Vec::new());
        let mut receiver = Receiver::with_window(Draft::Draft02, Recording::WINDOW);
        for (place, frame) in recording.frames().enumerate() {
            match receiver.receive(frame) {
                Ok(bundles) => numbers.extend(bundles.iter().map(|bundle: &Bundle| bundle.number)),
                Err(refusal) => refused.push((place, refusal)),
            }
            progress.step();
        }
        let given_up = window_view::given_up(&receiver);
        Walk {
            numbers,
            refused,
            given_up,
        }
    }
}

/// The bundles. A playback that stops early has handed out the first ones of the walk.
fn list(playback: &Playback, walk: &Walk, progress: &mut Progress) -> Result<(), Failure> {
    let mut output = Output::standard()?;
    for (bundle, &number) in playback.bundles().zip(&walk.numbers) {
        bundle_line(number, bundle, output.text());
        output.flush_full()?;
        progress.step();
    }
    output.flush()
}

/// The frames refused, the transfers given up and the count of messages.
fn summary(playback: &Playback, walk: &Walk) -> Verdict {
    let mut notes = Notes::new("play");
    for (place, refusal) in walk.refused.iter().take(playback.refused.len()) {
        notes.say(format_args!(
            "frame {}: frame refused: {refusal}",
            place + 1
        ));
    }
    if let Some(words) = &walk.given_up {
        notes.say(words);
    }
    notes.say(format_args!(
        "messages treated {}, frames refused {}, bundles {}",
        playback.messages,
        playback.refused.len(),
        playback.bundles().len()
    ));
    Verdict::of_faults(playback.refused.len() as u64)
}
