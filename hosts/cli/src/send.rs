//! `btpu send`: files cut into frames.

use crate::arguments::Arguments;
use crate::hex;
use crate::outcome::{Ended, Failure, Notes, Verdict};
use crate::output::Output;
use crate::settings;
use crate::state::{Kind, StateFile};
use btpu::raw::{MAX_BUNDLE, MAX_FRAME_SIZE, MIN_FRAME_SIZE};
use btpu::{Draft, Refusal, Sender};
use std::ffi::OsString;
use std::fmt::Display;
use std::fs::File;
use std::io::{self, Read};

pub fn run(arguments: &Arguments) -> Ended {
    let mut notes = Notes::new("send");
    let files = arguments.operands(1..=usize::MAX, "FILE")?;
    if files.iter().filter(|file| *file == "-").count() > 1 {
        let words = "standard input (-) can be named once: it is one bundle";
        return Err(Failure::Usage(words.to_string()));
    }
    let given = Given::of(arguments)?;
    let (mut sender, state) = match arguments.path("--state") {
        None => (given.fresh("")?, None),
        Some(path) => {
            let state = StateFile::open(path, Kind::Sender)?;
            (given.sender(&state, &mut notes)?, Some(state))
        }
    };
    let bundles = read_all(files, &mut notes)?;
    let last = after(&sender, &bundles).map_err(impossible)?;
    if let Some(mut state) = state {
        state.store(last.save())?;
        write(&mut sender, &bundles).map_err(|failure| numbers_taken(failure, &last))?;
    } else {
        write(&mut sender, &bundles)?;
    }
    notes.say(format_args!("next transfer number: {}", last.next_number()));
    Ok(Verdict::Clean)
}

/// What the command line says of the sender.
struct Given {
    frame_size: Option<u64>,
    first: Option<u64>,
    draft: Option<Draft>,
}

impl Given {
    fn of(arguments: &Arguments) -> Result<Given, Failure> {
        let sizes = MIN_FRAME_SIZE as u64..=MAX_FRAME_SIZE as u64;
        Ok(Given {
            frame_size: arguments.number("--frame-size", sizes)?,
            first: arguments.number("--first", 0..=u32::MAX.into())?,
            draft: arguments.draft()?,
        })
    }

    /// A sender that begins. `why` says why the options are asked for, where that is not plain.
    fn fresh(&self, why: &str) -> Result<Sender, Failure> {
        let missing = |name: &str| Failure::Usage(format!("{name} is missing{why}"));
        let frame_size = self.frame_size.ok_or_else(|| missing("--frame-size"))?;
        let first = self.first.ok_or_else(|| missing("--first"))?;
        let draft = self.draft.unwrap_or_default();
        Sender::of_draft(draft, frame_size as usize, first as u32).map_err(impossible)
    }

    /// The sender that a state file keeps, or one that begins if there is no file yet.
    fn sender(&self, state: &StateFile, notes: &mut Notes) -> Result<Sender, Failure> {
        let Some(stored) = state.stored() else {
            return self.fresh(": there is no state file yet, and so nothing to go on from");
        };
        let sender = Sender::restore(stored).map_err(|error| state.refuse(&error.to_string()))?;
        if sender.is_begun() {
            return Err(state.refuse("a transfer is begun in it, and its bundle is not known"));
        }
        if self.first.is_some() {
            return Err(Failure::Usage(format!(
                "--first is for a new state file: with this one numbers go on by themselves, from {}; leave --first out",
                sender.next_number()
            )));
        }
        match self.frame_size {
            Some(size) if size != sender.frame_size() as u64 => {
                return Err(Failure::Usage(format!(
                    "--frame-size {size} differs from the frame size {} of the state file: leave --frame-size out, or name another state file",
                    sender.frame_size()
                )));
            }
            _ => {}
        }
        settings::agree("draft", sender.draft(), self.draft)?;
        settings::tell("draft", sender.draft(), self.draft, notes);
        notes.flush();
        Ok(sender)
    }
}

/// Reads every file whole. If one can't be sent, says so of each such file, and none is sent.
fn read_all(files: &[OsString], notes: &mut Notes) -> Result<Vec<Vec<u8>>, Failure> {
    let mut bundles = Vec::with_capacity(files.len());
    for file in files {
        match read(file) {
            Ok(bundle) => bundles.push(bundle),
            Err(words) => notes.say(words),
        }
    }
    match files.len() - bundles.len() {
        0 => Ok(bundles),
        bad => Err(Failure::Error(format!(
            "nothing was sent: {bad} of {} files can't be sent",
            files.len()
        ))),
    }
}

fn read(file: &OsString) -> Result<Vec<u8>, String> {
    let (name, octets) = if file == "-" {
        ("standard input".to_string(), read_front(io::stdin().lock()))
    } else {
        let octets = File::open(file).and_then(read_front);
        (file.display().to_string(), octets)
    };
    match octets {
        Err(error) => Err(format!("{name} can't be read: {error}")),
        Ok(octets) if octets.is_empty() => {
            Err(format!("{name} is empty: a bundle has 1 to 4,096 octets"))
        }
        Ok(octets) if octets.len() > MAX_BUNDLE => Err(format!(
            "{name} is too long: a bundle has 1 to 4,096 octets"
        )),
        Ok(octets) => Ok(octets),
    }
}

/// The octets up to the end, or one more than a bundle has at most.
fn read_front(source: impl Read) -> io::Result<Vec<u8>> {
    let mut octets = Vec::new();
    source
        .take(MAX_BUNDLE as u64 + 1)
        .read_to_end(&mut octets)?;
    Ok(octets)
}

/// The sender as it will be when all bundles are sent.
fn after(sender: &Sender, bundles: &[Vec<u8>]) -> Result<Sender, String> {
    let mut sender = Sender::restore(&sender.save()).map_err(|error| error.to_string())?;
    let words = |refusal: Refusal| refusal.to_string();
    for bundle in bundles {
        sender.send(bundle, |_| {}).map_err(words)?;
    }
    sender.finish(|_| {}).map_err(words)?;
    Ok(sender)
}

/// Writes the frames, one a line.
fn write(sender: &mut Sender, bundles: &[Vec<u8>]) -> Result<(), Failure> {
    let mut output = Output::standard()?;
    for bundle in bundles {
        let sent = sender.send(bundle, |frame| frame_line(frame, output.text()));
        sent.map_err(impossible)?;
        output.flush_full()?;
    }
    let finished = sender.finish(|frame| frame_line(frame, output.text()));
    finished.map_err(impossible)?;
    output.flush()
}

fn frame_line(frame: &[u8], text: &mut Vec<u8>) {
    hex::encode(frame, text);
    text.push(b'\n');
}

/// What is refused though it was checked before.
fn impossible(refusal: impl Display) -> Failure {
    Failure::Error(format!("the sender refuses: {refusal}"))
}

fn numbers_taken(failure: Failure, last: &Sender) -> Failure {
    match failure {
        Failure::Error(words) => Failure::Error(format!(
            "{words}; the transfer numbers of this run are taken, the next one is {}: send the files again",
            last.next_number()
        )),
        other => other,
    }
}
