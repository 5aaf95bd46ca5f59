//! `btpu inspect`: the messages of frames in words, and the window after each frame.

use crate::arguments::Arguments;
use crate::drive::{drive, InputEnd, Taker};
use crate::input::{Arrival, Input};
use crate::lines::{BadLine, TakeLine};
use crate::messages::messages;
use crate::outcome::{Ended, Failure, Notes, Verdict};
use crate::output::Output;
use crate::settings::Given;
use crate::window_view;
use crate::words::counted;
use btpu::raw::MAX_RECORDING;
use btpu::{Bundle, Receiver, Recording, Refusal};
use std::path::Path;
use std::time::Duration;

pub fn run(arguments: &Arguments) -> Ended {
    let receiver = Given::of(arguments)?.fresh();
    let input = match arguments.operands(0..=1, "FILE")?.first() {
        Some(file) if file != "-" => Input::file(Path::new(file))?,
        _ => Input::standard()?,
    };
    let mut inspection = Inspection {
        receiver,
        output: Output::standard()?,
        notes: Notes::new("inspect"),
        frames: 0,
        refused: 0,
        bad_lines: 0,
    };
    let first = match input.next(None) {
        Arrival::Octets(octets) => octets,
        Arrival::Unreadable(words) => return Err(Failure::Error(words)),
        Arrival::Nothing | Arrival::End => Vec::new(),
    };
    // The number of frames stands first in a recording, at most 1,024; no line of hex starts with a zero octet.
    let end = if first.first() == Some(&0) {
        recording(&input, first, &mut inspection)?;
        InputEnd::Whole
    } else {
        drive(&input, first, &mut inspection)?
    };
    inspection.finish(end)
}

struct Inspection {
    receiver: Receiver,
    output: Output,
    notes: Notes,
    frames: u64,
    refused: u64,
    bad_lines: u64,
}

/// Takes the frames of a recording.
fn recording(input: &Input, mut octets: Vec<u8>, to: &mut Inspection) -> Result<(), Failure> {
    while octets.len() <= MAX_RECORDING {
        match input.next(None) {
            Arrival::Octets(part) => octets.extend_from_slice(&part),
            Arrival::Unreadable(words) => return Err(Failure::Error(words)),
            Arrival::Nothing | Arrival::End => break,
        }
    }
    let name = input.name();
    let recording = Recording::open(&octets).map_err(|refusal| {
        Failure::Error(format!(
            "{name} has neither lines of hex nor a recording: {refusal}"
        ))
    })?;
    for frame in recording.frames() {
        to.frame(None, frame)?;
    }
    Ok(())
}

impl Inspection {
    fn frame(&mut self, line: Option<u64>, frame: &[u8]) -> Result<(), Failure> {
        self.frames += 1;
        self.notes.flush();
        let from = line.map_or(String::new(), |line| format!(" (line {line})"));
        let length = counted(frame.len(), "octet");
        self.output
            .line(format_args!("frame {}{from}: {length}", self.frames));
        match self.receiver.receive(frame) {
            Ok(bundles) => self.taken(frame, &bundles),
            Err(refusal) => self.not_taken(frame, refusal),
        }
        for line in window_view::lines(&self.receiver) {
            self.output.line(format_args!("  {line}"));
        }
        self.output.flush_full()
    }

    fn taken(&mut self, frame: &[u8], bundles: &[Bundle]) {
        self.messages(frame, frame.len());
        for bundle in bundles {
            let length = counted(bundle.octets.len(), "octet");
            match bundle.number {
                Some(number) => self.output.line(format_args!(
                    "  handed out: the bundle of transfer {number}, {length}"
                )),
                None => self
                    .output
                    .line(format_args!("  handed out: a bundle message, {length}")),
            }
        }
    }

    fn not_taken(&mut self, frame: &[u8], refusal: Refusal) {
        self.refused += 1;
        self.messages(frame, refusal.place().map_or(0, |place| place as usize));
        self.output
            .line(format_args!("  {refusal}; the whole frame has no effect"));
    }

    fn messages(&mut self, frame: &[u8], end: usize) {
        for message in messages(self.receiver.draft(), frame, end) {
            self.output
                .line(format_args!("  octet {}: {}", message.at, message.words));
        }
    }

    fn finish(mut self, end: InputEnd) -> Ended {
        self.output.flush()?;
        let (frames, refused, bad_lines) = (self.frames, self.refused, self.bad_lines);
        self.notes.say(format_args!(
            "frames {frames}, of these refused {refused}; bad lines {bad_lines}"
        ));
        match end {
            InputEnd::Whole => Ok(Verdict::of_faults(refused + bad_lines)),
            InputEnd::Unreadable(words) => Err(Failure::Error(words)),
        }
    }
}

impl TakeLine<Failure> for Inspection {
    fn take_line(&mut self, number: u64, line: Result<&[u8], BadLine>) -> Result<(), Failure> {
        match line {
            Ok(frame) => self.frame(Some(number), frame),
            Err(fault) => {
                self.bad_lines += 1;
                self.output.flush()?;
                self.notes
                    .say(format_args!("line {number}: bad line: {fault}"));
                Ok(())
            }
        }
    }
}

impl Taker for Inspection {
    fn settle(&mut self, paused: bool) -> Result<Option<Duration>, Failure> {
        if paused {
            self.output.flush()?;
            self.notes.flush();
        }
        Ok(None)
    }
}
