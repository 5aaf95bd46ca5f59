//! `btpu record`: a recording out of frames as they come.

use crate::arguments::Arguments;
use crate::drive::{drive, InputEnd, Taker};
use crate::input::Input;
use crate::lines::{BadLine, TakeLine};
use crate::outcome::{Ended, Failure, Notes, Verdict};
use crate::pace::Pace;
use crate::replace::Replaced;
use crate::words::counted;
use btpu::raw::{RECORDED_FRAMES, RECORDED_OCTETS};
use btpu::Recording;
use std::path::Path;
use std::time::Duration;

pub fn run(arguments: &Arguments) -> Ended {
    let path = Path::new(&arguments.operands(1..=1, "FILE")?[0]);
    if path == Path::new("-") {
        let words =
            "a recording is replaced as a whole and can't go to standard output: name a file";
        return Err(Failure::Usage(words.to_string()));
    }
    let mut recorder = Recorder {
        file: Replaced::open(path)?,
        frames: Vec::new(),
        octets: 0,
        pace: Pace::default(),
        notes: Notes::new("record"),
        bad_lines: 0,
    };
    let end = drive(&Input::standard()?, Vec::new(), &mut recorder);
    if recorder.frames.is_empty() && !matches!(end, Ok(InputEnd::Whole)) {
        recorder
            .notes
            .say(format_args!("{} is left as it was", path.display()));
    } else {
        recorder.store()?;
        recorder.summary();
    }
    match end? {
        InputEnd::Whole => Ok(Verdict::of_faults(recorder.bad_lines)),
        InputEnd::Unreadable(words) => Err(Failure::Error(words)),
    }
}

struct Recorder {
    file: Replaced,
    frames: Vec<Vec<u8>>,
    octets: usize,
    pace: Pace,
    notes: Notes,
    bad_lines: u64,
}

impl Recorder {
    /// Replaces the file by a recording of the frames so far.
    fn store(&mut self) -> Result<(), Failure> {
        let recording = Recording::write(&self.frames);
        let recording =
            recording.map_err(|refusal| Failure::Error(format!("no recording: {refusal}")))?;
        self.file.replace(&recording)?;
        self.pace.stored();
        Ok(())
    }

    fn summary(&mut self) {
        let (frames, octets, bad_lines) = (self.frames.len(), self.octets, self.bad_lines);
        let path = self.file.named().display();
        self.notes.say(format_args!(
            "{path}: frames recorded {frames}, octets {octets}; bad lines {bad_lines}"
        ));
        self.notes.flush();
    }

    /// The limit of the format that one frame more would pass.
    fn limit(&self, frame: &[u8]) -> Option<&'static str> {
        if self.frames.len() == RECORDED_FRAMES {
            return Some("1,024 frames");
        }
        (self.octets + frame.len() > RECORDED_OCTETS).then_some("61,440 octets")
    }
}

impl TakeLine<Failure> for Recorder {
    fn take_line(&mut self, number: u64, line: Result<&[u8], BadLine>) -> Result<(), Failure> {
        let frame = match line {
            Ok(frame) => frame,
            Err(fault) => {
                self.bad_lines += 1;
                self.notes
                    .say(format_args!("line {number}: bad line: {fault}"));
                return Ok(());
            }
        };
        if let Some(limit) = self.limit(frame) {
            return Err(Failure::Error(format!(
                "line {number}: a recording holds at most {limit}, and this frame of {} would pass that. \
                 The frames before it are kept in {}: go on with this line in another file",
                counted(frame.len(), "octet"),
                self.file.named().display()
            )));
        }
        self.octets += frame.len();
        self.frames.push(frame.to_vec());
        self.pace.changed();
        Ok(())
    }
}

impl Taker for Recorder {
    fn settle(&mut self, paused: bool) -> Result<Option<Duration>, Failure> {
        if paused {
            self.notes.flush();
        }
        if self.pace.due_in() == Some(Duration::ZERO) {
            self.store()?;
        }
        Ok(self.pace.due_in())
    }
}
