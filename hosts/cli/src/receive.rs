//! `btpu receive`: bundles out of frames as they come.

use crate::arguments::Arguments;
use crate::bundle_files::BundleFiles;
use crate::drive::{drive, InputEnd, Taker};
use crate::input::Input;
use crate::lines::{BadLine, TakeLine};
use crate::outcome::{Ended, Failure, Notes, Verdict};
use crate::output::{bundle_front, bundle_line, Output};
use crate::pace::Pace;
use crate::settings::Given;
use crate::state::{Kind, StateFile};
use crate::window_view;
use btpu::raw::{RECEIVER_IMAGE, RECEIVER_WINDOW};
use btpu::{Bundle, Receiver, RestoreError, WindowSize};
use std::fmt::Display;
use std::time::Duration;

pub fn run(arguments: &Arguments) -> Ended {
    let mut reception = Reception::open(arguments)?;
    let input = Input::standard()?;
    let end = drive(&input, Vec::new(), &mut reception).inspect_err(|_| {
        // Lines of bundles that are in files already; the state stays as it was stored last.
        let _ = reception.flush();
    })?;
    reception.store()?;
    reception.summary();
    match end {
        InputEnd::Unreadable(words) => Err(Failure::Error(words)),
        InputEnd::Whole => Ok(Verdict::of_faults(reception.refused + reception.bad_lines)),
    }
}

struct Reception {
    receiver: Receiver,
    state: Option<StateFile>,
    pace: Pace,
    files: Option<BundleFiles>,
    /// Bundles written to files, as the state file had it.
    filed: u64,
    output: Output,
    notes: Notes,
    taken: u64,
    refused: u64,
    bad_lines: u64,
    bundles: u64,
}

impl Reception {
    fn open(arguments: &Arguments) -> Result<Reception, Failure> {
        let given = Given::of(arguments)?;
        let mut notes = Notes::new("receive");
        let state = match arguments.path("--state") {
            Some(path) => Some(StateFile::open(path, Kind::Receiver)?),
            None => None,
        };
        let (filed, receiver) = match restored(state.as_ref())? {
            Some(stored) => {
                given.go_on(&stored.receiver, stored.before_windows, &mut notes)?;
                (stored.filed, stored.receiver)
            }
            None => (0, given.fresh()),
        };
        let files = match arguments.path("--out") {
            Some(path) => Some(BundleFiles::open(path, filed)?),
            None => None,
        };
        let mut reception = Reception {
            receiver,
            state,
            pace: Pace::default(),
            files,
            filed,
            output: Output::standard()?,
            notes,
            taken: 0,
            refused: 0,
            bad_lines: 0,
            bundles: 0,
        };
        reception.store()?;
        Ok(reception)
    }

    fn hand_out(&mut self, bundle: &Bundle) -> Result<(), Failure> {
        self.bundles += 1;
        self.notes.flush();
        match &mut self.files {
            None => bundle_line(bundle.number, &bundle.octets, self.output.text()),
            Some(files) => {
                let name = files.write(bundle.number, &bundle.octets)?;
                bundle_front(bundle.number, bundle.octets.len(), self.output.text());
                self.output.line(name);
            }
        }
        if self.output.is_full() {
            return self.flush();
        }
        Ok(())
    }

    /// Everything that was handed out is out after it.
    fn flush(&mut self) -> Result<(), Failure> {
        if let Some(files) = &mut self.files {
            files.sync()?;
        }
        self.output.flush()
    }

    /// Stores the state, after all bundles that it does not hold any more are out.
    fn store(&mut self) -> Result<(), Failure> {
        self.flush()?;
        if let Some(state) = &mut self.state {
            self.output.sync()?;
            let filed = self.files.as_ref().map_or(self.filed, BundleFiles::count);
            let mut content = filed.to_be_bytes().to_vec();
            content.extend_from_slice(&self.receiver.save());
            state.store(content)?;
        }
        self.pace.stored();
        Ok(())
    }

    fn summary(&mut self) {
        if let Some(words) = window_view::given_up(&self.receiver) {
            self.notes.say(words);
        }
        let (taken, refused) = (self.taken, self.refused);
        let (bad_lines, bundles) = (self.bad_lines, self.bundles);
        self.notes.say(format_args!(
            "frames taken {taken}, refused {refused}, bad lines {bad_lines}, bundles {bundles}"
        ));
        self.notes.flush();
    }
}

/// What a state file keeps.
struct Stored {
    /// Bundles written to files so far.
    filed: u64,
    receiver: Receiver,
    /// Whether it was stored before windows could be chosen.
    before_windows: bool,
}

/// What the state file has; None if there was no file.
fn restored(state: Option<&StateFile>) -> Result<Option<Stored>, Failure> {
    let Some((state, content)) = state.and_then(|state| Some((state, state.stored()?))) else {
        return Ok(None);
    };
    let Some((filed, saved)) = content.split_first_chunk() else {
        return Err(state.refuse("its content is too short for a receiver"));
    };
    let before_windows = is_before_windows(saved);
    let receiver = match before_windows {
        true => restored_with_sixteen(saved),
        false => Receiver::restore(saved),
    };
    Ok(Some(Stored {
        filed: u64::from_be_bytes(*filed),
        receiver: receiver.map_err(|error| state.refuse(&error.to_string()))?,
        before_windows,
    }))
}

/// Whether a receiver was saved before windows could be chosen: it names none, and has the pool of 16.
fn is_before_windows(saved: &[u8]) -> bool {
    saved.len() == RECEIVER_IMAGE + WindowSize::Sixteen.pool() && saved[RECEIVER_WINDOW] == 0
}

fn restored_with_sixteen(saved: &[u8]) -> Result<Receiver, RestoreError> {
    let mut saved = saved.to_vec();
    saved[RECEIVER_WINDOW] = WindowSize::Sixteen.transfers() as u8;
    Receiver::restore(&saved)
}

impl Reception {
    /// Tells of a line that has no effect. What came before it is written first, so that both stay in order.
    fn tell(&mut self, number: u64, what: &str, why: impl Display) -> Result<(), Failure> {
        self.flush()?;
        self.notes.say(format_args!("line {number}: {what}: {why}"));
        Ok(())
    }
}

impl TakeLine<Failure> for Reception {
    fn take_line(&mut self, number: u64, line: Result<&[u8], BadLine>) -> Result<(), Failure> {
        let frame = match line {
            Ok(frame) => frame,
            Err(fault) => {
                self.bad_lines += 1;
                return self.tell(number, "bad line", fault);
            }
        };
        match self.receiver.receive(frame) {
            Ok(bundles) => {
                self.taken += 1;
                self.pace.changed();
                bundles
                    .iter()
                    .try_for_each(|bundle| self.hand_out(bundle))?;
                if self.files.is_some() && !bundles.is_empty() {
                    // Files take time: what is waiting must not wait for the other lines of this part.
                    self.settle(false)?;
                }
                Ok(())
            }
            Err(refusal) => {
                self.refused += 1;
                self.tell(number, "frame refused", refusal)
            }
        }
    }
}

impl Taker for Reception {
    fn settle(&mut self, paused: bool) -> Result<Option<Duration>, Failure> {
        if paused {
            self.flush()?;
            self.notes.flush();
        }
        if self.pace.due_in() == Some(Duration::ZERO) {
            self.store()?;
        }
        Ok(self.pace.due_in())
    }
}
