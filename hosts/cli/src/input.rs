//! Input that is read by a thread of its own, so that it can be told whether something is waiting.

use crate::outcome::{file_error, Failure};
use std::fs::File;
use std::io::{self, ErrorKind, Read};
use std::os::fd::AsFd;
use std::path::Path;
use std::sync::mpsc::{sync_channel, Receiver, RecvTimeoutError, SyncSender, TryRecvError};
use std::thread;
use std::time::Duration;

/// Octets read at once at most, and how many parts may wait.
const PART: usize = 1 << 16;
const WAITING: usize = 4;
/// Time until the next attempt where the other end made standard input refuse to wait.
const RETRY: Duration = Duration::from_millis(5);

/// What has come.
pub enum Arrival {
    Octets(Vec<u8>),
    Nothing,
    End,
    /// Why it can't be read on, with the input's name.
    Unreadable(String),
}

pub struct Input {
    name: String,
    parts: Receiver<io::Result<Vec<u8>>>,
}

impl Input {
    pub fn standard() -> Result<Input, Failure> {
        let unreadable = |error| Failure::Error(format!("standard input can't be read: {error}"));
        let own = io::stdin()
            .as_fd()
            .try_clone_to_owned()
            .map_err(unreadable)?;
        Ok(Input::new(File::from(own), "standard input".to_string()))
    }

    pub fn file(path: &Path) -> Result<Input, Failure> {
        let file = File::open(path).map_err(|error| file_error(path, "can't be opened", &error))?;
        Ok(Input::new(file, path.display().to_string()))
    }

    pub fn name(&self) -> &str {
        &self.name
    }

    fn new(source: impl Read + Send + 'static, name: String) -> Input {
        let (to, parts) = sync_channel(WAITING);
        thread::spawn(move || read_all(source, &to));
        Input { name, parts }
    }

    /// What has come already.
    pub fn waiting(&self) -> Arrival {
        match self.parts.try_recv() {
            Ok(part) => self.arrival(part),
            Err(TryRecvError::Empty) => Arrival::Nothing,
            Err(TryRecvError::Disconnected) => Arrival::End,
        }
    }

    /// What comes next, or Nothing if nothing comes within a time.
    pub fn next(&self, within: Option<Duration>) -> Arrival {
        let Some(time) = within else {
            let part = self.parts.recv();
            return part.map_or(Arrival::End, |part| self.arrival(part));
        };
        match self.parts.recv_timeout(time) {
            Ok(part) => self.arrival(part),
            Err(RecvTimeoutError::Timeout) => Arrival::Nothing,
            Err(RecvTimeoutError::Disconnected) => Arrival::End,
        }
    }

    fn arrival(&self, part: io::Result<Vec<u8>>) -> Arrival {
        match part {
            Ok(octets) => Arrival::Octets(octets),
            Err(error) => Arrival::Unreadable(format!("{} can't be read: {error}", self.name)),
        }
    }
}

/// Hands on each part as soon as it is read, up to the end or an error.
fn read_all(mut source: impl Read, to: &SyncSender<io::Result<Vec<u8>>>) {
    let mut part = vec![0; PART];
    loop {
        let handed_on = match source.read(&mut part) {
            Ok(0) => return,
            Ok(length) => to.send(Ok(part[..length].to_vec())),
            Err(error) if error.kind() == ErrorKind::Interrupted => continue,
            Err(error) if error.kind() == ErrorKind::WouldBlock => {
                thread::sleep(RETRY);
                continue;
            }
            Err(error) => {
                let _ = to.send(Err(error));
                return;
            }
        };
        if handed_on.is_err() {
            return;
        }
    }
}
