//! Helpers for tests by real processes.

#![forbid(unsafe_code)]
#![allow(dead_code)]

use std::fs::{self, File};
use std::io::{BufRead, BufReader, Read, Write};
use std::path::{Path, PathBuf};
use std::process::{Child, ChildStdin, Command, Output, Stdio};
use std::sync::mpsc::{channel, Receiver};
use std::thread;
use std::time::{Duration, Instant};

/// Longer than anything that a test waits for.
pub const TIME_LIMIT: Duration = Duration::from_secs(20);

/// An empty directory of the test's own.
pub fn directory(name: &str) -> PathBuf {
    let path = Path::new(env!("CARGO_TARGET_TMPDIR")).join(name);
    let _ = fs::remove_dir_all(&path);
    fs::create_dir_all(&path).unwrap();
    path
}

pub fn btpu<S: AsRef<std::ffi::OsStr>>(words: &[S]) -> Command {
    let mut command = Command::new(env!("CARGO_BIN_EXE_btpu"));
    command.args(words);
    command
}

/// What a run gave.
#[derive(Debug)]
pub struct Ran {
    pub code: Option<i32>,
    pub out: String,
    pub err: String,
}

impl From<Output> for Ran {
    fn from(output: Output) -> Ran {
        Ran {
            code: output.status.code(),
            out: String::from_utf8(output.stdout).unwrap(),
            err: String::from_utf8(output.stderr).unwrap(),
        }
    }
}

/// Runs a command to its end with this standard input.
pub fn run<S: AsRef<std::ffi::OsStr>>(words: &[S], input: &[u8]) -> Ran {
    run_command(btpu(words), input)
}

pub fn run_command(mut command: Command, input: &[u8]) -> Ran {
    command.stdin(Stdio::piped());
    command.stdout(Stdio::piped()).stderr(Stdio::piped());
    let mut child = command.spawn().unwrap();
    let mut stdin = child.stdin.take().unwrap();
    let input = input.to_vec();
    // A command that ends early leaves the rest of its input unread.
    let writer = thread::spawn(move || drop(stdin.write_all(&input)));
    let ran = child.wait_with_output().unwrap().into();
    writer.join().unwrap();
    ran
}

/// Runs a command to its end with these files as standard input and output; what it says on standard error.
pub fn run_between<S: AsRef<std::ffi::OsStr>>(words: &[S], stdin: Stdio, stdout: Stdio) -> Ran {
    let mut command = btpu(words);
    command.stdin(stdin).stdout(stdout).stderr(Stdio::piped());
    command.spawn().unwrap().wait_with_output().unwrap().into()
}

pub fn full_disk() -> Stdio {
    Stdio::from(File::options().write(true).open("/dev/full").unwrap())
}

/// A file that gives an error when it is read.
pub fn unreadable() -> Stdio {
    Stdio::from(File::open(env!("CARGO_TARGET_TMPDIR")).unwrap())
}

/// A command that runs while the test talks to it.
pub struct Live {
    pub child: Child,
    stdin: Option<ChildStdin>,
    lines: Receiver<String>,
    errors: Receiver<String>,
}

/// The lines that come from a running command.
pub fn lines_of(source: impl Read + Send + 'static) -> Receiver<String> {
    let (to, lines) = channel();
    thread::spawn(move || {
        BufReader::new(source)
            .lines()
            .map_while(Result::ok)
            .try_for_each(|line| to.send(line))
    });
    lines
}

impl Live {
    pub fn start<S: AsRef<std::ffi::OsStr>>(words: &[S]) -> Live {
        let mut command = btpu(words);
        command.stdin(Stdio::piped()).stdout(Stdio::piped());
        let mut child = command.stderr(Stdio::piped()).spawn().unwrap();
        Live {
            stdin: child.stdin.take(),
            lines: lines_of(child.stdout.take().unwrap()),
            errors: lines_of(child.stderr.take().unwrap()),
            child,
        }
    }

    pub fn write(&mut self, text: &str) {
        self.stdin
            .as_mut()
            .unwrap()
            .write_all(text.as_bytes())
            .unwrap();
    }

    /// The next line of standard output.
    pub fn line(&self) -> String {
        self.lines.recv_timeout(TIME_LIMIT).expect("a line in time")
    }

    /// The next line of standard error.
    pub fn error_line(&self) -> String {
        let line = self.errors.recv_timeout(TIME_LIMIT);
        line.expect("a line in time")
    }

    pub fn no_line_within(&self, time: Duration) {
        assert!(self.lines.recv_timeout(time).is_err(), "there is a line");
    }

    pub fn kill(mut self) {
        self.child.kill().unwrap();
        self.child.wait().unwrap();
    }

    /// Closes the input; exit code and the lines of standard error that are left.
    pub fn end(mut self) -> (Option<i32>, String) {
        drop(self.stdin.take());
        let err = self.errors.iter().map(|line| line + "\n").collect();
        (self.child.wait().unwrap().code(), err)
    }
}

/// Waits until something holds.
#[track_caller]
pub fn wait_until(mut holds: impl FnMut() -> bool) {
    let start = Instant::now();
    while !holds() {
        assert!(start.elapsed() < TIME_LIMIT, "it does not come to hold");
        thread::sleep(Duration::from_millis(2));
    }
}

/// Waits until a file has another content than this.
#[track_caller]
pub fn wait_for_change(path: &Path, old: &[u8]) {
    wait_until(|| fs::read(path).is_ok_and(|now| now != old));
}

pub fn hex(octets: &[u8]) -> String {
    octets.iter().map(|octet| format!("{octet:02x}")).collect()
}

pub fn octets(hex: &str) -> Vec<u8> {
    let pair = |at| u8::from_str_radix(&hex[at..at + 2], 16).unwrap();
    (0..hex.len()).step_by(2).map(pair).collect()
}

/// The line of a frame with one bundle message.
pub fn whole(bundle: &[u8]) -> String {
    let header = (2u32 << 24 | bundle.len() as u32).to_be_bytes();
    format!("{}{}\n", hex(&header), hex(bundle))
}

/// The line of a frame with one piece of a transfer.
pub fn piece(end: bool, transfer: u32, index: u32, data: &[u8]) -> String {
    let kind = if end { 4u32 } else { 3 };
    let header = (kind << 24 | (8 + data.len() as u32)).to_be_bytes();
    let numbers = [transfer.to_be_bytes(), index.to_be_bytes()].concat();
    format!("{}{}{}\n", hex(&header), hex(&numbers), hex(data))
}

/// The line for a bundle on standard output.
pub fn line_of(number: Option<u32>, bundle: &[u8]) -> String {
    let number = number.map_or("-".to_string(), |number| number.to_string());
    format!("bundle {number} {} {}", bundle.len(), hex(bundle))
}

/// Where the image stands in the state file of a receiver.
pub const IMAGE: usize = 16 + 8;

/// A state file with the checksum that fits the octets before it.
pub fn sealed(mut octets: Vec<u8>) -> Vec<u8> {
    octets.truncate(octets.len() - 4);
    let sum = crc32(&octets);
    octets.extend(sum.to_be_bytes());
    octets
}

/// CRC-32, bit by bit.
fn crc32(octets: &[u8]) -> u32 {
    !octets.iter().fold(!0, |rest, &octet| {
        let step = |rest: u32, _| (rest >> 1) ^ (0xedb8_8320 & (rest & 1).wrapping_neg());
        (0..8).fold(rest ^ u32::from(octet), step)
    })
}

/// Octets that look like nothing in particular.
pub fn noise(length: usize, seed: u64) -> Vec<u8> {
    let mut x = seed.wrapping_mul(0x9e37_79b9_7f4a_7c15) | 1;
    let mut next = || {
        x ^= x << 13;
        x ^= x >> 7;
        x ^= x << 17;
        (x >> 32) as u8
    };
    (0..length).map(|_| next()).collect()
}

pub fn text(path: &Path) -> &str {
    path.to_str().unwrap()
}

/// The names in a directory, sorted.
pub fn names(path: &Path) -> Vec<String> {
    let entries = fs::read_dir(path).unwrap();
    let mut names: Vec<String> = entries
        .map(|entry| entry.unwrap().file_name().into_string().unwrap())
        .collect();
    names.sort();
    names
}
