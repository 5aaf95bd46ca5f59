//! 40 MB of hex through `btpu receive`.

mod common;

use btpu::Sender;
use common::*;
use std::fs::{self, File};
use std::io::{BufWriter, Write};
use std::path::Path;
use std::process::Stdio;
use std::time::{Duration, Instant};

const OCTETS: usize = 40 << 20;

/// At least 40 MB of lines; how many bundles are in them.
fn write_frames(path: &Path, frame_size: usize) -> usize {
    let mut lines = BufWriter::new(File::create(path).unwrap());
    let mut sender = Sender::new(frame_size, 0).unwrap();
    let (mut written, mut bundles) = (0, 0);
    while written < OCTETS {
        let bundle = noise(1 + bundles * 37 % 4096, bundles as u64);
        let mut frames = Vec::new();
        sender
            .send(&bundle, |frame| frames.push(hex(frame)))
            .unwrap();
        for frame in frames {
            writeln!(lines, "{frame}").unwrap();
            written += frame.len() + 1;
        }
        bundles += 1;
    }
    sender
        .finish(|frame| writeln!(lines, "{}", hex(frame)).unwrap())
        .unwrap();
    lines.flush().unwrap();
    bundles
}

#[test]
fn forty_megabytes_of_hex() {
    let directory = directory("speed");
    let limit = Duration::from_secs(if cfg!(debug_assertions) { 60 } else { 5 });
    for frame_size in [128, 2048] {
        let input = directory.join("input");
        let state = directory.join(format!("state_{frame_size}"));
        let bundles = write_frames(&input, frame_size);
        for words in [vec!["receive"], vec!["receive", "--state", text(&state)]] {
            let stdin = Stdio::from(File::open(&input).unwrap());
            let start = Instant::now();
            let ran = run_between(&words, stdin, Stdio::piped());
            let time = start.elapsed();
            let stored = if words.len() > 1 { "with" } else { "without" };
            println!("40 MB in frames of {frame_size}, {stored} --state: {time:?}");
            assert_eq!((ran.code, ran.out.lines().count()), (Some(0), bundles));
            assert!(time < limit, "{time:?}");
        }
    }
    fs::remove_dir_all(&directory).unwrap();
}
