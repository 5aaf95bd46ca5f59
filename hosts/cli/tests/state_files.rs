//! `--state` of `btpu receive`: restarts, kills, and files that are refused.

mod common;

use common::*;
use std::fs;
use std::io::Write;
use std::path::Path;
use std::process::Stdio;
use std::time::Duration;

/// Lines of the frames of a transfer with so many pieces, and its bundle.
fn transfer(number: u32, pieces: u32) -> (Vec<String>, Vec<u8>) {
    let data: Vec<Vec<u8>> = (0..pieces)
        .map(|i| noise(50, u64::from(number * 64 + i)))
        .collect();
    let line = |(i, data): (usize, &Vec<u8>)| piece(i as u32 + 1 == pieces, number, i as u32, data);
    (data.iter().enumerate().map(line).collect(), data.concat())
}

#[test]
fn kill_9_and_a_restart_completes_the_transfer() {
    let directory = directory("state_kill");
    let state = directory.join("state");
    let words = ["receive", "--state", text(&state)];
    let (frames, bundle) = transfer(7, 6);
    let mut sofar = Vec::new();
    for (i, frame) in frames.iter().enumerate() {
        let mut live = Live::start(&words);
        if i == 0 {
            wait_until(|| state.exists());
            sofar = fs::read(&state).unwrap();
        }
        live.write(frame);
        if i == 5 {
            assert_eq!(live.line(), line_of(Some(7), &bundle));
        }
        wait_for_change(&state, &sofar);
        sofar = fs::read(&state).unwrap();
        live.kill();
    }
    let again = run(&words, frames.concat().as_bytes());
    assert_eq!(
        (again.code, &*again.out),
        (Some(0), ""),
        "it was handed out and stored"
    );
}

#[test]
fn kills_at_any_time_lose_nothing_that_was_stored_and_print_at_most_twice() {
    let directory = directory("state_kill_any");
    let state = directory.join("state");
    let words = ["receive", "--state", text(&state)];
    let mut printed = Vec::new();
    for number in 0..20 {
        let (frames, bundle) = transfer(number, 3);
        let mut live = Live::start(&words);
        live.write(&frames.concat());
        assert_eq!(live.line(), line_of(Some(number), &bundle));
        printed.push(number);
        std::thread::sleep(Duration::from_micros(u64::from(number) * 500));
        live.kill();
        // The same frames once more: a second print, or none if the state was stored.
        let again = run(&words, frames.concat().as_bytes());
        assert_eq!(again.code, Some(0), "{}", again.err);
        assert!(again.out.is_empty() || again.out.trim_end() == line_of(Some(number), &bundle));
        let third = run(&words, frames.concat().as_bytes());
        assert_eq!((third.code, &*third.out), (Some(0), ""));
    }
}

#[test]
fn a_state_file_is_whole_after_every_kill() {
    let directory = directory("state_kill_loop");
    let state = directory.join("state");
    let words = ["receive", "--state", text(&state)];
    let input = directory.join("input");
    let frames: Vec<String> = (0..3000).flat_map(|number| transfer(number, 5).0).collect();
    fs::write(&input, frames.concat().repeat(20)).unwrap();
    let mut cut = 0;
    for round in 0..40 {
        let mut command = btpu(&words);
        command.stdin(fs::File::open(&input).unwrap());
        let mut child = command
            .stdout(Stdio::null())
            .stderr(Stdio::null())
            .spawn()
            .unwrap();
        std::thread::sleep(Duration::from_millis(10 + round * 3));
        child.kill().unwrap();
        cut += u32::from(child.wait().unwrap().code().is_none());
        if state.exists() {
            assert_eq!(
                fs::metadata(&state).unwrap().len(),
                16 + 8 + 3144 + 32_768 + 4
            );
        }
        let check = run(&words, b"");
        assert_eq!((check.code, &*check.out), (Some(0), ""), "{}", check.err);
    }
    assert!(cut > 10, "only {cut} of 40 runs were killed in the middle");
}

fn sound_state(directory: &Path) -> Vec<u8> {
    let state = directory.join("sound");
    let (frames, _) = transfer(3, 4);
    let ran = run(
        &["receive", "--state", text(&state)],
        frames[..2].concat().as_bytes(),
    );
    assert_eq!(ran.code, Some(0));
    fs::read(&state).unwrap()
}

#[track_caller]
fn refused(words: &[&str], state: &Path, octets: &[u8], said: &str) {
    fs::write(state, octets).unwrap();
    let ran = run(words, whole(b"x").as_bytes());
    assert_eq!((ran.code, &*ran.out), (Some(1), ""), "{said}: {}", ran.err);
    let named = format!("state file {}", text(state));
    assert!(
        ran.err.contains(&named) && ran.err.contains(said),
        "{said}: {}",
        ran.err
    );
    assert!(ran.err.contains("It is left as it is"), "{}", ran.err);
    assert_eq!(fs::read(state).unwrap(), octets, "{said}");
}

#[test]
fn bad_state_files_are_refused_and_left_as_they_are() {
    let directory = directory("state_bad");
    let sound = sound_state(&directory);
    let state = directory.join("state");
    let words = ["receive", "--state", text(&state)];
    refused(&words, &state, b"", "it is empty");
    refused(
        &words,
        &state,
        b"timetable of line 4",
        "no state file of btpu",
    );
    for length in [1, 8, 15, 16, 100, sound.len() - 1] {
        refused(&words, &state, &sound[..length], "it is cut short");
    }
    refused(
        &words,
        &state,
        &[&sound[..], b"\n"].concat(),
        "it is longer",
    );
    refused(&words, &state, &sound.repeat(3), "it is longer");
    for at in [16, 24, 28, 2000, 30_000, sound.len() - 1] {
        let mut damaged = sound.clone();
        damaged[at] ^= 0x10;
        refused(&words, &state, &damaged, "its checksum does not fit");
    }
    let mut version = sound.clone();
    version[11] = 2;
    refused(&words, &state, &version, "it has version 2");
    assert_eq!(
        names(&directory),
        ["sound", "state"],
        "no lock is left behind"
    );
}

#[test]
fn bad_state_files_of_a_sender() {
    let directory = directory("state_bad_sender");
    let receiving = sound_state(&directory);
    let state = directory.join("state");
    let words = ["send", "--state", text(&state), "-"];
    let first = [&words[..], &["--frame-size=128", "--first=1"]].concat();
    assert_eq!(run(&first, &noise(300, 1)).code, Some(0));
    let sound = fs::read(&state).unwrap();
    let mut damaged = sound.clone();
    damaged[23] ^= 1;
    let cases: [(&[u8], &str); 5] = [
        (b"", "it is empty"),
        (&sound[..sound.len() - 10], "it is cut short"),
        (&[&sound[..], b"0"].concat(), "it is longer"),
        (&damaged, "its checksum does not fit"),
        (&receiving, "the state of a receiver, not of a sender"),
    ];
    for (octets, said) in cases {
        refused(&words, &state, octets, said);
    }
    let receive = ["receive", "--state", text(&state)];
    let said = "the state of a sender, not of a receiver";
    refused(&receive, &state, &sound, said);
    let again = run(&words, &noise(300, 1));
    assert_eq!(again.err, "btpu send: next transfer number: 3\n");
}

#[test]
fn a_state_that_is_not_sound_is_refused_whatever_its_checksum() {
    let directory = directory("state_unsound");
    let octets = sound_state(&directory);
    assert_eq!(sealed(octets.clone()), octets);
    let state = directory.join("state");
    let words = ["receive", "--state", text(&state)];
    // The window, the draft, the phase of the first row, and that of the first one beyond the window.
    let faults = [(1, 0), (1, 5), (2, 2), (8, 9), (8 + 8 * 196, 2)];
    for (at, octet) in faults {
        let mut octets = octets.clone();
        octets[IMAGE + at] = octet;
        refused(&words, &state, &sealed(octets), "refusal 1: ");
    }
}

#[test]
fn a_state_that_can_not_be_stored_is_told_and_the_old_one_stays() {
    let directory = directory("state_no_room");
    let sound = sound_state(&directory);
    let mut limited = std::process::Command::new("sh");
    let script = "trap '' XFSZ; ulimit -f 8; exec \"$0\" receive --state \"$1\"";
    let state = directory.join("sound");
    limited.args(["-c", script, env!("CARGO_BIN_EXE_btpu"), text(&state)]);
    let ran = run_command(limited, piece(false, 4, 0, b"x").as_bytes());
    assert_eq!(ran.code, Some(1));
    let said = format!("{} can't be written: File too large", text(&state));
    assert!(ran.err.contains(&said), "{}", ran.err);
    assert_eq!(fs::read(&state).unwrap(), sound);
    assert_eq!(names(&directory), ["sound"]);
}

#[test]
fn a_bundle_that_could_not_be_written_comes_again() {
    let directory = directory("state_closed");
    let (frames, bundle) = transfer(7, 3);
    for closed in [true, false] {
        let state = directory.join(format!("state_{closed}"));
        let words = ["receive", "--state", text(&state)];
        assert_eq!(run(&words, frames[..2].concat().as_bytes()).code, Some(0));
        let before = fs::read(&state).unwrap();
        let mut command = btpu(&words);
        command.stdin(Stdio::piped()).stderr(Stdio::piped());
        command.stdout(if closed { Stdio::piped() } else { full_disk() });
        let mut child = command.spawn().unwrap();
        drop(child.stdout.take());
        child
            .stdin
            .take()
            .unwrap()
            .write_all(frames[2].as_bytes())
            .unwrap();
        let ran = Ran::from(child.wait_with_output().unwrap());
        if closed {
            assert_eq!((ran.code, &*ran.err), (Some(0), ""));
        } else {
            assert_eq!(ran.code, Some(1));
            assert!(ran.err.contains("No space left on device"), "{}", ran.err);
        }
        assert_eq!(fs::read(&state).unwrap(), before);
        let again = run(&words, frames[2].as_bytes());
        assert_eq!(again.out.trim_end(), line_of(Some(7), &bundle));
    }
}

#[test]
fn what_came_before_a_read_error_is_kept() {
    let directory = directory("state_read_error");
    let state = directory.join("state");
    let words = ["receive", "--state", text(&state)];
    let (frames, bundle) = transfer(7, 2);
    assert_eq!(run(&words, frames[0].as_bytes()).code, Some(0));
    let failed = run_between(&words, unreadable(), Stdio::null());
    assert_eq!(failed.code, Some(1));
    let again = run(&words, frames[1].as_bytes());
    assert_eq!(again.out.trim_end(), line_of(Some(7), &bundle));
}

#[test]
fn a_state_file_that_can_not_be_written_is_told_before_input_is_read() {
    let directory = directory("state_unwritable");
    let missing = directory.join("missing").join("state");
    let ran = run(&["receive", "--state", text(&missing)], b"");
    assert_eq!(ran.code, Some(1));
    assert!(ran.err.contains("No such file or directory"), "{}", ran.err);
    let ran = run(&["receive", "--state", "/dev/null"], b"");
    assert_eq!(ran.code, Some(1));
    assert!(
        ran.err.contains("/dev/null is no regular file"),
        "{}",
        ran.err
    );
}

#[test]
fn a_second_receiver_on_the_same_state_is_refused() {
    let directory = directory("state_lock");
    let state = directory.join("state");
    let words = ["receive", "--state", text(&state)];
    let live = Live::start(&words);
    wait_until(|| state.exists());
    let second = run(&words, b"");
    assert_eq!(second.code, Some(1));
    assert!(
        second.err.contains("in use by another btpu"),
        "{}",
        second.err
    );
    assert_eq!(live.end().0, Some(0));
    assert_eq!(names(&directory), ["state"]);
}
