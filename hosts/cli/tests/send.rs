//! `btpu send`.

mod common;

use common::*;
use std::collections::BTreeSet;
use std::fs;
use std::io::Read;
use std::path::Path;
use std::process::Stdio;

/// The transfer numbers in lines of frames that start with a piece.
fn numbers(lines: &str) -> BTreeSet<u32> {
    let number = |line: &str| u32::from_str_radix(line.get(8..16)?, 16).ok();
    let pieces = lines
        .lines()
        .filter(|line| line.starts_with("03") || line.starts_with("04"));
    pieces.filter_map(number).collect()
}

fn file(directory: &Path, name: &str, octets: &[u8]) -> String {
    let path = directory.join(name);
    fs::write(&path, octets).unwrap();
    text(&path).to_string()
}

/// The words of a run with a state file that is there, or with a new one.
fn going_on<'a>(state: &'a Path, files: &[&'a str]) -> Vec<&'a str> {
    [&["send", "--state", text(state)], files].concat()
}

fn beginning<'a>(
    state: &'a Path,
    size: &'a str,
    first: &'a str,
    files: &[&'a str],
) -> Vec<&'a str> {
    let options = [
        "send",
        "--state",
        text(state),
        "--frame-size",
        size,
        "--first",
        first,
    ];
    [&options, files].concat()
}

#[test]
fn frames_arrive_as_the_files_were() {
    let directory = directory("send_arrive");
    let (long, short) = (noise(4096, 1), noise(100, 2));
    let (a, b) = (file(&directory, "a", &long), file(&directory, "b", &short));
    let sent = run(
        &[
            "send",
            "--frame-size",
            "512",
            "--first",
            "4294967295",
            &a,
            &b,
            &a,
        ],
        b"",
    );
    assert_eq!(
        (sent.code, &*sent.err),
        (Some(0), "btpu send: next transfer number: 1\n")
    );
    assert!(sent.out.lines().all(|line| line.len() == 1024));
    let received = run(&["receive"], sent.out.as_bytes());
    let expected = [
        line_of(Some(u32::MAX), &long),
        line_of(None, &short),
        line_of(Some(0), &long),
    ];
    assert_eq!(received.out.lines().collect::<Vec<_>>(), expected);
}

#[test]
fn standard_input_is_one_bundle() {
    let sent = run(&["send", "--frame-size=128", "--first=7", "-"], b"ABC");
    assert_eq!(sent.code, Some(0));
    assert!(
        sent.out.starts_with("0200000341424301000075"),
        "{}",
        sent.out
    );
    let twice = run(&["send", "--frame-size=128", "--first=7", "-", "-"], b"ABC");
    assert_eq!((twice.code, &*twice.out), (Some(2), ""));
}

#[test]
fn one_bad_file_and_nothing_is_sent() {
    let directory = directory("send_bad");
    let good = file(&directory, "good", b"x");
    let cases = [
        (file(&directory, "empty", b""), "is empty"),
        (file(&directory, "long", &noise(4097, 3)), "is too long"),
        (text(&directory.join("missing")).to_string(), "No such file"),
        (
            text(&directory).to_string(),
            "can't be read: Is a directory",
        ),
    ];
    let state = directory.join("state");
    for (bad, said) in cases {
        let ran = run(&beginning(&state, "128", "7", &[&good, &bad]), b"");
        assert_eq!((ran.code, &*ran.out), (Some(1), ""), "{bad}");
        assert!(
            ran.err.contains(&bad) && ran.err.contains(said),
            "{}",
            ran.err
        );
        assert!(ran
            .err
            .ends_with("nothing was sent: 1 of 2 files can't be sent\n"));
        assert!(!state.exists(), "no number was taken");
    }
}

#[test]
fn standard_input_that_can_not_be_read() {
    let words = ["send", "--frame-size", "128", "--first", "7", "-"];
    let ran = run_between(&words, unreadable(), Stdio::piped());
    assert_eq!((ran.code, &*ran.out), (Some(1), ""));
    let said = "standard input can't be read: Is a directory";
    assert!(ran.err.contains(said), "{}", ran.err);
}

#[test]
fn numbers_go_on_over_runs() {
    let directory = directory("send_state");
    let long = file(&directory, "long", &noise(300, 4));
    let state = directory.join("state");
    let first = run(&beginning(&state, "128", "41", &[&long, &long]), b"");
    assert_eq!(
        (first.code, numbers(&first.out)),
        (Some(0), [41, 42].into())
    );
    assert_eq!(first.err, "btpu send: next transfer number: 43\n");
    let second = run(&going_on(&state, &[&long]), b"");
    assert_eq!((second.code, numbers(&second.out)), (Some(0), [43].into()));
    assert_eq!(second.out.lines().next().map(str::len), Some(256));
    let third = run(&going_on(&state, &["--frame-size", "128", &long]), b"");
    assert_eq!((third.code, numbers(&third.out)), (Some(0), [44].into()));
    assert_eq!(
        names(&directory),
        ["long", "state"],
        "nothing is left behind"
    );
}

#[test]
fn options_that_contradict_a_state_file_are_refused() {
    let directory = directory("send_contradiction");
    let state = directory.join("state");
    assert_eq!(
        run(&beginning(&state, "128", "44", &["-"]), &noise(300, 4)).code,
        Some(0)
    );
    let before = fs::read(&state).unwrap();
    let cases = [
        (
            ["--frame-size", "256", "-"],
            "differs from the frame size 128",
        ),
        (
            ["--first", "45", "-"],
            "numbers go on by themselves, from 45",
        ),
    ];
    for (options, said) in cases {
        let ran = run(&going_on(&state, &options), b"x");
        assert_eq!((ran.code, &*ran.out), (Some(2), ""));
        assert!(ran.err.contains(said), "{}", ran.err);
        assert_eq!(fs::read(&state).unwrap(), before);
    }
}

#[test]
fn a_new_state_file_needs_size_and_number() {
    let state = directory("send_new_state").join("state");
    let ran = run(&going_on(&state, &["--first", "1", "-"]), b"x");
    assert_eq!(ran.code, Some(2));
    let said = "--frame-size is missing: there is no state file yet";
    assert!(ran.err.contains(said), "{}", ran.err);
    assert!(!state.exists());
}

#[test]
fn no_number_is_used_again_after_a_crash() {
    let directory = directory("send_crash");
    let long = file(&directory, "long", &noise(4096, 5));
    let state = directory.join("state");
    let mut command = btpu(&beginning(&state, "2048", "9", &[long.as_str(); 100]));
    command
        .stdin(Stdio::null())
        .stdout(Stdio::piped())
        .stderr(Stdio::null());
    let mut child = command.spawn().unwrap();
    let mut output = child.stdout.take().unwrap();
    // One frame is read and no more: the pipe is full long before the last frame.
    let mut first = vec![0; 4097];
    output.read_exact(&mut first).unwrap();
    assert!(
        state.exists(),
        "it was stored before the first frame was written"
    );
    child.kill().unwrap();
    child.wait().unwrap();
    let mut written = String::from_utf8(first).unwrap();
    output.read_to_string(&mut written).unwrap();
    let used = numbers(&written);
    assert!(!used.is_empty() && used.len() < 100);

    let again = run(&going_on(&state, &[&long]), b"");
    assert_eq!((again.code, numbers(&again.out)), (Some(0), [109].into()));
}

#[test]
fn a_full_disk_is_told_and_its_numbers_stay_taken() {
    let directory = directory("send_full");
    let long = file(&directory, "long", &noise(300, 6));
    let state = directory.join("state");
    let words = beginning(&state, "128", "7", &[&long]);
    let ran = run_between(&words, Stdio::null(), full_disk());
    assert_eq!(ran.code, Some(1));
    let said = "standard output can't be written: No space left";
    assert!(ran.err.contains(said), "{}", ran.err);
    assert!(ran.err.contains("the next one is 8"), "{}", ran.err);
    let again = run(&going_on(&state, &[&long]), b"");
    assert_eq!(numbers(&again.out), [8].into());
}

#[test]
fn a_closed_pipe_ends_it_quietly() {
    let directory = directory("send_closed");
    let long = file(&directory, "long", &noise(4096, 7));
    let mut words = vec!["send", "--frame-size", "2048", "--first", "9"];
    words.extend([long.as_str(); 100]);
    let mut command = btpu(&words);
    command
        .stdin(Stdio::null())
        .stdout(Stdio::piped())
        .stderr(Stdio::piped());
    let mut child = command.spawn().unwrap();
    drop(child.stdout.take());
    let ran = Ran::from(child.wait_with_output().unwrap());
    assert_eq!((ran.code, &*ran.err), (Some(0), ""));
}

#[test]
fn a_second_run_on_the_same_state_is_refused() {
    let directory = directory("send_lock");
    let long = file(&directory, "long", &noise(4096, 8));
    let state = directory.join("state");
    let mut command = btpu(&beginning(&state, "2048", "9", &[long.as_str(); 100]));
    command.stdin(Stdio::null()).stdout(Stdio::piped());
    let mut child = command.spawn().unwrap();
    wait_until(|| state.exists());
    let second = run(&going_on(&state, &[&long]), b"");
    assert_eq!((second.code, &*second.out), (Some(1), ""));
    assert!(
        second.err.contains("in use by another btpu"),
        "{}",
        second.err
    );
    child.kill().unwrap();
    child.wait().unwrap();
    let third = run(&going_on(&state, &[&long]), b"");
    assert_eq!((third.code, numbers(&third.out)), (Some(0), [109].into()));
}
