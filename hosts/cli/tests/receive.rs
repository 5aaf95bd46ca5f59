//! `btpu receive`: lines, bundles, exit codes, and a live pipe.

mod common;

use common::*;
use std::fs;
use std::io::Write;
use std::process::Stdio;
use std::time::Duration;

#[test]
fn bundles_of_the_marked_cases() {
    let input = "02000003414243\n000000\n01000000\n04000009000000050000000041\n\
                 028000050201FF4142\n0002000000\n02100000\n";
    let ran = run(&["receive"], input.as_bytes());
    let expected = "bundle - 3 414243\nbundle 5 1 41\nbundle - 2 4142\nbundle - 0 \nbundle - 0 \n";
    assert_eq!((ran.code, &*ran.out), (Some(0), expected));
    assert_eq!(
        ran.err,
        "btpu receive: frames taken 7, refused 0, bad lines 0, bundles 5\n"
    );
}

#[test]
fn bad_lines_and_refused_frames_are_told_and_passed_over() {
    let long = "00".repeat(2049);
    let input = format!(
        "# words\n\n0200000441\n012\n02 00\nxyz\n{long}\n  02000001AA \r\n00{}\n050000",
        "0200000000020000000300000000"
    );
    let ran = run(&["receive"], input.as_bytes());
    assert_eq!((ran.code, &*ran.out), (Some(1), "bundle - 1 aa\n"));
    let expected = "\
btpu receive: line 3: frame refused: refusal 6 at octet 0: a length runs past the frame
btpu receive: line 4: bad line: 3 hex digits, an odd number: half an octet is missing
btpu receive: line 5: bad line: a blank between the hex digits, at column 3
btpu receive: line 6: bad line: 'x' at column 1 is no hex digit
btpu receive: line 7: bad line: longer than any frame (2,048 octets, 4,096 hex digits)
btpu receive: line 9: frame refused: refusal 8 at octet 10: ";
    assert!(ran.err.starts_with(expected), "{}", ran.err);
    assert!(ran
        .err
        .contains("line 10: frame refused: refusal 4 at octet 0: "));
    let summary = "btpu receive: frames taken 1, refused 3, bad lines 4, bundles 1\n";
    assert!(ran.err.ends_with(summary), "{}", ran.err);
}

#[test]
fn each_bundle_is_printed_as_its_last_frame_comes() {
    let mut live = Live::start(&["receive"]);
    for round in 0..3u8 {
        live.write(&piece(false, round.into(), 0, b"ab"));
        live.no_line_within(Duration::from_millis(50));
        // A line in two parts.
        let last = piece(true, round.into(), 1, &[round]);
        live.write(&last[..9]);
        live.no_line_within(Duration::from_millis(50));
        live.write(&last[9..]);
        assert_eq!(
            live.line(),
            line_of(Some(round.into()), &[b'a', b'b', round])
        );
        live.write(&whole(&[round]));
        assert_eq!(live.line(), line_of(None, &[round]));
    }
    let (code, err) = live.end();
    assert_eq!(code, Some(0));
    assert!(err.ends_with("frames taken 9, refused 0, bad lines 0, bundles 6\n"));
}

#[test]
fn a_line_without_end_uses_no_more_memory() {
    let input = "0".repeat(50_000_000) + "\n" + &whole(b"x");
    let mut limited = std::process::Command::new("sh");
    let script = "ulimit -v 100000; exec \"$0\" receive";
    limited.args(["-c", script, env!("CARGO_BIN_EXE_btpu")]);
    // Address space that is set aside for threads is not memory in use.
    limited.env("MALLOC_ARENA_MAX", "1");
    let ran = run_command(limited, input.as_bytes());
    assert_eq!((ran.code, &*ran.out), (Some(1), "bundle - 1 78\n"));
    assert!(
        ran.err.contains("line 1: bad line: longer than any frame"),
        "{}",
        ran.err
    );
}

#[test]
fn input_that_can_not_be_read() {
    let ran = run_between(&["receive"], unreadable(), Stdio::piped());
    assert_eq!((ran.code, &*ran.out), (Some(1), ""));
    assert!(
        ran.err
            .contains("standard input can't be read: Is a directory"),
        "{}",
        ran.err
    );
}

#[test]
fn a_full_disk_is_told() {
    let directory = directory("receive_full");
    let input = directory.join("input");
    fs::write(&input, whole(b"x")).unwrap();
    let stdin = Stdio::from(fs::File::open(&input).unwrap());
    let ran = run_between(&["receive"], stdin, full_disk());
    assert_eq!(ran.code, Some(1));
    assert_eq!(
        ran.err,
        "btpu receive: standard output can't be written: No space left on device (os error 28)\n"
    );
}

#[test]
fn a_closed_pipe_ends_it_quietly() {
    let directory = directory("receive_closed");
    let input = directory.join("input");
    fs::write(&input, whole(b"x").repeat(100_000)).unwrap();
    let mut command = btpu(&["receive"]);
    command.stdin(fs::File::open(&input).unwrap());
    command.stdout(Stdio::piped()).stderr(Stdio::piped());
    let mut child = command.spawn().unwrap();
    drop(child.stdout.take());
    let ran = Ran::from(child.wait_with_output().unwrap());
    assert_eq!((ran.code, &*ran.err), (Some(0), ""));
}

#[test]
fn bundles_and_words_stay_in_order_in_one_file() {
    let directory = directory("receive_order");
    let (input, log) = (directory.join("input"), directory.join("log"));
    fs::write(&input, (whole(b"a") + "zz\n").repeat(3)).unwrap();
    let both = fs::File::create(&log).unwrap();
    let mut command = btpu(&["receive"]);
    command.stdin(fs::File::open(&input).unwrap());
    command.stdout(both.try_clone().unwrap()).stderr(both);
    assert_eq!(command.status().unwrap().code(), Some(1));
    let log = fs::read_to_string(&log).unwrap();
    let starts: Vec<&str> = log
        .lines()
        .map(|line| &line[..20.min(line.len())])
        .collect();
    let expected = [
        "bundle - 1 61",
        "btpu receive: line 2",
        "bundle - 1 61",
        "btpu receive: line 4",
        "bundle - 1 61",
        "btpu receive: line 6",
        "btpu receive: frames",
    ];
    assert_eq!(starts, expected);
}

#[test]
fn words_that_can_not_be_written_change_nothing() {
    let mut command = btpu(&["receive"]);
    command
        .stdin(Stdio::piped())
        .stdout(Stdio::piped())
        .stderr(full_disk());
    let mut child = command.spawn().unwrap();
    let mut stdin = child.stdin.take().unwrap();
    stdin
        .write_all(("zz\n".to_string() + &whole(b"a")).as_bytes())
        .unwrap();
    drop(stdin);
    let ran = Ran::from(child.wait_with_output().unwrap());
    assert_eq!((ran.code, &*ran.out), (Some(1), "bundle - 1 61\n"));
}
