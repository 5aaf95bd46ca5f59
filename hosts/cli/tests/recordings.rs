//! `btpu record` and `btpu play`.

mod common;

use common::*;
use std::fs;
use std::process::Stdio;

#[test]
fn what_is_recorded_is_played() {
    let directory = directory("recording");
    let file = directory.join("night");
    let input = piece(true, 7, 1, b"b")
        + "0200000441\n# words\n"
        + &whole(b"x")
        + &piece(false, 7, 0, b"a");
    let recorded = run(&["record", text(&file)], input.as_bytes());
    let said = format!(
        "btpu record: {}: frames recorded 4, octets 36; bad lines 0\n",
        text(&file)
    );
    assert_eq!((recorded.code, recorded.err), (Some(0), said));
    assert_eq!(fs::read(&file).unwrap().len(), 8 + 2 * 4 + 36);
    let played = run(&["play", text(&file)], b"");
    assert_eq!(
        (played.code, &*played.out),
        (Some(1), "bundle - 1 78\nbundle 7 2 6162\n")
    );
    assert_eq!(
        played.err,
        "btpu play: frame 2: frame refused: refusal 6 at octet 0: a length runs past the frame\n\
         btpu play: messages treated 3, frames refused 1, bundles 2\n"
    );
    let received = run(&["receive"], input.as_bytes());
    assert_eq!(received.out, played.out);
    let from_input = run(&["play", "-"], &fs::read(&file).unwrap());
    assert_eq!(from_input.out, played.out);
}

/// Limit, exit code, bundles, and the last line on standard error.
const LIMITS: [(&str, i32, &[&str], &str); 4] = [
    (
        "0",
        0,
        &[],
        "messages treated 0, frames refused 0, bundles 0",
    ),
    (
        "1",
        0,
        &["- 1 61"],
        "messages treated 1, frames refused 0, bundles 1",
    ),
    (
        "2",
        0,
        &["- 1 61", "- 1 62"],
        "messages treated 2, frames refused 0, bundles 2",
    ),
    (
        "18446744073709551615",
        1,
        &["- 1 61", "- 1 62", "3 1 63"],
        "messages treated 3, frames refused 1, bundles 3",
    ),
];

#[test]
fn a_playback_stops_after_so_many_messages() {
    let directory = directory("recording_messages");
    let file = directory.join("night");
    let two = format!("{}{}", whole(b"a").trim_end(), whole(b"b"));
    let input = two + &piece(true, 3, 0, b"c") + "ff\n";
    assert_eq!(
        run(&["record", text(&file)], input.as_bytes()).code,
        Some(0)
    );
    for (messages, code, bundles, said) in LIMITS {
        let out: String = bundles
            .iter()
            .map(|bundle| format!("bundle {bundle}\n"))
            .collect();
        let played = run(&["play", "--messages", messages, text(&file)], b"");
        assert_eq!(
            (played.code, &*played.out),
            (Some(code), &*out),
            "{messages}"
        );
        assert!(
            played.err.ends_with(&format!("btpu play: {said}\n")),
            "{}",
            played.err
        );
    }
}

#[test]
fn a_recording_made_live_is_whole_at_any_time() {
    let directory = directory("recording_live");
    let file = directory.join("night");
    fs::write(&file, "an older file").unwrap();
    let mut live = Live::start(&["record", text(&file)]);
    let mut sofar = fs::read(&file).unwrap();
    for number in 0..4 {
        live.write(&piece(true, number, 0, b"x"));
        wait_for_change(&file, &sofar);
        sofar = fs::read(&file).unwrap();
    }
    live.kill();
    let played = run(&["play", text(&file)], b"");
    assert_eq!((played.code, played.out.lines().count()), (Some(0), 4));
    let again = run(&["record", text(&file)], whole(b"x").as_bytes());
    assert_eq!(again.code, Some(0));
    assert_eq!(run(&["play", text(&file)], b"").out, "bundle - 1 78\n");
    assert_eq!(names(&directory), ["night"]);
}

#[test]
fn at_most_1024_frames() {
    let file = directory("recording_frames").join("night");
    let words = ["record", text(&file)];
    let full = "00\n".repeat(1024);
    assert_eq!(run(&words, full.as_bytes()).code, Some(0));
    let over = run(&words, (full + "00\n00\n").as_bytes());
    assert_eq!(over.code, Some(1));
    let said = "line 1025: a recording holds at most 1,024 frames";
    assert!(over.err.contains(said), "{}", over.err);
    assert!(
        over.err.contains("frames recorded 1024, octets 1024"),
        "{}",
        over.err
    );
    let played = run(&["play", text(&file)], b"");
    assert_eq!((played.code, &*played.out), (Some(0), ""));
    assert!(
        played.err.contains("messages treated 1024"),
        "{}",
        played.err
    );
}

#[test]
fn at_most_61440_octets() {
    let file = directory("recording_octets").join("night");
    let words = ["record", text(&file)];
    let full = format!("{}\n", "00".repeat(2048)).repeat(30);
    assert_eq!(run(&words, full.as_bytes()).code, Some(0));
    assert_eq!(fs::read(&file).unwrap().len(), 8 + 2 * 30 + 61_440);
    let over = run(&words, (full + "00\n").as_bytes());
    assert_eq!(over.code, Some(1));
    let said = "line 31: a recording holds at most 61,440 octets, and this frame of 1 octet would";
    assert!(over.err.contains(said), "{}", over.err);
    let played = run(&["play", text(&file)], b"");
    assert!(played.err.contains("messages treated 30"), "{}", played.err);
}

#[test]
fn bad_lines_are_passed_over_in_a_recording() {
    let directory = directory("recording_bad_lines");
    let file = directory.join("night");
    let recorded = run(
        &["record", text(&file)],
        (whole(b"a") + "zz\n\n" + &whole(b"b")).as_bytes(),
    );
    assert_eq!(recorded.code, Some(1));
    assert!(recorded
        .err
        .contains("line 2: bad line: 'z' at column 1 is no hex digit"));
    assert!(recorded
        .err
        .ends_with("frames recorded 2, octets 10; bad lines 1\n"));
    let played = run(&["play", text(&file)], b"");
    assert_eq!(played.out, "bundle - 1 61\nbundle - 1 62\n");
}

#[test]
fn a_recording_stays_as_it_was_where_nothing_can_be_read() {
    let directory = directory("recording_unreadable");
    let file = directory.join("night");
    fs::write(&file, "as it was").unwrap();
    let ran = run_between(&["record", text(&file)], unreadable(), Stdio::null());
    assert_eq!(ran.code, Some(1));
    assert!(
        ran.err.contains("is left as it was") && ran.err.contains("standard input can't be read")
    );
    assert_eq!(fs::read(&file).unwrap(), b"as it was");
    let ran = run(&["record", "/dev/full"], whole(b"x").as_bytes());
    assert_eq!(ran.code, Some(1));
    assert!(
        ran.err.contains("/dev/full is no regular file"),
        "{}",
        ran.err
    );
    let empty = run(&["record", text(&file)], b"");
    assert_eq!(empty.code, Some(0));
    assert_eq!(fs::read(&file).unwrap(), [0; 8]);
}

#[test]
fn files_that_are_no_recordings() {
    let directory = directory("recording_none");
    let file = directory.join("night");
    let words = ["play", text(&file)];
    let cases: [(&[u8], &str); 5] = [
        (b"", "refusal 16: "),
        (&[0, 0, 4, 1], "refusal 17: "),
        (&[0, 0, 0, 1, 0, 0, 0, 0, 0, 0], "refusal 18: "),
        (&[0, 0, 0, 1, 0, 1, 0, 0, 0, 2, 0, 0], "refusal 19: "),
        (&[0, 0, 0, 0, 0, 0, 0, 0, 0], "refusal 20: "),
    ];
    for (octets, said) in cases {
        fs::write(&file, octets).unwrap();
        let ran = run(&words, b"");
        assert_eq!((ran.code, &*ran.out), (Some(1), ""), "{said}");
        let said = format!("{} is no recording: {said}", text(&file));
        assert!(ran.err.contains(&said), "{}", ran.err);
    }
    fs::write(&file, [0; 1 << 20]).unwrap();
    assert!(run(&words, b"").err.contains("refusal 20: "));
    let directory = run(&["play", text(&directory)], b"");
    assert_eq!(directory.code, Some(1));
    assert!(
        directory.err.contains("can't be read: Is a directory"),
        "{}",
        directory.err
    );
}

#[test]
fn a_full_disk_and_a_closed_pipe_while_playing() {
    let directory = directory("recording_full");
    let file = directory.join("night");
    let frames = whole(&noise(2000, 3)).repeat(30);
    assert_eq!(
        run(&["record", text(&file)], frames.as_bytes()).code,
        Some(0)
    );
    let words = ["play", text(&file)];
    let full = run_between(&words, Stdio::null(), full_disk());
    assert_eq!(full.code, Some(1));
    assert!(
        full.err
            .contains("standard output can't be written: No space left"),
        "{}",
        full.err
    );
    let mut command = btpu(&words);
    command.stdout(Stdio::piped()).stderr(Stdio::piped());
    let mut child = command.spawn().unwrap();
    drop(child.stdout.take());
    let closed = Ran::from(child.wait_with_output().unwrap());
    assert_eq!((closed.code, &*closed.err), (Some(0), ""));
}
