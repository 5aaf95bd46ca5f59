//! `--draft` of `btpu send`, `btpu receive` and `btpu inspect`, and frames of the other draft.

mod common;

use common::*;
use std::fs;
use std::path::{Path, PathBuf};
use std::process::Stdio;

/// Octets of the bundles that a test sends: three transfers in frames of 128 octets, and one that comes whole.
const LENGTHS: [usize; 4] = [300, 4096, 40, 1000];

fn bundles() -> Vec<Vec<u8>> {
    let lengths = LENGTHS.into_iter().zip(1..);
    lengths.map(|(length, seed)| noise(length, seed)).collect()
}

/// The bundles as files of a directory.
fn files(directory: &Path) -> Vec<String> {
    let bundles = bundles().into_iter().enumerate();
    let write = |(at, bundle): (usize, Vec<u8>)| {
        let path = directory.join(format!("bundle_{at}"));
        fs::write(&path, bundle).unwrap();
        text(&path).to_string()
    };
    bundles.map(write).collect()
}

/// The lines of all frames of a draft, the first transfer having the number 7.
fn sent(draft: &str, directory: &Path) -> Vec<String> {
    let options = ["send", "--frame-size=128", "--first=7", "--draft", draft];
    let files = files(directory);
    let words: Vec<&str> = options
        .into_iter()
        .chain(files.iter().map(|file| &**file))
        .collect();
    let ran = run(&words, b"");
    assert_eq!(ran.code, Some(0), "{}", ran.err);
    assert_eq!(ran.err, "btpu send: next transfer number: 10\n");
    ran.out.lines().map(|line| format!("{line}\n")).collect()
}

/// The lines for all bundles.
fn expected() -> Vec<String> {
    let numbers = [Some(7), Some(8), None, Some(9)];
    let bundles = numbers.into_iter().zip(bundles());
    bundles
        .map(|(number, bundle)| line_of(number, &bundle))
        .collect()
}

#[test]
fn frames_of_draft_00_arrive_in_any_order() {
    let directory = directory("drafts_arrive");
    let frames = sent("00", &directory);
    let in_order = run(&["receive", "--draft", "00"], frames.concat().as_bytes());
    assert_eq!(in_order.code, Some(0));
    assert_eq!(in_order.out.lines().collect::<Vec<_>>(), expected());

    // Each frame twice, in another order each time.
    let mut shuffled: Vec<&String> = frames.iter().chain(&frames).collect();
    for seed in 0..20 {
        let keys = noise(shuffled.len(), seed);
        let mut places: Vec<usize> = (0..shuffled.len()).collect();
        places.sort_by_key(|&place| keys[place]);
        shuffled = places.into_iter().map(|place| shuffled[place]).collect();
        let input: String = shuffled.iter().map(|line| line.as_str()).collect();
        let ran = run(&["receive", "--draft=00"], input.as_bytes());
        assert_eq!(ran.code, Some(0), "{}", ran.err);
        let mut found: Vec<&str> = ran.out.lines().collect();
        let mut expected = expected();
        // What comes whole comes with each copy of its frame.
        expected.push(expected[2].clone());
        found.sort_unstable();
        expected.sort_unstable();
        assert_eq!(found, expected);
    }
}

#[test]
fn draft_02_is_the_default() {
    let directory = directory("drafts_default");
    let frames = sent("02", &directory).concat();
    let options = ["send", "--frame-size", "128", "--first", "7"].map(str::to_string);
    let words = [&options[..], &files(&directory)].concat();
    assert_eq!(run(&words, b"").out, frames);
    let (plain, named) = (directory.join("plain"), directory.join("named"));
    let runs = [
        run(&["receive", "--state", text(&plain)], frames.as_bytes()),
        run(
            &["receive", "--draft", "02", "--state", text(&named)],
            frames.as_bytes(),
        ),
    ];
    for ran in runs {
        assert_eq!(ran.out.lines().collect::<Vec<_>>(), expected());
        assert_eq!(ran.err.lines().count(), 1, "{}", ran.err);
    }
    assert!(fs::read(plain).unwrap() == fs::read(named).unwrap());
    let inspected = run(&["inspect", "--draft", "02"], frames.as_bytes()).out;
    assert_eq!(run(&["inspect"], frames.as_bytes()).out, inspected);
}

/// A run with a state file and more words.
fn with_state(command: &str, state: &Path, more: &[&str], input: &[u8]) -> Ran {
    run(&[&[command, "--state", text(state)], more].concat(), input)
}

/// A --draft that is not the state's is refused, and the state stays as it is.
#[track_caller]
fn refused(command: &str, state: &Path, given: &str, kept: &str, more: &[&str]) {
    let before = fs::read(state).unwrap();
    let words = [&["--draft", given], more].concat();
    let ran = with_state(command, state, &words, &noise(300, 3));
    assert_eq!((ran.code, &*ran.out), (Some(2), ""));
    let said = format!(
        "btpu {command}: --draft {given} differs from the draft {kept} of the state file: "
    );
    assert!(ran.err.starts_with(&said), "{}", ran.err);
    assert_eq!(fs::read(state).unwrap(), before);
}

fn going_on(command: &str) -> String {
    format!("btpu {command}: going on with draft 00, the draft of the state file\n")
}

#[test]
fn a_sender_goes_on_in_the_draft_of_its_state() {
    let directory = directory("drafts_send");
    let bundle = noise(300, 4);
    let begin = ["--frame-size=128", "--first=7", "-"];
    // The front of the first frame: a start with index 2, or a segment with index 0.
    let fronts = [
        ("00", "0300007c0000000700000002"),
        ("02", "0300007c0000000700000000"),
    ];
    for (draft, front) in fronts {
        let state = directory.join(draft);
        let words = [&begin[..], &["--draft", draft]].concat();
        let first = with_state("send", &state, &words, &bundle);
        assert_eq!(first.err, "btpu send: next transfer number: 8\n");
        assert!(first.out.starts_with(front), "{}", first.out);
        let told = if draft == "00" {
            &*going_on("send")
        } else {
            ""
        };
        let second = with_state("send", &state, &["-"], &bundle);
        let said = format!("{told}btpu send: next transfer number: 9\n");
        assert_eq!((second.code, second.err), (Some(0), said));
        let third = with_state("send", &state, &["--draft", draft, "-"], &bundle);
        assert_eq!(third.err, "btpu send: next transfer number: 10\n");
        let input = [first.out, second.out, third.out].concat();
        let received = run(&["receive", "--draft", draft], input.as_bytes());
        let expected = [7, 8, 9].map(|number| line_of(Some(number), &bundle));
        assert_eq!(received.out.lines().collect::<Vec<_>>(), expected);
    }
    refused("send", &directory.join("00"), "02", "00", &["-"]);
    refused("send", &directory.join("02"), "00", "02", &["-"]);
}

/// The draft is told also while nobody takes the frames.
#[test]
fn a_sender_tells_its_draft_before_its_frames_are_taken() {
    let directory = directory("drafts_waiting");
    let (state, long) = (directory.join("state"), directory.join("long"));
    fs::write(&long, noise(4096, 5)).unwrap();
    let begin = ["--frame-size=2048", "--first=7", "--draft=00", "-"];
    assert_eq!(with_state("send", &state, &begin, b"x").code, Some(0));
    // More than a pipe holds.
    let words = [&["send", "--state", text(&state)][..], &[text(&long); 100]].concat();
    let mut command = btpu(&words);
    command.stdout(Stdio::piped()).stderr(Stdio::piped());
    let mut child = command.spawn().unwrap();
    let errors = lines_of(child.stderr.take().unwrap());
    let told = errors.recv_timeout(TIME_LIMIT);
    child.kill().unwrap();
    child.wait().unwrap();
    assert_eq!(told.as_deref(), Ok(going_on("send").trim_end()));
}

#[test]
fn a_receiver_goes_on_in_the_draft_of_its_state() {
    let directory = directory("drafts_receive");
    for draft in ["00", "02"] {
        let state = directory.join(draft);
        let frames = sent(draft, &directory);
        let (front, behind) = frames.split_at(frames.len() / 2);
        let words = ["--draft", draft];
        let first = with_state("receive", &state, &words, front.concat().as_bytes());
        assert_eq!(first.code, Some(0));
        assert_eq!(first.err.lines().count(), 1, "{}", first.err);
        let second = with_state("receive", &state, &[], behind.concat().as_bytes());
        let told = if draft == "00" {
            &*going_on("receive")
        } else {
            "btpu receive: frames"
        };
        assert!(second.err.starts_with(told), "{}", second.err);
        let out = first.out + &second.out;
        assert_eq!(out.lines().collect::<Vec<_>>(), expected());
        let third = with_state("receive", &state, &words, frames.concat().as_bytes());
        assert_eq!(third.out.lines().collect::<Vec<_>>(), expected()[2..3]);
        assert_eq!(third.err.lines().count(), 1, "{}", third.err);
    }
    refused("receive", &directory.join("00"), "02", "00", &[]);
    refused("receive", &directory.join("02"), "00", "02", &[]);
}

/// The draft is told as soon as the receiver waits, and a killed receiver keeps it.
#[test]
fn a_receiver_that_was_killed_goes_on_in_its_draft() {
    let state = directory("drafts_killed").join("state");
    let mut live = Live::start(&["receive", "--draft", "00", "--state", text(&state)]);
    wait_until(|| state.exists());
    let empty = fs::read(&state).unwrap();
    live.write("0400000900000005000000006200\n");
    wait_for_change(&state, &empty);
    live.kill();
    let mut live = Live::start(&["receive", "--state", text(&state)]);
    assert_eq!(live.error_line(), going_on("receive").trim_end());
    live.write("03000009000000050000000161\n");
    assert_eq!(live.line(), line_of(Some(5), b"ab"));
    assert_eq!(live.end().0, Some(0));
}

const LINES: &str = "\
04000009000000050000000041
0280000502 01FF4142
0300000900000005 00000002 42 0100000100
0600000112 0500000400000003 000000
0400000a00000005 00000001 4343
";

const SHOWN: &str = "\
frame 1 (line 1): 13 octets
  octet 0: transfer segment, transfer 5, index 0, 1 octet of data; message length 9
  window: transfers 4294967294 to 5
    5 open: held 0 (1 octet), missing from 1 on, start index not known
frame 2 (line 2): 9 octets
  refusal 6 at octet 0: a length runs past the frame; the whole frame has no effect
  window: transfers 4294967294 to 5
    5 open: held 0 (1 octet), missing from 1 on, start index not known
frame 3 (line 3): 18 octets
  octet 0: transfer start, transfer 5, index 2, 1 octet of data; message length 9
  octet 13: definite padding, 1 octet; message length 1
  window: transfers 4294967294 to 5
    5 open: held 0, 2 (2 octets), missing 1, start index 2
frame 4 (line 4): 16 octets
  octet 0: type 6, unknown and passed over, 1 octet; message length 1
  octet 5: transfer cancel, transfer 3; message length 4
  octet 13: indefinite padding, 3 octets
  window: transfers 4294967294 to 5
    5 open: held 0, 2 (2 octets), missing 1, start index 2
    cancelled: 3
    nothing came of: 4
frame 5 (line 5): 14 octets
  octet 0: transfer segment, transfer 5, index 1, 2 octets of data; message length 10
  handed out: the bundle of transfer 5, 4 octets
  window: transfers 4294967294 to 5
    done: 5
    cancelled: 3
    nothing came of: 4
";

#[test]
fn frames_of_draft_00_in_words_from_lines_and_from_a_recording() {
    let recording = directory("drafts_inspect").join("recording");
    let lines = LINES.replace(' ', "");
    let recorded = run(&["record", text(&recording)], lines.as_bytes());
    assert_eq!(recorded.code, Some(0));
    let without_lines = (1..=5).fold(SHOWN.to_string(), |shown, line| {
        shown.replace(&format!(" (line {line})"), "")
    });
    let words = ["inspect", "--draft", "00"];
    let runs = [
        (run(&words, lines.as_bytes()), SHOWN),
        (
            run(&[&words[..], &[text(&recording)]].concat(), b""),
            &without_lines,
        ),
    ];
    for (ran, shown) in runs {
        assert_eq!(ran.out, shown);
        assert_eq!(ran.code, Some(1));
        let said = "btpu inspect: frames 5, of these refused 1; bad lines 0\n";
        assert_eq!(ran.err, said);
    }
}

/// The transfers are given up, which is told; what comes whole is the same in both drafts.
fn given_up(other: &str) -> String {
    let own = if other == "00" { "02" } else { "00" };
    format!(
        "transfers given up in the window: 7 to 9; their pieces contradict each other, as those of \
         draft {other} do for a receiver of draft {own}, or exceed 64 pieces or 4,096 octets\n"
    )
}

#[test]
fn frames_of_the_other_draft_are_told() {
    let directory = directory("drafts_other");
    let whole = expected()[2].clone() + "\n";
    let frames = sent("00", &directory);
    let ran = run(&["receive"], frames.concat().as_bytes());
    assert_eq!((ran.code, &ran.out), (Some(0), &whole));
    let counts = format!(
        "frames taken {}, refused 0, bad lines 0, bundles 1\n",
        frames.len()
    );
    let said = format!("btpu receive: {}btpu receive: {counts}", given_up("00"));
    assert_eq!(ran.err, said);

    let mut frames = sent("02", &directory);
    frames.reverse();
    let ran = run(&["receive", "--draft", "00"], frames.concat().as_bytes());
    assert_eq!((ran.code, &ran.out), (Some(0), &whole));
    let said = format!("btpu receive: {}btpu receive: {counts}", given_up("02"));
    assert_eq!(ran.err, said);

    let hinted = run(&["receive", "--draft=00"], b"028000050201ff4142\n");
    assert_eq!((hinted.code, &*hinted.out), (Some(1), ""));
    let said = "line 1: frame refused: refusal 6 at octet 0: a length runs past the frame";
    assert!(hinted.err.contains(said), "{}", hinted.err);
}

/// What the help says of frames of the other draft: the piece with index 0 may come out as a bundle.
#[test]
fn a_single_piece_of_the_other_draft() {
    let directory = directory("drafts_piece");
    let bundle = &bundles()[0];
    let last = sent("00", &directory)[2].clone();
    let ran = run(&["receive"], last.as_bytes());
    assert_eq!(ran.out, line_of(Some(7), &bundle[232..]) + "\n");
    let first = sent("02", &directory)[0].clone();
    let ran = run(&["receive", "--draft", "00"], first.as_bytes());
    assert_eq!(ran.out, line_of(Some(7), &bundle[..116]) + "\n");
}

fn recorded(directory: &Path, frames: &[String]) -> PathBuf {
    let file = directory.join("night");
    let ran = run(&["record", text(&file)], frames.concat().as_bytes());
    assert_eq!(ran.code, Some(0));
    file
}

#[test]
fn a_recording_keeps_frames_of_draft_00_and_is_played_as_draft_02() {
    let directory = directory("drafts_recording");
    let frames = sent("00", &directory);
    let night = recorded(&directory, &frames);
    let played = run(&["play", text(&night)], b"");
    let as_02 = run(&["receive"], frames.concat().as_bytes());
    assert_eq!((played.code, &played.out), (Some(0), &as_02.out));
    let said = format!("btpu play: {}btpu play: messages treated ", given_up("00"));
    assert!(played.err.starts_with(&said), "{}", played.err);
    let begun = run(&["play", "--messages", "1", text(&night)], b"");
    let said = "btpu play: messages treated 1, frames refused 0, bundles 0\n";
    assert_eq!((begun.code, &*begun.err), (Some(0), said));

    let inspected = run(&["inspect", "--draft=00", text(&night)], b"").out;
    for (number, length) in [(7, 300), (8, 4096), (9, 1000)] {
        let said = format!("handed out: the bundle of transfer {number}, {length} octets\n");
        assert!(inspected.contains(&said), "{inspected}");
    }
}

/// Frames of random octets and of either draft, cut and altered, end with a status and the counts.
#[test]
fn no_frame_stops_a_command() {
    let directory = directory("drafts_any");
    let mut frames = [sent("00", &directory), sent("02", &directory)].concat();
    for (seed, frame) in (0..).zip(frames.iter_mut()) {
        let [place, digit, ..] = noise(2, seed)[..] else {
            panic!("two octets")
        };
        let at = 2 * (usize::from(place) % 16);
        frame.replace_range(at..at + 2, &format!("{digit:02x}"));
    }
    frames.extend((0..200).map(|seed| hex(&noise(1 + seed as usize, seed)) + "\n"));
    let input = frames.concat();
    for command in ["receive", "inspect"] {
        for draft in ["00", "02"] {
            let ran = run(&[command, "--draft", draft], input.as_bytes());
            assert_eq!(ran.code, Some(1), "{}", ran.err);
            let last = ran.err.lines().last().unwrap();
            assert!(last.contains("bad lines 0"), "{last}");
        }
    }
}
