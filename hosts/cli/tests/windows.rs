//! `--window` of `btpu receive` and `btpu inspect`, state files that keep it, and the window of `btpu play`.

mod common;

use common::*;
use std::fs;
use std::path::Path;

const WINDOWS: [u32; 3] = [4, 8, 16];

/// The first pieces of so many transfers from number 9 on, then their ends.
fn mixed(transfers: u32) -> (String, String) {
    let numbers = 9..9 + transfers;
    let first = |number| piece(false, number, 0, b"a");
    let ends = numbers.clone().map(|number| piece(true, number, 1, b"b"));
    (numbers.map(first).collect(), ends.collect())
}

/// The lines for the bundles of these transfers.
fn bundles(numbers: impl Iterator<Item = u32>) -> String {
    let line = |number| line_of(Some(number), b"ab") + "\n";
    numbers.map(line).collect()
}

/// As many transfers as the window has are under way at a time; of one more, the first is lost.
#[test]
fn a_receiver_keeps_as_many_transfers_as_its_window_has() {
    for window in WINDOWS {
        for more in [0, 1] {
            let (first, ends) = mixed(window + more);
            let words = ["receive", "--window", &window.to_string()];
            let ran = run(&words, (first + &ends).as_bytes());
            let kept = 9 + more..9 + more + window;
            assert_eq!((ran.code, ran.out), (Some(0), bundles(kept)), "{window}");
        }
    }
}

#[test]
fn eight_is_the_default() {
    let directory = directory("windows_default");
    let (plain, named) = (directory.join("plain"), directory.join("named"));
    let (first, ends) = mixed(9);
    let input = first + &ends;
    let runs = [
        with_state(&plain, &[], &input),
        with_state(&named, &["--window", "8"], &input),
    ];
    for ran in runs {
        assert_eq!((ran.code, ran.out), (Some(0), bundles(10..18)));
        assert_eq!(ran.err.lines().count(), 1, "{}", ran.err);
    }
    let stored = fs::read(plain).unwrap();
    assert!(stored == fs::read(named).unwrap());
    assert_eq!(stored[IMAGE + 1], 8);
    let inspected = run(&["inspect", "--window=8"], input.as_bytes()).out;
    assert_eq!(run(&["inspect"], input.as_bytes()).out, inspected);
    assert!(inspected.contains("  window: transfers 10 to 17\n"));
}

/// `btpu receive` with a state file and more words.
fn with_state(state: &Path, more: &[&str], input: &str) -> Ran {
    let words = [&["receive", "--state", text(state)], more].concat();
    run(&words, input.as_bytes())
}

fn going_on(name: &str, kept: impl std::fmt::Display) -> String {
    format!("btpu receive: going on with {name} {kept}, the {name} of the state file\n")
}

/// A run that says this on standard error before its counts.
#[track_caller]
fn says(ran: &Ran, told: &str) {
    let said = format!("{told}btpu receive: frames taken ");
    assert!(ran.err.starts_with(&said), "{}", ran.err);
}

#[test]
fn a_receiver_goes_on_with_the_window_of_its_state() {
    let directory = directory("windows_state");
    for window in WINDOWS {
        let state = directory.join(window.to_string());
        let (first, ends) = mixed(window);
        let given = ["--window", &window.to_string()];
        let begun = with_state(&state, &given, &first);
        assert_eq!((begun.code, &*begun.out), (Some(0), ""));
        says(&begun, "");
        let stored = fs::read(&state).unwrap();
        assert_eq!(stored.len(), IMAGE + 3144 + 4096 * window as usize + 4);
        assert_eq!(u32::from(stored[IMAGE + 1]), window);

        let ended = with_state(&state, &[], &ends);
        assert_eq!(ended.out, bundles(9..9 + window));
        let told = match window {
            8 => String::new(),
            _ => going_on("window", window),
        };
        says(&ended, &told);
        let named = with_state(&state, &given, &ends);
        assert_eq!((named.code, &*named.out), (Some(0), ""));
        says(&named, "");
    }
}

/// A --window that is not the state's is refused, and the state stays as it is.
#[track_caller]
fn refused(state: &Path, given: &[&str], said: &str) {
    let before = fs::read(state).unwrap();
    let ran = with_state(state, given, &piece(true, 9, 0, b"x"));
    assert_eq!((ran.code, &*ran.out), (Some(2), ""));
    let said = format!("btpu receive: {said} of the state file: leave ");
    assert!(ran.err.starts_with(&said), "{}", ran.err);
    assert!(fs::read(state).unwrap() == before);
}

#[test]
fn another_window_than_that_of_the_state_is_refused() {
    let directory = directory("windows_other");
    for window in WINDOWS {
        let state = directory.join(window.to_string());
        let ran = with_state(&state, &["--window", &window.to_string()], "");
        assert_eq!(ran.code, Some(0));
        for other in WINDOWS.into_iter().filter(|other| *other != window) {
            let said = format!("--window {other} differs from the window {window}");
            refused(&state, &["--window", &other.to_string()], &said);
        }
    }
}

/// A start with index 1, or a segment with index 0, of a transfer of draft 00 with two pieces.
fn piece_00(start: bool, number: u32) -> String {
    let (kind, index, data) = if start { (3, 1, "61") } else { (4, 0, "62") };
    format!("{kind:02x}000009{number:08x}{index:08x}{data}\n")
}

/// Draft and window are kept, told and refused each for itself.
#[test]
fn draft_and_window_together() {
    let state = directory("windows_drafts").join("state");
    let last: String = (9..13).map(|number| piece_00(false, number)).collect();
    let starts: String = (9..13).map(|number| piece_00(true, number)).collect();
    let begun = with_state(&state, &["--draft", "00", "--window", "4"], &last);
    assert_eq!((begun.code, &*begun.out), (Some(0), ""));
    says(&begun, "");
    let other_window = "--window 8 differs from the window 4";
    refused(&state, &["--window", "8"], other_window);
    refused(&state, &["--draft=00", "--window=8"], other_window);
    let other_draft = "--draft 02 differs from the draft 00";
    refused(&state, &["--draft", "02"], other_draft);
    refused(&state, &["--draft=02", "--window=4"], other_draft);

    let ended = with_state(&state, &[], &starts);
    let (draft, window) = (going_on("draft", "00"), going_on("window", 4));
    says(&ended, &(draft.clone() + &window));
    assert_eq!((ended.code, ended.out), (Some(0), bundles(9..13)));
    says(&with_state(&state, &["--draft=00"], ""), &window);
    says(&with_state(&state, &["--window=4"], ""), &draft);
    says(&with_state(&state, &["--draft=00", "--window=4"], ""), "");
}

/// The window is told as soon as the receiver waits, and a killed receiver keeps it.
#[test]
fn a_receiver_that_was_killed_goes_on_with_its_window() {
    let state = directory("windows_killed").join("state");
    let mut live = Live::start(&["receive", "--window", "4", "--state", text(&state)]);
    wait_until(|| state.exists());
    let empty = fs::read(&state).unwrap();
    live.write(&piece(false, 9, 0, b"a"));
    wait_for_change(&state, &empty);
    live.kill();
    let mut live = Live::start(&["receive", "--state", text(&state)]);
    assert_eq!(live.error_line(), going_on("window", 4).trim_end());
    live.write(&piece(true, 9, 1, b"b"));
    assert_eq!(live.line(), line_of(Some(9), b"ab"));
    assert_eq!(live.end().0, Some(0));
}

/// Leaves a state file as it was stored before windows could be chosen, after this input.
fn stored_before(state: &Path, draft: &str, input: &str) -> Vec<u8> {
    let ran = with_state(state, &["--window", "16", "--draft", draft], input);
    assert_eq!(ran.code, Some(0), "{}", ran.err);
    let mut octets = fs::read(state).unwrap();
    assert_eq!(octets[IMAGE + 1], 16);
    octets[IMAGE + 1] = 0;
    let octets = sealed(octets);
    fs::write(state, &octets).unwrap();
    octets
}

const BEFORE: &str =
    "btpu receive: the state file was stored before windows could be chosen, when every \
                      receiver had window 16: going on with window 16\n";

#[test]
fn a_state_from_before_windows_could_be_chosen() {
    let directory = directory("windows_before");
    let (state, sixteen) = (directory.join("state"), directory.join("sixteen"));
    let (first, ends) = mixed(16);
    let ran = with_state(&sixteen, &["--window=16"], &first);
    assert_eq!(ran.code, Some(0));
    let other = "--window 8 differs from the window 16";
    for words in [&[][..], &["--window", "16"]] {
        let _ = fs::remove_file(&state);
        let before = stored_before(&state, "02", &first);
        assert_eq!(before.len(), 68_708);
        refused(&state, &["--window=8"], other);

        // It is stored with its window before a frame comes, and is not told again.
        let empty = with_state(&state, words, "");
        assert_eq!((empty.code, &*empty.out), (Some(0), ""));
        says(&empty, BEFORE);
        assert!(fs::read(&state).unwrap() == fs::read(&sixteen).unwrap());
        says(&with_state(&state, &[], ""), &going_on("window", 16));

        fs::write(&state, before).unwrap();
        let ended = with_state(&state, words, &ends);
        assert_eq!((ended.code, ended.out), (Some(0), bundles(9..25)));
    }
}

#[test]
fn a_state_of_draft_00_from_before_windows_could_be_chosen() {
    let state = directory("windows_before_00").join("state");
    stored_before(&state, "00", &piece_00(false, 5));
    let other = "--draft 02 differs from the draft 00";
    refused(&state, &["--draft=02"], other);
    let ran = with_state(&state, &[], &piece_00(true, 5));
    says(&ran, &(going_on("draft", "00") + BEFORE));
    assert_eq!((ran.code, ran.out), (Some(0), bundles(5..6)));
}

/// Files go on to be counted from where they were.
#[test]
fn bundle_files_of_a_state_from_before_windows_could_be_chosen() {
    let directory = directory("windows_before_files");
    let (state, files) = (directory.join("state"), directory.join("files"));
    let words = ["--window=16", "--out", text(&files)];
    assert_eq!(with_state(&state, &words, &whole(b"a")).code, Some(0));
    stored_before(&state, "02", "");
    fs::remove_dir_all(&files).unwrap();
    let ran = with_state(&state, &words[1..], &whole(b"b"));
    assert_eq!(
        (ran.code, &*ran.out),
        (Some(0), "bundle - 1 000000000002--.bundle\n")
    );
}

/// Without a window, another pool than that of 16 and an unsound image are damage.
#[test]
fn damaged_states_without_a_window() {
    let directory = directory("windows_damaged");
    let state = directory.join("state");
    let mut unsound = stored_before(&state, "02", &mixed(16).0);
    unsound[IMAGE + 8] = 9;
    let mut damaged = vec![sealed(unsound)];
    for window in ["4", "8"] {
        let state = directory.join(window);
        assert_eq!(with_state(&state, &["--window", window], "").code, Some(0));
        let mut octets = fs::read(&state).unwrap();
        octets[IMAGE + 1] = 0;
        damaged.push(sealed(octets));
    }
    for octets in damaged {
        fs::write(&state, &octets).unwrap();
        for words in [&[][..], &["--window=16"]] {
            let ran = with_state(&state, words, &whole(b"x"));
            assert_eq!((ran.code, &*ran.out), (Some(1), ""));
            let said = "refusal 1: not a sound state. It is left as it is: ";
            assert!(ran.err.contains(said), "{}", ran.err);
            assert_eq!(ran.err.lines().count(), 1, "{}", ran.err);
            assert!(fs::read(&state).unwrap() == octets);
        }
    }
}

/// The pool must have the length that the window of the image asks for.
#[test]
fn a_state_with_the_pool_of_another_window() {
    let directory = directory("windows_pool");
    let state = directory.join("state");
    assert_eq!(with_state(&state, &[], "").code, Some(0));
    let mut octets = fs::read(&state).unwrap();
    octets[IMAGE + 1] = 4;
    let octets = sealed(octets);
    fs::write(&state, &octets).unwrap();
    let ran = with_state(&state, &[], &whole(b"x"));
    assert_eq!((ran.code, &*ran.out), (Some(1), ""));
    let said = "35912 octets stored, not 19528. It is left as it is: ";
    assert!(ran.err.contains(said), "{}", ran.err);
    assert!(fs::read(&state).unwrap() == octets);
}

/// Transfer 5 is completed when 9 has come.
fn late() -> String {
    piece(false, 5, 0, b"a") + &piece(true, 9, 0, b"x") + &piece(true, 5, 1, b"b")
}

const SHOWN_LATE: &str = "\
frame 3 (line 3): 13 octets
  octet 0: transfer end, transfer 5, index 1, 1 octet of data; message length 9
";

#[test]
fn an_inspection_goes_by_its_window() {
    let recording = directory("windows_inspect").join("recording");
    let late = late();
    assert_eq!(
        run(&["record", text(&recording)], late.as_bytes()).code,
        Some(0)
    );
    let handed_out = "  handed out: the bundle of transfer 5, 2 octets\n";
    let cases = [
        ("4", "", "  window: transfers 6 to 9\n    done: 9\n"),
        (
            "8",
            handed_out,
            "  window: transfers 2 to 9\n    done: 5, 9\n    nothing came of: 6 to 8\n",
        ),
        (
            "16",
            handed_out,
            "  window: transfers 4294967290 to 9\n    done: 5, 9\n    nothing came of: 6 to 8\n",
        ),
    ];
    for (window, handed_out, shown) in cases {
        let words = ["inspect", "--window", window];
        let from_lines = run(&words, late.as_bytes());
        let expected = format!("{SHOWN_LATE}{handed_out}{shown}");
        assert!(from_lines.out.ends_with(&expected), "{}", from_lines.out);
        let recorded = run(&[&words[..], &[text(&recording)]].concat(), b"");
        let without_lines = (1..=3).fold(from_lines.out, |shown, line| {
            shown.replace(&format!(" (line {line})"), "")
        });
        assert_eq!(recorded.out, without_lines);
        assert_eq!((from_lines.code, recorded.code), (Some(0), Some(0)));
    }
}

/// A transfer that was given up and has left the window is not told at the end.
#[test]
fn transfers_given_up_go_by_the_window() {
    let input = piece(false, 5, 64, b"a") + &piece(true, 9, 0, b"x");
    for (window, told) in [("4", false), ("8", true), ("16", true)] {
        let ran = run(&["receive", "--window", window], input.as_bytes());
        assert_eq!((ran.code, &*ran.out), (Some(0), "bundle 9 1 78\n"));
        let said = "btpu receive: transfers given up in the window: 5; ";
        assert_eq!(ran.err.starts_with(said), told, "{}", ran.err);
    }
}

/// A recording is played with a window of 16, and each bundle has its own number.
#[test]
fn a_recording_is_played_with_sixteen() {
    let night = directory("windows_play").join("night");
    let frames = piece(false, 4_294_967_290, 0, b"a")
        + &piece(true, 3, 0, b"x")
        + &piece(true, 4_294_967_290, 1, b"b")
        + &piece(true, 4, 0, b"y");
    assert_eq!(
        run(&["record", text(&night)], frames.as_bytes()).code,
        Some(0)
    );
    let played = run(&["play", text(&night)], b"");
    let expected = "bundle 3 1 78\nbundle 4294967290 2 6162\nbundle 4 1 79\n";
    assert_eq!((played.code, &*played.out), (Some(0), expected));
    let sixteen = run(&["receive", "--window", "16"], frames.as_bytes());
    assert_eq!(sixteen.out, expected);
    let plain = run(&["receive"], frames.as_bytes());
    assert_eq!(plain.out, "bundle 3 1 78\nbundle 4 1 79\n");
}

/// Each transfer is finished before the next one begins: every window receives what is sent.
#[test]
fn what_is_sent_suits_every_window() {
    let directory = directory("windows_send");
    let files: Vec<_> = (0..40)
        .map(|at| directory.join(format!("{at:02}")))
        .collect();
    for (file, seed) in files.iter().zip(1..) {
        fs::write(file, noise(300 + 90 * seed as usize, seed)).unwrap();
    }
    for draft in ["00", "02"] {
        let options = [
            "send",
            "--frame-size=128",
            "--first=4294967290",
            "--draft",
            draft,
        ];
        let names = files.iter().map(|file| text(file));
        let words: Vec<&str> = options.into_iter().chain(names).collect();
        let sent = run(&words, b"");
        assert_eq!(sent.code, Some(0), "{}", sent.err);
        for window in ["4", "8", "16"] {
            let words = ["receive", "--draft", draft, "--window", window];
            let ran = run(&words, sent.out.as_bytes());
            assert_eq!((ran.code, ran.out.lines().count()), (Some(0), 40));
        }
    }
}
