//! Help, version, and command lines that make no sense.

mod common;

use common::*;
use std::process::Stdio;

const COMMANDS: [&str; 5] = ["send", "receive", "record", "play", "inspect"];

#[test]
fn help_and_version_of_all() {
    let version = format!("btpu {}\n", env!("CARGO_PKG_VERSION"));
    for option in ["--help", "-h"] {
        let all = run(&[option], b"");
        assert_eq!((all.code, &*all.err), (Some(0), ""));
        for command in COMMANDS {
            assert!(all.out.contains(&format!("btpu {command}")));
            let one = run(&[command, option], b"");
            assert_eq!((one.code, &*one.err), (Some(0), ""));
            assert!(one.out.starts_with(&format!("usage: btpu {command}")));
        }
    }
    assert_eq!(run(&["--version"], b"").out, version);
    for command in COMMANDS {
        let ran = run(&[command, "--version"], b"");
        assert_eq!((ran.code, &*ran.out, &*ran.err), (Some(0), &*version, ""));
    }
}

#[test]
fn lines_of_help_fit_a_terminal() {
    let all = run(&["--help"], b"").out;
    let each = COMMANDS.map(|command| run(&[command, "--help"], b"").out);
    for help in each.iter().chain([&all]) {
        let long = help.lines().find(|line| line.chars().count() > 80);
        assert_eq!(long, None);
    }
}

/// The drafts in full, and what each command does with them.
#[test]
fn help_says_of_drafts() {
    let all = run(&["--help"], b"").out;
    assert!(all.contains("draft-ietf-dtn-btpu-02") && all.contains("draft-ietf-dtn-btpu-00"));
    for command in ["send", "receive", "inspect"] {
        let help = run(&[command, "--help"], b"").out;
        assert!(help.contains("[--draft D]") && help.contains("\n  --draft D "));
        assert!(all.contains(help.lines().next().unwrap().trim_start_matches("usage: ")));
    }
    for command in ["record", "play"] {
        let help = run(&[command, "--help"], b"").out;
        assert!(help.contains("draft 02"), "{help}");
    }
}

/// What a window is, and what each command does with it.
#[test]
fn help_says_of_windows() {
    let all = run(&["--help"], b"").out;
    assert!(all.contains("a window of 8 transfers"));
    for command in ["receive", "inspect"] {
        let help = run(&[command, "--help"], b"").out;
        assert!(help.contains("[--window W]") && help.contains("\n  --window W "));
        assert!(help.contains("4, 8 or 16"));
    }
    let play = run(&["play", "--help"], b"").out;
    assert!(play.contains("a window of 16"), "{play}");
}

const USAGE_ERRORS: [(&[&str], &str); 46] = [
    (&[], "a command is missing"),
    (&["sned"], "there is no command sned"),
    (&["--bad"], "there is no command --bad"),
    (&["send"], "FILE is missing"),
    (&["send", "-"], "--frame-size is missing"),
    (&["send", "--frame-size", "128", "-"], "--first is missing"),
    (&["send", "--first", "1", "-"], "--frame-size is missing"),
    (
        &["send", "--frame-size", "128", "--first", "1"],
        "FILE is missing",
    ),
    (
        &["send", "--frame-size", "127", "--first", "1", "-"],
        "from 128 to 2048, not 127",
    ),
    (
        &["send", "--frame-size", "2049", "--first", "1", "-"],
        "from 128 to 2048, not 2049",
    ),
    (
        &["send", "--frame-size", "many", "--first", "1", "-"],
        "not many",
    ),
    (
        &["send", "--frame-size", "+128", "--first", "1", "-"],
        "not +128",
    ),
    (
        &["send", "--frame-size", "128", "--first", "4294967296", "-"],
        "from 0 to 4294967295",
    ),
    (
        &["send", "--frame-size", "128", "--first", "-1", "-"],
        "not -1",
    ),
    (
        &["send", "--first", "1", "--first", "2", "-"],
        "--first is given twice",
    ),
    (&["send", "--frame-size"], "--frame-size needs a value"),
    (&["send", "--state=", "-"], "--state needs a value"),
    (&["receive", "file"], "file is one too many"),
    (&["receive", "--first", "1"], "there is no option --first"),
    (
        &["receive", "--state", "--out", "x"],
        "--state needs a value",
    ),
    (&["record"], "FILE is missing"),
    (&["record", "-"], "can't go to standard output"),
    (&["play", "a", "b"], "b is one too many"),
    (
        &["play", "--messages", "18446744073709551616", "a"],
        "--messages takes a number",
    ),
    (&["inspect", "a", "b"], "b is one too many"),
    (
        &[
            "send",
            "--draft",
            "01",
            "--frame-size=128",
            "--first=1",
            "-",
        ],
        "--draft takes 00 or 02, not 01",
    ),
    (
        &["receive", "--draft", "2"],
        "--draft takes 00 or 02, not 2",
    ),
    (
        &["inspect", "--draft=000"],
        "--draft takes 00 or 02, not 000",
    ),
    (&["inspect", "--draft"], "--draft needs a value"),
    (
        &["receive", "--draft=00", "--draft=00"],
        "--draft is given twice",
    ),
    (
        &["play", "--draft", "02", "a"],
        "there is no option --draft",
    ),
    (
        &["record", "--draft", "00", "a"],
        "there is no option --draft",
    ),
    (&["receive", "--drafts=00"], "there is no option --drafts"),
    (
        &["receive", "--window", "5"],
        "--window takes 4, 8 or 16, not 5",
    ),
    (
        &["inspect", "--window=5"],
        "--window takes 4, 8 or 16, not 5",
    ),
    (&["receive", "--window", "08"], "4, 8 or 16, not 08"),
    (&["receive", "--window", "0"], "4, 8 or 16, not 0"),
    (&["receive", "--window", "32"], "4, 8 or 16, not 32"),
    (&["receive", "--window", "-8"], "4, 8 or 16, not -8"),
    (&["receive", "--window"], "--window needs a value"),
    (&["inspect", "--window="], "--window needs a value"),
    (
        &["receive", "--window", "--draft", "00"],
        "--window needs a value",
    ),
    (
        &["receive", "--window=4", "--window=4"],
        "--window is given twice",
    ),
    (
        &["play", "--window", "16", "a"],
        "there is no option --window",
    ),
    (
        &["record", "--window", "8", "a"],
        "there is no option --window",
    ),
    (
        &["send", "--window", "8", "-"],
        "there is no option --window",
    ),
];

#[test]
fn usage_errors_say_what_is_wrong() {
    for (words, said) in USAGE_ERRORS {
        let ran = run(words, b"");
        assert_eq!((ran.code, &*ran.out), (Some(2), ""), "{words:?}");
        assert!(ran.err.contains(said), "{words:?}: {}", ran.err);
        assert!(ran.err.contains("usage: btpu ") && ran.err.ends_with("--help says more\n"));
    }
}

#[test]
fn names_that_look_like_options_stand_behind_two_dashes() {
    let ran = run(&["play", "--", "--help"], b"");
    assert_eq!(ran.code, Some(1));
    assert!(
        ran.err.contains("--help can't be read: No such file"),
        "{}",
        ran.err
    );
}

#[test]
fn help_to_a_full_disk() {
    let ran = run_between(&["--help"], Stdio::null(), full_disk());
    assert_eq!(ran.code, Some(1));
    assert!(ran.err.contains("No space left on device"), "{}", ran.err);
}
