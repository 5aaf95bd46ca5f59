//! `btpu inspect`.

mod common;

use common::*;
use std::fs;
use std::process::Stdio;

const LINES: &str = "\
# three frames
030000090000000500000000 41
0280000502 01FF4142 0002000003 414243
0300000900000005 00000000 41 0400000a
04000009 00000005 00000001 42 0500000400000003
";

const SHOWN: &str = "\
frame 1 (line 2): 13 octets
  octet 0: transfer segment, transfer 5, index 0, 1 octet of data; message length 9
  window: transfers 4294967294 to 5
    5 open: held 0 (1 octet), missing from 1 on, last index not known
frame 2 (line 3): 17 octets
  octet 0: bundle, 2 octets; message length 5; hint of type 1, value ff
  octet 9: indefinite padding, 1 octet
  octet 10: bundle, 3 octets; message length 3
  handed out: a bundle message, 2 octets
  handed out: a bundle message, 3 octets
  window: transfers 4294967294 to 5
    5 open: held 0 (1 octet), missing from 1 on, last index not known
frame 3 (line 4): 17 octets
  octet 0: transfer segment, transfer 5, index 0, 1 octet of data; message length 9
  refusal 6 at octet 13: a length runs past the frame; the whole frame has no effect
  window: transfers 4294967294 to 5
    5 open: held 0 (1 octet), missing from 1 on, last index not known
frame 4 (line 5): 21 octets
  octet 0: transfer end, transfer 5, index 1, 1 octet of data; message length 9
  octet 13: transfer cancel, transfer 3; message length 4
  handed out: the bundle of transfer 5, 2 octets
  window: transfers 4294967294 to 5
    done: 5
    cancelled: 3
    nothing came of: 4
";

fn lines() -> String {
    let packed = LINES.lines().map(|line| match line.strip_prefix('#') {
        Some(_) => format!("{line}\n"),
        None => line.replace(' ', "") + "\n",
    });
    packed.collect()
}

#[test]
fn frames_in_words_from_lines_and_from_a_recording() {
    let directory = directory("inspect");
    let (hex, recording) = (directory.join("hex"), directory.join("recording"));
    fs::write(&hex, lines()).unwrap();
    assert_eq!(
        run(&["record", text(&recording)], lines().as_bytes()).code,
        Some(0)
    );
    let without_lines: String = (1..=4).fold(SHOWN.to_string(), |shown, frame| {
        shown.replace(&format!(" (line {})", frame + 1), "")
    });
    let recorded = fs::read(&recording).unwrap();
    let runs = [
        (run(&["inspect"], lines().as_bytes()), SHOWN),
        (run(&["inspect", "-"], lines().as_bytes()), SHOWN),
        (run(&["inspect", text(&hex)], b""), SHOWN),
        (run(&["inspect", text(&recording)], b""), &without_lines),
        (run(&["inspect"], &recorded), &without_lines),
    ];
    for (ran, shown) in runs {
        assert_eq!(ran.out, shown);
        assert_eq!(ran.code, Some(1));
        assert_eq!(
            ran.err,
            "btpu inspect: frames 4, of these refused 1; bad lines 0\n"
        );
    }
}

#[test]
fn bad_lines_and_bad_files() {
    let directory = directory("inspect_bad");
    let ran = run(&["inspect"], (whole(b"x") + "0\n").as_bytes());
    assert_eq!((ran.code, ran.out.lines().count()), (Some(1), 4));
    assert!(
        ran.err
            .contains("line 2: bad line: 1 hex digit, an odd number"),
        "{}",
        ran.err
    );
    let file = directory.join("file");
    fs::write(&file, [0, 0, 0, 1, 0]).unwrap();
    let ran = run(&["inspect", text(&file)], b"");
    assert_eq!((ran.code, &*ran.out), (Some(1), ""));
    let said = "has neither lines of hex nor a recording: refusal 16: ";
    assert!(ran.err.contains(said), "{}", ran.err);
    for bad in [directory.join("missing"), directory] {
        let ran = run(&["inspect", text(&bad)], b"");
        assert_eq!((ran.code, &*ran.out), (Some(1), ""));
        assert!(ran.err.contains(text(&bad)), "{}", ran.err);
    }
    let empty = run(&["inspect"], b"");
    assert_eq!((empty.code, &*empty.out), (Some(0), ""));
}

#[test]
fn a_frame_is_shown_when_it_comes() {
    let mut live = Live::start(&["inspect"]);
    live.write(&whole(b"x"));
    assert_eq!(live.line(), "frame 1 (line 1): 5 octets");
    assert_eq!(live.line(), "  octet 0: bundle, 1 octet; message length 1");
    assert_eq!(live.line(), "  handed out: a bundle message, 1 octet");
    assert_eq!(live.line(), "  window: no transfer number has come yet");
    assert_eq!(live.end().0, Some(0));
}

#[test]
fn a_full_disk_and_a_closed_pipe() {
    let directory = directory("inspect_full");
    let file = directory.join("hex");
    fs::write(&file, whole(b"x").repeat(10_000)).unwrap();
    let full = run_between(&["inspect", text(&file)], Stdio::null(), full_disk());
    assert_eq!(full.code, Some(1));
    assert!(full.err.contains("No space left on device"), "{}", full.err);
    let mut command = btpu(&["inspect", text(&file)]);
    command.stdout(Stdio::piped()).stderr(Stdio::piped());
    let mut child = command.spawn().unwrap();
    drop(child.stdout.take());
    let closed = Ran::from(child.wait_with_output().unwrap());
    assert_eq!((closed.code, &*closed.err), (Some(0), ""));
}
