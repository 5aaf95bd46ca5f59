//! `--out` of `btpu receive`.

mod common;

use common::*;
use std::fs;
use std::process::Stdio;
use std::time::{Duration, Instant};

#[test]
fn each_bundle_in_a_file_of_its_own_in_order_of_arrival() {
    let directory = directory("out_order");
    let out = directory.join("new").join("bundles");
    let words = ["receive", "--out", text(&out)];
    let input = piece(true, 7, 0, b"first") + &whole(b"second");
    let ran = run(&words, input.as_bytes());
    let expected = "bundle 7 5 000000000001-7.bundle\nbundle - 6 000000000002--.bundle\n";
    assert_eq!((ran.code, &*ran.out), (Some(0), expected));
    let ran = run(&words, piece(true, 8, 0, b"").as_bytes());
    assert_eq!(ran.out, "bundle 8 0 000000000003-8.bundle\n");
    let files = names(&out);
    assert_eq!(files.len(), 3, "nothing else is left: {files:?}");
    let contents: Vec<Vec<u8>> = files
        .iter()
        .map(|name| fs::read(out.join(name)).unwrap())
        .collect();
    assert_eq!(contents, [&b"first"[..], b"second", b""]);
}

#[test]
fn counting_goes_on_where_files_were_taken_away_and_the_state_is_kept() {
    let directory = directory("out_count");
    let (out, state) = (directory.join("out"), directory.join("state"));
    let words = ["receive", "--out", text(&out), "--state", text(&state)];
    assert_eq!(run(&words, whole(b"x").repeat(3).as_bytes()).code, Some(0));
    fs::remove_dir_all(&out).unwrap();
    let without = run(
        &["receive", "--state", text(&state)],
        whole(b"z").as_bytes(),
    );
    assert_eq!(without.out, "bundle - 1 7a\n");
    let ran = run(&words, whole(b"y").as_bytes());
    assert_eq!(ran.out, "bundle - 1 000000000004--.bundle\n");
}

#[test]
fn a_file_is_there_when_its_line_is() {
    let directory = directory("out_live");
    let mut live = Live::start(&["receive", "--out", text(&directory)]);
    for number in 0..5 {
        let bundle = noise(3000, u64::from(number));
        live.write(&piece(false, number, 0, &bundle[..2000]));
        live.write(&piece(true, number, 1, &bundle[2000..]));
        let line = live.line();
        let name = line.rsplit(' ').next().unwrap();
        assert_eq!(fs::read(directory.join(name)).unwrap(), bundle);
    }
    assert_eq!(live.end().0, Some(0));
}

#[test]
fn a_file_has_all_its_octets_from_the_moment_it_is_there() {
    let directory = directory("out_whole");
    let (input, out) = (directory.join("input"), directory.join("out"));
    fs::write(&input, whole(&noise(2000, 1)).repeat(100)).unwrap();
    let mut command = btpu(&["receive", "--out", text(&out)]);
    command.stdin(fs::File::open(&input).unwrap());
    command.stdout(Stdio::null()).stderr(Stdio::null());
    let mut child = command.spawn().unwrap();
    let start = Instant::now();
    for count in 1..=100 {
        let name = out.join(format!("{count:012}--.bundle"));
        let found = loop {
            match fs::metadata(&name) {
                Ok(found) => break found,
                Err(_) => assert!(start.elapsed() < TIME_LIMIT, "file {count} does not come"),
            }
        };
        assert_eq!(found.len(), 2000, "file {count}");
    }
    assert_eq!(child.wait().unwrap().code(), Some(0));
}

#[test]
fn files_are_whole_after_every_kill() {
    let directory = directory("out_kill");
    let bundle = noise(2000, 9);
    let mut written = 0;
    for round in 0..15 {
        let mut live = Live::start(&["receive", "--out", text(&directory)]);
        live.write(&whole(&bundle).repeat(50));
        std::thread::sleep(Duration::from_millis(5 + 3 * round));
        live.kill();
        let names = names(&directory);
        let whole = names.iter().filter(|name| name.ends_with(".bundle"));
        let mut count = 0;
        for name in whole {
            assert_eq!(fs::read(directory.join(name)).unwrap(), bundle, "{name}");
            count += 1;
        }
        assert!(count >= written, "no file was written over");
        written = count;
    }
    assert!(written > 0);
}

#[test]
fn a_directory_that_can_not_be_used_is_told() {
    let directory = directory("out_bad");
    let file = directory.join("file");
    fs::write(&file, "x").unwrap();
    let ran = run(&["receive", "--out", text(&file)], b"");
    assert_eq!(ran.code, Some(1));
    assert!(ran.err.contains(text(&file)), "{}", ran.err);
    let mut live = Live::start(&["receive", "--out", text(&directory)]);
    live.write(&whole(b"x"));
    live.line();
    let second = run(&["receive", "--out", text(&directory)], b"");
    assert_eq!(second.code, Some(1));
    assert!(
        second.err.contains("in use by another btpu"),
        "{}",
        second.err
    );
    assert_eq!(live.end().0, Some(0));
}
