//! Programs in C, compiled with the public header, linked with the library and run.

use std::path::Path;
use std::process::Command;

/// Compiles a program of the repository and runs it; the answer is what it prints.
fn run(source: &str, name: &str, arguments: &[&str]) -> String {
    let root = Path::new(env!("CARGO_MANIFEST_DIR")).join("..");
    let program = Path::new(env!("CARGO_TARGET_TMPDIR")).join(name);
    let compiled = Command::new("cc")
        .args([
            "-std=c99",
            "-Wall",
            "-Wextra",
            "-Werror",
            "-pedantic",
            "-O1",
        ])
        .arg("-I")
        .arg(root.join("include"))
        .arg(root.join(source))
        .arg(root.join("target/staticlib/libboard.a"))
        .args(["-lpthread", "-ldl", "-lm", "-o"])
        .arg(&program)
        .output()
        .expect("a C compiler named cc");
    let messages = String::from_utf8_lossy(&compiled.stderr);
    assert!(compiled.status.success(), "{messages}");
    let ran = Command::new(&program).args(arguments).output();
    let ran = ran.expect("the program starts");
    let messages = String::from_utf8_lossy(&ran.stderr);
    let printed = String::from_utf8_lossy(&ran.stdout);
    assert!(ran.status.success(), "{printed}{messages}");
    printed.into_owned()
}

#[test]
fn sends_and_receives() {
    assert_eq!(
        run("hosts/c/send_receive.c", "send_receive", &[]),
        "bundle of 3000 octets received through 6 frames of 512 octets\n"
    );
}

/// The program fails where a call takes more of the stack than the header says.
#[test]
fn calls_within_their_stack() {
    let printed = run("harness/tests/stack.c", "stack", &[]);
    print!("octets of the stack:\n{printed}");
    let played = printed
        .lines()
        .find_map(|line| line.strip_prefix("play "))
        .expect("a line for the playback");
    let used: usize = played.parse().expect("a number of octets");
    assert!(used > 65_536, "its buffer alone takes 65,536 octets");
}

/// The program fails where a call touches or changes what it must not, or a refusal is not reached.
#[test]
fn calls_between_guard_pages() {
    let printed = run("harness/tests/guarded.c", "guarded", &["3", "1"]);
    print!("{printed}");
    let functions = printed.lines().filter(|line| line.starts_with("btpu_"));
    assert_eq!(functions.count(), 15, "a line for each function");
    let calls = printed
        .lines()
        .find_map(|line| line.strip_suffix(" calls"))
        .expect("a line for all calls");
    let calls: u64 = calls.parse().expect("a number of calls");
    assert!(calls >= 200_000, "only {calls} calls");
}
