//! `install` under a temporary prefix, and a program in C that uses what it installs.

use std::fs;
use std::path::{Path, PathBuf};
use std::process::{Command, Output};

const INSTALLED: [&str; 4] = [
    "lib/libbtpu.a",
    "include/btpu.h",
    "lib/pkgconfig/btpu.pc",
    "bin/btpu",
];

fn root() -> PathBuf {
    Path::new(env!("CARGO_MANIFEST_DIR")).join("../..")
}

/// Runs a command; the answer is what it prints.
fn run(command: &mut Command) -> String {
    let Output {
        status,
        stdout,
        stderr,
    } = command.output().expect("the command starts");
    let messages = String::from_utf8_lossy(&stderr);
    assert!(status.success(), "{command:?}: {status}\n{messages}");
    String::from_utf8(stdout).expect("text")
}

/// All files under a directory.
fn files(directory: &Path) -> Vec<PathBuf> {
    let mut found = Vec::new();
    for entry in fs::read_dir(directory).expect("a directory") {
        let path = entry.expect("an entry").path();
        match path.is_dir() {
            true => found.extend(files(&path)),
            false => found.push(path),
        }
    }
    found.sort();
    found
}

/// The compiler's flags as btpu.pc has them.
fn flags(prefix: &Path) -> Vec<String> {
    let text = fs::read_to_string(prefix.join("lib/pkgconfig/btpu.pc")).expect("btpu.pc");
    let value = |name: &str| -> &str {
        let line = text.lines().find_map(|line| line.strip_prefix(name));
        line.unwrap_or_else(|| panic!("no {name} in btpu.pc"))
    };
    assert_eq!(value("prefix="), prefix.to_str().unwrap());
    assert_eq!(value("Version: "), env!("CARGO_PKG_VERSION"));
    let flags = [value("Cflags: "), value("Libs: ")].join(" ");
    let flags = flags
        .replace("${libdir}", value("libdir="))
        .replace("${includedir}", value("includedir="))
        .replace("${prefix}", value("prefix="));
    flags.split_whitespace().map(str::to_string).collect()
}

/// The flags as pkg-config gives them, where it is there.
fn flags_by_pkg_config(prefix: &Path) -> Option<Vec<String>> {
    Command::new("pkg-config").arg("--version").output().ok()?;
    let printed = run(Command::new("pkg-config")
        .args(["--cflags", "--libs", "btpu"])
        .env("PKG_CONFIG_PATH", prefix.join("lib/pkgconfig")));
    Some(printed.split_whitespace().map(str::to_string).collect())
}

#[test]
fn installs() {
    let temporary = Path::new(env!("CARGO_TARGET_TMPDIR")).join("install");
    let prefix = temporary.join("prefix");
    let _ = fs::remove_dir_all(&temporary);
    fs::create_dir_all(&temporary).unwrap();
    // Once into nothing, once over what is there, the prefix named from another directory.
    for argument in [prefix.as_path(), Path::new("prefix")] {
        let printed = run(Command::new(root().join("install"))
            .arg(argument)
            .current_dir(&temporary));
        let expected = INSTALLED.map(|file| prefix.join(file));
        assert!(printed.lines().map(Path::new).eq(&expected), "{printed}");
        let mut expected = expected.to_vec();
        expected.sort();
        assert_eq!(files(&prefix), expected);
    }
    let same = |installed: &str, source: &str| {
        let installed = fs::read(prefix.join(installed)).unwrap();
        installed == fs::read(root().join(source)).unwrap()
    };
    assert!(same("lib/libbtpu.a", "target/staticlib/libboard.a"));
    assert!(same("include/btpu.h", "include/btpu.h"));
    assert!(same("bin/btpu", "hosts/target/release/btpu"));

    let flags = flags(&prefix);
    if let Some(given) = flags_by_pkg_config(&prefix) {
        assert_eq!(given, flags);
    }
    let program = temporary.join("send_receive");
    run(Command::new("cc")
        .args(["-std=c99", "-Wall", "-Wextra", "-Werror", "-pedantic", "-o"])
        .arg(&program)
        .arg(root().join("hosts/c/send_receive.c"))
        .args(&flags));
    let printed = run(&mut Command::new(program));
    let expected = "bundle of 3000 octets received through 6 frames of 512 octets\n";
    assert_eq!(printed, expected);
}

#[test]
fn says_how_it_is_used() {
    for arguments in [&[][..], &[""], &["a", "b"]] {
        let output = Command::new(root().join("install"))
            .args(arguments)
            .output()
            .expect("install starts");
        assert_eq!(output.status.code(), Some(2));
        assert_eq!(output.stderr, b"usage: install PREFIX\n");
    }
}
