//! `btpu`: bundle transfer over frames, from the shell.

#![forbid(unsafe_code)]

mod arguments;
mod bundle_files;
mod checksum;
mod drive;
mod help;
mod hex;
mod input;
mod inspect;
mod lines;
mod messages;
mod outcome;
mod output;
mod pace;
mod play;
mod progress;
mod receive;
mod record;
mod replace;
mod send;
mod settings;
mod state;
mod window_view;
mod words;

use arguments::{Arguments, Asked};
use outcome::{Ended, Failure, Verdict};
use output::Output;
use std::ffi::OsString;
use std::io::Write;
use std::process::ExitCode;

struct Command {
    name: &'static str,
    help: (&'static str, &'static str),
    options: &'static [&'static str],
    run: fn(&Arguments) -> Ended,
}

const COMMANDS: [Command; 5] = [
    Command {
        name: "send",
        help: help::SEND,
        options: &["--frame-size", "--first", "--draft", "--state"],
        run: send::run,
    },
    Command {
        name: "receive",
        help: help::RECEIVE,
        options: &["--draft", "--window", "--state", "--out"],
        run: |arguments| {
            arguments.operands(0..=0, "nothing")?;
            receive::run(arguments)
        },
    },
    Command {
        name: "record",
        help: help::RECORD,
        options: &[],
        run: record::run,
    },
    Command {
        name: "play",
        help: help::PLAY,
        options: &["--messages"],
        run: play::run,
    },
    Command {
        name: "inspect",
        help: help::INSPECT,
        options: &["--draft", "--window"],
        run: inspect::run,
    },
];

fn main() -> ExitCode {
    let words: Vec<OsString> = std::env::args_os().skip(1).collect();
    let command = words.first().and_then(|name| {
        let mut commands = COMMANDS.iter();
        commands.find(|command| name == command.name)
    });
    match command {
        Some(command) => {
            let ended = run(command, &words[1..]);
            exit(&format!("btpu {}", command.name), command.help.0, ended)
        }
        None => exit("btpu", help::USAGE, without_command(&words)),
    }
}

fn run(command: &Command, words: &[OsString]) -> Ended {
    match arguments::read(command.options, words)? {
        Asked::Help => print(&format!("{}{}", command.help.0, command.help.1)),
        Asked::Version => print_version(),
        Asked::Run(arguments) => (command.run)(&arguments),
    }
}

fn without_command(words: &[OsString]) -> Ended {
    let words = match words.first().map(|word| word.as_encoded_bytes()) {
        Some(b"--help" | b"-h") => return print(&format!("{}{}", help::USAGE, help::ALL)),
        Some(b"--version" | b"-V") => return print_version(),
        Some(_) => format!("there is no command {}", words[0].display()),
        None => "a command is missing".to_string(),
    };
    Err(Failure::Usage(words))
}

fn print_version() -> Ended {
    print(concat!("btpu ", env!("CARGO_PKG_VERSION"), "\n"))
}

fn print(text: &str) -> Ended {
    let mut output = Output::standard()?;
    output.text().extend_from_slice(text.as_bytes());
    output.flush()?;
    Ok(Verdict::Clean)
}

/// The exit code, with words for a failure.
fn exit(name: &str, usage: &str, ended: Ended) -> ExitCode {
    let mut errors = std::io::stderr();
    match ended {
        Ok(Verdict::Clean) | Err(Failure::ClosedPipe) => ExitCode::SUCCESS,
        Ok(Verdict::Faults) => ExitCode::from(1),
        Err(Failure::Error(words)) => {
            let _ = writeln!(errors, "{name}: {words}");
            ExitCode::from(1)
        }
        Err(Failure::Usage(words)) => {
            let _ = write!(errors, "{name}: {words}\n{usage}{name} --help says more\n");
            ExitCode::from(2)
        }
    }
}
