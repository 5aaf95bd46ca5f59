//! The command line of a subcommand: options with values, and operands.

use crate::outcome::Failure;
use crate::words::either;
use btpu::{Draft, WindowSize};
use std::ffi::{OsStr, OsString};
use std::fmt::Display;
use std::ops::RangeInclusive;
use std::path::Path;

#[derive(Debug, Default)]
pub struct Arguments {
    options: Vec<(&'static str, OsString)>,
    operands: Vec<OsString>,
}

/// What a command line asks for.
#[derive(Debug)]
pub enum Asked {
    Help,
    Version,
    Run(Arguments),
}

/// Reads a command line by the options that there are; each takes a value.
pub fn read(known: &[&'static str], words: &[OsString]) -> Result<Asked, Failure> {
    let mut found = Arguments::default();
    let mut words = words.iter();
    while let Some(word) = words.next() {
        match word.as_encoded_bytes() {
            b"--help" | b"-h" => return Ok(Asked::Help),
            b"--version" | b"-V" => return Ok(Asked::Version),
            b"--" => {
                found.operands.extend(words.cloned());
                break;
            }
            b"-" => found.operands.push(word.clone()),
            [b'-', ..] => found.option(known, word, &mut words)?,
            _ => found.operands.push(word.clone()),
        }
    }
    Ok(Asked::Run(found))
}

fn usage<T>(words: String) -> Result<T, Failure> {
    Err(Failure::Usage(words))
}

impl Arguments {
    /// `--name value` or `--name=value`.
    fn option<'a>(
        &mut self,
        known: &[&'static str],
        word: &OsStr,
        behind: &mut impl Iterator<Item = &'a OsString>,
    ) -> Result<(), Failure> {
        let named = |name: &&&str| {
            let rest = word.as_encoded_bytes().strip_prefix(name.as_bytes());
            rest.is_some_and(|rest| matches!(rest, [] | [b'=', ..]))
        };
        let Some(&name) = known.iter().find(named) else {
            return usage(format!("there is no option {}", word.display()));
        };
        if self.value(name).is_some() {
            return usage(format!("{name} is given twice"));
        }
        let value = match value_within(word, name) {
            Some(value) => value,
            None => match behind.next() {
                Some(value) if !value.as_encoded_bytes().starts_with(b"--") => value.clone(),
                _ => return usage(format!("{name} needs a value")),
            },
        };
        if value.is_empty() {
            return usage(format!("{name} needs a value"));
        }
        self.options.push((name, value));
        Ok(())
    }

    fn value(&self, name: &str) -> Option<&OsStr> {
        let mut options = self.options.iter();
        let found = options.find(|(option, _)| *option == name);
        found.map(|(_, value)| value.as_os_str())
    }

    pub fn path(&self, name: &str) -> Option<&Path> {
        self.value(name).map(Path::new)
    }

    /// A decimal number in a range.
    pub fn number(&self, name: &str, range: RangeInclusive<u64>) -> Result<Option<u64>, Failure> {
        let Some(value) = self.value(name) else {
            return Ok(None);
        };
        let digits = value
            .to_str()
            .filter(|text| text.bytes().all(|c| c.is_ascii_digit()));
        match digits.and_then(|digits| digits.parse().ok()) {
            Some(number) if range.contains(&number) => Ok(Some(number)),
            _ => usage(format!(
                "{name} takes a number from {} to {}, not {}",
                range.start(),
                range.end(),
                value.display()
            )),
        }
    }

    pub fn draft(&self) -> Result<Option<Draft>, Failure> {
        self.one_of("--draft", Draft::ALL)
    }

    pub fn window(&self) -> Result<Option<WindowSize>, Failure> {
        self.one_of("--window", WindowSize::ALL)
    }

    /// A value that is one of these, as it is shown.
    fn one_of<T: Copy + Display, const N: usize>(
        &self,
        name: &str,
        all: [T; N],
    ) -> Result<Option<T>, Failure> {
        let Some(value) = self.value(name) else {
            return Ok(None);
        };
        let shown = all.map(|one| one.to_string());
        match shown.iter().position(|one| value == &**one) {
            Some(place) => Ok(Some(all[place])),
            None => usage(format!(
                "{name} takes {}, not {}",
                either(&shown),
                value.display()
            )),
        }
    }

    /// The operands, of which there must be so many.
    pub fn operands(
        &self,
        count: RangeInclusive<usize>,
        name: &str,
    ) -> Result<&[OsString], Failure> {
        if self.operands.len() < *count.start() {
            return usage(format!("{name} is missing"));
        }
        if let Some(beyond) = self.operands.get(*count.end()) {
            return usage(format!("{} is one too many", beyond.display()));
        }
        if self.operands.iter().any(|operand| operand.is_empty()) {
            return usage(format!("an empty name is no {name}"));
        }
        Ok(&self.operands)
    }
}

/// The value in `--name=value`.
fn value_within(word: &OsStr, name: &str) -> Option<OsString> {
    use std::os::unix::ffi::OsStrExt;
    let rest = word.as_bytes().strip_prefix(name.as_bytes())?;
    let value = rest.strip_prefix(b"=")?;
    Some(OsStr::from_bytes(value).to_os_string())
}
