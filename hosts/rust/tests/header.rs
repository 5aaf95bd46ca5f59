//! What include/btpu.h declares, against the crate.

use std::fs;
use std::path::Path;

use btpu::{raw, Refusal};

fn header() -> String {
    let path = Path::new(env!("CARGO_MANIFEST_DIR")).join("../../include/btpu.h");
    fs::read_to_string(path).expect("include/btpu.h can be read")
}

/// Name behind `BTPU_` and what follows it, for each number defined.
fn definitions(text: &str) -> Vec<(&str, &str)> {
    let definitions = text.lines().filter_map(|line| {
        let (name, rest) = line.strip_prefix("#define BTPU_")?.split_once(' ')?;
        (!name.contains('(')).then_some((name, rest.trim()))
    });
    definitions.collect()
}

/// FRAME_LENGTH is FrameLength.
fn camel_case(name: &str) -> String {
    let word = |word: &str| word[..1].to_string() + &word[1..].to_lowercase();
    name.split('_').map(word).collect()
}

#[test]
fn every_refusal_has_its_number() {
    let text = header();
    let mut numbers = Vec::new();
    for (name, rest) in definitions(&text) {
        let Some(name) = name.strip_prefix("REFUSED_") else {
            continue;
        };
        let number = rest.split(' ').next().unwrap().parse().unwrap();
        let refusal = Refusal::from_number(number, 300).expect(name);
        assert_eq!(refusal.number(), number, "{name}");
        let shown = format!("{refusal:?}");
        assert_eq!(shown.split(' ').next(), Some(&camel_case(name)[..]));
        numbers.push(number);
    }
    assert_eq!(numbers.len(), 21);
    for number in 0..256 {
        let known = Refusal::from_number(number, 0).is_some();
        assert_eq!(known, numbers.contains(&number), "{number}");
    }
}

/// The words of a refusal stand in the comment behind its number.
#[test]
fn every_refusal_has_the_words_of_its_comment() {
    let text = header();
    let flat = text.split_whitespace().collect::<Vec<_>>().join(" ");
    for number in 1..256 {
        let Some(refusal) = Refusal::from_number(number, 0) else {
            continue;
        };
        let behind = flat
            .split("#define BTPU_REFUSED_")
            .skip(1)
            .find(|part| part.split(' ').nth(1) == Some(&number.to_string()))
            .expect("a definition");
        let comment = behind.split("*/").next().unwrap();
        let words = refusal.words();
        assert!(!words.is_empty());
        assert!(comment.contains(words), "{number}: {words}: {comment}");
    }
}

#[test]
fn refusals_are_shown() {
    let placed = Refusal::from_returned(6 + 256 * 12).unwrap_err();
    assert_eq!(
        placed.to_string(),
        "refusal 6 at octet 12: a length runs past the frame"
    );
    let without = Refusal::from_returned(3).unwrap_err();
    assert_eq!(
        without.to_string(),
        "refusal 3: frame of 0 or more than 2,048 octets"
    );
    for number in 1..=24 {
        if let Some(refusal) = Refusal::from_number(number, 300) {
            let place = (4..=8).contains(&number).then_some(300);
            assert_eq!(refusal.place(), place, "{number}");
            let returned = number + 256 * place.unwrap_or(0);
            assert_eq!(Refusal::from_returned(returned), Err(refusal));
        }
    }
}

#[test]
#[should_panic(expected = "15 is the number of no refusal")]
fn other_numbers_are_none() {
    let _ = Refusal::from_returned(15);
}

#[test]
fn sizes_and_octets_are_those_of_the_header() {
    let text = header();
    let definitions = definitions(&text);
    let sizes = [
        ("RECEIVER_IMAGE", raw::RECEIVER_IMAGE),
        ("SENDER_IMAGE", raw::SENDER_IMAGE),
        ("MIN_OUTPUT", raw::MIN_OUTPUT),
        ("MAX_BUNDLE", raw::MAX_BUNDLE),
        ("MAX_FRAME", raw::MAX_FRAME),
        ("MIN_FRAME_SIZE", raw::MIN_FRAME_SIZE),
        ("MAX_FRAME_SIZE", raw::MAX_FRAME_SIZE),
        ("MAX_RECORDING", raw::MAX_RECORDING),
        ("PLAIN_WINDOW", raw::PLAIN_WINDOW as usize),
        ("MAX_WINDOW", raw::MAX_WINDOW as usize),
        ("PLAY_WINDOW", raw::PLAY_WINDOW as usize),
        ("BURST_FRAMES", raw::BURST_FRAMES),
        ("BURST_BUNDLES", raw::BURST_BUNDLES),
        ("BURST_RESULT", raw::BURST_RESULT),
        ("RECORDED_FRAMES", raw::RECORDED_FRAMES),
        ("RECORDED_OCTETS", raw::RECORDED_OCTETS),
        ("PLAYED_BUNDLES", raw::PLAYED_BUNDLES),
    ];
    let octets = [
        ("RECEIVER_WINDOW", raw::RECEIVER_WINDOW),
        ("RECEIVER_DRAFT", raw::RECEIVER_DRAFT),
        ("SENDER_BEGUN", raw::SENDER_BEGUN),
        ("SENDER_DRAFT", raw::SENDER_DRAFT),
    ];
    for (name, number) in sizes.into_iter().chain(octets) {
        let found = definitions.iter().find(|(defined, _)| *defined == name);
        let defined = found.expect(name).1.split(' ').next();
        assert_eq!(defined, Some(&number.to_string()[..]), "{name}");
    }
    assert!(definitions.contains(&("NO_NUMBER", &format!("UINT64_C({})", raw::NO_NUMBER))));
}

#[test]
fn a_pool_is_that_of_the_header() {
    let pool = format!(
        "#define BTPU_POOL(window) (UINT32_C({}) * (window))",
        raw::POOL_PER_ROW
    );
    assert!(header().contains(&pool));
    assert_eq!([4, 8, 16].map(raw::pool), [16_384, 32_768, 65_536]);
}

/// The types of the parameters of each function that stands behind these words, by its name.
fn parameters<'a>(
    text: &'a str,
    words: &str,
    of: fn(&str) -> String,
) -> Vec<(&'a str, Vec<String>)> {
    let functions = text.split(words).skip(1).map(|function| {
        let (name, behind) = function.split_once('(').expect("a parameter");
        let list = behind.split(')').next().expect("an end");
        let list = list.split(',').filter(|one| !one.trim().is_empty());
        (name, list.map(of).collect())
    });
    functions.collect()
}

/// The type of a parameter in C, as it is written in Rust.
fn from_c(parameter: &str) -> String {
    let words: Vec<&str> = parameter.split_whitespace().collect();
    let kind = match words[0] {
        "const" => words[1],
        kind => kind,
    };
    let kind = kind.replace("uint", "u").replace("_t", "");
    match (parameter.contains(['*', '[']), words[0]) {
        (false, _) => kind,
        (true, "const") => format!("*const {kind}"),
        (true, _) => format!("*mut {kind}"),
    }
}

fn from_rust(parameter: &str) -> String {
    let (_, kind) = parameter.split_once(':').expect("a type");
    kind.trim().to_string()
}

#[test]
fn functions_are_those_of_the_header() {
    let path = Path::new(env!("CARGO_MANIFEST_DIR")).join("src/raw.rs");
    let raw = fs::read_to_string(path).expect("src/raw.rs can be read");
    let text = header();
    let declared = parameters(&text, "\nuint32_t btpu_", from_c);
    assert_eq!(declared.len(), 15);
    assert_eq!(declared, parameters(&raw, "pub fn btpu_", from_rust));
}
