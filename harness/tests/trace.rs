//! docs/TRACE.md names definitions and must-fail edits that are there.

use std::fs;
use std::path::{Path, PathBuf};

fn root() -> PathBuf {
    Path::new(env!("CARGO_MANIFEST_DIR")).join("..")
}

fn read(path: &Path) -> String {
    fs::read_to_string(path).unwrap_or_else(|fault| panic!("{}: {fault}", path.display()))
}

/// The cells of all tables under a header of this name.
fn column(name: &str) -> Vec<String> {
    let cells = |line: &str| -> Vec<String> {
        let inner = line.trim_start_matches('|').trim_end_matches('|');
        inner
            .split('|')
            .map(|cell| cell.trim().to_string())
            .collect()
    };
    let mut header = Vec::new();
    let mut found = Vec::new();
    for line in read(&root().join("docs/TRACE.md")).lines() {
        if !line.starts_with('|') {
            header.clear();
        } else if header.is_empty() {
            header = cells(line);
        } else if !line.starts_with("|---") {
            let row = header.iter().zip(cells(line));
            let under = row.filter(|(above, cell)| *above == name && !cell.is_empty());
            found.extend(under.map(|(_, cell)| cell));
        }
    }
    found
}

/// The text in which a place of the table stands: a crate's types, laws or definitions; of `claims`
/// where no crate is named.
fn text_of(place: &str) -> String {
    let (name, file) = place.split_once('/').unwrap_or(("claims", place));
    let folder = root().join("crates").join(name);
    if file == "src" {
        return read(&folder.join("src/lib.rt"));
    }
    let file = match file.strip_prefix("proofs/") {
        Some(law) => format!("proofs/{law}.antt"),
        None => format!("specs/{file}.antt"),
    };
    read(&folder.join(file))
}

/// Whether a text declares a name: as a definition, a field, a constructor or a type.
fn declares(text: &str, name: &str) -> bool {
    text.lines().any(|line| {
        let words = line.split([' ', ':', '(']).filter(|word| !word.is_empty());
        let mut words = words.skip_while(|word| {
            [
                "unfoldable",
                "abbrev",
                "pub",
                "record",
                "data",
                "struct",
                "enum",
            ]
            .contains(word)
        });
        let declares = line.contains(" : ") || line.trim_end().ends_with('{');
        declares && words.next() == Some(name)
    })
}

#[test]
fn edits_are_there() {
    let mut count = 0;
    for cell in column("must-fail edit") {
        for edit in cell.split(", ") {
            let (name, label) = edit
                .split_once('/')
                .unwrap_or_else(|| panic!("{edit}: no crate"));
            let file = root().join(format!("crates/{name}/must-fail/{label}.edit"));
            assert!(file.exists(), "{edit}: no such edit");
            count += 1;
        }
    }
    assert!(count > 100, "{count} edits named");
}

#[test]
fn definitions_are_there() {
    let mut count = 0;
    for cell in column("definition") {
        for part in cell.split("; ") {
            let (place, names) = part
                .split_once(": `")
                .unwrap_or_else(|| panic!("{part}: no name"));
            let text = text_of(place);
            for name in names.split('`').step_by(2) {
                assert!(declares(&text, name), "{part}: {name} is not declared");
                count += 1;
            }
        }
    }
    assert!(count > 100, "{count} definitions named");
}

#[test]
fn other_names_are_not_declared() {
    let text = text_of("rows/Message");
    assert!(declares(&text, "step"));
    assert!(!declares(&text, "stepp"));
    assert!(!declares(&text, "protocol"), "a word of a comment");
    assert!(!declares(&text, "sound_row"), "what another file declares");
}
