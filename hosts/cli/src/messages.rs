//! The messages of a frame in words.

use crate::words::counted;
use btpu::Draft;
use std::fmt::Write;

/// A message: where it starts, and what it is.
#[derive(Debug, PartialEq, Eq)]
pub struct Message {
    pub at: usize,
    pub words: String,
}

/// The messages of a frame up to a place; all of them are well formed, as a receiver of the draft found.
pub fn messages(draft: Draft, frame: &[u8], end: usize) -> Vec<Message> {
    let mut list = Vec::new();
    let mut at = 0;
    while at < end.min(frame.len()) {
        let Some((words, length)) = message(draft, &frame[at..end]) else {
            break;
        };
        list.push(Message { at, words });
        at += length;
    }
    list
}

/// The first message in words, and its octets in all; None if it is not well formed.
fn message(draft: Draft, octets: &[u8]) -> Option<(String, usize)> {
    if octets.first() == Some(&0) {
        let length = octets.iter().take_while(|&&octet| octet == 0).count();
        return Some((
            format!("indefinite padding, {}", counted(length, "octet")),
            length,
        ));
    }
    let (header, behind) = octets.split_first_chunk::<4>()?;
    let (kind, rest) = (header[0], number(&header[1..])?);
    let (flags, length) = match draft {
        Draft::Draft00 => (0, rest),
        Draft::Draft02 => (rest >> 20, rest & 0xf_ffff),
    };
    let length = length as usize;
    let body = behind.get(..length)?;
    let (hints, content) = match kind {
        2..=5 if flags & 8 != 0 => hints(body)?,
        _ => (String::new(), body),
    };
    let mut words = described(draft, kind, content)?;
    let _ = write!(words, "; message length {length}{hints}");
    if flags & 7 != 0 {
        let _ = write!(words, "; reserved flag bits {:03b}, ignored", flags & 7);
    }
    Some((words, 4 + length))
}

fn described(draft: Draft, kind: u8, content: &[u8]) -> Option<String> {
    let octets = counted(content.len(), "octet");
    Some(match kind {
        1 => format!("definite padding, {octets}"),
        2 => format!("bundle, {octets}"),
        3 | 4 => {
            let name = match (draft, kind) {
                (Draft::Draft00, 3) => "transfer start",
                (Draft::Draft02, 4) => "transfer end",
                _ => "transfer segment",
            };
            let transfer = number(content.get(..4)?)?;
            let index = number(content.get(4..8)?)?;
            let data = counted(content.len() - 8, "octet");
            format!("{name}, transfer {transfer}, index {index}, {data} of data")
        }
        5 => format!("transfer cancel, transfer {}", number(content)?),
        kind => format!("type {kind}, unknown and passed over, {octets}"),
    })
}

/// A chain of hints in words, and what stands behind it.
fn hints(mut body: &[u8]) -> Option<(String, &[u8])> {
    let mut words = String::new();
    loop {
        let (&[kind, length], behind) = body.split_first_chunk()?;
        let value = behind.get(..length.into())?;
        body = &behind[value.len()..];
        let _ = write!(words, "; hint of type {}", kind >> 1);
        if !value.is_empty() {
            words.push_str(", value ");
            value
                .iter()
                .for_each(|octet| words.push_str(&format!("{octet:02x}")));
        }
        if kind & 1 == 0 {
            return Some((words, body));
        }
    }
}

/// A big-endian number of at most 32 bits.
fn number(octets: &[u8]) -> Option<u32> {
    (octets.len() <= 4).then(|| octets.iter().fold(0, |n, &octet| n << 8 | u32::from(octet)))
}

#[cfg(test)]
mod tests {
    use super::*;

    #[track_caller]
    fn one_of(draft: Draft, frame: &[u8], expected: &str) {
        let words = expected.to_string();
        let expected = [Message { at: 0, words }];
        assert_eq!(messages(draft, frame, frame.len()), expected);
    }

    #[track_caller]
    fn one(frame: &[u8], expected: &str) {
        one_of(Draft::Draft02, frame, expected);
    }

    #[test]
    fn each_type_in_words() {
        one(&[0, 0, 0], "indefinite padding, 3 octets");
        one(
            &[1, 0, 0, 1, 9],
            "definite padding, 1 octet; message length 1",
        );
        one(&[2, 0, 0, 0], "bundle, 0 octets; message length 0");
        one(
            &[3, 0, 0, 10, 0, 0, 1, 0, 0, 0, 0, 2, 7, 7],
            "transfer segment, transfer 256, index 2, 2 octets of data; message length 10",
        );
        one(
            &[4, 0, 0, 8, 255, 255, 255, 255, 0, 0, 0, 63],
            "transfer end, transfer 4294967295, index 63, 0 octets of data; message length 8",
        );
        one(
            &[5, 0, 0, 4, 0, 0, 0, 5],
            "transfer cancel, transfer 5; message length 4",
        );
        one(
            &[6, 0x80, 0, 1, 1],
            "type 6, unknown and passed over, 1 octet; message length 1",
        );
    }

    #[test]
    fn types_and_lengths_of_draft_00() {
        let one = |frame: &[u8], expected| one_of(Draft::Draft00, frame, expected);
        one(&[0], "indefinite padding, 1 octet");
        one(
            &[1, 0, 0, 1, 9],
            "definite padding, 1 octet; message length 1",
        );
        one(&[2, 0, 0, 3, 2, 0, 9], "bundle, 3 octets; message length 3");
        one(
            &[3, 0, 0, 10, 0, 0, 1, 0, 0, 0, 0, 2, 7, 7],
            "transfer start, transfer 256, index 2, 2 octets of data; message length 10",
        );
        one(
            &[4, 0, 0, 8, 255, 255, 255, 255, 0, 0, 0, 0],
            "transfer segment, transfer 4294967295, index 0, 0 octets of data; message length 8",
        );
        one(
            &[5, 0, 0, 4, 0, 0, 0, 5],
            "transfer cancel, transfer 5; message length 4",
        );
        one(
            &[6, 0, 0, 1, 1],
            "type 6, unknown and passed over, 1 octet; message length 1",
        );
        let flagged = [2, 0x10, 0, 0];
        assert_eq!(messages(Draft::Draft00, &flagged, 4), []);
        let long = [&[1, 0x10, 0, 0][..], &[0; 0x10_0000]].concat();
        one(
            &long,
            "definite padding, 1048576 octets; message length 1048576",
        );
    }

    #[test]
    fn hints_and_reserved_flag_bits() {
        one(
            &[2, 0x80, 0, 7, 3, 1, 0xff, 4, 0, 0x41, 0x42],
            "bundle, 2 octets; message length 7; hint of type 1, value ff; hint of type 2",
        );
        one(
            &[2, 0x50, 0, 0],
            "bundle, 0 octets; message length 0; reserved flag bits 101, ignored",
        );
    }

    #[test]
    fn messages_stand_one_behind_another_and_a_bad_one_ends_the_list() {
        let frame = [0, 0, 2, 0, 0, 1, 0, 0, 0, 2, 0, 0, 9];
        for draft in Draft::ALL {
            let places = |end| -> Vec<usize> {
                let list = messages(draft, &frame, end);
                list.iter().map(|message| message.at).collect()
            };
            assert_eq!(places(frame.len()), [0, 2, 7]);
            assert_eq!(places(7), [0, 2]);
        }
    }
}
