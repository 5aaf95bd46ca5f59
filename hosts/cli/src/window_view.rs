//! A receiver's window in words.

use crate::words::counted;
use btpu::{Draft, Phase, Receiver, Row, Window};

/// A line for the window, one for each open transfer, and one for the transfers of each other phase.
pub fn lines(receiver: &Receiver) -> Vec<String> {
    let window = receiver.window();
    let Some(greatest) = window.greatest else {
        return vec!["window: no transfer number has come yet".to_string()];
    };
    let oldest = oldest(&window, greatest);
    let mut rows = oldest_first(&window);
    // Numbers before the first one that is known may never have been sent.
    let known = rows.iter().position(|(_, row)| row.phase != Phase::Free);
    rows.drain(..known.unwrap_or(0));
    let mut lines = vec![format!("window: transfers {oldest} to {greatest}")];
    let open = rows.iter().filter(|(_, row)| row.phase == Phase::Open);
    let held = |row| pieces(receiver.draft(), row);
    lines.extend(open.map(|(number, row)| format!("  {number} open: {}", held(row))));
    let phases = [
        (Phase::Done, "done"),
        (Phase::Cancelled, "cancelled"),
        (Phase::GivenUp, "given up"),
        (Phase::Free, "nothing came of"),
    ];
    for (phase, name) in phases {
        lines.extend(of_phase(&rows, phase).map(|numbers| format!("  {name}: {numbers}")));
    }
    lines
}

/// The transfers of the window that are given up, if there are any, and what gives them up.
pub fn given_up(receiver: &Receiver) -> Option<String> {
    let numbers = of_phase(&oldest_first(&receiver.window()), Phase::GivenUp)?;
    let (draft, other) = match receiver.draft() {
        Draft::Draft00 => ("00", "02"),
        Draft::Draft02 => ("02", "00"),
    };
    Some(format!(
        "transfers given up in the window: {numbers}; their pieces contradict each other, as those of \
         draft {other} do for a receiver of draft {draft}, or exceed 64 pieces or 4,096 octets"
    ))
}

fn oldest(window: &Window, greatest: u32) -> u32 {
    greatest.wrapping_sub(window.rows.len() as u32 - 1)
}

fn oldest_first(window: &Window) -> Vec<(u32, &Row)> {
    let rows = window.rows.iter();
    let mut rows: Vec<(u32, &Row)> = rows.filter_map(|row| Some((row.number?, row))).collect();
    let oldest = oldest(window, window.greatest.unwrap_or(0));
    rows.sort_by_key(|(number, _)| number.wrapping_sub(oldest));
    rows
}

fn of_phase(rows: &[(u32, &Row)], phase: Phase) -> Option<String> {
    let rows = rows.iter().filter(|(_, row)| row.phase == phase);
    let numbers: Vec<u32> = rows.map(|(number, _)| *number).collect();
    (!numbers.is_empty()).then(|| ranges(&numbers))
}

fn pieces(draft: Draft, row: &Row) -> String {
    let mut held: Vec<u32> = row.pieces.iter().map(|piece| piece.index.into()).collect();
    held.sort_unstable();
    let octets: usize = row
        .pieces
        .iter()
        .map(|piece| usize::from(piece.length))
        .sum();
    let end = row
        .last
        .map_or(held.last().copied().unwrap_or(0), u32::from);
    let missing: Vec<u32> = (0..=end)
        .filter(|index| held.binary_search(index).is_err())
        .collect();
    let highest = match draft {
        Draft::Draft00 => "start index",
        Draft::Draft02 => "last index",
    };
    let missing = match (row.last, missing.is_empty()) {
        (Some(last), _) => format!("missing {}, {highest} {last}", ranges(&missing)),
        (None, true) => format!("missing from {} on, {highest} not known", end + 1),
        (None, false) => {
            let gaps = ranges(&missing);
            format!(
                "missing {gaps} and from {} on, {highest} not known",
                end + 1
            )
        }
    };
    let octets = counted(octets, "octet");
    format!("held {} ({octets}), {missing}", ranges(&held))
}

/// Rising numbers, with neighbours drawn together; 0 follows 4,294,967,295.
fn ranges(numbers: &[u32]) -> String {
    let mut parts: Vec<(u32, u32)> = Vec::new();
    for &number in numbers {
        match parts.last_mut() {
            Some((_, end)) if end.wrapping_add(1) == number => *end = number,
            _ => parts.push((number, number)),
        }
    }
    let words = parts
        .iter()
        .map(|&(start, end)| match end.wrapping_sub(start) {
            0 => format!("{start}"),
            1 => format!("{start}, {end}"),
            _ => format!("{start} to {end}"),
        });
    words.collect::<Vec<_>>().join(", ")
}

#[cfg(test)]
mod tests {
    use super::*;
    use btpu::WindowSize;

    /// A piece, with the highest index of its transfer or another.
    fn piece(draft: Draft, highest: bool, transfer: u32, index: u32) -> Vec<u8> {
        let kind = match (draft, highest) {
            (Draft::Draft02, true) | (Draft::Draft00, false) => 4,
            _ => 3,
        };
        [
            &[kind, 0, 0, 9][..],
            &transfer.to_be_bytes(),
            &index.to_be_bytes(),
            b"x",
        ]
        .concat()
    }

    #[test]
    fn neighbours_are_drawn_together() {
        assert_eq!(ranges(&[1, 2, 3, 5, 7, 8]), "1 to 3, 5, 7, 8");
        assert_eq!(
            ranges(&[4_294_967_294, 4_294_967_295, 0]),
            "4294967294 to 0"
        );
    }

    fn every_phase(draft: Draft, size: WindowSize) -> Receiver {
        let mut receiver = Receiver::with_window(draft, size);
        assert_eq!(
            lines(&receiver),
            ["window: no transfer number has come yet"]
        );
        assert_eq!(given_up(&receiver), None);
        receiver.receive(&piece(draft, true, 1, 0)).unwrap();
        receiver.receive(&[5, 0, 0, 4, 0, 0, 0, 2]).unwrap();
        receiver.receive(&piece(draft, false, 3, 64)).unwrap();
        receiver.receive(&piece(draft, false, 4, 1)).unwrap();
        receiver.receive(&piece(draft, false, 5, 0)).unwrap();
        receiver.receive(&piece(draft, true, 6, 4)).unwrap();
        receiver.receive(&piece(draft, false, 6, 2)).unwrap();
        receiver
    }

    #[test]
    fn every_phase_in_words() {
        let mut receiver = every_phase(Draft::Draft02, WindowSize::Sixteen);
        let expected = [
            "window: transfers 4294967287 to 6",
            "  4 open: held 1 (1 octet), missing 0 and from 2 on, last index not known",
            "  5 open: held 0 (1 octet), missing from 1 on, last index not known",
            "  6 open: held 2, 4 (2 octets), missing 0, 1, 3, last index 4",
            "  done: 1",
            "  cancelled: 2",
            "  given up: 3",
        ];
        assert_eq!(lines(&receiver), expected);
        let told = given_up(&receiver).unwrap();
        assert!(told.starts_with("transfers given up in the window: 3; "));
        let expected = expected.map(|line| line.replace("last index", "start index"));
        let other = every_phase(Draft::Draft00, WindowSize::Sixteen);
        assert_eq!(lines(&other), expected);
        let end = piece(Draft::Draft02, true, 9, 0);
        receiver.receive(&end).unwrap();
        let view = lines(&receiver);
        assert_eq!(view[0], "window: transfers 4294967290 to 9");
        assert_eq!(view[4], "  done: 1, 9");
        assert_eq!(view[7], "  nothing came of: 7, 8");
    }

    /// What is shown and told goes by the window, also once it has moved on.
    #[test]
    fn smaller_windows_in_words() {
        let mut eight = every_phase(Draft::Draft02, WindowSize::Eight);
        let view = lines(&eight);
        assert_eq!(view[0], "window: transfers 4294967295 to 6");
        assert_eq!(view[4..], ["  done: 1", "  cancelled: 2", "  given up: 3"]);
        let mut four = every_phase(Draft::Draft02, WindowSize::Four);
        let view = lines(&four);
        assert_eq!(view[0], "window: transfers 3 to 6");
        assert_eq!(view[4..], ["  given up: 3"]);
        assert!(given_up(&four).is_some());

        let end = piece(Draft::Draft02, true, 9, 0);
        eight.receive(&end).unwrap();
        let view = lines(&eight);
        assert_eq!(view[0], "window: transfers 2 to 9");
        assert_eq!(view[4], "  done: 9");
        assert!(given_up(&eight).is_some());
        four.receive(&end).unwrap();
        let expected = [
            "window: transfers 6 to 9",
            "  6 open: held 2, 4 (2 octets), missing 0, 1, 3, last index 4",
            "  done: 9",
            "  nothing came of: 7, 8",
        ];
        assert_eq!(lines(&four), expected);
        assert_eq!(given_up(&four), None);
    }
}
