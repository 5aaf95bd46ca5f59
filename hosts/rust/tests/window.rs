//! The window that is shown, against a known sequence of messages.

use btpu::{Draft, Phase, Piece, Receiver, Row, Window, WindowSize};

const SEGMENT: u8 = 3;
const END: u8 = 4;
const START_00: u8 = 3;
const SEGMENT_00: u8 = 4;

/// A frame with one piece.
fn piece(kind: u8, number: u32, index: u32, data: &[u8]) -> Vec<u8> {
    let length = (8 + data.len()) as u16;
    let header = [&[kind, 0][..], &length.to_be_bytes()].concat();
    let place = [number.to_be_bytes(), index.to_be_bytes()].concat();
    [&header, &place, data].concat()
}

fn cancel(number: u32) -> Vec<u8> {
    [&[5, 0, 0, 4], &number.to_be_bytes()[..]].concat()
}

fn row(number: u32, phase: Phase) -> Row {
    Row {
        number: Some(number),
        phase,
        last: None,
        pieces: Vec::new(),
    }
}

/// The row that a number has.
fn of(window: &Window, number: u32) -> &Row {
    &window.rows[number as usize % window.rows.len()]
}

#[test]
fn fresh() {
    for size in WindowSize::ALL {
        let window = Receiver::with_window(Draft::Draft02, size).window();
        assert_eq!(window.greatest, None);
        assert_eq!(window.rows.len(), size.transfers());
        for row in window.rows {
            assert_eq!((row.number, row.phase), (None, Phase::Free));
            assert_eq!((row.last, row.pieces), (None, vec![]));
        }
    }
}

#[test]
fn every_phase() {
    every_phase_of(WindowSize::Eight);
    let window = every_phase_of(WindowSize::Sixteen);
    assert_eq!(window.rows[8], row(u32::MAX - 7, Phase::Free));
}

fn every_phase_of(size: WindowSize) -> Window {
    let mut receiver = Receiver::with_window(Draft::Draft02, size);
    let frames = [
        piece(SEGMENT, 5, 1, b"abc"),
        piece(SEGMENT, 5, 0, &[7; 300]),
        piece(END, 6, 2, b""),
        piece(SEGMENT, 6, 0, b"d"),
        cancel(3),
        piece(SEGMENT, 7, 64, b"e"),
        piece(END, 4, 0, b"f"),
    ];
    let bundles: Vec<_> = frames
        .iter()
        .flat_map(|frame| receiver.receive(frame).unwrap())
        .collect();
    assert_eq!(bundles.len(), 1);
    let window = receiver.window();
    assert_eq!(window.greatest, Some(7));
    let held = |index, length| Piece { index, length };
    let mut open = row(5, Phase::Open);
    open.pieces = vec![held(1, 3), held(0, 300)];
    assert_eq!(window.rows[5], open);
    let mut open = row(6, Phase::Open);
    open.last = Some(2);
    open.pieces = vec![held(2, 0), held(0, 1)];
    assert_eq!(window.rows[6], open);
    assert_eq!(window.rows[3], row(3, Phase::Cancelled));
    assert_eq!(window.rows[7], row(7, Phase::GivenUp));
    assert_eq!(window.rows[4], row(4, Phase::Done));
    assert_eq!(window.rows[0], row(0, Phase::Free));
    assert_eq!(receiver.pool()[5 * 4096..][..4], *b"abc\x07");
    window
}

/// Indexes fall to 0, and the start has the highest.
#[test]
fn of_draft_00() {
    let mut receiver = Receiver::of_draft(Draft::Draft00);
    let frames = [
        piece(SEGMENT_00, 5, 1, b"abc"),
        piece(SEGMENT_00, 5, 0, &[7; 300]),
        piece(START_00, 6, 2, b""),
        piece(SEGMENT_00, 6, 0, b"d"),
        piece(START_00, 7, 64, b"e"),
        piece(SEGMENT_00, 8, 2, b"f"),
        piece(START_00, 8, 1, b"a segment has a higher index"),
        piece(SEGMENT_00, 9, 0, b"ends"),
        piece(START_00, 9, 1, b"starts and "),
    ];
    let bundles: Vec<_> = frames
        .iter()
        .flat_map(|frame| receiver.receive(frame).unwrap())
        .collect();
    assert_eq!(bundles.len(), 1);
    assert_eq!(bundles[0].octets, b"starts and ends");
    let window = receiver.window();
    assert_eq!(window.greatest, Some(9));
    let held = |index, length| Piece { index, length };
    let mut open = row(5, Phase::Open);
    open.pieces = vec![held(1, 3), held(0, 300)];
    assert_eq!(*of(&window, 5), open);
    let mut open = row(6, Phase::Open);
    open.last = Some(2);
    open.pieces = vec![held(2, 0), held(0, 1)];
    assert_eq!(*of(&window, 6), open);
    assert_eq!(*of(&window, 7), row(7, Phase::GivenUp));
    assert_eq!(*of(&window, 8), row(8, Phase::GivenUp));
    assert_eq!(*of(&window, 9), row(9, Phase::Done));
}

/// The window moves on over the greatest number, and rows that fall out of it are free again.
#[test]
fn moves_on() {
    WindowSize::ALL.into_iter().for_each(moves_on_by);
}

fn moves_on_by(size: WindowSize) {
    let transfers = size.transfers() as u32;
    let mut receiver = Receiver::with_window(Draft::Draft02, size);
    let oldest = 3u32.wrapping_sub(transfers - 1);
    for frame in [
        piece(SEGMENT, oldest, 0, b"a"),
        piece(END, 3, 0, b"b"),
        piece(SEGMENT, 3, 0, b"passed over"),
    ] {
        receiver.receive(&frame).unwrap();
    }
    let window = receiver.window();
    assert_eq!(window.greatest, Some(3));
    assert_eq!(of(&window, oldest).number, Some(oldest));
    assert_eq!(of(&window, oldest).phase, Phase::Open);
    assert_eq!(*of(&window, 3), row(3, Phase::Done));
    for (place, row) in window.rows.iter().enumerate() {
        let number = row.number.unwrap();
        assert_eq!(number as usize % size.transfers(), place);
        assert!(3u32.wrapping_sub(number) < transfers);
    }

    receiver.receive(&piece(SEGMENT, 4, 0, b"c")).unwrap();
    let window = receiver.window();
    assert_eq!(of(&window, oldest).number, Some(4));
    assert_eq!(of(&window, 4).pieces.len(), 1);
    receiver.receive(&cancel(4 + transfers)).unwrap();
    let window = receiver.window();
    assert_eq!(*of(&window, 4), row(4 + transfers, Phase::Cancelled));
    assert_eq!(*of(&window, 3), row(3 + transfers, Phase::Free));
}
