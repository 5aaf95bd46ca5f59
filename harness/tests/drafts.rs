//! Draft 00 by examples worked by hand from section 7 of document 000, and both drafts end to end, on both
//! sides.

use std::marker::PhantomData;

use btpu::raw::{NO_NUMBER, RECEIVER_IMAGE, SENDER_IMAGE};
use harness::board::{self, hex, Board, Told};
use harness::generate;
use harness::model::{Draft, Settings, Window};
use harness::on_both_sides;
use harness::side::{Exported, Model, Side};

use Told::{Bundle, Finished, Refused};

/// Boards of a draft, of one window where it does not matter; tests/windows.rs has the others.
fn fresh<S: Side>(draft: Draft) -> Board<S> {
    Board::start(Settings::new(draft, Window::Eight))
}

/// One frame for a fresh board of draft 00, and what the call from its front tells.
#[rustfmt::skip]
fn messages() -> Vec<(&'static str, &'static str, Told)> {
    let plain = |bundle: &[u8], next| Bundle(bundle.to_vec(), next, NO_NUMBER);
    let of_5 = |bundle: &[u8], next| Bundle(bundle.to_vec(), next, 5);
    vec![
        ("bundle", "02 00 00 03 41 42 43", plain(b"ABC", 7)),
        ("indefinite padding", "00 00 00", Finished),
        ("definite padding", "01 00 00 00", Finished),
        ("definite padding of 2", "01 00 00 02 ff 02", Finished),
        ("padding, then an empty bundle", "00 02 00 00 00", plain(b"", 5)),
        ("type 6, then a bundle", "06 00 00 01 02 02 00 00 01 41", plain(b"A", 10)),
        ("type 255", "ff 00 00 00", Finished),
        ("a start of index 0 alone", "03 00 00 09 00000005 00000000 41", of_5(b"A", 13)),
        ("an empty start of index 0", "03 00 00 08 00000005 00000000", of_5(b"", 12)),
        ("a start of index 1", "03 00 00 09 00000005 00000001 41", Finished),
        ("a segment of index 0", "04 00 00 09 00000005 00000000 41", Finished),
        ("cancel", "05 00 00 04 00000005", Finished),
        ("what draft 02 takes for a reserved bit", "02 10 00 00", Refused(6, 0)),
        ("for hints", "02 80 00 05 02 01 ff 41 42", Refused(6, 0)),
        ("for hints past the message", "02 80 00 01 02", Refused(6, 0)),
        ("for H in padding", "01 80 00 00", Refused(6, 0)),
        ("for H in a type passed over", "06 80 00 00", Refused(6, 0)),
        ("a length of 65,536", "02 01 00 00", Refused(6, 0)),
        ("a length of 16,777,215", "ff ff ff ff", Refused(6, 0)),
        ("a length of 256", "02 00 01 00 41", Refused(6, 0)),
        ("one octet missing", "02 00 00 04 41 42 43", Refused(6, 0)),
        ("a header of three octets", "03 00 00", Refused(4, 0)),
        ("of one, behind a bundle", "02 00 00 00 05", Refused(4, 4)),
        ("a short start", "03 00 00 07 00000005 000000", Refused(8, 0)),
        ("a short segment, behind padding", "00 00 04 00 00 00", Refused(8, 2)),
        ("a short cancel", "05 00 00 03 000000", Refused(8, 0)),
        ("a long cancel", "05 00 00 05 00000005 00", Refused(8, 0)),
        ("6 before 8", "03 80 00 07 00000005 000000", Refused(6, 0)),
        ("8 in the first, 6 in the second", "05 00 00 00 02 10 00 00", Refused(8, 0)),
    ]
}

fn reads_messages<S: Side>() {
    for (name, frame, told) in messages() {
        let mut board = fresh::<S>(Draft::D00);
        assert_eq!(board.receive(&hex(frame), 0), told, "{}: {name}", S::NAME);
        if let Refused(..) = told {
            let fresh = fresh::<S>(Draft::D00);
            assert!(board.image == fresh.image, "{}: {name}", S::NAME);
        }
    }
}

on_both_sides!(messages_of_section_7, reads_messages);

fn reads_places<S: Side>() {
    let frame = hex("00 00 02 00 00 01 41 03 00 00 09 00000005 00000000 42");
    let good = [0, 2, 7, 20];
    for place in 0..23 {
        let told = fresh::<S>(Draft::D00).receive(&frame, place);
        let bad = told == Refused(9, 0);
        assert_eq!(bad, !good.contains(&place), "{}: {place}", S::NAME);
    }
    let mut board = fresh::<S>(Draft::D00);
    assert_eq!(board.take(&frame), [b"A", b"B"], "{}", S::NAME);
}

on_both_sides!(good_places, reads_places);

const OPEN: u8 = 1;
const DONE: u8 = 2;
const CANCELLED: u8 = 3;
const GIVEN_UP: u8 = 4;

/// A bundle of transfer 5 in pieces, as a sender of draft 00 cuts it, and its cancel; then pieces that repeat
/// or contradict them.
const START: &str = "03 00 00 0a 00000005 00000002 4142";
const SECOND: &str = "04 00 00 0a 00000005 00000001 4344";
const LAST: &str = "04 00 00 09 00000005 00000000 45";
const CANCEL: &str = "05 00 00 04 00000005";

const OTHER_SECOND: &str = "04 00 00 09 00000005 00000001 5a";
const LOWER_START: &str = "03 00 00 0a 00000005 00000001 4344";
const HIGHER_START: &str = "03 00 00 09 00000005 00000003 41";
const SEGMENT_AT_START: &str = "04 00 00 0a 00000005 00000002 4142";
const ABOVE: &str = "04 00 00 09 00000005 00000003 41";
const EMPTY_LAST: &str = "04 00 00 08 00000005 00000000";
const START_63: &str = "03 00 00 09 00000005 0000003f 41";
const START_64: &str = "03 00 00 09 00000005 00000040 41";
const START_FAR: &str = "03 00 00 09 00000005 ffffffff 41";

/// Frames for one board of draft 00; the last call's bundle, or none; the row's phase after it.
type Transfer = (&'static str, Vec<&'static str>, Option<&'static [u8]>, u8);

#[rustfmt::skip]
fn transfers() -> Vec<Transfer> {
    let whole: Option<&[u8]> = Some(b"ABCDE");
    vec![
        ("in the order sent", vec![START, SECOND, LAST], whole, DONE),
        ("start last", vec![SECOND, LAST, START], whole, DONE),
        ("rising", vec![LAST, SECOND, START], whole, DONE),
        ("mixed", vec![LAST, START, SECOND], whole, DONE),
        ("repeated", vec![START, START, SECOND, SECOND, LAST], whole, DONE),
        ("other data where it is held", vec![START, SECOND, OTHER_SECOND, LAST], whole, DONE),
        ("again when it is Done", vec![START, SECOND, LAST, LAST], None, DONE),
        ("without the start", vec![SECOND, LAST], None, OPEN),
        ("without the last", vec![START, SECOND], None, OPEN),
        ("an empty last piece", vec![START, SECOND, EMPTY_LAST], Some(b"ABCD"), DONE),
        ("cancel first", vec![CANCEL, START, SECOND, LAST], None, CANCELLED),
        ("cancel between", vec![START, SECOND, CANCEL, LAST], None, CANCELLED),
        ("cancel when it is Done", vec![START, SECOND, LAST, CANCEL], None, DONE),
        ("a lower start", vec![START, LOWER_START], None, GIVEN_UP),
        ("a higher start", vec![START, HIGHER_START], None, GIVEN_UP),
        ("a segment at the start's index", vec![START, SEGMENT_AT_START], None, GIVEN_UP),
        ("a start where a segment is held", vec![SEGMENT_AT_START, START], None, GIVEN_UP),
        ("a segment above the start", vec![START, ABOVE], None, GIVEN_UP),
        ("a start below a held segment", vec![ABOVE, START], None, GIVEN_UP),
        ("given up, then all", vec![START, LOWER_START, START, SECOND, LAST], None, GIVEN_UP),
        ("a start of index 63", vec![START_63], None, OPEN),
        ("a start of index 64", vec![START_64], None, GIVEN_UP),
        ("a start of index 4,294,967,295", vec![START_FAR], None, GIVEN_UP),
    ]
}

fn joins_pieces<S: Side>() {
    for (name, frames, bundle, phase) in transfers() {
        let frames: Vec<Vec<u8>> = frames.into_iter().map(hex).collect();
        let mut board = fresh::<S>(Draft::D00);
        let told = frames.iter().map(|frame| board.receive(frame, 0));
        let told = told.last().expect("one frame at least");
        let length = frames.last().map_or(0, Vec::len) as u64;
        let expected = bundle.map_or(Finished, |bundle| Bundle(bundle.to_vec(), length, 5));
        assert_eq!(told, expected, "{}: {name}", S::NAME);
        assert_eq!(board.row(5)[0], phase, "{}: {name}", S::NAME);
        assert_eq!(board.image[..8], [1, 8, 1, 0, 0, 0, 0, 5], "{}", S::NAME);
    }
}

on_both_sides!(pieces_of_a_transfer, joins_pieces);

fn holds_pieces<S: Side>() {
    let mut board = fresh::<S>(Draft::D00);
    assert_eq!(board.receive(&hex(SECOND), 0), Finished);
    assert_eq!(board.row(5), [1, 0, 0, 1], "{}", S::NAME);
    assert_eq!(board.receive(&hex(START), 0), Finished);
    assert_eq!(board.row(5), [1, 1, 2, 2], "{}", S::NAME);
    let row = generate::row(&board.image, 5);
    assert_eq!(
        (&row[4..7], &row[68..73]),
        (&[1, 2, 0][..], &[0, 2, 0, 2, 0][..])
    );
    let cell = &board.pool[5 * 4096..][..5];
    assert_eq!(cell, [0x43, 0x44, 0x41, 0x42, 0xa5], "{}", S::NAME);
}

on_both_sides!(pieces_held_in_order_of_arrival, holds_pieces);

/// 64 pieces of one octet, each its index, in four orders of arrival.
fn joins_64_pieces<S: Side>() {
    let falling: Vec<u8> = (0..64).rev().collect();
    for step in [1, 5, 27, 63] {
        let mut board = fresh::<S>(Draft::D00);
        let mut bundles = Vec::new();
        for at in 0..64u32 {
            let index = at * step % 64;
            let kind = if index == 63 { 3 } else { 4 };
            let mut frame = vec![kind, 0, 0, 9, 0, 0, 0, 7];
            frame.extend(index.to_be_bytes());
            frame.push(index as u8);
            bundles.extend(board.take(&frame));
        }
        assert_eq!(bundles, [&falling[..]], "{}: step {step}", S::NAME);
    }
}

on_both_sides!(joined_from_64_pieces, joins_64_pieces);

/// A burst goes by the draft of the board: the second and the fourth frame are refused with 6, and in draft
/// 02 the second is not.
fn takes_bursts<S: Side>() {
    let frames = [SECOND, "02 10 00 00", LAST, "02 80 00 01 02", START];
    let mut board = fresh::<S>(Draft::D00);
    let taken = board.receive_burst(&frames.map(hex));
    let expected = (vec![(5, b"ABCDE".to_vec())], vec![(1, 6), (3, 6)]);
    assert_eq!(taken, Ok(expected), "{}", S::NAME);
    assert_eq!(board.row(5)[0], DONE, "{}", S::NAME);
}

on_both_sides!(a_burst, takes_bursts);

/// A frame of one draft means something else to a board of the other.
fn reads_by_its_draft<S: Side>() {
    let none = Vec::<Vec<u8>>::new();
    let start = hex("03 00 00 09 00000005 00000000 41");
    let segment = hex("04 00 00 09 00000005 00000000 41");
    for (draft, completing, other) in [
        (Draft::D00, &start, &segment),
        (Draft::D02, &segment, &start),
    ] {
        let mut board = fresh::<S>(draft);
        assert_eq!(board.take(completing), [b"A"], "{}: {draft}", S::NAME);
        let mut board = fresh::<S>(draft);
        assert_eq!(board.take(other), none, "{}: {draft}", S::NAME);
    }
    let mut board = fresh::<S>(Draft::D02);
    let told = board.receive(&hex("02 80 00 05 02 01 ff 41 42"), 0);
    assert_eq!(told, Bundle(b"AB".to_vec(), 9, NO_NUMBER), "{}", S::NAME);
    assert_eq!(board.receive(&hex("02 80 00 01 02"), 0), Refused(7, 0));
}

on_both_sides!(the_draft_of_the_board_decides, reads_by_its_draft);

fn checks_receivers<S: Side>() {
    for draft in Draft::BOTH {
        let image = fresh::<S>(draft).image;
        let mut expected = [0; RECEIVER_IMAGE];
        expected[1] = 8;
        expected[2] = if draft == Draft::D00 { 1 } else { 0 };
        assert!(image == expected, "{}: {draft}", S::NAME);
        for (at, octet, returned) in [
            (2, 0, 0),
            (2, 1, 0),
            (2, 2, 1),
            (2, 255, 1),
            (3, 1, 1),
            (0, 1, 0),
        ] {
            let mut image = image;
            image[at] = octet;
            assert_eq!(S::receiver_check(&image), returned, "{}: {at}", S::NAME);
        }
    }
}

on_both_sides!(images_of_receivers, checks_receivers);

/// A sender of frames of 128 octets, with its frame buffer.
struct Head<S> {
    image: [u8; SENDER_IMAGE],
    frame: Vec<u8>,
    side: PhantomData<S>,
}

const PLACED: u64 = 0;
const PLACED_AND_READY: u64 = 1;
const READY: u64 = 2;
const NOTHING: u64 = 3;

impl<S: Side> Head<S> {
    /// After a start of draft 00, with so many octets of the frame written already.
    fn start(fill: u8) -> Head<S> {
        let mut image = [0xa5; SENDER_IMAGE];
        assert_eq!(S::sender_start(Draft::D00, &mut image, 128, 7), 0);
        assert_eq!(image.to_vec(), hex(&idle(0, 7)), "{}", S::NAME);
        image[3] = fill;
        Head {
            image,
            frame: vec![0xee; 128],
            side: PhantomData,
        }
    }

    /// The answer, or the refusal's number.
    fn place(&mut self, bundle: &[u8]) -> Result<u64, u32> {
        let mut result = [77; 4];
        let returned = S::place(&mut self.image, bundle, &mut self.frame, &mut result);
        told(returned, result)
    }

    #[track_caller]
    fn expect_image(&self, expected: &str) {
        assert_eq!(self.image.to_vec(), hex(expected), "{}", S::NAME);
    }

    /// Checks a message in the frame buffer: its first octets, and the bundle's that follow.
    #[track_caller]
    fn expect_message(&self, at: usize, front: &str, data: &[u8]) {
        let expected = [&hex(front), data].concat();
        assert_eq!(self.frame[at..][..expected.len()], expected, "{}", S::NAME);
    }
}

fn told(returned: u32, result: [u64; 4]) -> Result<u64, u32> {
    assert_eq!(result[1..], [77; 3]);
    match returned {
        0 => Ok(result[0]),
        number => {
            assert_eq!(result[0], 77);
            Err(number)
        }
    }
}

/// The image of a sender of draft 00 with frames of 128 octets and nothing begun.
fn idle(fill: u16, next: u32) -> String {
    format!("0080 {fill:04x} {next:08x} 00010000 00000000 0000 0000 00000000")
}

/// With a transfer begun: number 7, and a length, octets placed and the next index.
fn begun(length: u16, placed: u16, index: u32) -> String {
    format!("0080 0000 00000008 01010000 00000007 {length:04x} {placed:04x} {index:08x}")
}

/// Different octets from one place to the next.
fn bundle(length: usize) -> Vec<u8> {
    (0..length).map(|at| (at % 251) as u8).collect()
}

/// 300 octets in frames of 128: pieces of 116, 116 and 68 with indexes 2, 1 and 0. Then there is room for
/// 48 octets.
fn places_pieces<S: Side>() {
    let bundle = bundle(300);
    let mut head = Head::<S>::start(0);
    assert_eq!(head.place(&bundle), Ok(PLACED_AND_READY));
    head.expect_message(0, "03 00 00 7c 00000007 00000002", &bundle[..116]);
    head.expect_image(&begun(300, 116, 1));
    assert_eq!(head.place(&bundle), Ok(PLACED_AND_READY));
    head.expect_message(0, "04 00 00 7c 00000007 00000001", &bundle[116..232]);
    head.expect_image(&begun(300, 232, 0));
    assert_eq!(head.place(&bundle[..299]), Err(12));
    assert_eq!(head.place(&bundle), Ok(PLACED));
    head.expect_message(0, "04 00 00 4c 00000007 00000000", &bundle[232..]);
    // What stands behind is of the frame before.
    head.expect_message(80, "", &bundle[116 + 68..232]);
    head.expect_image(&idle(80, 8));

    let mut other = Head::<S>::start(80);
    assert_eq!(head.place(&bundle[..44]), Ok(PLACED_AND_READY));
    head.expect_message(80, "02 00 00 2c", &bundle[..44]);
    head.expect_image(&idle(0, 8));
    assert_eq!(other.place(&bundle[..45]), Ok(READY));
    other.expect_message(80, "01 00 00 2c", &[0; 44]);
    other.expect_image(&idle(0, 7));
}

on_both_sides!(pieces_of_300_octets, places_pieces);

/// Room, length, and the lengths of the pieces, whose indexes fall to 0.
fn cuts() -> Vec<(u8, usize, Vec<usize>)> {
    let full = |count: usize| vec![116; count];
    vec![
        (128, 125, vec![116, 9]),
        (128, 232, full(2)),
        (128, 233, vec![116, 116, 1]),
        (127, 125, vec![115, 10]),
        (14, 125, vec![2, 116, 7]),
        (13, 125, vec![1, 116, 8]),
        (13, 233, vec![1, 116, 116]),
        (13, 234, vec![1, 116, 116, 1]),
        (13, 300, vec![1, 116, 116, 67]),
        (128, 4096, [full(35), vec![36]].concat()),
        (13, 4061, [vec![1], full(35)].concat()),
        (13, 4096, [vec![1], full(35), vec![35]].concat()),
    ]
}

fn places_by_room<S: Side>() {
    for (room, length, pieces) in cuts() {
        let bundle = bundle(length);
        let mut head = Head::<S>::start(128 - room);
        let mut at = 128 - usize::from(room);
        let mut kind = 3;
        let mut rest = &bundle[..];
        for (place, &octets) in pieces.iter().enumerate() {
            let index = pieces.len() - 1 - place;
            let (data, behind) = rest.split_at(octets);
            let full = at + 12 + octets == 128;
            let answer = if full { PLACED_AND_READY } else { PLACED };
            assert_eq!(head.place(&bundle), Ok(answer), "{}: {room}", S::NAME);
            let size = 8 + octets;
            let front = format!("{kind:02x} 0000 {size:02x} 00000007 {index:08x}");
            head.expect_message(at, &front, data);
            (at, kind, rest) = (0, 4, behind);
            let begun = u8::from(!rest.is_empty());
            assert_eq!(head.image[8], begun, "{}: {room}", S::NAME);
        }
    }
    let bundle = bundle(124);
    let mut head = Head::<S>::start(0);
    assert_eq!(head.place(&bundle), Ok(PLACED_AND_READY), "{}", S::NAME);
    head.expect_message(0, "02 00 00 7c", &bundle);
    head.expect_image(&idle(0, 7));
}

on_both_sides!(the_start_index_is_reckoned_from_the_room, places_by_room);

/// With room below 13 the frame is closed, and no number is taken.
fn closes_frames<S: Side>() {
    for (room, padding) in [
        (12, "01 00 00 08 00000000 00000000"),
        (5, "01 00 00 01 00"),
        (4, "01 00 00 00"),
        (3, "00 00 00"),
        (1, "00"),
    ] {
        let mut head = Head::<S>::start(128 - room);
        assert_eq!(head.place(&bundle(125)), Ok(READY), "{}: {room}", S::NAME);
        head.expect_message(128 - usize::from(room), padding, &[]);
        head.expect_image(&idle(0, 7));
        assert!(head.frame[..128 - usize::from(room)]
            .iter()
            .all(|&octet| octet == 0xee));
    }
}

on_both_sides!(a_frame_without_room_is_closed, closes_frames);

fn cancels_and_flushes<S: Side>() {
    let bundle = bundle(300);
    let mut head = Head::<S>::start(0);
    let mut result = [77; 4];
    let returned = S::cancel(&mut head.image, &mut head.frame, &mut result);
    assert_eq!(told(returned, result), Err(13), "{}", S::NAME);
    assert_eq!(head.place(&bundle), Ok(PLACED_AND_READY));
    let returned = S::flush(&mut head.image, &mut head.frame, &mut result);
    assert_eq!(told(returned, result), Ok(NOTHING), "{}", S::NAME);
    head.expect_image(&begun(300, 116, 1));
    result[0] = 77;
    let returned = S::cancel(&mut head.image, &mut head.frame, &mut result);
    assert_eq!(told(returned, result), Ok(PLACED), "{}", S::NAME);
    head.expect_message(0, "05 00 00 04 00000007", &bundle[..0]);
    head.expect_image(&idle(8, 8));
    let returned = S::flush(&mut head.image, &mut head.frame, &mut result);
    assert_eq!(told(returned, result), Ok(READY), "{}", S::NAME);
    head.expect_message(8, "01 00 00 74", &[0; 116]);
    head.expect_image(&idle(0, 8));
}

on_both_sides!(cancel_and_flush, cancels_and_flushes);

fn starts_senders<S: Side>() {
    for draft in Draft::BOTH {
        for (size, returned) in [
            (127, 14),
            (128, 0),
            (2048, 0),
            (2049, 14),
            (1 << 32 | 512, 14),
        ] {
            let mut image = [0xa5; SENDER_IMAGE];
            let found = S::sender_start(draft, &mut image, size, u32::MAX);
            assert_eq!(found, returned, "{}: {draft}, {size}", S::NAME);
            let mut expected = [0xa5; SENDER_IMAGE];
            if returned == 0 {
                expected = [0; SENDER_IMAGE];
                expected[..2].copy_from_slice(&(size as u16).to_be_bytes());
                expected[4..8].fill(0xff);
                expected[9] = if draft == Draft::D00 { 1 } else { 0 };
            }
            assert_eq!(image, expected, "{}: {draft}, {size}", S::NAME);
        }
    }
}

on_both_sides!(starts_of_senders, starts_senders);

/// Images of draft 00 with frames of 128 octets, and whether they are sound states.
#[rustfmt::skip]
fn sender_images() -> Vec<(&'static str, String, bool)> {
    vec![
        ("idle", idle(127, 9), true),
        ("fill of the frame size", idle(128, 9), false),
        ("184 remain: index 1", begun(300, 116, 1), true),
        ("not 0", begun(300, 116, 0), false),
        ("not 2", begun(300, 116, 2), false),
        ("116 remain: index 0", begun(300, 184, 0), true),
        ("not 1", begun(300, 184, 1), false),
        ("117 remain: index 1", begun(300, 183, 1), true),
        ("one remains: index 0", begun(300, 299, 0), true),
        ("4,095 remain: index 35", begun(4096, 1, 35), true),
        ("not 36", begun(4096, 1, 36), false),
        ("not 34", begun(4096, 1, 34), false),
        ("not one below 0", begun(300, 299, u32::MAX), false),
        ("none remains", begun(300, 300, 0), false),
        ("none remains, one below 0", begun(300, 300, u32::MAX), false),
        ("nothing placed", begun(300, 0, 2), false),
        ("a length that goes whole", begun(124, 8, 0), false),
        ("the least that does not", begun(125, 9, 0), true),
        ("a length above 4,096", begun(4097, 4096, 0), false),
        ("fill above 0", begun(300, 116, 1).replacen("0000", "0001", 1), false),
        ("draft 2", idle(0, 9).replacen("0001", "0002", 1), false),
        ("draft 255", idle(0, 9).replacen("0001", "00ff", 1), false),
        ("octet 10", idle(0, 9).replacen("010000", "010100", 1), false),
        ("octet 11", idle(0, 9).replacen("010000", "010001", 1), false),
    ]
}

fn checks_senders<S: Side>() {
    for (name, image, sound) in sender_images() {
        let image: [u8; SENDER_IMAGE] = hex(&image).try_into().expect("the image's length");
        let returned = S::sender_check(&image);
        assert_eq!(returned, u32::from(!sound), "{}: {name}", S::NAME);
    }
}

on_both_sides!(images_of_senders, checks_senders);

/// Frames of a sender, and the bundles that it placed.
struct Sent {
    frames: Vec<Vec<u8>>,
    bundles: Vec<Vec<u8>>,
}

fn send<S: Side>(draft: Draft, size: usize, lengths: &[usize]) -> Sent {
    let mut image = [0xa5; SENDER_IMAGE];
    let first = u32::MAX - 1;
    assert_eq!(S::sender_start(draft, &mut image, size as u64, first), 0);
    let mut frame = vec![0; size];
    let mut frames = Vec::new();
    let bundles: Vec<Vec<u8>> = lengths.iter().map(|&length| bundle(length)).collect();
    let mut result = [0; 4];
    for bundle in &bundles {
        loop {
            let returned = S::place(&mut image, bundle, &mut frame, &mut result);
            assert_eq!(returned, 0, "{}: {draft}", S::NAME);
            if result[0] != PLACED {
                frames.push(frame.clone());
            }
            if result[0] != READY && image[8] == 0 {
                break;
            }
        }
    }
    assert_eq!(S::flush(&mut image, &mut frame, &mut result), 0);
    if result[0] == READY {
        frames.push(frame);
    }
    Sent { frames, bundles }
}

/// What one side sends arrives on the other, whatever the board's window: in order, in reverse order, and
/// with every frame twice. So few of the bundles go in pieces that none is outside in reverse order either.
fn end_to_end<From: Side, To: Side>() {
    for settings in Settings::all() {
        let lengths: &[usize] = match settings.window {
            Window::Four => &[44, 1, 4096, 2050, 60, 8, 2100],
            _ => &[300, 44, 45, 1, 125, 124, 4096, 2036, 60, 8, 117, 500],
        };
        for size in [128, 129, 256, 1024, 2048] {
            let sent = send::<From>(settings.draft, size, lengths);
            let name = format!("{} to {}: {settings}, {size}", From::NAME, To::NAME);
            let mut board = Board::<To>::start(settings);
            let frames = sent.frames.iter();
            let found: Vec<_> = frames.flat_map(|frame| board.take(frame)).collect();
            assert!(found == sent.bundles, "{name}");

            let mut board = Board::<To>::start(settings);
            let frames = sent.frames.iter().rev();
            let mut found: Vec<_> = frames.flat_map(|frame| board.take(frame)).collect();
            let mut expected = sent.bundles.clone();
            found.sort();
            expected.sort();
            assert!(found == expected, "{name}, in reverse order");
            // Once more: only bundle messages are handed out again.
            let again = sent.frames.iter().flat_map(|frame| board.take(frame));
            let whole = sent
                .bundles
                .iter()
                .filter(|bundle| bundle.len() + 4 <= size);
            assert!(again.eq(whole.cloned()), "{name}, again");
        }
    }
}

#[test]
fn from_one_side_to_the_other() {
    end_to_end::<Model, Exported>();
    end_to_end::<Exported, Model>();
    end_to_end::<Exported, Exported>();
    end_to_end::<Model, Model>();
}

#[test]
fn both_sides_send_the_same() {
    for draft in Draft::BOTH {
        let lengths = [300, 4096, 125, 7, 2100];
        let model = send::<Model>(draft, 128, &lengths);
        let exported = send::<Exported>(draft, 128, &lengths);
        assert!(model.frames == exported.frames, "{draft}");
    }
    let [old, new] = Draft::BOTH.map(|draft| send::<Exported>(draft, 128, &[300]).frames);
    let kinds = |frames: &[Vec<u8>]| -> Vec<u8> { frames.iter().map(|frame| frame[0]).collect() };
    assert_eq!((kinds(&old), kinds(&new)), (vec![3, 4, 4], vec![3, 3, 4]));
}

fn play<S: Side>(frames: &[Vec<u8>]) -> board::Played {
    board::play::<S>(frames, 65_536).expect("a good recording")
}

/// A playback is one of draft 02, whatever the frames were meant for.
fn plays_draft_02<S: Side>() {
    let frames = [
        "03 00 00 09 00000005 00000000 41",
        "04 00 00 09 00000006 00000000 42",
        "02 10 00 00",
        "02 80 00 05 02 01 ff 43 44",
        "02 80 00 01 02",
        "02 01 00 00",
    ];
    let frames = frames.map(hex);
    let expected = vec![b"B".to_vec(), vec![], b"CD".to_vec()];
    let played = play::<S>(&frames);
    assert_eq!(played, (4, expected, vec![(4, 7), (5, 6)]), "{}", S::NAME);

    // A sender of draft 00: its start is a segment of index 2, its first segment then an end below it.
    let sent = send::<S>(Draft::D00, 128, &[300, 20]);
    let expected = vec![sent.bundles[1].clone()];
    let played = play::<S>(&sent.frames);
    assert_eq!((&played.1, &played.2), (&expected, &vec![]), "{}", S::NAME);
    let mut board = fresh::<S>(Draft::D02);
    let frames = sent.frames.iter();
    let singly: Vec<_> = frames.flat_map(|frame| board.take(frame)).collect();
    assert_eq!(singly, expected, "{}", S::NAME);
    let sent = send::<S>(Draft::D02, 128, &[300, 20]);
    assert_eq!(play::<S>(&sent.frames).1, sent.bundles, "{}", S::NAME);
}

on_both_sides!(a_playback_is_of_draft_02, plays_draft_02);
