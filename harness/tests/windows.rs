//! Windows by examples worked by hand from request E6 of document 02, on both sides.

use btpu::raw::{NO_NUMBER, RECEIVER_IMAGE};
use harness::board::{self, hex, Board, Told};
use harness::generate::{self, Piece, RECEIVER_WINDOW, ROW_IMAGE};
use harness::model::{Draft, Settings, Window};
use harness::on_both_sides;
use harness::side::Side;

use Told::{Bundle, Finished, Refused};

const OPEN: u8 = 1;
const DONE: u8 = 2;
const CANCELLED: u8 = 3;
const GIVEN_UP: u8 = 4;

/// A piece that completes its transfer alone.
fn alone(draft: Draft, number: u32, data: &[u8]) -> Vec<u8> {
    Piece::sent(draft, number, 0, 1).message(draft, &[], data)
}

/// The first and the second piece of two, as they are sent.
fn two_pieces(draft: Draft, number: u32) -> [Vec<u8>; 2] {
    [(0, b"one,"), (1, b"two.")].map(|(place, data)| {
        let piece = Piece::sent(draft, number, place, 2);
        piece.message(draft, &[], data)
    })
}

/// The image of a fresh receiver, octet by octet.
fn fresh(window: u8, draft: u8) -> [u8; RECEIVER_IMAGE] {
    let mut image = [0; RECEIVER_IMAGE];
    image[1] = window;
    image[2] = draft;
    image
}

fn starts<S: Side>() {
    let mut image = [0xa5; RECEIVER_IMAGE];
    assert_eq!(S::receiver_plain_start(&mut image), 0, "{}", S::NAME);
    assert!(image == fresh(8, 0), "{}: a plain start", S::NAME);
    for (draft, octet) in [(Draft::D02, 0), (Draft::D00, 1)] {
        for window in [4, 8, 16] {
            let mut image = [0xa5; RECEIVER_IMAGE];
            let returned = S::receiver_start(draft, window, &mut image);
            assert_eq!(returned, 0, "{}: {draft}, {window}", S::NAME);
            assert!(image == fresh(window as u8, octet), "{}: {draft}", S::NAME);
        }
        let none = (0..300).filter(|number| ![4, 8, 16].contains(number));
        for number in none.chain([1 << 8 | 8, 1 << 16 | 8, 8 << 24, 1 << 31, u32::MAX]) {
            let mut image = [0xa5; RECEIVER_IMAGE];
            let returned = S::receiver_start(draft, number, &mut image);
            assert_eq!(returned, 21, "{}: {draft}, {number}", S::NAME);
            assert!(image == [0xa5; RECEIVER_IMAGE], "{}: written", S::NAME);
        }
    }
}

on_both_sides!(windows_at_the_start, starts);

/// What a number is by the table.
#[derive(Clone, Copy, Debug, PartialEq, Eq)]
enum Row {
    New,
    Inside,
    Outside,
}

/// Window, difference, and the row of the table.
#[rustfmt::skip]
const TABLE: [(Window, u32, Row); 30] = [
    (Window::Four, 0, Row::Inside),
    (Window::Four, 1, Row::New),
    (Window::Four, 3, Row::New),
    (Window::Four, 4, Row::New),
    (Window::Four, 2_147_483_648, Row::New),
    (Window::Four, 2_147_483_649, Row::New),
    (Window::Four, 2_147_483_650, Row::Outside),
    (Window::Four, 4_294_967_292, Row::Outside),
    (Window::Four, 4_294_967_293, Row::Inside),
    (Window::Four, 4_294_967_295, Row::Inside),
    (Window::Eight, 0, Row::Inside),
    (Window::Eight, 1, Row::New),
    (Window::Eight, 7, Row::New),
    (Window::Eight, 8, Row::New),
    (Window::Eight, 2_147_483_650, Row::New),
    (Window::Eight, 2_147_483_651, Row::New),
    (Window::Eight, 2_147_483_652, Row::Outside),
    (Window::Eight, 4_294_967_288, Row::Outside),
    (Window::Eight, 4_294_967_289, Row::Inside),
    (Window::Eight, 4_294_967_295, Row::Inside),
    (Window::Sixteen, 0, Row::Inside),
    (Window::Sixteen, 1, Row::New),
    (Window::Sixteen, 15, Row::New),
    (Window::Sixteen, 16, Row::New),
    (Window::Sixteen, 2_147_483_654, Row::New),
    (Window::Sixteen, 2_147_483_655, Row::New),
    (Window::Sixteen, 2_147_483_656, Row::Outside),
    (Window::Sixteen, 4_294_967_280, Row::Outside),
    (Window::Sixteen, 4_294_967_281, Row::Inside),
    (Window::Sixteen, 4_294_967_295, Row::Inside),
];

/// Greatest numbers, so that others lie beyond the wrap in both directions.
const GREATEST: [u32; 8] = [
    0,
    3,
    15,
    2_147_483_647,
    2_147_483_648,
    4_294_967_280,
    4_294_967_293,
    4_294_967_295,
];

fn reads_tables<S: Side>() {
    for draft in Draft::BOTH {
        for (window, difference, row) in TABLE {
            for greatest in GREATEST {
                let number = greatest.wrapping_add(difference);
                read_table::<S>(Settings { draft, window }, greatest, number, row);
            }
        }
    }
}

/// A board that knows the greatest number from a segment of index 5 gets a whole transfer in one piece. If
/// that were taken for the row of the greatest number, the row would be given up.
fn read_table<S: Side>(settings: Settings, greatest: u32, number: u32, row: Row) {
    let name = format!("{}: {settings}, {number} after {greatest}", S::NAME);
    let mut board = Board::<S>::start(settings);
    let segment = Piece {
        number: greatest,
        index: 5,
        end: false,
    };
    let segment = segment.message(settings.draft, &[], b"B");
    assert_eq!(board.receive(&segment, 0), Finished, "{name}");
    let (image, pool) = (board.image, board.pool.clone());
    let frame = alone(settings.draft, number, b"A");
    let told = board.receive(&frame, 0);
    if row == Row::Outside {
        assert_eq!(told, Finished, "{name}");
        assert!(board.image == image && board.pool == pool, "{name}");
        return;
    }
    let rows = settings.window.rows();
    let own = number as usize % rows;
    if number == greatest {
        assert_eq!(told, Finished, "{name}");
        assert_eq!(board.row(own), [GIVEN_UP, 0, 0, 0], "{name}");
        return;
    }
    let bundle = Bundle(b"A".to_vec(), frame.len() as u64, number.into());
    assert_eq!(told, bundle, "{name}");
    assert_eq!(board.row(own), [DONE, 0, 0, 0], "{name}");
    assert_eq!(board.pool[4096 * own], b'A', "{name}");
    let after = if row == Row::New { number } else { greatest };
    assert_eq!(board.greatest(), Some(after), "{name}");
    // The open transfer keeps its row while it is in the window.
    let other = greatest as usize % rows;
    if other != own {
        let kept = after.wrapping_sub(greatest) < rows as u32;
        let expected = if kept { [OPEN, 0, 0, 1] } else { [0; 4] };
        assert_eq!(board.row(other), expected, "{name}");
    }
}

on_both_sides!(edges_of_the_tables, reads_tables);

/// The greatest number is 3: 4,294,967,290 is 9 behind, inside in window 16 alone.
fn reads_m13<S: Side>() {
    for (window, row) in [
        (Window::Sixteen, Row::Inside),
        (Window::Eight, Row::Outside),
        (Window::Four, Row::Outside),
    ] {
        let settings = Settings::new(Draft::D02, window);
        read_table::<S>(settings, 3, 4_294_967_290, row);
    }
}

on_both_sides!(m13_asks_for_window_16, reads_m13);

/// A window, a new number where the greatest is the window less one and all rows are Done, and all rows after
/// its cancel: 0 Free, 2 Done, 3 Cancelled.
const FREED: [(Window, u32, &[u8]); 15] = [
    (Window::Four, 4, &[3, 2, 2, 2]),
    (Window::Four, 5, &[0, 3, 2, 2]),
    (Window::Four, 6, &[0, 0, 3, 2]),
    (Window::Four, 7, &[0, 0, 0, 3]),
    (Window::Four, 8, &[3, 0, 0, 0]),
    (Window::Eight, 8, &[3, 2, 2, 2, 2, 2, 2, 2]),
    (Window::Eight, 11, &[0, 0, 0, 3, 2, 2, 2, 2]),
    (Window::Eight, 14, &[0, 0, 0, 0, 0, 0, 3, 2]),
    (Window::Eight, 15, &[0, 0, 0, 0, 0, 0, 0, 3]),
    (Window::Eight, 16, &[3, 0, 0, 0, 0, 0, 0, 0]),
    (
        Window::Sixteen,
        16,
        &[3, 2, 2, 2, 2, 2, 2, 2, 2, 2, 2, 2, 2, 2, 2, 2],
    ),
    (
        Window::Sixteen,
        23,
        &[0, 0, 0, 0, 0, 0, 0, 3, 2, 2, 2, 2, 2, 2, 2, 2],
    ),
    (
        Window::Sixteen,
        30,
        &[0, 0, 0, 0, 0, 0, 0, 0, 0, 0, 0, 0, 0, 0, 3, 2],
    ),
    (
        Window::Sixteen,
        31,
        &[0, 0, 0, 0, 0, 0, 0, 0, 0, 0, 0, 0, 0, 0, 0, 3],
    ),
    (
        Window::Sixteen,
        32,
        &[3, 0, 0, 0, 0, 0, 0, 0, 0, 0, 0, 0, 0, 0, 0, 0],
    ),
];

fn frees_rows<S: Side>() {
    for draft in Draft::BOTH {
        for (window, number, expected) in FREED {
            let mut board = Board::<S>::start(Settings { draft, window });
            for done in 0..window.number() {
                assert_eq!(board.take(&alone(draft, done, b"A")), [b"A"]);
            }
            assert_eq!(board.receive(&generate::cancel(number, &[]), 0), Finished);
            let phases: Vec<u8> = (0..window.rows()).map(|row| board.row(row)[0]).collect();
            assert_eq!(phases, expected, "{}: {window}, {number}", S::NAME);
            let beyond = &board.image[8 + ROW_IMAGE * window.rows()..];
            assert!(beyond.iter().all(|&octet| octet == 0), "{}", S::NAME);
        }
    }
}

on_both_sides!(rows_of_numbers_that_enter, frees_rows);

/// Windows, a number, its row, and where its octets lie in the pool.
const ROWS: [(Window, u32, usize, usize); 9] = [
    (Window::Four, 6, 2, 8_192),
    (Window::Four, 23, 3, 12_288),
    (Window::Four, 4_294_967_292, 0, 0),
    (Window::Eight, 6, 6, 24_576),
    (Window::Eight, 23, 7, 28_672),
    (Window::Eight, 4_294_967_292, 4, 16_384),
    (Window::Sixteen, 6, 6, 24_576),
    (Window::Sixteen, 23, 7, 28_672),
    (Window::Sixteen, 4_294_967_292, 12, 49_152),
];

fn places_rows<S: Side>() {
    for draft in Draft::BOTH {
        for (window, number, row, at) in ROWS {
            let mut board = Board::<S>::start(Settings { draft, window });
            let [first, second] = two_pieces(draft, number);
            assert_eq!(board.receive(&second, 0), Finished);
            assert_eq!(board.row(row)[0], OPEN, "{}: {window}, {number}", S::NAME);
            let expected = [&vec![0xa5; at], &b"two."[..], &[0xa5]].concat();
            assert!(board.pool.starts_with(&expected), "{}", S::NAME);
            assert_eq!(board.take(&first), [b"one,two."], "{}", S::NAME);
            assert!(board.pool[at..].starts_with(b"two.one,\xa5"), "{}", S::NAME);
        }
    }
}

on_both_sides!(rows_modulo_the_window, places_rows);

/// The numbers of what boards of one draft hand out of frames, by single calls and in one burst.
fn handed_out<S: Side>(settings: Settings, frames: &[Vec<u8>]) -> Vec<u64> {
    let mut board = Board::<S>::start(settings);
    let bundles = frames.iter().flat_map(|frame| board.take_numbered(frame));
    let bundles: Vec<_> = bundles.collect();
    let mut other = Board::<S>::start(settings);
    let burst = other.receive_burst(frames);
    assert_eq!(burst, Ok((bundles.clone(), vec![])), "{}", S::NAME);
    assert!(board.image == other.image, "{}: {settings}", S::NAME);
    assert!(board.pool == other.pool, "{}: {settings}", S::NAME);
    bundles.into_iter().map(|(number, _)| number).collect()
}

/// The first pieces of 20 transfers, then their second pieces: a board hands out as many as its window holds.
fn hands_out_more<S: Side>() {
    for draft in Draft::BOTH {
        for first in [100, u32::MAX - 9] {
            let numbers: Vec<u32> = (0..20).map(|at| first.wrapping_add(at)).collect();
            let pieces = numbers.iter().map(|&number| two_pieces(draft, number));
            let pieces: Vec<[Vec<u8>; 2]> = pieces.collect();
            let frames = [0, 1].map(|place| pieces.iter().map(move |pair| pair[place].clone()));
            let frames: Vec<Vec<u8>> = frames.into_iter().flatten().collect();
            for (window, lost) in [
                (Window::Four, 16),
                (Window::Eight, 12),
                (Window::Sixteen, 4),
            ] {
                let found = handed_out::<S>(Settings { draft, window }, &frames);
                let kept = numbers[lost..].iter().map(|&number| u64::from(number));
                assert!(found.iter().copied().eq(kept), "{}: {found:?}", S::NAME);
            }
        }
    }
}

on_both_sides!(a_greater_window_hands_out_more, hands_out_more);

/// A transfer is open while other numbers come, the last of them so many ahead.
fn delayed(draft: Draft, number: u32, ahead: u32) -> Vec<Vec<u8>> {
    let [first, second] = two_pieces(draft, number);
    let others = (1..=ahead).map(|at| alone(draft, number.wrapping_add(at), b"B"));
    [first].into_iter().chain(others).chain([second]).collect()
}

/// What comes the window less one behind is handed out, and what comes the window behind is not.
fn hands_out_late<S: Side>() {
    for settings in Settings::all() {
        for number in [7, u32::MAX - 2] {
            let size = settings.window.number();
            for (ahead, late) in [(size - 1, true), (size, false)] {
                let frames = delayed(settings.draft, number, ahead);
                let found = handed_out::<S>(settings, &frames);
                let others = (1..=ahead).map(|at| number.wrapping_add(at));
                let expected = others.chain(late.then_some(number)).map(u64::from);
                assert!(
                    found.iter().copied().eq(expected),
                    "{}: {settings}",
                    S::NAME
                );
            }
        }
    }
}

on_both_sides!(window_less_one_behind, hands_out_late);

/// A playback is of window 16, and takes the pool of no other.
fn plays<S: Side>() {
    for (ahead, late) in [(15, true), (16, false)] {
        let frames = delayed(Draft::D02, 7, ahead);
        let mut bundles = vec![b"B".to_vec(); ahead as usize];
        bundles.extend(late.then(|| b"one,two.".to_vec()));
        let messages = frames.len() as u64;
        let played = board::play::<S>(&frames, 65_536);
        assert_eq!(played, Ok((messages, bundles, vec![])), "{}", S::NAME);
        for pool in [32_768, 16_384, 65_535, 65_537] {
            assert_eq!(board::play::<S>(&frames, pool), Err(2), "{}", S::NAME);
        }
    }
}

on_both_sides!(a_playback_is_of_window_16, plays);

fn checks_pools<S: Side>() {
    let frame = hex("02 00 00 01 41");
    for settings in Settings::all() {
        let right = settings.window.pool();
        for pool in [16_384, 32_768, 65_536]
            .into_iter()
            .flat_map(|pool| pool - 1..=pool + 1)
        {
            let image = Board::<S>::start(settings).image;
            let mut board = Board::<S>::of(image, vec![0xa5; pool]);
            let told = board.receive(&frame, 0);
            let burst = board.receive_burst(std::slice::from_ref(&frame));
            let name = format!("{}: {settings}, {pool}", S::NAME);
            if pool == right {
                let bundle = b"A".to_vec();
                assert_eq!(told, Bundle(bundle.clone(), 5, NO_NUMBER), "{name}");
                assert_eq!(burst, Ok((vec![(NO_NUMBER, bundle)], vec![])), "{name}");
            } else {
                assert_eq!((told, burst), (Refused(2, 0), Err(2)), "{name}");
            }
            assert!(board.image == image, "{name}");
            assert!(board.pool == vec![0xa5; pool], "{name}");
        }
    }
}

on_both_sides!(the_pool_of_the_window, checks_pools);

/// Every call that takes an image refuses it with 1, whatever the pool, and writes nothing.
#[track_caller]
fn refused<S: Side>(image: &[u8; RECEIVER_IMAGE], name: &str) {
    assert_eq!(S::receiver_check(image), 1, "{}: {name}", S::NAME);
    let frames = [hex("02 00 00 01 41"), generate::cancel(5, &[])];
    for pool in [16_384, 32_768, 65_536, 0] {
        let mut board = Board::<S>::of(*image, vec![0xa5; pool]);
        for frame in &frames {
            assert_eq!(
                board.receive(frame, 0),
                Refused(1, 0),
                "{}: {name}",
                S::NAME
            );
        }
        assert_eq!(board.receive_burst(&frames), Err(1), "{}: {name}", S::NAME);
        assert!(board.image == *image, "{}: {name}: image", S::NAME);
        assert!(board.pool == vec![0xa5; pool], "{}: {name}: pool", S::NAME);
    }
}

/// The image of a board as it was stored before there were windows to choose: there were 16 rows, and octet 1
/// was zero. Transfer 18 is Done, 20 Cancelled, 21 Open with two pieces of three octets, 30 Done.
fn stored_before(draft: Draft) -> [u8; RECEIVER_IMAGE] {
    let mut image = fresh(0, draft.octet());
    image[0] = 1;
    image[4..8].copy_from_slice(&[0, 0, 0, 30]);
    for (row, octets) in [
        (2, &[DONE][..]),
        (4, &[CANCELLED]),
        (5, &[OPEN, 0, 0, 2, 0, 1]),
        (14, &[DONE]),
    ] {
        image[8 + ROW_IMAGE * row..][..octets.len()].copy_from_slice(octets);
    }
    image[8 + ROW_IMAGE * 5 + 68..][..4].copy_from_slice(&[0, 3, 0, 3]);
    image
}

/// The frames that such a board got.
fn frames_before(draft: Draft) -> [Vec<u8>; 5] {
    let segment = |index, data: &[u8]| {
        let piece = Piece {
            number: 21,
            index,
            end: false,
        };
        piece.message(draft, &[], data)
    };
    [
        alone(draft, 18, b"A"),
        generate::cancel(20, &[]),
        segment(0, b"one"),
        segment(1, b"two"),
        alone(draft, 30, b"A"),
    ]
}

/// Images from before windows could be chosen are refused by every call, and so are never misread. But for
/// octet 1 they are those of window 16.
fn refuses_images_from_before<S: Side>() {
    for (draft, bundle) in [(Draft::D02, b"onetwoend"), (Draft::D00, b"endtwoone")] {
        refused::<S>(&fresh(0, draft.octet()), "fresh, from before");
        let image = stored_before(draft);
        refused::<S>(&image, "with rows in use, from before");
        let mut few = fresh(0, draft.octet());
        few[..4].copy_from_slice(&[1, 0, draft.octet(), 0]);
        few[8..13].copy_from_slice(&[OPEN, 0, 0, 1, 3]);
        refused::<S>(&few, "with row 0 Open, from before");

        let mut board = Board::<S>::start(Settings::new(draft, Window::Sixteen));
        for frame in frames_before(draft) {
            board.take(&frame);
        }
        let mut same = image;
        same[RECEIVER_WINDOW] = 16;
        assert!(board.image == same, "{}: {draft}", S::NAME);
        for smaller in [4, 8] {
            same[RECEIVER_WINDOW] = smaller;
            refused::<S>(&same, "in a smaller window");
        }
        let end = Piece {
            number: 21,
            index: 2,
            end: true,
        };
        let handed_out = board.take(&end.message(draft, &[], b"end"));
        assert_eq!(handed_out, [bundle], "{}: {draft}", S::NAME);
    }
}

on_both_sides!(images_from_before_windows, refuses_images_from_before);

/// Of all octets 4, 8 and 16 are windows.
fn reads_octets<S: Side>() {
    for draft in Draft::BOTH {
        let mut under_way = stored_before(draft);
        for octet in 0..=255 {
            let image = fresh(octet, draft.octet());
            under_way[RECEIVER_WINDOW] = octet;
            match octet {
                4 | 8 | 16 => assert_eq!(S::receiver_check(&image), 0, "{}", S::NAME),
                _ => refused::<S>(&image, &format!("fresh, {octet}")),
            }
            match octet {
                16 => assert_eq!(S::receiver_check(&under_way), 0, "{}", S::NAME),
                _ => refused::<S>(&under_way, &format!("with rows in use, {octet}")),
            }
        }
    }
}

on_both_sides!(octets_that_are_windows, reads_octets);

/// A row may be Done, Cancelled or Given up within the window, and beyond it no octet may be other than zero.
fn checks_rows_beyond<S: Side>() {
    for settings in Settings::all() {
        let rows = settings.window.rows();
        let mut known = fresh(settings.window.octet(), settings.draft.octet());
        known[0] = 1;
        assert_eq!(S::receiver_check(&known), 0, "{}: {settings}", S::NAME);
        for row in 0..16 {
            for phase in 2..=4 {
                let mut image = known;
                image[8 + ROW_IMAGE * row] = phase;
                let expected = u32::from(row >= rows);
                let returned = S::receiver_check(&image);
                assert_eq!(returned, expected, "{}: {settings}, row {row}", S::NAME);
            }
        }
        for at in 8 + ROW_IMAGE * rows..RECEIVER_IMAGE {
            for octet in [1, 2, 255] {
                let mut image = known;
                image[at] = octet;
                let returned = S::receiver_check(&image);
                assert_eq!(returned, 1, "{}: {settings}, octet {at}", S::NAME);
            }
        }
        if rows < 16 {
            let mut image = known;
            image[8 + ROW_IMAGE * rows] = DONE;
            refused::<S>(&image, "the first row beyond");
            let mut image = known;
            image[RECEIVER_IMAGE - 1] = 1;
            refused::<S>(&image, "the last octet");
        }
    }
}

on_both_sides!(rows_beyond_the_window_are_zero, checks_rows_beyond);

/// What a burst hands out goes by the board's window; its refusals come in their order.
fn bursts_by_window<S: Side>() {
    for settings in Settings::all() {
        let frames = delayed(settings.draft, 40, 9);
        let mut board = Board::<S>::start(settings);
        let (bundles, notes) = board.receive_burst(&frames).expect("not refused");
        let late = settings.window == Window::Sixteen;
        assert_eq!(
            bundles.len(),
            9 + usize::from(late),
            "{}: {settings}",
            S::NAME
        );
        assert_eq!(notes, [], "{}: {settings}", S::NAME);
        let mut wrong = Board::<S>::of(board.image, vec![0xa5; 65_536 + 16_384]);
        assert_eq!(wrong.receive_burst(&frames), Err(2), "{}", S::NAME);
        assert_eq!(
            wrong.receive_burst(&vec![vec![0]; 65]),
            Err(2),
            "{}",
            S::NAME
        );
        wrong.image[RECEIVER_WINDOW] = 12;
        assert_eq!(
            wrong.receive_burst(&vec![vec![0]; 65]),
            Err(1),
            "{}",
            S::NAME
        );
    }
}

on_both_sides!(a_burst_goes_by_the_window, bursts_by_window);
