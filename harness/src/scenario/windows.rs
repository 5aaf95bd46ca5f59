//! Scenarios of the windows: the edges of their tables, their images, their starts, and boards of all three
//! side by side.

use std::collections::BTreeSet;

use super::some_receiver;
use crate::compare::{Burst, Lending, Received, ReceiverPair, Trial};
use crate::coverage::{self, NO_WINDOWS, STARTED};
use crate::generate::{self, Beyond, Piece, RECEIVER_WINDOW};
use crate::model::{Window, MAX_ROWS};
use btpu::raw::RECEIVER_IMAGE;

/// Every edge of the window's table, and at times one of another window's, on a board whose rows are all in
/// use. What becomes of its rows is reckoned here by their numbers.
pub fn edges(trial: &mut Trial) {
    let settings = trial.settings();
    let image = generate::busy_receiver(&mut trial.random, settings);
    let board = ReceiverPair::new(trial, &image);
    let other = trial.random.pick(&Window::ALL);
    let other = trial.random.pick(&coverage::edges(other));
    for ahead in coverage::edges(trial.window).into_iter().chain([other]) {
        let mut board = board.clone();
        for _ in 0..2 {
            jump(trial, &mut board, ahead);
        }
    }
}

/// One transfer message so far ahead of the board's greatest number.
fn jump(trial: &mut Trial, board: &mut ReceiverPair, ahead: u32) {
    let before = *board.image();
    let greatest = board.greatest().expect("a busy board");
    let number = greatest.wrapping_add(ahead);
    let frame = match trial.random.below(3) {
        0 => generate::cancel(number, &[]),
        kind => {
            let piece = Piece {
                number,
                index: trial.random.below(64) as u32,
                end: kind == 1,
            };
            piece.message(trial.draft, &[], b"octets")
        }
    };
    let received = board.receive(trial, &frame, 0, Lending::default());
    trial.check(!matches!(received, Received::Refused(_)), "refused");
    let size = trial.window.number();
    let is_new = (1..=0x7fff_ffff + size / 2).contains(&ahead);
    let is_inside = greatest.wrapping_sub(number) < size;
    let after = if is_new { number } else { greatest };
    trial.check(board.greatest() == Some(after), "the greatest number");
    for place in 0..MAX_ROWS as u32 {
        let own = (is_new || is_inside) && number % size == place;
        if own {
            continue;
        }
        // How far behind the greatest number the one lies that has this row.
        let back = after.wrapping_sub(place) % size;
        let freed = is_new && place < size && back < ahead;
        let [was, is] = [&before, board.image()].map(|image| generate::row(image, place as usize));
        let stays = if freed {
            is.iter().all(|&octet| octet == 0)
        } else {
            was == is
        };
        trial.check(stays, "a row of another number");
    }
}

/// Octets that are no window, rows beyond the window, and states of one window said to be of another.
pub fn images(trial: &mut Trial) {
    for octet in NO_WINDOWS {
        let mut board = some_receiver(trial);
        let mut image = *board.image();
        image[RECEIVER_WINDOW] = octet;
        board.set_image(trial, &image);
        refused(trial, &mut board);
        trial.coverage.of_mut(trial.draft).no_window(octet);
    }
    for window in Window::ALL {
        let mut board = some_receiver(trial);
        let mut image = *board.image();
        image[RECEIVER_WINDOW] = window.octet();
        let beyond = &image[8 + generate::ROW_IMAGE * window.rows()..];
        let sound = beyond.iter().all(|&octet| octet == 0);
        board.set_image(trial, &image);
        trial.check(board.is_sound() == sound, "a state of another window");
    }
    for window in [Window::Four, Window::Eight] {
        trial.window = window;
        for way in Beyond::ALL {
            let settings = trial.settings();
            let image = generate::with_beyond(&mut trial.random, settings, way);
            let mut board = ReceiverPair::new(trial, &image);
            refused(trial, &mut board);
            let cases = trial.coverage.of_mut(trial.draft);
            cases.of_mut(window).beyond[way as usize] += 1;
        }
    }
}

/// Every window with the pools of the others, and with such as are an octet too short or too long.
pub fn pools(trial: &mut Trial) {
    let frame = generate::cancel(7, &[]);
    for window in Window::ALL {
        trial.window = window;
        let mut board = some_receiver(trial);
        let lengths = Window::ALL.map(Window::pool).into_iter();
        for length in lengths.flat_map(|pool| [pool - 1, pool, pool + 1]) {
            let expected = if length == window.pool() { 0 } else { 2 };
            let lending = Lending {
                other_pool: Some(length),
                ..Lending::default()
            };
            let received = board.receive(trial, &frame, 0, lending);
            let refused = received == Received::Refused(2);
            trial.check(refused == (expected == 2), "another pool");
            let burst = Burst {
                sizes: &[frame.len() as u16],
                octets: &frame,
                from: (0, 0),
                other_pool: Some(length),
                output: 4096,
            };
            let taken = board.receive_burst(trial, burst);
            trial.check(taken.err().unwrap_or(0) == expected, "another pool");
        }
    }
}

/// Neither a single call nor a burst takes the image.
fn refused(trial: &mut Trial, board: &mut ReceiverPair) {
    let frame = generate::random_frame(&mut trial.random);
    let mut lending = Lending::default();
    if trial.random.once_in(4) {
        lending.output = trial.random.below(4096);
        lending.other_pool = Some(trial.random.pick(&Window::ALL.map(Window::pool)));
    }
    let received = board.receive(trial, &frame, 0, lending);
    trial.check(received == Received::Refused(1), "an unsound state");
    let burst = Burst {
        sizes: &[frame.len() as u16],
        octets: &frame,
        from: (0, 0),
        other_pool: lending.other_pool,
        output: lending.output,
    };
    let taken = board.receive_burst(trial, burst);
    trial.check(taken == Err(1), "an unsound state in a burst");
}

/// The starts that name a window, with numbers that are none, on images of any content.
pub fn starts(trial: &mut Trial) {
    let any = trial.random.word();
    for number in STARTED.into_iter().chain([any]) {
        let image: [u8; RECEIVER_IMAGE] = match trial.random.once_in(2) {
            true => trial.random.array(),
            false => *some_receiver(trial).image(),
        };
        let mut board = ReceiverPair::new(trial, &image);
        let returned = board.try_start(trial, number);
        let expected = match number {
            4 | 8 | 16 => 0,
            _ => 21,
        };
        trial.check(returned == expected, "a start with a window");
        if returned == 0 {
            let octet = board.image()[RECEIVER_WINDOW];
            trial.check(u32::from(octet) == number, "the window of a fresh board");
        }
    }
    ReceiverPair::start(trial);
}

/// The same frames of an honest record to boards of all windows. After each frame a greater window has handed
/// out every transfer that a smaller one has, and each board none twice.
pub fn three_windows(trial: &mut Trial) {
    let boards = Window::ALL.map(|window| {
        trial.window = window;
        ReceiverPair::start(trial)
    });
    let mut boards = boards.map(|board| (board, BTreeSet::new()));
    let transfers = trial.random.within(4, 40);
    let messages = generate::honest_messages(&mut trial.random, trial.draft, transfers);
    let size = trial.random.pick(&[100, 400, 2048]);
    for frame in generate::pack(&mut trial.random, &messages, size) {
        let plain = boards.each_mut().map(|(board, handed_out)| {
            trial.window = board.settings().expect("a fresh board").window;
            take_numbers(trial, board, &frame, handed_out)
        });
        trial.check(plain[0] == plain[1] && plain[1] == plain[2], "bundles");
        let [four, eight, sixteen] = boards.each_ref().map(|(_, handed_out)| handed_out);
        let nested = four.is_subset(eight) && eight.is_subset(sixteen);
        trial.check(nested, "a smaller window hands out more");
    }
    let [four, eight, sixteen] = boards.map(|(_, handed_out)| handed_out.len() as u64);
    let cases = trial.coverage.of_mut(trial.draft);
    cases.by_greater[0] += eight - four;
    cases.by_greater[1] += sixteen - eight;
}

/// Takes a frame to its end; the numbers of its transfers are added, and the answer is its other bundles.
fn take_numbers(
    trial: &mut Trial,
    board: &mut ReceiverPair,
    frame: &[u8],
    handed_out: &mut BTreeSet<u32>,
) -> Vec<Vec<u8>> {
    let mut plain = Vec::new();
    let mut place = 0;
    loop {
        match board.receive(trial, frame, place, Lending::default()) {
            Received::Refused(_) => trial.fail("a good frame is refused"),
            Received::Finished => return plain,
            Received::Bundle {
                length,
                next,
                number,
            } => {
                match number {
                    Some(number) => trial.check(handed_out.insert(number), "a transfer twice"),
                    None => plain.push(board.bundle(length).to_vec()),
                }
                place = next;
            }
        }
    }
}
