//! Windows of 4, 8 and 16 transfers: what a receiver keeps, and what it passes over.

use btpu::raw::{self, RECEIVER_IMAGE};
use btpu::{Draft, Phase, Receiver, Recording, Refusal, WindowSize};

/// A frame with one piece: with the highest index of its transfer or another.
fn piece(draft: Draft, highest: bool, number: u32, index: u8, data: &[u8]) -> Vec<u8> {
    let kind = match (draft, highest) {
        (Draft::Draft02, true) | (Draft::Draft00, false) => 4,
        _ => 3,
    };
    let header = [kind, 0, 0, 8 + data.len() as u8];
    [&header, &number.to_be_bytes()[..], &[0, 0, 0, index], data].concat()
}

/// A frame that completes a transfer alone.
fn alone(draft: Draft, number: u32) -> Vec<u8> {
    piece(draft, true, number, 0, b"x")
}

/// Each draft with each window.
fn each() -> impl Iterator<Item = (Draft, WindowSize)> {
    let drafts = Draft::ALL.into_iter();
    drafts.flat_map(|draft| WindowSize::ALL.map(|size| (draft, size)))
}

#[test]
fn chosen_when_a_receiver_is_made() {
    assert_eq!(WindowSize::ALL.map(WindowSize::transfers), [4, 8, 16]);
    let shown = WindowSize::ALL.map(|size| size.to_string());
    assert_eq!(shown, ["4", "8", "16"]);
    assert_eq!(format!("{:>3}", WindowSize::Eight), "  8");
    for (draft, size) in each() {
        let receiver = Receiver::with_window(draft, size);
        assert_eq!((receiver.draft(), receiver.window_size()), (draft, size));
        assert_eq!(usize::from(receiver.image()[1]), size.transfers());
        assert_eq!(receiver.pool().len(), 4096 * size.transfers());
        assert!(format!("{receiver:?}").contains(&format!("window_size: {size:?}")));
    }
    for draft in Draft::ALL {
        assert_eq!(Receiver::of_draft(draft).window_size(), WindowSize::Eight);
    }
    let mut plain = [7; RECEIVER_IMAGE];
    assert_eq!(raw::receiver_start(&mut plain), 0);
    for receiver in [Receiver::new(), Receiver::default()] {
        assert_eq!(receiver.window_size(), WindowSize::default());
        assert!(*receiver.image() == plain);
    }
    let plain = WindowSize::try_from(raw::PLAIN_WINDOW);
    assert_eq!(plain, Ok(WindowSize::default()));
    let greatest = WindowSize::try_from(raw::MAX_WINDOW);
    assert_eq!(greatest, Ok(WindowSize::Sixteen));
}

/// Both starts that take a number refuse all but three, and write nothing then.
#[test]
fn other_windows_are_refused() {
    let starts = [raw::receiver_start_window, raw::receiver_start_00];
    let far = [255, 256, 260, 264, 272, 1 << 16, (1 << 24) + 8, u32::MAX];
    for window in (0..64).chain(far) {
        let known = [4, 8, 16].contains(&window);
        assert_eq!(WindowSize::try_from(window).is_ok(), known);
        for start in starts {
            let mut image = [7; RECEIVER_IMAGE];
            let returned = start(&mut image, window);
            if known {
                assert_eq!(returned, 0);
                assert_eq!(u32::from(image[1]), window);
            } else {
                assert_eq!(Refusal::from_returned(returned), Err(Refusal::Window));
                assert!(image == [7; RECEIVER_IMAGE], "{window}");
            }
        }
    }
    let words = Refusal::Window.to_string();
    assert_eq!(words, "refusal 21: window not 4, 8 or 16");
}

/// The pool of a receiver is not that of another window.
#[test]
fn other_pools_are_refused() {
    let (mut output, mut result) = ([0; 4096], [0; 4]);
    let frame = alone(Draft::Draft02, 1);
    for size in WindowSize::ALL {
        let receiver = Receiver::with_window(Draft::Draft02, size);
        let pools = WindowSize::ALL.map(WindowSize::pool);
        for length in pools
            .into_iter()
            .chain([0, size.pool() - 1, size.pool() + 1])
        {
            let mut image = *receiver.image();
            let mut pool = vec![0; length];
            let returned = raw::receive(&mut image, &mut pool, &frame, 0, &mut output, &mut result);
            let refused = (length != size.pool()).then_some(Refusal::Lent);
            assert_eq!(Refusal::from_returned(returned).err(), refused, "{length}");
            assert_eq!(image == *receiver.image(), refused.is_some());
        }
    }
}

/// How a receiver whose greatest number is `greatest` treats another number.
#[derive(Debug, PartialEq)]
enum Treated {
    New,
    Inside,
    Outside,
}

fn treated(draft: Draft, size: WindowSize, greatest: u32, number: u32) -> Treated {
    let mut receiver = Receiver::with_window(draft, size);
    receiver
        .receive(&piece(draft, false, greatest, 0, b"x"))
        .unwrap();
    let before = receiver.save();
    receiver.receive(&alone(draft, number)).unwrap();
    match receiver.window().greatest {
        found if found != Some(greatest) => Treated::New,
        _ if receiver.save() == before => Treated::Outside,
        _ => Treated::Inside,
    }
}

/// The four borders of each window, wherever the greatest number is.
#[test]
fn new_inside_and_outside() {
    // The last one that is new, and the first one inside.
    let borders = [
        (WindowSize::Four, 2_147_483_649, 4_294_967_293),
        (WindowSize::Eight, 2_147_483_651, 4_294_967_289),
        (WindowSize::Sixteen, 2_147_483_655, 4_294_967_281),
    ];
    for (draft, greatest) in [
        (Draft::Draft02, 0u32),
        (Draft::Draft00, 1),
        (Draft::Draft02, 3),
        (Draft::Draft00, 1 << 31),
        (Draft::Draft02, u32::MAX),
    ] {
        for (size, last_new, first_inside) in borders {
            let treated = |ahead| treated(draft, size, greatest, greatest.wrapping_add(ahead));
            assert_eq!(treated(0), Treated::Inside, "{size:?}");
            assert_eq!(treated(1), Treated::New, "{size:?}");
            assert_eq!(treated(last_new), Treated::New, "{size:?}");
            assert_eq!(treated(last_new + 1), Treated::Outside, "{size:?}");
            assert_eq!(treated(first_inside - 1), Treated::Outside, "{size:?}");
            assert_eq!(treated(first_inside), Treated::Inside, "{size:?}");
            assert_eq!(treated(u32::MAX), Treated::Inside, "{size:?}");
        }
    }
}

/// The rest of a transfer comes when later ones have come: it is handed out as long as it is at most window
/// less one behind.
#[test]
fn a_transfer_that_is_completed_late() {
    for (draft, size) in each() {
        for behind in [1, 3, 4, 7, 8, 15, 16] {
            let mut receiver = Receiver::with_window(draft, size);
            let first = u32::MAX - 2;
            let last = first.wrapping_add(behind);
            receiver
                .receive(&piece(draft, true, first, 1, b"!"))
                .unwrap();
            receiver.receive(&alone(draft, last)).unwrap();
            let kept = (behind as usize) < size.transfers();
            let window = receiver.window();
            let row = &window.rows[first as usize % size.transfers()];
            assert_eq!(row.number == Some(first) && row.phase == Phase::Open, kept);
            let bundles = receiver.receive(&piece(draft, false, first, 0, b"?"));
            assert_eq!(
                bundles.unwrap().len(),
                usize::from(kept),
                "{size:?} {behind}"
            );
        }
    }
}

/// Pieces of transfers that are as many as the window, one piece of each in turn.
#[test]
fn as_many_transfers_under_way_as_the_window_has() {
    for (draft, size) in each() {
        for more in [0, 1] {
            let numbers = 9..9 + size.transfers() as u32 + more;
            let mut receiver = Receiver::with_window(draft, size);
            for number in numbers.clone() {
                receiver
                    .receive(&piece(draft, true, number, 1, b"!"))
                    .unwrap();
            }
            let rest = numbers.map(|number| piece(draft, false, number, 0, b"?"));
            let burst = receiver.receive_burst(rest);
            assert_eq!(burst.bundles.len(), size.transfers());
            let numbers = burst.bundles.iter().map(|bundle| bundle.number.unwrap());
            let first = 9 + more;
            assert!(numbers.eq(first..first + size.transfers() as u32));
        }
    }
}

/// The rows of the numbers that enter the window become free, however far it moves.
#[test]
fn a_jump_frees_the_rows_that_enter() {
    for (draft, size) in each() {
        let transfers = size.transfers() as u32;
        for jump in [1, 3, 4, 5, 7, 8, 9, 15, 16, 17, 48, 2_000_000_000] {
            let first = 0u32.wrapping_sub(transfers / 2);
            let mut receiver = Receiver::with_window(draft, size);
            for ahead in 0..transfers {
                let begun = piece(draft, false, first.wrapping_add(ahead), 0, b"x");
                receiver.receive(&begun).unwrap();
            }
            let last = first.wrapping_add(transfers - 1 + jump);
            let cancel = [&[5, 0, 0, 4], &last.to_be_bytes()[..]].concat();
            receiver.receive(&cancel).unwrap();
            for row in receiver.window().rows {
                let number = row.number.unwrap();
                let expected = match number.wrapping_sub(first) {
                    _ if number == last => Phase::Cancelled,
                    ahead if ahead < transfers => Phase::Open,
                    _ => Phase::Free,
                };
                assert_eq!(row.phase, expected, "{size:?} {jump} {number}");
            }
        }
    }
}

/// Rows from the window on belong to no transfer.
#[test]
fn rows_beyond_the_window_are_zero() {
    for size in [WindowSize::Four, WindowSize::Eight] {
        let mut receiver = Receiver::with_window(Draft::Draft02, size);
        for number in 0..40 {
            receiver
                .receive(&piece(Draft::Draft02, true, number, 1, b"!"))
                .unwrap();
        }
        let beyond = 8 + 196 * size.transfers();
        assert!(receiver.image()[beyond..].iter().all(|&octet| octet == 0));
        for at in [beyond, beyond + 3, RECEIVER_IMAGE - 196, RECEIVER_IMAGE - 1] {
            let mut image = *receiver.image();
            image[at] = 2;
            assert_eq!(raw::receiver_check(&image), 1, "{at}");
        }
    }
}

/// A recording is played with a window of 16, whatever a plain receiver has.
#[test]
fn recordings_are_played_with_sixteen() {
    assert_eq!(Recording::WINDOW.transfers(), raw::PLAY_WINDOW as usize);
    let draft = Draft::Draft02;
    let frames = [
        piece(draft, true, 4_294_967_290, 1, b"b"),
        alone(draft, 3),
        piece(draft, false, 4_294_967_290, 0, b"a"),
    ];
    let octets = Recording::write(&frames).unwrap();
    let playback = Recording::open(&octets).unwrap().play(u64::MAX);
    assert!(playback.bundles().eq([&b"x"[..], b"ab"]));
    assert_eq!(Receiver::new().receive_burst(&frames).bundles.len(), 1);
    let mut same = Receiver::with_window(draft, Recording::WINDOW);
    let bundles = same.receive_burst(&frames).bundles;
    assert!(playback
        .bundles()
        .eq(bundles.iter().map(|bundle| &bundle.octets[..])));
}
