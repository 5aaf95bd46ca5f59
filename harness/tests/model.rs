//! The model by itself: the window tables at their edges, and images there and back.

use btpu::raw::{RECEIVER_IMAGE, SENDER_IMAGE};
use harness::generate::{self, SenderEntries};
use harness::model::receiver::State;
use harness::model::{sender, Distance, Draft, Settings, Window};
use harness::random::Random;

#[test]
fn window_tables() {
    // The last new difference, and the last outside.
    let tables = [
        (Window::Four, 2_147_483_649, 4_294_967_292),
        (Window::Eight, 2_147_483_651, 4_294_967_288),
        (Window::Sixteen, 2_147_483_655, 4_294_967_280),
    ];
    for (window, new, outside) in tables {
        let table = [
            (0, 0, Distance::Same),
            (1, new, Distance::New),
            (new + 1, outside, Distance::Outside),
            (outside + 1, 4_294_967_295, Distance::Behind),
        ];
        for (low, high, case) in table {
            assert_eq!(window.distance(low), case, "{window}: {low}");
            assert_eq!(window.distance(high), case, "{window}: {high}");
        }
    }
}

/// The greatest number is 3; 4,294,967,290 is 9 behind, which only window 16 has inside.
#[test]
fn m13() {
    let difference = 4_294_967_290u32.wrapping_sub(3);
    assert_eq!(difference, 4_294_967_287);
    assert_eq!(Window::Sixteen.distance(difference), Distance::Behind);
    assert_eq!(Window::Eight.distance(difference), Distance::Outside);
    assert_eq!(Window::Four.distance(difference), Distance::Outside);
}

#[test]
fn windows_by_number() {
    let windows = (0..100_000).filter_map(Window::of_number);
    assert_eq!(windows.collect::<Vec<_>>(), Window::ALL);
    assert_eq!(Window::ALL.map(Window::number), [4, 8, 16]);
    assert_eq!(Window::ALL.map(Window::pool), [16_384, 32_768, 65_536]);
    assert_eq!(
        Window::ALL.map(|window| window.row_of(u32::MAX)),
        [3, 7, 15]
    );
    assert_eq!(
        Window::ALL.map(|window| window.row_of(1_000_004)),
        [0, 4, 4]
    );
}

#[test]
fn receiver_images() {
    let mut fresh = [1; RECEIVER_IMAGE];
    for (settings, head) in [
        (Settings::new(Draft::D02, Window::Eight), [0, 8, 0, 0]),
        (Settings::new(Draft::D00, Window::Four), [0, 4, 1, 0]),
        (Settings::new(Draft::D00, Window::Sixteen), [0, 16, 1, 0]),
    ] {
        State::start(settings).encode(&mut fresh);
        assert_eq!(fresh[..4], head, "{settings}");
        assert_eq!(fresh[4..], [0; RECEIVER_IMAGE - 4], "{settings}");
    }
    let mut random = Random::new(3);
    for settings in Settings::all().cycle().take(6_000) {
        let image = generate::sound_receiver(&mut random, settings);
        let state = State::decode(&image).expect("an image of a state");
        assert!(state.is_sound());
        assert_eq!(state.settings, settings);
        let mut again = [0xff; RECEIVER_IMAGE];
        state.encode(&mut again);
        assert!(again == image);
    }
}

#[test]
fn sender_images() {
    let mut random = Random::new(4);
    for round in 0..4_000 {
        let draft = Draft::BOTH[round / 2 % 2];
        let entries = if round % 2 == 0 {
            SenderEntries::idle(&mut random, draft)
        } else {
            SenderEntries::begun(&mut random, draft)
        };
        let state = sender::State::decode(&entries.image()).expect("an image of a state");
        assert!(state.is_sound());
        assert_eq!(state.draft, draft);
        assert_eq!(state.begun.is_some(), round % 2 == 1);
        let mut again = [0xff; SENDER_IMAGE];
        state.encode(&mut again);
        assert_eq!(again, entries.image());
    }
}
