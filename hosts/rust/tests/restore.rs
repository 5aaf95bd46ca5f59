//! Receivers and senders that are saved and restored.

use btpu::raw::{RECEIVER_IMAGE, RECEIVER_WINDOW, SENDER_IMAGE};
use btpu::{Draft, Receiver, Refusal, RestoreError, Sender, Sent, WindowSize};

const UNSOUND: Option<RestoreError> = Some(RestoreError::Refused(Refusal::State));

fn octets(length: usize, salt: usize) -> Vec<u8> {
    (0..length).map(|at| (at * 31 + salt) as u8).collect()
}

/// Both sides restored after every call, over several transfers.
#[test]
fn after_every_call() {
    for size in WindowSize::ALL {
        let restored = |draft| restored_after_every_call(draft, size);
        Draft::ALL.into_iter().for_each(restored);
    }
}

fn restored_after_every_call(draft: Draft, size: WindowSize) {
    let bundles: Vec<Vec<u8>> = (0..20).map(|n| octets(1 + n * 193, n)).collect();
    let mut sender = Sender::of_draft(draft, 128, 9).unwrap();
    let mut receiver = Receiver::with_window(draft, size);
    let mut received = Vec::new();
    let mut take = |frame: &[u8]| {
        received.extend(receiver.receive(frame).unwrap());
        let saved = receiver.save();
        receiver = Receiver::restore(&saved).unwrap();
        assert_eq!((receiver.draft(), receiver.window_size()), (draft, size));
        assert!(receiver.save() == saved);
    };
    let mut begun = 0;
    for bundle in &bundles {
        loop {
            let sent = sender.place(bundle).unwrap();
            let saved = sender.save();
            sender = Sender::restore(&saved).unwrap();
            assert_eq!(sender.draft(), draft);
            assert_eq!(sender.save(), saved);
            if sent.is_ready() {
                take(sender.frame());
            }
            if sent != Sent::Ready && !sender.is_begun() {
                break;
            }
            begun += 1;
        }
    }
    sender.finish(&mut take).unwrap();
    assert!(begun > 100);
    assert!(received.iter().map(|bundle| &bundle.octets).eq(&bundles));
}

/// What a receiver took before a restart without a save is lost until it comes again.
#[test]
fn without_a_save() {
    let bundle = octets(300, 1);
    let mut frames = Vec::new();
    let mut sender = Sender::new(128, 9).unwrap();
    let link = |frame: &[u8]| frames.push(frame.to_vec());
    sender.send(&bundle, link).unwrap();
    sender.finish(|frame| frames.push(frame.to_vec())).unwrap();
    let mut receiver = Receiver::new();
    assert_eq!(receiver.receive(&frames[0]), Ok(vec![]));
    let mut receiver = Receiver::new();
    assert_eq!(receiver.receive(&frames[1]), Ok(vec![]));
    assert_eq!(receiver.receive(&frames[2]), Ok(vec![]));
    assert_eq!(receiver.receive(&frames[0]).unwrap()[0].octets, bundle);
}

#[test]
fn damaged_receivers() {
    let saved = Receiver::new().save();
    let octets = [(0, 2), (2, 2), (2, 255), (3, 1), (7, 1), (8, 1)];
    for (at, octet) in octets.into_iter().chain([(RECEIVER_IMAGE - 1, 1)]) {
        let mut damaged = saved.clone();
        damaged[at] = octet;
        assert_eq!(Receiver::restore(&damaged).err(), UNSOUND, "octet {at}");
    }
}

#[test]
fn receivers_with_another_window_in_their_image() {
    let saved = Receiver::new().save();
    for octet in 0..=255 {
        let mut damaged = saved.clone();
        damaged[RECEIVER_WINDOW] = octet;
        let expected = match WindowSize::try_from(u32::from(octet)) {
            Ok(WindowSize::Eight) => None,
            Ok(size) => Some(RestoreError::Length {
                found: saved.len(),
                expected: RECEIVER_IMAGE + size.pool(),
            }),
            Err(_) => UNSOUND,
        };
        assert_eq!(Receiver::restore(&damaged).err(), expected, "{octet}");
    }
}

/// The pool has the length that the window of the image asks for.
#[test]
fn receivers_cut_short_or_with_more_behind() {
    for size in WindowSize::ALL {
        let saved = Receiver::with_window(Draft::Draft02, size).save();
        let expected = RECEIVER_IMAGE + size.pool();
        assert_eq!(saved.len(), expected);
        let longer = [&saved[..], &[0; 65_536]].concat();
        let pools = WindowSize::ALL.map(|size| RECEIVER_IMAGE + size.pool());
        let lengths = [RECEIVER_IMAGE, expected - 1, expected + 1, longer.len()];
        for found in lengths.into_iter().chain(pools) {
            let length = Some(RestoreError::Length { found, expected });
            let length = length.filter(|_| found != expected);
            assert_eq!(Receiver::restore(&longer[..found]).err(), length);
        }
        for found in [0, 1, RECEIVER_IMAGE - 1] {
            // Without its image a save could be one of the smallest window.
            let expected = RECEIVER_IMAGE + WindowSize::Four.pool();
            let length = RestoreError::Length { found, expected };
            assert_eq!(Receiver::restore(&saved[..found]).err(), Some(length));
        }
    }
    let length = RestoreError::Length {
        found: 35_913,
        expected: 35_912,
    };
    assert_eq!(length.to_string(), "35913 octets stored, not 35912");
}

/// Saves from before windows could be chosen have zero in the window's octet, and a pool of 65,536 octets.
#[test]
fn receivers_saved_before_windows_could_be_chosen() {
    let bundle = octets(300, 1);
    for draft in Draft::ALL {
        let mut frames = Vec::new();
        let mut sender = Sender::of_draft(draft, 128, 9).unwrap();
        let mut link = |frame: &[u8]| frames.push(frame.to_vec());
        sender.send(&bundle, &mut link).unwrap();
        sender.finish(link).unwrap();
        let mut receiver = Receiver::with_window(draft, WindowSize::Sixteen);
        receiver.receive(&frames[1]).unwrap();
        let mut saved = receiver.save();
        saved[RECEIVER_WINDOW] = 0;
        assert_eq!(saved.len(), 68_680);
        assert_eq!(Receiver::restore(&saved).err(), UNSOUND);

        saved[RECEIVER_WINDOW] = 16;
        let mut receiver = Receiver::restore(&saved).unwrap();
        let burst = receiver.receive_burst([&frames[0], &frames[2]]);
        assert_eq!(burst.bundles[0].octets, bundle);
    }
}

#[test]
fn damaged_senders() {
    let saved = Sender::new(300, 9).unwrap().save();
    let octets = [(0, 9), (8, 1), (9, 2), (9, 255), (10, 1), (11, 1)];
    for (at, octet) in octets.into_iter().chain([(SENDER_IMAGE - 1, 1)]) {
        let mut damaged = saved.clone();
        damaged[at] = octet;
        assert_eq!(Sender::restore(&damaged).err(), UNSOUND, "octet {at}");
    }
    let expected = SENDER_IMAGE + 300;
    assert_eq!(saved.len(), expected);
    let length = |found, expected| Some(RestoreError::Length { found, expected });
    let restored = |octets: &[u8]| Sender::restore(octets).err();
    assert_eq!(restored(&[]), length(0, SENDER_IMAGE + 128));
    let cut = SENDER_IMAGE - 1;
    assert_eq!(restored(&saved[..cut]), length(cut, SENDER_IMAGE + 128));
    for found in [SENDER_IMAGE, expected - 1] {
        assert_eq!(restored(&saved[..found]), length(found, expected));
    }
    let longer = [&saved[..], &[0]].concat();
    assert_eq!(restored(&longer), length(expected + 1, expected));
    assert_eq!(UNSOUND.unwrap().to_string(), "refusal 1: not a sound state");
}
