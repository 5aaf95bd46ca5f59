//! What a receiver or sender of a draft is, and frames of the other draft.

use btpu::{Bundle, Draft, Phase, Receiver, Recording, Refusal, Sender};

fn bundle() -> Vec<u8> {
    (0..300).map(|at| at as u8).collect()
}

/// The frames of a bundle in three pieces, with transfer number 9, and of one that comes whole.
fn frames(draft: Draft) -> Vec<Vec<u8>> {
    let mut sender = Sender::of_draft(draft, 128, 9).unwrap();
    let mut frames = Vec::new();
    let mut link = |frame: &[u8]| frames.push(frame.to_vec());
    sender.send(&bundle(), &mut link).unwrap();
    sender.send(b"whole", &mut link).unwrap();
    sender.finish(link).unwrap();
    assert_eq!(frames.len(), 3);
    frames
}

fn received<'a>(
    receiver: &mut Receiver,
    frames: impl IntoIterator<Item = &'a Vec<u8>>,
) -> Vec<(Option<u32>, Vec<u8>)> {
    let frames = frames.into_iter();
    let bundles = frames.flat_map(|frame| receiver.receive(frame).unwrap());
    let taken_apart = |Bundle { number, octets }| (number, octets);
    bundles.map(taken_apart).collect()
}

#[test]
fn set_when_it_is_made() {
    assert_eq!(Draft::default(), Draft::Draft02);
    assert_eq!(Draft::ALL.map(|draft| draft.to_string()), ["00", "02"]);
    assert_eq!(Receiver::new().draft(), Draft::Draft02);
    assert_eq!(Receiver::default().draft(), Draft::Draft02);
    assert_eq!(Sender::new(128, 9).unwrap().draft(), Draft::Draft02);
    for draft in Draft::ALL {
        let receiver = Receiver::of_draft(draft);
        let sender = Sender::of_draft(draft, 128, 9).unwrap();
        assert_eq!((receiver.draft(), sender.draft()), (draft, draft));
        let octet = u8::from(draft == Draft::Draft00);
        assert_eq!((receiver.image()[2], sender.image()[9]), (octet, octet));
        let shown = format!("draft: {draft:?}");
        assert!(format!("{receiver:?}").contains(&shown));
        assert!(format!("{sender:?}").contains(&shown));
    }
    assert!(Receiver::new().save() == Receiver::of_draft(Draft::Draft02).save());
}

/// No call changes the draft, also not one that is refused.
#[test]
fn kept_by_every_call() {
    for draft in Draft::ALL {
        let mut sender = Sender::of_draft(draft, 128, 9).unwrap();
        assert_eq!(sender.cancel(), Err(Refusal::NotBegun));
        sender.place(&bundle()).unwrap();
        assert_eq!(sender.draft(), draft);
        sender.cancel().unwrap();
        assert_eq!(sender.draft(), draft);
        sender.flush().unwrap();
        assert_eq!(sender.draft(), draft);
        let mut receiver = Receiver::of_draft(draft);
        assert!(receiver.receive(&[9]).is_err());
        receiver.receive(sender.frame()).unwrap();
        assert_eq!(receiver.draft(), draft);
        assert_eq!(receiver.receive_burst(frames(draft)).bundles.len(), 1);
        assert_eq!(receiver.draft(), draft);
    }
}

/// The next index of a transfer begun follows from what remains, and no other is sound.
#[test]
fn a_sender_of_draft_00_with_another_next_index() {
    let mut sender = Sender::of_draft(Draft::Draft00, 128, 9).unwrap();
    sender.place(&bundle()).unwrap();
    let saved = sender.save();
    assert_eq!(saved[20..24], [0, 0, 0, 1]);
    for index in [0, 2, 3, 63] {
        let mut damaged = saved.clone();
        damaged[23] = index;
        assert!(Sender::restore(&damaged).is_err(), "{index}");
    }
    sender.place(&bundle()).unwrap();
    assert_eq!(sender.image()[20..24], [0; 4], "0 is the index of the last");
    let mut sender = Sender::restore(&sender.save()).unwrap();
    sender.send(&bundle(), |_| ()).unwrap();
}

const WHOLE: (Option<u32>, &[u8]) = (None, b"whole");

/// A receiver of a draft takes frames of the other one.
#[track_caller]
fn misread(draft: Draft, order: [usize; 3], bundles: &[(Option<u32>, &[u8])], phase: Phase) {
    let other = match draft {
        Draft::Draft00 => Draft::Draft02,
        Draft::Draft02 => Draft::Draft00,
    };
    let frames = frames(other);
    let mut receiver = Receiver::of_draft(draft);
    let found = received(&mut receiver, order.map(|place| &frames[place]));
    let bundles = bundles.iter();
    let expected: Vec<_> = bundles
        .map(|&(number, octets)| (number, octets.to_vec()))
        .collect();
    assert_eq!(found, expected);
    assert_eq!(receiver.window().rows[9 % 8].phase, phase);
}

/// Frames of the other draft are read as the receiver's own: a transfer is given up, or the piece with
/// index 0 is handed out alone. What came whole is the same in both.
#[test]
fn frames_of_the_other_draft() {
    let bundle = bundle();
    let (first, last) = ((Some(9), &bundle[..116]), (Some(9), &bundle[232..]));
    misread(Draft::Draft02, [0, 1, 2], &[WHOLE], Phase::GivenUp);
    misread(Draft::Draft02, [2, 1, 0], &[last, WHOLE], Phase::Done);
    misread(Draft::Draft00, [0, 1, 2], &[first, WHOLE], Phase::Done);
    misread(Draft::Draft00, [2, 1, 0], &[WHOLE], Phase::GivenUp);

    // The flag of a hint is part of the length in draft 00.
    let hinted = [2, 0x80, 0, 3, 2, 0, 0x41];
    let refused = Err(Refusal::Length { place: 0 });
    assert_eq!(Receiver::of_draft(Draft::Draft00).receive(&hinted), refused);
    assert_eq!(Receiver::new().receive(&hinted).unwrap()[0].octets, b"A");
}

/// Recordings keep frames of either draft, and play them as draft 02.
#[test]
fn recordings_are_played_as_draft_02() {
    for draft in Draft::ALL {
        let frames = frames(draft);
        let octets = Recording::write(&frames).unwrap();
        let recording = Recording::open(&octets).unwrap();
        assert!(recording.frames().eq(&frames));
        let playback = recording.play(u64::MAX);
        let live = received(&mut Receiver::new(), &frames);
        let live = live.iter().map(|(_, octets)| &octets[..]);
        assert!(playback.bundles().eq(live));
        let whole = usize::from(draft == Draft::Draft02);
        assert_eq!(playback.bundles().len(), 1 + whole);
    }
}
