//! Single frames, received and sent.

use btpu::raw::MAX_FRAME;
use btpu::{Bundle, Draft, Receiver, Refusal, Sender, Sent};

fn bundle(number: Option<u32>, octets: &[u8]) -> Result<Vec<Bundle>, Refusal> {
    Ok(vec![Bundle {
        number,
        octets: octets.to_vec(),
    }])
}

#[test]
fn received() {
    let final_piece: &[u8] = &[4, 0, 0, 9, 0, 0, 0, 5, 0, 0, 0, 0, 0x41];
    let cases: [(&[u8], _); 11] = [
        (&[2, 0, 0, 3, 0x41, 0x42, 0x43], bundle(None, b"ABC")),
        (&[0, 0, 0], Ok(vec![])),
        (&[1, 0, 0, 0], Ok(vec![])),
        (final_piece, bundle(Some(5), b"A")),
        (
            &[2, 0x80, 0, 5, 2, 1, 0xff, 0x41, 0x42],
            bundle(None, b"AB"),
        ),
        (&[2, 0x10, 0, 0], bundle(None, &[])),
        (&[0, 2, 0, 0, 0], bundle(None, &[])),
        (&[2, 0, 0, 4, 0x41], Err(Refusal::Length { place: 0 })),
        (&[3, 0, 0], Err(Refusal::Header { place: 0 })),
        (&[2, 0x80, 0, 1, 2], Err(Refusal::Hints { place: 0 })),
        (&[5, 0, 0, 3, 0, 0, 0], Err(Refusal::Content { place: 0 })),
    ];
    for (frame, expected) in cases {
        assert_eq!(Receiver::new().receive(frame), expected);
    }
    cancelled_before(Draft::Draft02, final_piece);
}

#[test]
fn received_in_draft_00() {
    let start: &[u8] = &[3, 0, 0, 9, 0, 0, 0, 5, 0, 0, 0, 0, 0x41];
    let cases: [(&[u8], _); 13] = [
        (&[2, 0, 0, 3, 0x41, 0x42, 0x43], bundle(None, b"ABC")),
        (&[0, 0, 0], Ok(vec![])),
        (&[1, 0, 0, 0], Ok(vec![])),
        (&[6, 0, 0, 1, 0x41], Ok(vec![])),
        (&[0, 2, 0, 0, 0], bundle(None, &[])),
        (start, bundle(Some(5), b"A")),
        (&[4, 0, 0, 9, 0, 0, 0, 5, 0, 0, 0, 0, 0x41], Ok(vec![])),
        (&[2, 0, 0, 4, 0x41], Err(Refusal::Length { place: 0 })),
        // The octet of the flags is the highest of the length.
        (&[2, 0x10, 0, 0], Err(Refusal::Length { place: 0 })),
        (
            &[2, 0x80, 0, 5, 2, 1, 0xff, 0x41, 0x42],
            Err(Refusal::Length { place: 0 }),
        ),
        (&[3, 0, 0], Err(Refusal::Header { place: 0 })),
        (
            &[3, 0, 0, 7, 0, 0, 0, 5, 0, 0, 0],
            Err(Refusal::Content { place: 0 }),
        ),
        (&[5, 0, 0, 3, 0, 0, 0], Err(Refusal::Content { place: 0 })),
    ];
    for (frame, expected) in cases {
        assert_eq!(Receiver::of_draft(Draft::Draft00).receive(frame), expected);
    }
    cancelled_before(Draft::Draft00, start);
}

/// A piece that completes a transfer hands out nothing where a cancel came first.
#[track_caller]
fn cancelled_before(draft: Draft, piece: &[u8]) {
    let mut receiver = Receiver::of_draft(draft);
    let cancel = [5, 0, 0, 4, 0, 0, 0, 5];
    assert_eq!(receiver.receive(&cancel), Ok(vec![]));
    assert_eq!(receiver.receive(piece), Ok(vec![]));
}

/// Bad messages behind good ones, so that the place takes more than one octet.
#[test]
fn refused_with_a_place() {
    type Placed = fn(u32) -> Refusal;
    let length: Placed = |place| Refusal::Length { place };
    let hints: Placed = |place| Refusal::Hints { place };
    // In draft 00 and in draft 02.
    let bad: [(&[u8], [Placed; 2]); 4] = [
        (&[3, 0, 0], [|place| Refusal::Header { place }; 2]),
        (&[2, 0, 0, 4, 0x41], [length; 2]),
        (&[2, 0x80, 0, 1, 2], [length, hints]),
        (
            &[5, 0, 0, 3, 0, 0, 0],
            [|place| Refusal::Content { place }; 2],
        ),
    ];
    let bad = bad.into_iter().flat_map(|(message, refusals)| {
        let drafts = Draft::ALL.into_iter().zip(refusals);
        drafts.map(move |(draft, refusal)| (message, draft, refusal))
    });
    let piece = [3, 0, 0, 9, 0, 0, 0, 5, 0, 0, 0, 0, 0x41];
    for (message, draft, refusal) in bad {
        for place in [13, 255, 256, 1000, MAX_FRAME - message.len()] {
            let frame = [&piece, &vec![0; place - piece.len()][..], message].concat();
            let mut receiver = Receiver::of_draft(draft);
            let before = receiver.save();
            let expected = refusal(place as u32);
            assert_eq!(receiver.receive(&frame), Err(expected));
            assert_eq!(expected.place(), Some(place as u32));
            assert!(receiver.save() == before, "a refused frame has no effect");
        }
    }
}

#[test]
fn refused_without_a_place() {
    let mut receiver = Receiver::new();
    let before = receiver.save();
    assert_eq!(receiver.receive(&[]), Err(Refusal::FrameLength));
    let too_long = [0; MAX_FRAME + 1];
    assert_eq!(receiver.receive(&too_long), Err(Refusal::FrameLength));
    assert_eq!(receiver.receive(&too_long[1..]), Ok(vec![]));
    assert!(receiver.save() == before);
}

/// A frame with three bundles, the second in two pieces, and a piece behind them.
fn three_bundles() -> Vec<u8> {
    [
        &[2, 0, 0, 1, 0x41][..],
        &[3, 0, 0, 9, 0, 0, 0, 5, 0, 0, 0, 0, 0x42],
        &[4, 0, 0, 9, 0, 0, 0, 5, 0, 0, 0, 1, 0x43],
        &[2, 0, 0, 0],
        &[3, 0, 0, 9, 0, 0, 0, 6, 0, 0, 0, 0, 0x44],
    ]
    .concat()
}

#[test]
fn one_bundle_after_the_other() {
    let frame = three_bundles();
    let mut receiver = Receiver::new();
    let mut bundles = receiver.bundles(&frame);
    let mut next = || Some(bundles.next()?.map(|bundle| vec![bundle]));
    assert_eq!(next(), Some(bundle(None, b"A")));
    assert_eq!(next(), Some(bundle(Some(5), b"BC")));
    assert_eq!(next(), Some(bundle(None, &[])));
    assert_eq!(next(), None);
    assert_eq!(next(), None);
    assert_eq!(receiver.window().greatest, Some(6));

    // The same frame again: what has no number is handed out once more.
    let again = receiver.receive(&frame).unwrap();
    assert_eq!(again.len(), 2);
    assert!(again.iter().all(|bundle| bundle.number.is_none()));
    assert_eq!(Receiver::new().receive(&frame).unwrap().len(), 3);
}

#[test]
fn a_frame_that_is_not_taken_to_its_end() {
    let frame = three_bundles();
    let mut receiver = Receiver::new();
    assert!(receiver.bundles(&frame).next().is_some());
    assert_eq!(receiver.window().greatest, None);
}

#[test]
fn a_refusal_comes_before_any_bundle() {
    let frame = [&three_bundles()[..], &[9]].concat();
    let mut receiver = Receiver::new();
    let mut bundles = receiver.bundles(&frame);
    let place = frame.len() as u32 - 1;
    assert_eq!(bundles.next(), Some(Err(Refusal::Header { place })));
    assert_eq!(bundles.next(), None);
    assert_eq!(receiver.window().greatest, None);
}

#[test]
fn sent_in_pieces() {
    let mut sender = Sender::new(128, 0).unwrap();
    let octets = |length: usize| vec![0x55; length];
    let header = |sender: &Sender, at: usize| sender.frame()[at..at + 4].to_vec();
    assert_eq!(sender.place(&octets(300)), Ok(Sent::PlacedAndReady));
    assert_eq!(header(&sender, 0), [3, 0, 0, 8 + 116]);
    assert_eq!(sender.place(&octets(300)), Ok(Sent::PlacedAndReady));
    assert_eq!(header(&sender, 0), [3, 0, 0, 8 + 116]);
    assert!(sender.is_begun());
    assert_eq!(sender.place(&octets(300)), Ok(Sent::Placed));
    assert_eq!(header(&sender, 0), [4, 0, 0, 8 + 68]);
    assert!(!sender.is_begun());
    let mut other = Sender::restore(&sender.save()).unwrap();
    assert_eq!(other.place(&octets(44)), Ok(Sent::PlacedAndReady));
    assert_eq!(sender.place(&octets(45)), Ok(Sent::Ready));
    assert_eq!(header(&sender, 80), [1, 0, 0, 44]);
    assert_eq!(sender.place(&octets(124)), Ok(Sent::PlacedAndReady));
    assert_eq!(header(&sender, 0), [2, 0, 0, 124]);
    assert_eq!(sender.flush(), Ok(Sent::Nothing));
    assert_eq!(sender.place(&octets(125)), Ok(Sent::PlacedAndReady));
    assert_eq!(header(&sender, 0), [3, 0, 0, 8 + 116]);
    assert_eq!(sender.cancel(), Ok(Sent::Placed));
    assert_eq!(sender.frame()[..8], [5, 0, 0, 4, 0, 0, 0, 1]);
    assert_eq!(sender.flush(), Ok(Sent::Ready));
    assert_eq!(sender.next_number(), 2);
}

/// The start carries the highest index, reckoned from the room that is left, and the last piece 0.
#[test]
fn sent_in_pieces_in_draft_00() {
    let mut sender = Sender::of_draft(Draft::Draft00, 128, 0).unwrap();
    let octets = |length: usize| vec![0x55; length];
    let front = |sender: &Sender, at: usize| sender.frame()[at..at + 12].to_vec();
    assert_eq!(sender.place(&octets(300)), Ok(Sent::PlacedAndReady));
    assert_eq!(front(&sender, 0), [3, 0, 0, 124, 0, 0, 0, 0, 0, 0, 0, 2]);
    assert_eq!(sender.place(&octets(300)), Ok(Sent::PlacedAndReady));
    assert_eq!(front(&sender, 0), [4, 0, 0, 124, 0, 0, 0, 0, 0, 0, 0, 1]);
    assert!(sender.is_begun());
    assert_eq!(sender.place(&octets(300)), Ok(Sent::Placed));
    assert_eq!(front(&sender, 0), [4, 0, 0, 76, 0, 0, 0, 0, 0, 0, 0, 0]);
    assert!(!sender.is_begun());

    // 36 octets have room behind these 80, and the rest fills two frames, or needs a third one.
    for (length, index) in [(36 + 232, 2), (36 + 233, 3)] {
        let mut sender = Sender::restore(&sender.save()).unwrap();
        assert_eq!(sender.place(&octets(length)), Ok(Sent::PlacedAndReady));
        assert_eq!(
            front(&sender, 80),
            [3, 0, 0, 44, 0, 0, 0, 1, 0, 0, 0, index]
        );
        sender.send(&octets(length), |_| ()).unwrap();
        assert_eq!(
            sender.frame()[..4],
            [4, 0, 0, if index == 2 { 124 } else { 9 }]
        );
        assert_eq!(sender.frame()[8..12], [0; 4]);
    }
    assert_eq!(sender.place(&octets(45)), Ok(Sent::Ready));
    assert_eq!(sender.frame()[80..84], [1, 0, 0, 44]);
    assert_eq!(sender.place(&octets(124)), Ok(Sent::PlacedAndReady));
    assert_eq!(sender.frame()[..4], [2, 0, 0, 124]);
    assert_eq!(sender.place(&octets(125)), Ok(Sent::PlacedAndReady));
    assert_eq!(front(&sender, 0), [3, 0, 0, 124, 0, 0, 0, 1, 0, 0, 0, 1]);
    assert_eq!(sender.cancel(), Ok(Sent::Placed));
    assert_eq!(sender.frame()[..8], [5, 0, 0, 4, 0, 0, 0, 1]);
    assert_eq!(sender.flush(), Ok(Sent::Ready));
    assert_eq!(sender.next_number(), 2);
}

#[test]
fn refused_by_a_sender() {
    Draft::ALL.into_iter().for_each(refused_by_a_sender_of);
}

fn refused_by_a_sender_of(draft: Draft) {
    for size in [0, 127, 2049, usize::MAX] {
        let refused = Sender::of_draft(draft, size, 0).err();
        assert_eq!(refused, Some(Refusal::FrameSize));
    }
    let mut sender = Sender::of_draft(draft, 128, u32::MAX).unwrap();
    assert_eq!(sender.frame_size(), 128);
    let refused = |sender: &mut Sender, bundle: &[u8], refusal| {
        let before = sender.save();
        assert_eq!(sender.place(bundle), Err(refusal));
        let link = |_: &[u8]| panic!("a frame in spite of the refusal");
        assert_eq!(sender.send(bundle, link), Err(refusal));
        assert_eq!(sender.save(), before, "a refused call changes nothing");
    };
    refused(&mut sender, &[], Refusal::Bundle);
    refused(&mut sender, &[0; 4097], Refusal::Bundle);
    assert_eq!(sender.cancel(), Err(Refusal::NotBegun));
    assert_eq!(sender.place(&[7; 300]), Ok(Sent::PlacedAndReady));
    assert_eq!(sender.next_number(), 0, "the number after the greatest");
    refused(&mut sender, &[7; 299], Refusal::OtherLength);
    assert!(sender.send(&[7; 300], |_| ()).is_ok());
}
