//! Recordings: written, opened and played.

use btpu::{Recording, Refusal, RefusedFrame};

#[test]
fn written_and_played() {
    let frames: [&[u8]; 4] = [
        &[2, 0, 0, 2, 0x41, 0x42],
        &[2, 0, 0, 9],
        &[3, 0, 0, 9, 0, 0, 0, 5, 0, 0, 0, 0, 0x43, 0],
        &[4, 0, 0, 9, 0, 0, 0, 5, 0, 0, 0, 1, 0x44],
    ];
    let octets = Recording::write(frames).unwrap();
    let recording = Recording::open(&octets).unwrap();
    assert_eq!(recording.frames().len(), 4);
    assert!(recording.frames().eq(frames));
    assert_eq!(Recording::write(recording.frames()), Ok(octets.clone()));

    let playback = recording.play(u64::MAX);
    assert_eq!(playback.messages, 4);
    assert!(playback.bundles().eq([b"AB", b"CD"]));
    let bad_length = RefusedFrame {
        place: 1,
        number: 6,
    };
    assert_eq!(playback.refused, [bad_length]);
    assert_eq!(bad_length.words(), "a length runs past the frame");

    let begun = recording.play(3);
    assert_eq!(begun.messages, 3);
    assert!(begun.bundles().eq([b"AB"]));
    assert_eq!(begun.refused, [bad_length]);
    assert_eq!(recording.play(1).refused, []);
    assert_eq!(recording.play(0).bundles().len(), 0);
}

#[test]
fn empty() {
    let octets = Recording::write::<&[u8]>([]).unwrap();
    assert_eq!(octets, [0; 8]);
    let recording = Recording::open(&octets).unwrap();
    assert_eq!(recording.frames().len(), 0);
    assert_eq!(recording.play(u64::MAX).messages, 0);
}

#[test]
fn refused() {
    let written = |frames: &[Vec<u8>]| Recording::write(frames).unwrap_err();
    assert_eq!(written(&vec![vec![0]; 1025]), Refusal::OverLimit);
    assert_eq!(written(&[vec![0; 70_000]]), Refusal::OverLimit);
    assert_eq!(written(&[vec![]]), Refusal::RecordedLength);
    assert_eq!(written(&[vec![0; 2049]]), Refusal::RecordedLength);
    let octets = Recording::write([[0]]).unwrap();
    let opened = |octets: &[u8]| Recording::open(octets).err();
    assert_eq!(opened(&octets), None);
    assert_eq!(opened(&octets[2..]), Some(Refusal::OverLimit));
    assert_eq!(opened(&octets[..4]), Some(Refusal::CutShort));
    let longer = [&octets[..], &[0]].concat();
    assert_eq!(opened(&longer), Some(Refusal::LeftOver));
    let damaged = |at: usize, octet| {
        let mut damaged = octets.clone();
        damaged[at] = octet;
        opened(&damaged)
    };
    assert_eq!(damaged(5, 0), Some(Refusal::RecordedLength));
    assert_eq!(damaged(5, 2), Some(Refusal::OctetCount));
}
