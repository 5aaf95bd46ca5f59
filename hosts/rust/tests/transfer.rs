//! Bundles sent through frames that are lost, repeated and shuffled.

use std::collections::HashMap;

use btpu::{Bundle, Draft, Phase, Receiver, Sender, WindowSize};

/// Pseudo-random numbers that are the same in each run.
struct Random(u64);

impl Random {
    /// A number below `bound`.
    fn below(&mut self, bound: usize) -> usize {
        self.0 ^= self.0 << 13;
        self.0 ^= self.0 >> 7;
        self.0 ^= self.0 << 17;
        (self.0 % bound as u64) as usize
    }

    fn shuffle<T>(&mut self, list: &mut [T]) {
        for last in (1..list.len()).rev() {
            list.swap(last, self.below(last + 1));
        }
    }

    fn octets(&mut self, length: usize) -> Vec<u8> {
        (0..length).map(|_| self.below(256) as u8).collect()
    }
}

/// The frames of these bundles.
fn sent(draft: Draft, bundles: &[Vec<u8>], frame_size: usize, first_number: u32) -> Vec<Vec<u8>> {
    let mut sender = Sender::of_draft(draft, frame_size, first_number).unwrap();
    let mut frames = Vec::new();
    for bundle in bundles {
        let link = |frame: &[u8]| frames.push(frame.to_vec());
        sender.send(bundle, link).unwrap();
    }
    sender.finish(|frame| frames.push(frame.to_vec())).unwrap();
    sender.finish(|_| panic!("nothing is left")).unwrap();
    assert!(frames.iter().all(|frame| frame.len() == frame_size));
    frames
}

fn received(receiver: &mut Receiver, frames: &[Vec<u8>]) -> Vec<Bundle> {
    let mut bundles = Vec::new();
    for frame in frames {
        bundles.extend(receiver.receive(frame).unwrap());
    }
    bundles
}

#[test]
fn in_order() {
    let mut random = Random(1);
    for frame_size in [128, 129, 500, 2047, 2048] {
        let lengths = [1, 116, 117, 124, 125, 300, 2044, 2045, 4095, 4096];
        let bundles = lengths.map(|length| random.octets(length));
        for draft in Draft::ALL {
            let frames = sent(draft, &bundles, frame_size, u32::MAX - 3);
            let received = received(&mut Receiver::of_draft(draft), &frames);
            assert!(received.iter().map(|bundle| &bundle.octets).eq(&bundles));
        }
    }
}

/// As many transfers as the window has, in any order, each frame once or twice: each comes out once.
#[test]
fn shuffled_and_repeated() {
    let mut random = Random(2);
    for round in 0..200 {
        let draft = Draft::ALL[round as usize % 2];
        let size = WindowSize::ALL[round as usize % 3];
        let frame_size = 128 + random.below(400);
        // No bundle has room in one message, so that each is a transfer.
        let mut bundles = Vec::new();
        for _ in 0..size.transfers() {
            let length = frame_size + random.below(3000);
            bundles.push(random.octets(length));
        }
        let first = 0u32.wrapping_sub(8).wrapping_add(round);
        let mut frames = sent(draft, &bundles, frame_size, first);
        for _ in 0..random.below(frames.len()) {
            let again = frames[random.below(frames.len())].clone();
            frames.push(again);
        }
        random.shuffle(&mut frames);
        let received = received(&mut Receiver::with_window(draft, size), &frames);
        assert_eq!(received.len(), size.transfers());
        let received: HashMap<_, _> = received
            .into_iter()
            .map(|bundle| (bundle.number.unwrap(), bundle.octets))
            .collect();
        for (place, bundle) in bundles.iter().enumerate() {
            assert_eq!(&received[&first.wrapping_add(place as u32)], bundle);
        }
    }
}

/// A bundle comes out exactly where no frame with a piece of it was lost.
#[test]
fn with_losses() {
    let mut random = Random(3);
    for round in 0..200 {
        let draft = Draft::ALL[round % 2];
        let bundle = random.octets(1200);
        let frames = sent(draft, std::slice::from_ref(&bundle), 256, 40);
        let lost = random.below(frames.len());
        let arrived = [&frames[..lost], &frames[lost + 1..]].concat();
        let mut receiver = Receiver::of_draft(draft);
        assert_eq!(received(&mut receiver, &arrived), []);
        assert_eq!(receiver.window().rows[40 % 8].phase, Phase::Open);

        // The frames are sent once more, and one of them is lost again.
        let again = (lost + 1 + random.below(frames.len() - 1)) % frames.len();
        let mut arrived = frames.clone();
        arrived.remove(again);
        let received = received(&mut receiver, &arrived);
        assert_eq!(received.len(), 1);
        assert_eq!(received[0].octets, bundle);
        assert_eq!(receiver.window().rows[40 % 8].phase, Phase::Done);
    }
}

#[test]
fn cancelled() {
    for draft in Draft::ALL {
        let mut sender = Sender::of_draft(draft, 128, 9).unwrap();
        let mut receiver = Receiver::of_draft(draft);
        sender.place(&[7; 300]).unwrap();
        receiver.receive(sender.frame()).unwrap();
        sender.cancel().unwrap();
        let mut frames = Vec::new();
        let mut link = |frame: &[u8]| frames.push(frame.to_vec());
        sender.send(&[8; 300], &mut link).unwrap();
        sender.finish(link).unwrap();
        let received = received(&mut receiver, &frames);
        assert_eq!(received.len(), 1);
        assert_eq!((received[0].number, received[0].octets[0]), (Some(10), 8));
        assert_eq!(receiver.window().rows[9 % 8].phase, Phase::Cancelled);
    }
}
