//! Bursts: the same as one frame after the other.

use btpu::raw::{BURST_BUNDLES, BURST_FRAMES, MAX_FRAME, NO_NUMBER};
use btpu::{Bundle, Burst, Draft, Receiver, RefusedFrame, WindowSize};

/// Pseudo-random numbers that are the same in each run.
struct Random(u64);

impl Random {
    /// A number below `bound`.
    fn below(&mut self, bound: usize) -> usize {
        self.0 ^= self.0 << 13;
        self.0 ^= self.0 >> 7;
        self.0 ^= self.0 << 17;
        (self.0 % bound as u64) as usize
    }

    fn pick(&mut self, list: &[usize]) -> usize {
        list[self.below(list.len())]
    }

    fn octets(&mut self, length: usize) -> Vec<u8> {
        (0..length).map(|_| self.below(256) as u8).collect()
    }
}

fn message(kind: u8, content: &[u8]) -> Vec<u8> {
    let length = (content.len() as u32).to_be_bytes();
    [&[kind], &length[1..], content].concat()
}

/// A piece of a transfer with three.
fn piece(draft: Draft, place: &[u8], index: u32, data: &[u8]) -> Vec<u8> {
    let kind = match (draft, index) {
        (Draft::Draft02, 2) | (Draft::Draft00, 0 | 1) => 4,
        _ => 3,
    };
    message(kind, &[place, data].concat())
}

/// A bundle, padding, or a piece or cancel of one of a few transfers.
fn any_message(random: &mut Random, draft: Draft, first_number: u32) -> Vec<u8> {
    let number = first_number.wrapping_add(random.below(20) as u32);
    let index = random.below(3) as u32;
    let place = [number.to_be_bytes(), index.to_be_bytes()].concat();
    let most = random.pick(&[20, 20, 20, 20, 20, 1500]);
    let length = random.below(most);
    let data = random.octets(length);
    match random.below(12) {
        0 => vec![0; 1 + random.below(3)],
        1 => message(1, &data),
        2..=4 => message(2, &data),
        5 => message(5, &place[..4]),
        _ => piece(draft, &place, index, &data),
    }
}

/// Bad messages, one for each reason.
const BAD: [&[u8]; 4] = [
    &[3, 0, 0],
    &[2, 0, 0, 4, 0x41],
    &[2, 0x80, 0, 1, 2],
    &[5, 0, 0, 3, 0, 0, 0],
];

/// A frame: mostly good, else damaged, or too short or too long.
fn any_frame(random: &mut Random, draft: Draft, first_number: u32) -> Vec<u8> {
    let mut frame = Vec::new();
    for _ in 0..1 + random.below(12) {
        let message = any_message(random, draft, first_number);
        if frame.len() + message.len() <= MAX_FRAME {
            frame.extend(message);
        }
    }
    match random.below(16) {
        0 => frame.truncate(random.below(frame.len() + 1)),
        1 => frame.extend(BAD[random.below(BAD.len())]),
        2 => frame.resize(MAX_FRAME + random.below(2), 0),
        3 => frame.resize(random.pick(&[65_535, 65_536, 65_537, 70_000]), 0),
        4 => {
            let at = random.below(frame.len());
            frame[at] = random.below(256) as u8;
        }
        _ => {}
    }
    frame
}

/// The frames taken one after the other.
fn one_by_one<F: AsRef<[u8]>>(receiver: &mut Receiver, frames: &[F]) -> Burst {
    let mut burst = Burst::default();
    for (place, frame) in frames.iter().enumerate() {
        match receiver.receive(frame.as_ref()) {
            Ok(bundles) => burst.bundles.extend(bundles),
            Err(refusal) => burst.refused.push(RefusedFrame {
                place,
                number: refusal.number(),
            }),
        }
    }
    burst
}

/// Checks that a burst is the same as one frame after the other; the answer is what came out.
#[track_caller]
fn taken<F: AsRef<[u8]>>(receiver: &mut Receiver, frames: &[F]) -> Burst {
    let mut other = receiver.clone();
    let burst = receiver.receive_burst(frames);
    assert_eq!(burst, one_by_one(&mut other, frames));
    assert_eq!(receiver.window(), other.window());
    assert!(receiver.save() == other.save());
    burst
}

#[test]
fn the_same_as_one_after_the_other() {
    let mut random = Random(64);
    let mut refused = [0; 9];
    let (mut whole, mut in_pieces, mut frames_taken) = (0, 0, 0);
    for round in 0..300u32 {
        let draft = Draft::ALL[round as usize % 2];
        let size = WindowSize::ALL[round as usize % 3];
        let mut receiver = Receiver::with_window(draft, size);
        let mut first_number = round.wrapping_sub(150);
        for _ in 0..4 {
            let most = random.pick(&[3, 10, 65, 140]);
            let count = random.below(most);
            let frames: Vec<Vec<u8>> = (0..count)
                .map(|_| any_frame(&mut random, draft, first_number))
                .collect();
            let burst = taken(&mut receiver, &frames);
            let numbered = burst.bundles.iter().filter(|one| one.number.is_some());
            in_pieces += numbered.count();
            whole += burst.bundles.len();
            frames_taken += count;
            for frame in burst.refused {
                refused[frame.number as usize] += 1;
                assert!(!frame.words().is_empty());
            }
            first_number = first_number.wrapping_add(10);
        }
    }
    whole -= in_pieces;
    println!("{frames_taken} frames, {whole} bundles whole, {in_pieces} in pieces; {refused:?}");
    assert!(whole > 5_000 && in_pieces > 1_000);
    for number in [3, 4, 6, 7, 8] {
        assert!(refused[number] > 50, "refusal {number}");
    }
}

#[test]
fn no_frame() {
    let mut receiver = Receiver::new();
    assert_eq!(taken::<&[u8]>(&mut receiver, &[]), Burst::default());
}

#[test]
fn many_frames() {
    for count in [1, 63, 64, 65, 127, 128, 129, 1000] {
        let frames: Vec<Vec<u8>> = (0..count as u32)
            .map(|place| match place % 5 {
                4 => vec![2, 0, 0, 9],
                _ => message(2, &place.to_be_bytes()),
            })
            .collect();
        let burst = taken(&mut Receiver::new(), &frames);
        assert_eq!(burst.bundles.len() + burst.refused.len(), count);
        for (turn, refused) in burst.refused.iter().enumerate() {
            assert_eq!((refused.place, refused.number), (5 * turn + 4, 6));
        }
    }
}

/// More bundles than one call hands out, and more octets than the frames have.
#[test]
fn more_than_one_call_hands_out() {
    let empty = message(2, &[]).repeat(MAX_FRAME / 4);
    let burst = taken(&mut Receiver::new(), &[empty]);
    assert_eq!(burst.bundles.len(), 2 * BURST_BUNDLES);
    let none = Bundle {
        number: None,
        octets: vec![],
    };
    assert!(burst.bundles.iter().all(|bundle| *bundle == none));

    let piece = |kind, number: u32, index: u8, length| {
        let place = [&number.to_be_bytes()[..], &[0, 0, 0, index]].concat();
        message(kind, &[place, vec![index; length]].concat())
    };
    let mut receiver = Receiver::with_window(Draft::Draft02, WindowSize::Sixteen);
    for number in 0..16 {
        for index in 0..2 {
            let begun = receiver.receive(&piece(3, number, index, 2036)).unwrap();
            assert_eq!(begun, []);
        }
    }
    let ends: Vec<Vec<u8>> = (0..16).map(|number| piece(4, number, 2, 24)).collect();
    let burst = taken(&mut receiver, &ends);
    assert_eq!(burst.bundles.len(), 16);
    assert!(burst.bundles.iter().all(|one| one.octets.len() == 4096));
}

/// No length is cut to 16 bits.
#[test]
fn frames_that_are_too_long() {
    let mut frame = message(2, b"good").repeat(70_000 / 8);
    for length in [2048, 2056, 65_535, 65_536, 65_544, 65_536 + 2048, 70_000] {
        frame.resize(length, 0);
        let burst = taken(&mut Receiver::new(), &[&frame[..], b"\x02\0\0\x02hi"]);
        let refused = usize::from(length > MAX_FRAME);
        assert_eq!(burst.refused.len(), refused, "{length}");
        assert!(burst.refused.iter().all(|frame| frame.number == 3));
        assert_eq!(burst.bundles.last().unwrap().octets, b"hi");
        frame = message(2, b"good").repeat(70_000 / 8);
    }
}

#[test]
fn any_list_of_frames() {
    let frames = [message(2, b"a"), message(2, b"b")];
    let expected = one_by_one(&mut Receiver::new(), &frames);
    assert_eq!(Receiver::new().receive_burst(&frames), expected);
    assert_eq!(Receiver::new().receive_burst(frames.clone()), expected);
    let slices = frames.iter().map(|frame| &frame[..]);
    assert_eq!(Receiver::new().receive_burst(slices), expected);
    assert_eq!(BURST_FRAMES, 64);
    assert!(u32::try_from(NO_NUMBER).is_err());
}
