//! A board and a playback on one side, for tests that are worked by hand.

use std::marker::PhantomData;

use crate::generate;
use crate::model::Settings;
use crate::side::Side;
use btpu::raw::{
    BURST_BUNDLES, BURST_FRAMES, BURST_RESULT, MIN_OUTPUT, PLAYED_BUNDLES, RECEIVER_IMAGE,
    RECORDED_FRAMES, RECORDED_OCTETS,
};

/// A test that runs a function on both sides.
#[macro_export]
macro_rules! on_both_sides {
    ($name:ident, $body:ident) => {
        #[test]
        fn $name() {
            $body::<$crate::side::Model>();
            $body::<$crate::side::Exported>();
        }
    };
}

/// Octets written as hexadecimal digits, with blanks anywhere.
pub fn hex(text: &str) -> Vec<u8> {
    let digits: Vec<u32> = text
        .chars()
        .filter(|character| *character != ' ')
        .map(|character| character.to_digit(16).expect("a hexadecimal digit"))
        .collect();
    let (pairs, rest) = digits.as_chunks::<2>();
    assert!(rest.is_empty(), "an even number of digits expected");
    pairs
        .iter()
        .map(|[high, low]| (16 * high + low) as u8)
        .collect()
}

/// What a receiving call tells.
#[derive(Clone, Debug, PartialEq, Eq)]
pub enum Told {
    /// A refusal's number, and where the bad message starts.
    Refused(u32, u32),
    Finished,
    /// A bundle, the next place, and the transfer's number or `NO_NUMBER`.
    Bundle(Vec<u8>, u64, u64),
}

/// Bundles with their numbers, and refused frames with the numbers of their refusals.
pub type HandedOut = (Vec<(u64, Vec<u8>)>, Vec<(u32, u32)>);

/// Messages treated, bundles, and refused frames with the numbers of their refusals.
pub type Played = (u64, Vec<Vec<u8>>, Vec<(u32, u32)>);

pub struct Board<S> {
    pub image: [u8; RECEIVER_IMAGE],
    pub pool: Vec<u8>,
    side: PhantomData<S>,
}

impl<S: Side> Board<S> {
    /// A fresh board.
    pub fn start(Settings { draft, window }: Settings) -> Board<S> {
        let mut image = [0xa5; RECEIVER_IMAGE];
        let returned = S::receiver_start(draft, window.number(), &mut image);
        assert_eq!(returned, 0, "{}", S::NAME);
        Board::of(image, vec![0xa5; window.pool()])
    }

    /// A board with this image and this pool, whatever they are.
    pub fn of(image: [u8; RECEIVER_IMAGE], pool: Vec<u8>) -> Board<S> {
        Board {
            image,
            pool,
            side: PhantomData,
        }
    }

    pub fn receive(&mut self, frame: &[u8], place: u64) -> Told {
        let mut output = [0xee; MIN_OUTPUT];
        let mut result = [77; 4];
        let (image, pool) = (&mut self.image, &mut self.pool);
        let returned = S::receive(image, pool, frame, place, &mut output, &mut result);
        if returned != 0 {
            assert_eq!(
                (output, result),
                ([0xee; MIN_OUTPUT], [77; 4]),
                "{}",
                S::NAME
            );
            return Told::Refused(returned & 0xff, returned >> 8);
        }
        match result {
            [0, 77, 77, 77] => Told::Finished,
            [1, length, next, number] => {
                Told::Bundle(output[..length as usize].to_vec(), next, number)
            }
            _ => panic!("{}: no such answer: {result:?}", S::NAME),
        }
    }

    /// Takes a frame to its end; the answer is its bundles with their numbers.
    pub fn take_numbered(&mut self, frame: &[u8]) -> Vec<(u64, Vec<u8>)> {
        let mut bundles = Vec::new();
        let mut place = 0;
        loop {
            match self.receive(frame, place) {
                Told::Finished => return bundles,
                Told::Bundle(bundle, next, number) => {
                    bundles.push((number, bundle));
                    place = next;
                }
                Told::Refused(number, at) => {
                    panic!("{}: refused with {number} at {at}", S::NAME)
                }
            }
        }
    }

    /// Takes a frame to its end; the answer is its bundles.
    pub fn take(&mut self, frame: &[u8]) -> Vec<Vec<u8>> {
        let bundles = self.take_numbered(frame).into_iter();
        bundles.map(|(_, bundle)| bundle).collect()
    }

    /// Takes frames in one burst to the last one's end; the answer is the refusal's number where it is
    /// refused.
    pub fn receive_burst(&mut self, frames: &[Vec<u8>]) -> Result<HandedOut, u32> {
        let (sizes, octets) = generate::joined(frames);
        let mut output = vec![0xee; RECORDED_OCTETS];
        let (mut lengths, mut numbers) = ([77; BURST_BUNDLES], [77; BURST_BUNDLES]);
        let (mut places, mut reasons) = ([77; BURST_FRAMES], [77; BURST_FRAMES]);
        let mut result = [77; BURST_RESULT];
        let returned = S::receive_burst(
            &mut self.image,
            &mut self.pool,
            (&sizes, &octets),
            (0, 0),
            (&mut output, &mut lengths, &mut numbers),
            (&mut places, &mut reasons),
            &mut result,
        );
        let [count, total, frame, place, refused] = match returned {
            0 => result.map(|entry| entry as usize),
            _ => [0; BURST_RESULT],
        };
        assert!(output[total..].iter().all(|&octet| octet == 0xee));
        assert!(lengths[count..].iter().all(|&length| length == 77));
        assert!(numbers[count..].iter().all(|&number| number == 77));
        let notes = notes(&places, &reasons, refused);
        if returned != 0 {
            assert_eq!(result, [77; BURST_RESULT], "{}", S::NAME);
            return Err(returned);
        }
        assert_eq!((frame, place), (frames.len(), 0), "{}", S::NAME);
        let bundles = cut(&output[..total], &lengths[..count]);
        Ok((numbers.into_iter().zip(bundles).collect(), notes))
    }

    /// The first octets of a row: phase, whether the final index is known, the final index, pieces held.
    pub fn row(&self, row: usize) -> [u8; 4] {
        let octets = generate::row(&self.image, row);
        *octets.first_chunk().expect("four octets")
    }

    /// The greatest transfer number, if one is known.
    pub fn greatest(&self) -> Option<u32> {
        let number = self.image[4..8].try_into().expect("four octets");
        (self.image[0] == 1).then_some(u32::from_be_bytes(number))
    }
}

/// Bundles that stand one behind the other.
fn cut(mut rest: &[u8], lengths: &[u16]) -> Vec<Vec<u8>> {
    let mut bundles = Vec::with_capacity(lengths.len());
    for &length in lengths {
        let (bundle, behind) = rest.split_at(length.into());
        bundles.push(bundle.to_vec());
        rest = behind;
    }
    assert!(rest.is_empty(), "octets of no bundle");
    bundles
}

/// So many notes of refused frames; all entries behind them must have stayed.
fn notes(places: &[u32], reasons: &[u32], count: usize) -> Vec<(u32, u32)> {
    let (places, rest) = places.split_at(count);
    let (reasons, other) = reasons.split_at(count);
    assert!(rest.iter().chain(other).all(|&entry| entry == 77));
    let notes = places.iter().zip(reasons);
    notes.map(|(&place, &reason)| (place, reason)).collect()
}

/// Messages treated, bundles, and refused frames of a playback to the end, with a pool of this length; or the
/// refusal's number.
pub fn play<S: Side>(frames: &[Vec<u8>], pool: usize) -> Result<Played, u32> {
    let mut pool = vec![0xa5; pool];
    let (mut output, mut lengths) = (vec![0xee; RECORDED_OCTETS], vec![77; PLAYED_BUNDLES]);
    let (mut places, mut reasons) = ([77; RECORDED_FRAMES], [77; RECORDED_FRAMES]);
    let mut result = [77; 4];
    let recording = generate::recorded(frames);
    let bundles: (&mut [u8], &mut [u16]) = (&mut output, &mut lengths);
    let lists: (&mut [u32], &mut [u32]) = (&mut places, &mut reasons);
    let returned = S::play(&recording, u64::MAX, &mut pool, bundles, lists, &mut result);
    if returned != 0 {
        assert_eq!(result, [77; 4], "{}", S::NAME);
        return Err(returned);
    }
    let [_, count, octets, refused] = result.map(|entry| entry as usize);
    let bundles = cut(&output[..octets], &lengths[..count]);
    Ok((result[0], bundles, notes(&places, &reasons, refused)))
}
