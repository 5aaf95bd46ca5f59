//! Recordings by hand-made examples, on both sides.

use btpu::raw::{PLAYED_BUNDLES, RECORDED_FRAMES, RECORDED_OCTETS};
use harness::side::{Exported, Model, Side};

/// Octets of a playback's pool.
const POOL: usize = 65_536;

/// The sizes, the count of octets and where they start, or the refusal.
type Opened = Result<(Vec<u16>, u64, u64), u32>;

fn open<S: Side>(recording: &[u8]) -> Opened {
    let mut sizes = [7; RECORDED_FRAMES];
    let mut result = [77; 4];
    let returned = S::recording_open(recording, &mut sizes, &mut result);
    assert_eq!(result[3], 77);
    if returned != 0 {
        assert_eq!((sizes, result), ([7; RECORDED_FRAMES], [77; 4]));
        return Err(returned);
    }
    let (sizes, zeros) = sizes.split_at(result[0] as usize);
    assert!(zeros.iter().all(|&entry| entry == 0));
    Ok((sizes.to_vec(), result[1], result[2]))
}

/// The recording, or the refusal.
fn record<S: Side>(sizes: &[u16], octets: &[u8], length: usize) -> Result<Vec<u8>, u32> {
    let mut output = vec![0xee; length];
    let mut result = [77; 4];
    let returned = S::record(sizes, octets, &mut output, &mut result);
    assert_eq!(result[1..], [77; 3]);
    if returned != 0 {
        assert_eq!((&output, result[0]), (&vec![0xee; length], 77));
        return Err(returned);
    }
    let behind = output.split_off(result[0] as usize);
    assert!(behind.iter().all(|&octet| octet == 0xee));
    Ok(output)
}

fn opens<S: Side>() {
    let good: [(&[u8], &[u16], u64); 3] = [
        (&[0, 0, 0, 0, 0, 0, 0, 0], &[], 0),
        (&[0, 0, 0, 1, 0, 1, 0, 0, 0, 1, 0], &[1], 1),
        (
            &[0, 0, 0, 2, 0, 1, 0, 2, 0, 0, 0, 3, 0x41, 0x42, 0x43],
            &[1, 2],
            3,
        ),
    ];
    for (recording, sizes, octets) in good {
        let start = 8 + 2 * sizes.len() as u64;
        let expected = Ok((sizes.to_vec(), octets, start));
        assert_eq!(open::<S>(recording), expected, "{}", S::NAME);
    }
}

fn open_refuses<S: Side>() {
    let cases: [(u32, &[u8], &str); 24] = [
        (16, &[], "no first count"),
        (16, &[0, 0, 4], "first count cut, though it would be above"),
        (16, &[0, 0, 4, 0], "1,024 lengths missing"),
        (16, &[0, 0, 0, 1, 0], "length cut"),
        (16, &[0, 0, 0, 0], "no second count"),
        (16, &[0, 0, 0, 1, 0, 1, 0, 0, 0xf0], "second count cut"),
        (16, &[0, 0, 0, 0, 0, 0, 0xf0, 0], "61,440 octets missing"),
        (16, &[0, 0, 0, 1, 0, 2, 0, 0, 0, 2, 9], "an octet missing"),
        (16, &[0, 0, 0, 1, 0, 0], "before 18"),
        (
            16,
            &[0, 0, 0, 1, 0, 0, 0, 0, 0, 1],
            "before 18, at the octets",
        ),
        (16, &[0, 0, 0, 1, 0, 5, 0, 0, 0, 1], "before 19"),
        (17, &[0, 0, 4, 1], "1,025 frames, though cut short"),
        (17, &[255, 255, 255, 255, 0, 0, 0, 0], "all frames"),
        (17, &[0, 1, 0, 0, 0, 0, 0, 0], "65,536 frames"),
        (17, &[0, 0, 0, 0, 0, 0, 0xf0, 1], "61,441 octets"),
        (17, &[0, 0, 0, 0, 0, 1, 0, 0], "65,536 octets"),
        (17, &[0, 0, 0, 1, 0, 0, 0, 0, 0xf0, 1], "before 18, second"),
        (18, &[0, 0, 0, 1, 0, 0, 0, 0, 0, 0], "a length of 0"),
        (18, &[0, 0, 0, 1, 8, 1, 0, 0, 0, 1, 9], "2,049, before 19"),
        (18, &[0, 0, 0, 1, 0, 0, 0, 0, 0, 0, 9], "before 20"),
        (19, &[0, 0, 0, 1, 0, 1, 0, 0, 0, 0, 9], "before 20"),
        (19, &[0, 0, 0, 1, 0, 1, 0, 0, 0, 2, 9, 9], "one more"),
        (19, &[0, 0, 0, 0, 0, 0, 0, 1, 9], "octets without a frame"),
        (20, &[0, 0, 0, 1, 0, 1, 0, 0, 0, 1, 9, 9], "left over"),
    ];
    for (number, recording, name) in cases {
        assert_eq!(open::<S>(recording), Err(number), "{}: {name}", S::NAME);
    }
}

fn records<S: Side>() {
    let expected = vec![0, 0, 0, 2, 0, 1, 0, 2, 0, 0, 0, 3, 0x41, 0x42, 0x43];
    for length in [15, 16, 100] {
        let written = record::<S>(&[1, 2], &[0x41, 0x42, 0x43], length);
        assert_eq!(written, Ok(expected.clone()), "{}", S::NAME);
    }
    assert_eq!(record::<S>(&[], &[], 8), Ok(vec![0; 8]), "{}", S::NAME);
    let full = record::<S>(&[60; 1024], &[9; 61_440], 8 + 2048 + 61_440).unwrap();
    assert_eq!(full[..6], [0, 0, 4, 0, 0, 60]);
    assert_eq!(full[2052..2057], [0, 0, 0xf0, 0, 9]);
}

fn record_refuses<S: Side>() {
    type Case<'a> = (u32, &'a [u16], &'a [u8], usize, &'a str);
    let cases: [Case; 11] = [
        (17, &[1; 1025], &[9; 1025], 9000, "1,025 frames"),
        (17, &[2048; 31], &[9; 61_441], 70_000, "61,441 octets"),
        (17, &[0; 1025], &[], 0, "before 18, 19 and 24"),
        (18, &[1, 0], &[9], 100, "a length of 0"),
        (18, &[2049], &[9; 2049], 9000, "a length of 2,049"),
        (18, &[0], &[9], 0, "before 19 and 24"),
        (19, &[1, 2], &[9, 9], 100, "an octet missing"),
        (19, &[1, 2], &[9; 4], 100, "an octet more"),
        (19, &[2048; 32], &[], 0, "before 24, beyond 16 bits"),
        (24, &[1, 2], &[9; 3], 14, "an octet too short"),
        (24, &[], &[], 7, "an octet too short for nothing"),
    ];
    for (number, sizes, octets, length, name) in cases {
        let written = record::<S>(sizes, octets, length);
        assert_eq!(written, Err(number), "{}: {name}", S::NAME);
    }
}

const FRAMES: [&[u8]; 7] = [
    &[2, 0, 0, 3, 0x41, 0x42, 0x43],
    &[3, 0, 0],
    &[0, 0, 3, 0, 0, 9, 0, 0, 0, 5, 0, 0, 0, 0, 0x44],
    &[2, 0, 0, 4, 0x41],
    &[4, 0, 0, 9, 0, 0, 0, 5, 0, 0, 0, 1, 0x45, 2, 0, 0, 0],
    &[2, 0x80, 0, 1, 2],
    &[5, 0, 0, 3, 0, 0, 0],
];

fn plays<S: Side>() {
    let sizes = FRAMES.map(|frame| frame.len() as u16);
    let recording = record::<S>(&sizes, &FRAMES.concat(), 100).unwrap();
    // After so many messages: those treated, bundles, their octets, refused frames.
    let cases = [
        (0, [0, 0, 0, 0]),
        (1, [1, 1, 3, 0]),
        (2, [2, 1, 3, 1]),
        (3, [3, 1, 3, 1]),
        (4, [4, 2, 5, 2]),
        (5, [5, 3, 5, 2]),
        (6, [5, 3, 5, 4]),
        (u64::MAX, [5, 3, 5, 4]),
    ];
    for (limit, expected) in cases {
        let mut pool = vec![0xee; POOL];
        let mut output = [0xee; RECORDED_OCTETS];
        let mut lengths = [0xeee; PLAYED_BUNDLES];
        let mut places = [0xeee; RECORDED_FRAMES];
        let mut reasons = [0xeee; RECORDED_FRAMES];
        let mut result = [77; 4];
        let bundles: (&mut [u8], &mut [u16]) = (&mut output, &mut lengths);
        let notes: (&mut [u32], &mut [u32]) = (&mut places, &mut reasons);
        let returned = S::play(&recording, limit, &mut pool, bundles, notes, &mut result);
        assert_eq!((returned, result), (0, expected), "{}: {limit}", S::NAME);
        let [_, bundles, octets, refused] = expected.map(|entry| entry as usize);
        begins(&output, &b"ABCDE"[..octets], 0xee);
        begins(&lengths, &[3, 2, 0][..bundles], 0xeee);
        begins(&places, &[1, 3, 5, 6][..refused], 0xeee);
        begins(&reasons, &[4, 6, 7, 8][..refused], 0xeee);
        let cell = pool.split_off(5 * 4096);
        begins(&pool, &[], 0xee);
        begins(&cell, &b"DE"[..(limit as usize).clamp(2, 4) - 2], 0xee);
    }
}

/// Checks a list that begins so; all that follows is `rest`.
#[track_caller]
fn begins<T: Copy + PartialEq + std::fmt::Debug>(list: &[T], begin: &[T], rest: T) {
    let (front, behind) = list.split_at(begin.len());
    assert_eq!(front, begin);
    assert!(behind.iter().all(|&entry| entry == rest));
}

fn play_refuses<S: Side>() {
    let nothing: &[u8] = &[0; 8];
    let enough = [POOL, RECORDED_OCTETS, PLAYED_BUNDLES, 1024, 1024];
    let short = |part: usize| {
        let mut lent = enough;
        lent[part] -= 1;
        lent
    };
    let with_pool = |pool| [pool, enough[1], enough[2], 1024, 1024];
    let cases = [
        (16, &nothing[..7], [0; 5], "before 2 and 24"),
        (20, &[0; 9][..], [0; 5], "before 2 and 24"),
        (2, nothing, short(0), "a pool of 65,535"),
        (2, nothing, with_pool(32_768), "window 8's pool"),
        (2, nothing, with_pool(16_384), "window 4's pool"),
        (
            2,
            nothing,
            [POOL + 1, 0, 0, 0, 0],
            "a pool of 65,537, before 24",
        ),
        (24, nothing, short(1), "output"),
        (24, nothing, short(2), "lengths"),
        (24, nothing, short(3), "places"),
        (24, nothing, short(4), "reasons"),
        (0, nothing, enough, "enough"),
    ];
    for (number, recording, [pool, output, lengths, places, reasons], name) in cases {
        let bundles: (&mut [u8], &mut [u16]) = (&mut vec![0; output], &mut vec![0; lengths]);
        let notes: (&mut [u32], &mut [u32]) = (&mut vec![0; places], &mut vec![0; reasons]);
        let mut result = [77; 4];
        let pool = &mut vec![0; pool];
        let returned = S::play(recording, 9, pool, bundles, notes, &mut result);
        assert_eq!(returned, number, "{}: {name}", S::NAME);
        let entry = if number == 0 { 0 } else { 77 };
        assert_eq!(result, [entry; 4], "{}: {name}", S::NAME);
    }
}

#[test]
fn reader() {
    opens::<Model>();
    opens::<Exported>();
    open_refuses::<Model>();
    open_refuses::<Exported>();
}

#[test]
fn writer() {
    records::<Model>();
    records::<Exported>();
    record_refuses::<Model>();
    record_refuses::<Exported>();
}

#[test]
fn playback() {
    plays::<Model>();
    plays::<Exported>();
    play_refuses::<Model>();
    play_refuses::<Exported>();
}
