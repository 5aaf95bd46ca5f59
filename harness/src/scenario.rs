//! Scenarios: rows of generated calls on both sides, each fixed by its name and a seed.

use crate::compare::{Lending, Received, ReceiverPair, Send, SenderPair, Sent, Trial};
use crate::coverage::{Coverage, FRAME_LENGTHS};
use crate::generate::{
    self, OpenRow, Piece, SenderEntries, BUNDLE, NO_DRAFT, RECEIVER_DAMAGE, RECEIVER_DRAFT,
    SENDER_DAMAGE, SENDER_DRAFT,
};
use crate::model::receiver::CELL;
use crate::model::{Draft, Settings, Window, MAX_ROWS};
use crate::random::Random;
use btpu::raw::RECEIVER_IMAGE;

mod bursts;
pub mod recordings;
mod windows;

type Scenario = (&'static str, fn(&mut Trial));

pub const SCENARIOS: [Scenario; 30] = [
    ("honest", honest),
    ("sent", sent),
    ("hostile", hostile),
    ("other draft", other_draft),
    ("malformed", malformed),
    ("long lengths", long_lengths),
    ("octets", octets),
    ("places", places),
    ("hints", hints),
    ("dense", dense),
    ("joins", joins),
    ("reserved bits", reserved_bits),
    ("lending", lending),
    ("sound receivers", sound_receivers),
    ("unsound receivers", unsound_receivers),
    ("window edges", windows::edges),
    ("window images", windows::images),
    ("window pools", windows::pools),
    ("window starts", windows::starts),
    ("three windows", windows::three_windows),
    ("sending", sending),
    ("fills", fills),
    ("sound senders", sound_senders),
    ("unsound senders", unsound_senders),
    ("starts", starts),
    ("recordings", recordings::recordings),
    ("damaged recordings", recordings::damaged_recordings),
    ("playbacks", recordings::playbacks),
    ("full recordings", recordings::full_recordings),
    ("bursts", bursts::bursts),
];

/// Runs one scenario.
pub fn run(scenario: &Scenario, seed: u64, coverage: &mut Coverage) {
    coverage.scenarios += 1;
    let mut trial = Trial::new(scenario.0, seed, coverage);
    scenario.1(&mut trial);
}

/// Runs scenarios in turn, with seeds from `seed`, while `more` says so.
pub fn run_all(seed: u64, coverage: &mut Coverage, mut more: impl FnMut(&Coverage) -> bool) {
    let mut seeds = Random::new(seed);
    while more(coverage) {
        for scenario in &SCENARIOS {
            run(scenario, seeds.draw(), coverage);
        }
    }
}

/// A state of the trial's draft and window to begin with: fresh, or any sound one.
fn some_receiver(trial: &mut Trial) -> ReceiverPair {
    if trial.random.once_in(2) {
        return ReceiverPair::start(trial);
    }
    let settings = trial.settings();
    let image = generate::sound_receiver(&mut trial.random, settings);
    ReceiverPair::new(trial, &image)
}

/// The length of a pool that is refused with a board of the trial's window: another window's, or another.
fn wrong_pool(trial: &mut Trial) -> usize {
    let right = trial.window.pool();
    let mut wrong = vec![0, 1, CELL - 1, right - 1, right + 1, 2 * right + 1];
    let others = Window::ALL.map(Window::pool);
    wrong.extend(others.iter().filter(|&&pool| pool != right));
    trial.random.pick(&wrong)
}

/// A call that may stand between the calls of a frame and must be refused.
fn refused_between(trial: &mut Trial, receiver: &mut ReceiverPair, frame: &[u8]) {
    let mut lending = Lending::default();
    let mut place = 0;
    let number = match trial.random.below(3) {
        0 => {
            lending.output = trial.random.pick(&[0, 1, 4095]);
            2
        }
        1 => {
            lending.other_pool = Some(wrong_pool(trial));
            2
        }
        _ => {
            place = frame.len() as u64 + 1 + trial.random.below(3) as u64;
            9
        }
    };
    let received = receiver.receive(trial, frame, place, lending);
    trial.check(received == Received::Refused(number), "refusal expected");
}

/// At times sets reserved bits in the headers of frames, as another head may; draft 00 has none.
fn set_reserved_bits(trial: &mut Trial, frames: &mut [Vec<u8>]) {
    if trial.draft == Draft::D02 && trial.random.once_in(4) {
        for frame in frames {
            *frame = generate::with_reserved_bits(&mut trial.random, frame).0;
        }
    }
}

fn honest(trial: &mut Trial) {
    let mut receiver = ReceiverPair::start(trial);
    let transfers = trial.random.within(1, 24);
    let messages = generate::honest_messages(&mut trial.random, trial.draft, transfers);
    let size = trial.random.pick(&[100, 400, 1000, 2048]);
    let mut frames = generate::pack(&mut trial.random, &messages, size);
    set_reserved_bits(trial, &mut frames);
    for (place, frame) in frames.iter().enumerate() {
        receiver.take(trial, frame, &mut |_| {});
        if trial.random.once_in(8) {
            refused_between(trial, &mut receiver, frame);
        }
        if trial.random.once_in(10) {
            let again = trial.random.below(place + 1);
            receiver.take(trial, &frames[again], &mut |_| {});
        }
    }
}

/// A sender's frames to a receiver. What comes without loss must be what was placed.
fn sent(trial: &mut Trial) {
    let size = generate::frame_size(&mut trial.random);
    let first = generate::first_number(&mut trial.random);
    let mut sender = SenderPair::start(trial, size, first);
    let mut receiver = ReceiverPair::start(trial);
    let mut frames: Vec<Vec<u8>> = Vec::new();
    let mut bundles: Vec<Vec<u8>> = Vec::new();
    for _ in 0..trial.random.within(1, 10) {
        let length = generate::bundle_length(&mut trial.random).max(1);
        let bundle = trial.random.octets(length);
        let whole = length + 4 <= size;
        loop {
            let answer = sender.send(trial, Send::Place(&bundle));
            if matches!(answer, Sent::PlacedAndReady | Sent::Ready) {
                frames.push(sender.frame().to_vec());
            }
            if answer == Sent::Ready {
                continue;
            }
            trial.check(
                matches!(answer, Sent::Placed | Sent::PlacedAndReady),
                "placing is refused",
            );
            if sender.begun().is_none() {
                bundles.push(bundle);
                break;
            }
            trial.check(!whole, "a bundle that goes whole is cut");
            if trial.random.once_in(12) {
                let answer = sender.send(trial, Send::Cancel);
                trial.check(answer == Sent::Placed, "Placed expected of a cancel");
                break;
            }
        }
        if trial.random.once_in(6) && sender.send(trial, Send::Flush) == Sent::Ready {
            frames.push(sender.frame().to_vec());
        }
    }
    if sender.send(trial, Send::Flush) == Sent::Ready {
        frames.push(sender.frame().to_vec());
    }
    check_pieces(trial, &frames);
    set_reserved_bits(trial, &mut frames);
    if trial.random.once_in(2) {
        let mut handed_out: Vec<Vec<u8>> = Vec::new();
        for frame in &frames {
            receiver.take(trial, frame, &mut |bundle| handed_out.push(bundle.to_vec()));
        }
        trial.check(handed_out == bundles, "other bundles than were placed");
        let cases = trial.coverage.of_mut(trial.draft);
        cases.round_trips += bundles.len() as u64;
    } else {
        let reach = trial.random.below(6);
        let mut frames = generate::disorder(&mut trial.random, frames, reach);
        frames.retain(|_| !trial.random.once_in(10));
        for frame in &frames {
            for _ in 0..trial.random.within(1, 2) {
                receiver.take(trial, frame, &mut |_| {});
            }
        }
    }
}

/// Checks the types and indexes of the pieces that a sender has put into frames.
fn check_pieces(trial: &Trial, frames: &[Vec<u8>]) {
    for transfer in generate::transfers(trial.draft, frames) {
        let count = transfer.pieces.len();
        let total = match trial.draft {
            Draft::D00 => transfer.pieces[0].1 as usize + 1,
            Draft::D02 => count + usize::from(transfer.cancelled),
        };
        trial.check(
            if transfer.cancelled {
                count < total
            } else {
                count == total
            },
            "the number of pieces sent",
        );
        for (place, &(kind, index)) in transfer.pieces.iter().enumerate() {
            let piece = Piece::sent(trial.draft, transfer.number, place, total);
            let good = kind == trial.draft.piece_type(piece.end) && index == piece.index;
            trial.check(good, "a piece sent");
        }
    }
}

fn hostile(trial: &mut Trial) {
    let mut receiver = some_receiver(trial);
    for _ in 0..trial.random.within(1, 12) {
        let frame = hostile_frame(trial, &receiver);
        receiver.take(trial, &frame, &mut |_| {});
    }
}

/// A frame of hostile messages for a board of the trial.
fn hostile_frame(trial: &mut Trial, receiver: &ReceiverPair) -> Vec<u8> {
    let settings = trial.settings();
    generate::hostile_frame(&mut trial.random, settings, receiver.greatest())
}

/// A board gets frames of the other draft among its own. Draft 00 refuses those of draft 02 that have
/// flags, and no others; draft 02 refuses none.
fn other_draft(trial: &mut Trial) {
    let mut receiver = some_receiver(trial);
    let other = trial.draft.other();
    let mut frames = match trial.random.below(3) {
        0 => generate::sent_frames(&mut trial.random, other),
        1 => {
            let messages = generate::honest_messages(&mut trial.random, other, 4);
            generate::pack(&mut trial.random, &messages, 300)
        }
        _ => Vec::new(),
    };
    for _ in 0..trial.random.within(1, 6) {
        let settings = Settings::new(other, trial.window);
        let greatest = receiver.greatest();
        let frame = generate::hostile_frame(&mut trial.random, settings, greatest);
        frames.push(frame);
    }
    for frame in &frames {
        let flagged = generate::headers(other, frame)
            .iter()
            .any(|start| frame[start + 1] != 0);
        let refused = trial.draft == Draft::D00 && flagged;
        let received = receiver.receive(trial, frame, 0, Lending::default());
        trial.check(
            (received == Received::Refused(6)) == refused,
            "flags of the other draft",
        );
        if !refused {
            receiver.take(trial, frame, &mut |_| {});
        }
        let cases = trial.coverage.of_mut(trial.draft);
        cases.other_frames[usize::from(refused)] += 1;
        if trial.random.once_in(3) {
            let own = hostile_frame(trial, &receiver);
            receiver.take(trial, &own, &mut |_| {});
        }
    }
}

/// A length of 65,536 or more runs past every frame. In draft 00 every bit of the second octet makes it
/// so, in draft 02 the four lowest.
fn long_lengths(trial: &mut Trial) {
    let mut receiver = some_receiver(trial);
    for _ in 0..trial.random.within(2, 8) {
        let mut frame = hostile_frame(trial, &receiver);
        let headers = generate::headers(trial.draft, &frame);
        if headers.is_empty() {
            continue;
        }
        let any = trial.random.within(1, 255) as u8;
        let mut high = trial
            .random
            .pick(&[1, 8, 0x0f, 0x10, 0x80, 0xf0, 0xff, any]);
        if trial.draft == Draft::D02 && high & 0x0f == 0 {
            high |= 1;
        }
        frame[trial.random.pick(&headers) + 1] = high;
        let received = receiver.receive(trial, &frame, 0, Lending::default());
        trial.check(received == Received::Refused(6), "a length past the frame");
    }
}

fn malformed(trial: &mut Trial) {
    let mut receiver = some_receiver(trial);
    for _ in 0..trial.random.within(4, 16) {
        let mut frame = hostile_frame(trial, &receiver);
        for _ in 0..trial.random.within(1, 2) {
            generate::damage_frame(&mut trial.random, trial.draft, &mut frame);
        }
        let place = match trial.random.below(4) {
            0 => trial.random.below(frame.len() + 2) as u64,
            _ => 0,
        };
        receiver.receive(trial, &frame, place, Lending::default());
        if place == 0 && trial.random.once_in(4) {
            receiver.take(trial, &frame, &mut |_| {});
        }
    }
}

fn octets(trial: &mut Trial) {
    let mut receiver = some_receiver(trial);
    for _ in 0..trial.random.within(4, 16) {
        let frame = generate::random_frame(&mut trial.random);
        receiver.take(trial, &frame, &mut |_| {});
    }
}

/// Every place of short frames, and places beyond.
fn places(trial: &mut Trial) {
    let mut receiver = some_receiver(trial);
    let mut greatest = receiver.greatest();
    let mut frame = Vec::new();
    for _ in 0..trial.random.within(1, 4) {
        let message = if trial.random.once_in(2) {
            generate::passed(&mut trial.random, trial.draft, 20)
        } else {
            let settings = trial.settings();
            generate::hostile_message(&mut trial.random, settings, &mut greatest)
        };
        if frame.len() + message.len() <= 120 {
            frame.extend(message);
        }
    }
    if frame.is_empty() {
        frame.push(0);
    }
    let good = generate::good_places(trial.draft, &frame);
    for place in 0..frame.len() as u64 + 3 {
        let received = receiver.receive(trial, &frame, place, Lending::default());
        let refused = received == Received::Refused(9);
        trial.check(refused != good.contains(&place), "good place");
    }
    for base in [
        1 << 16,
        1 << 31,
        1 << 32,
        1 << 63,
        u64::MAX - frame.len() as u64,
    ] {
        let place = base + trial.random.pick(&good);
        let received = receiver.receive(trial, &frame, place, Lending::default());
        trial.check(received == Received::Refused(9), "place far beyond");
    }
}

/// Chains of hints of every length, whole and cut, before content that just suffices or does not.
fn hints(trial: &mut Trial) {
    trial.draft = Draft::D02;
    let mut receiver = ReceiverPair::start(trial);
    for _ in 0..trial.random.within(4, 12) {
        let count = trial.random.pick(&[1, 2, 3, 20, 300, 1000, 1022]);
        let mut chain = Vec::new();
        for at in 0..count {
            let more = u8::from(at + 1 < count);
            let length = match count {
                1..=3 => trial.random.pick(&[0, 1, 100, 254, 255]),
                4..=300 => trial.random.below(4),
                _ => 0,
            };
            chain.extend([trial.random.octet() & 0xfe | more, length as u8]);
            chain.extend(trial.random.octets(length));
        }
        let kind = trial.random.within(2, 5) as u8;
        let length = trial.random.pick(&[0, 3, 4, 5, 7, 8, 9, 20]);
        let content = trial.random.octets(length.min(2044 - chain.len()));
        let mut frame = generate::message(kind, &chain, &content);
        match trial.random.below(4) {
            0 => {
                // The message ends somewhere in the chain.
                let length = trial.random.below(chain.len() + 1);
                frame.truncate(4 + length);
                frame[2..4].copy_from_slice(&(length as u16).to_be_bytes());
            }
            1 => {
                // The last hint says that another follows.
                let last = chain_end(&chain);
                frame[4 + last] |= 1;
                receiver.receive(trial, &frame, 0, Lending::default());
            }
            _ => {
                let received = receiver.receive(trial, &frame, 0, Lending::default());
                let taken = !matches!(received, Received::Refused(_));
                trial.coverage.long_chains += u64::from(taken && count >= 1000);
            }
        }
        receiver.take(trial, &frame, &mut |_| {});
    }
}

/// Frames of as many messages as they can hold.
fn dense(trial: &mut Trial) {
    let mut receiver = some_receiver(trial);
    let style = trial.random.below(3);
    let bundles = trial.random.pick(&[10, 100, usize::MAX]);
    let mut frame: Vec<u8> = Vec::new();
    while frame.len() + 4 <= 2048 {
        let kind = match trial.random.once_in(bundles) {
            true => BUNDLE,
            false => trial.random.pick(&[1, 6, 255]),
        };
        frame.extend(generate::message(kind, &[], &[]));
        if style == 1 && frame.len() < 2048 {
            frame.push(0);
        }
        if style == 2 && trial.random.once_in(8) {
            let piece = Piece {
                number: receiver.greatest().unwrap_or(0),
                index: trial.random.below(64) as u32,
                end: trial.random.once_in(10),
            };
            let message = piece.message(trial.draft, &[], &[]);
            if frame.len() + message.len() <= 2048 {
                frame.extend(message);
            }
        }
    }
    let messages = generate::message_count(trial.draft, &frame);
    let cases = trial.coverage.of_mut(trial.draft);
    cases.dense_frames += u64::from(messages.is_some_and(|count| count >= 500));
    receiver.take(trial, &frame, &mut |_| {});
}

/// The place of a chain's last hint.
fn chain_end(chain: &[u8]) -> usize {
    let mut at = 0;
    while chain[at] & 1 == 1 && at + 2 + usize::from(chain[at + 1]) < chain.len() {
        at += 2 + usize::from(chain[at + 1]);
    }
    at
}

/// Transfers whose pieces come in rising, falling or any order. What is handed out must be the bundle
/// that was cut.
fn joins(trial: &mut Trial) {
    let mut receiver = ReceiverPair::start(trial);
    let first = generate::first_number(&mut trial.random);
    for transfer in 0..trial.random.within(1, 8) {
        let number = first.wrapping_add(transfer as u32);
        let length = match trial.random.below(2) {
            0 => CELL,
            _ => generate::bundle_length(&mut trial.random),
        };
        let bundle = trial.random.octets(length);
        let mut pieces = generate::cut(&mut trial.random, &bundle, 63);
        if trial.random.once_in(2) {
            pieces.push(&[]);
        }
        let mut order: Vec<usize> = (0..pieces.len()).collect();
        match trial.random.below(3) {
            0 => {}
            1 => order.reverse(),
            _ => trial.random.shuffle(&mut order),
        }
        let mut handed_out: Vec<Vec<u8>> = Vec::new();
        for place in order {
            let piece = Piece::sent(trial.draft, number, place, pieces.len());
            let frame = piece.message(trial.draft, &[], pieces[place]);
            receiver.take(trial, &frame, &mut |bundle| {
                handed_out.push(bundle.to_vec())
            });
        }
        trial.check(handed_out == [bundle], "another bundle than was cut");
    }
}

/// Two receivers with one state take the same frames, good and damaged, the second with other reserved
/// bits in the headers. Nothing that they answer or leave may differ.
fn reserved_bits(trial: &mut Trial) {
    trial.draft = Draft::D02;
    let mut receiver = some_receiver(trial);
    let mut second = receiver.clone();
    for _ in 0..trial.random.within(4, 16) {
        let mut frame = match trial.random.below(8) {
            0 => generate::random_frame(&mut trial.random),
            _ => hostile_frame(trial, &receiver),
        };
        if trial.random.once_in(3) && !frame.is_empty() {
            generate::damage_frame(&mut trial.random, trial.draft, &mut frame);
        }
        let (other, changes) = generate::with_reserved_bits(&mut trial.random, &frame);
        let mut place = match trial.random.below(8) {
            0 => trial.random.below(frame.len() + 2) as u64,
            _ => 0,
        };
        loop {
            let received = receiver.receive(trial, &frame, place, Lending::default());
            second.receive(trial, &other, place, Lending::default());
            receiver.check_same(trial, &second);
            match received {
                Received::Bundle { next, .. } => {
                    place = next;
                    continue;
                }
                Received::Finished => trial.coverage.reserved(&changes, false),
                Received::Refused(4..=8) => trial.coverage.reserved(&changes, true),
                Received::Refused(_) => {}
            }
            break;
        }
    }
}

/// Every type of message, without and with H, and with all reserved bits that it may have.
pub fn reserved_bits_of_every_type(trial: &mut Trial) {
    trial.draft = Draft::D02;
    let content = [2, 1, 0xff, 0, 0, 0, 5, 0, 0, 0, 0, 0x41];
    for kind in 1..=255 {
        for flag in [0, 0x80] {
            let before = some_receiver(trial);
            let mut frame = generate::message(kind, &[], &content);
            frame[1] |= flag;
            let mut receiver = before.clone();
            receiver.receive(trial, &frame, 0, Lending::default());
            for bits in 1..8 {
                let mut second = before.clone();
                frame[1] = flag | bits << 4;
                second.receive(trial, &frame, 0, Lending::default());
                receiver.check_same(trial, &second);
            }
        }
    }
}

/// Every type of message of draft 00 with each bit of the length's highest octet.
pub fn long_lengths_of_every_type(trial: &mut Trial) {
    trial.draft = Draft::D00;
    let mut receiver = ReceiverPair::start(trial);
    for kind in 1..=255 {
        let mut frame = generate::message(kind, &[], &[0, 0, 0, 5]);
        let received = receiver.receive(trial, &frame, 0, Lending::default());
        let short = received == Received::Refused(8);
        trial.check(short == matches!(kind, 3 | 4), "a short start or segment");
        for bit in 0..8 {
            frame[1] = 1 << bit;
            let received = receiver.receive(trial, &frame, 0, Lending::default());
            trial.check(received == Received::Refused(6), "a length past the frame");
        }
    }
}

/// Wrong sizes of everything lent, alone and together.
fn lending(trial: &mut Trial) {
    let mut receiver = some_receiver(trial);
    for _ in 0..trial.random.within(4, 16) {
        let mut frame = hostile_frame(trial, &receiver);
        if trial.random.once_in(3) {
            let length = trial.random.pick(&FRAME_LENGTHS);
            frame.resize(length, 0);
        }
        if trial.random.once_in(4) && !frame.is_empty() {
            generate::damage_frame(&mut trial.random, trial.draft, &mut frame);
        }
        let lending = Lending {
            other_pool: match trial.random.below(6) {
                0 => Some(trial.window.pool()),
                1 => Some(wrong_pool(trial)),
                _ => None,
            },
            output: trial
                .random
                .pick(&[0, 1, 2048, 4095, 4096, 4096, 4097, 6000]),
        };
        let place = trial.random.pick(&[0, 0, 0, 1, frame.len() as u64]);
        receiver.receive(trial, &frame, place, lending);
    }
}

/// Any sound state, then pieces that just fit, complete, repeat, contradict or overflow its rows.
fn sound_receivers(trial: &mut Trial) {
    let other = Settings::new(trial.draft.other(), trial.window);
    let mut image = generate::sound_receiver(&mut trial.random, other);
    let receiver = ReceiverPair::new(trial, &image);
    trial.check(receiver.is_sound(), "sound in one draft alone");
    image[RECEIVER_DRAFT] = trial.draft.octet();
    let mut receiver = ReceiverPair::new(trial, &image);
    for _ in 0..trial.random.within(8, 40) {
        let greatest = receiver.greatest().expect("it stays");
        let rows = trial.window.rows();
        let number = greatest.wrapping_sub(trial.random.below(rows) as u32);
        let octets = generate::row(receiver.image(), number as usize % rows);
        let frame = if octets[0] == 1 {
            let open = OpenRow::read(octets);
            let (piece, data) = generate::piece_for(&mut trial.random, &open, number);
            piece.message(trial.draft, &[], &data)
        } else {
            let settings = trial.settings();
            generate::hostile_message(&mut trial.random, settings, &mut Some(number))
        };
        let received = receiver.receive(trial, &frame, 0, Lending::default());
        trial.check(
            !matches!(received, Received::Refused(_)),
            "sound state refused",
        );
    }
}

fn unsound_receivers(trial: &mut Trial) {
    for (damage, &name) in RECEIVER_DAMAGE.iter().enumerate() {
        let settings = trial.settings();
        let mut image = generate::unsound_receiver(&mut trial.random, settings, damage);
        let mut receiver = ReceiverPair::new(trial, &image);
        let frame = generate::random_frame(&mut trial.random);
        let mut lending = Lending::default();
        if trial.random.once_in(4) {
            lending.output = trial.random.below(4096);
        }
        let received = receiver.receive(trial, &frame, 0, lending);
        trial.check(
            received == Received::Refused(1),
            &format!("unsound state accepted: {name}"),
        );
        trial.coverage.of_mut(trial.draft).receiver_damage[damage] += 1;
        image[RECEIVER_DRAFT] = trial.draft.other().octet();
        receiver.set_image(trial, &image);
        trial.check(
            receiver.is_sound() == (name == NO_DRAFT),
            &format!("in the other draft: {name}"),
        );
        receiver.restart(trial);
    }
    damaged_receivers(trial);
}

/// Damage anywhere, which may also leave the state sound.
fn damaged_receivers(trial: &mut Trial) {
    let mut receiver = some_receiver(trial);
    for _ in 0..16 {
        let settings = trial.settings();
        let mut image = generate::sound_receiver(&mut trial.random, settings);
        for _ in 0..trial.random.within(1, 3) {
            let row = 8 + trial.random.below(MAX_ROWS) * generate::ROW_IMAGE;
            let at = match trial.random.below(3) {
                0 => trial.random.below(8),
                1 => row + trial.random.below(12),
                _ => trial.random.below(RECEIVER_IMAGE),
            };
            image[at] = trial.random.pick(&[0, 1, 2, 4, 8, 16, 63, 64, 255]);
        }
        receiver.set_image(trial, &image);
        let frame = generate::hostile_frame(&mut trial.random, settings, Some(7));
        receiver.receive(trial, &frame, 0, Lending::default());
    }
}

/// Lengths at the edges of what fits the room, the frame and the limits.
fn edge_lengths(size: usize, fill: usize) -> [usize; 14] {
    let room = size - fill;
    [
        0,
        1,
        room.saturating_sub(5),
        room.saturating_sub(4),
        room.saturating_sub(3),
        size - 5,
        size - 4,
        size - 3,
        size - 2,
        (size - 12) + room.saturating_sub(12),
        (size - 12) + room.saturating_sub(12) + 1,
        4095,
        4096,
        4097,
    ]
}

fn sending(trial: &mut Trial) {
    let size = generate::frame_size(&mut trial.random);
    let first = generate::first_number(&mut trial.random);
    let mut sender = SenderPair::start(trial, size, first);
    let mut bundle = Vec::new();
    for _ in 0..trial.random.within(10, 60) {
        if sender.begun().is_none() {
            let length = match trial.random.below(3) {
                0 => trial.random.pick(&edge_lengths(size, sender.fill())),
                1 => trial.random.within(1, 60),
                _ => generate::bundle_length(&mut trial.random),
            };
            bundle = trial.random.octets(length);
        }
        let call = match trial.random.below(12) {
            0 => Send::Cancel,
            1 => Send::Flush,
            _ => Send::Place(&bundle),
        };
        match trial.random.below(12) {
            0 => {
                let length = trial.random.pick(&[0, 1, size - 1, size + 1, 2048, 4096]);
                sender.send_elsewhere(trial, call, length);
            }
            1 => {
                let length = trial.random.below(4200);
                let other = trial.random.octets(length);
                if sender.begun().is_some() {
                    sender.send(trial, Send::Place(&other));
                }
            }
            _ => {
                sender.send(trial, call);
            }
        }
    }
}

/// Every call of a sender with this frame size and fill, for lengths at the edges.
pub fn fill_edges(trial: &mut Trial, size: usize, fill: usize) {
    let entries = SenderEntries {
        frame_size: size as u16,
        fill: fill as u16,
        next_number: match trial.random.once_in(2) {
            true => u32::MAX,
            false => generate::first_number(&mut trial.random),
        },
        draft: trial.draft.octet(),
        ..SenderEntries::default()
    };
    let image = entries.image();
    for length in edge_lengths(size, fill) {
        let mut sender = SenderPair::new(trial, &image);
        let bundle = trial.random.octets(length);
        let answer = sender.send(trial, Send::Place(&bundle));
        let refused = answer == Sent::Refused(11);
        let outside = length == 0 || length > 4096;
        trial.check(refused == outside, "length of a bundle");
    }
    let mut sender = SenderPair::new(trial, &image);
    let answer = sender.send(trial, Send::Cancel);
    trial.check(answer == Sent::Refused(13), "cancel with nothing begun");
    let answer = sender.send(trial, Send::Flush);
    let expected = if fill == 0 {
        Sent::Nothing
    } else {
        Sent::Ready
    };
    trial.check(answer == expected, "flush");
}

fn fills(trial: &mut Trial) {
    let size = generate::frame_size(&mut trial.random);
    let fill = match trial.random.below(4) {
        // Room for a piece of one octet, and for none.
        0 => size - 13,
        1 => size - 12,
        2 => size - trial.random.within(1, 20),
        _ => trial.random.below(size),
    };
    fill_edges(trial, size, fill);
}

fn sound_senders(trial: &mut Trial) {
    for _ in 0..trial.random.within(2, 8) {
        in_another_draft(trial);
        let entries = SenderEntries::any(&mut trial.random, trial.draft);
        let mut sender = SenderPair::new(trial, &entries.image());
        let flushed = sender.send(trial, Send::Flush);
        trial.check(
            matches!(flushed, Sent::Nothing | Sent::Ready),
            "sound state refused",
        );
        if let Some(length) = sender.begun() {
            place_rest(trial, &mut sender, length, entries.next_index);
        }
    }
}

/// Places what remains of a transfer begun, or cancels it on the way.
fn place_rest(trial: &mut Trial, sender: &mut SenderPair, length: usize, next_index: u32) {
    if trial.random.once_in(3) {
        let wrong = trial
            .random
            .pick(&[length - 1, (length + 1).min(4096), 1, 4096]);
        let bundle = trial.random.octets(wrong);
        let answer = sender.send(trial, Send::Place(&bundle));
        trial.check(
            (answer == Sent::Refused(12)) == (wrong != length),
            "length of the transfer begun",
        );
        if wrong == length {
            return;
        }
    }
    let bundle = trial.random.octets(length);
    let mut pieces = 0;
    let mut cancelled = false;
    while sender.begun().is_some() {
        cancelled = trial.random.once_in(20);
        if cancelled {
            sender.send(trial, Send::Cancel);
        } else {
            sender.send(trial, Send::Place(&bundle));
            pieces += 1;
        }
    }
    let good = match trial.draft {
        Draft::D00 => cancelled || pieces == next_index + 1,
        Draft::D02 => next_index + pieces <= 64,
    };
    trial.check(good, "the number of pieces");
}

/// A sound state of the other draft as one of the trial's, which it may not be.
fn in_another_draft(trial: &mut Trial) {
    let mut entries = SenderEntries::any(&mut trial.random, trial.draft.other());
    let sender = SenderPair::new(trial, &entries.image());
    trial.check(sender.is_sound(), "sound state refused");
    entries.draft = trial.draft.octet();
    let mut sender = SenderPair::new(trial, &entries.image());
    let bundle = trial.random.octets(usize::from(entries.length).max(1));
    sender.send(trial, Send::Place(&bundle));
}

fn unsound_senders(trial: &mut Trial) {
    for (damage, &name) in SENDER_DAMAGE.iter().enumerate() {
        let mut image = generate::unsound_sender(&mut trial.random, trial.draft, damage);
        let mut sender = SenderPair::new(trial, &image);
        let length = trial.random.pick(&[0, 1, 300, 4096, 4097]);
        let bundle = trial.random.octets(length);
        for call in [Send::Place(&bundle), Send::Cancel, Send::Flush] {
            let answer = if trial.random.once_in(5) {
                sender.send_elsewhere(trial, call, 127)
            } else {
                sender.send(trial, call)
            };
            trial.check(
                answer == Sent::Refused(1),
                &format!("unsound state accepted: {name}"),
            );
        }
        trial.coverage.of_mut(trial.draft).sender_damage[damage] += 1;
        // In the other draft it may be sound.
        let undone = name == NO_DRAFT;
        let draft = if undone {
            trial.draft
        } else {
            trial.draft.other()
        };
        image[SENDER_DRAFT] = draft.octet();
        let mut sender = SenderPair::new(trial, &image);
        sender.send(trial, Send::Place(&bundle));
        trial.check(sender.is_sound() || !undone, "sound state refused");
    }
    damaged_senders(trial);
}

/// Damage anywhere, which may also leave the state sound.
fn damaged_senders(trial: &mut Trial) {
    for _ in 0..16 {
        let entries = SenderEntries::any(&mut trial.random, trial.draft);
        let mut image = entries.image();
        let at = trial.random.below(image.len());
        image[at] = trial.random.pick(&[0, 1, 2, 127, 128, 255]);
        let mut sender = SenderPair::new(trial, &image);
        let bundle = trial.random.octets(usize::from(entries.length).max(1));
        sender.send(trial, Send::Place(&bundle));
        sender.send(trial, Send::Flush);
    }
}

fn starts(trial: &mut Trial) {
    let first = generate::first_number(&mut trial.random);
    let good = trial.random.within(128, 2048) as u64;
    let sizes = [
        0,
        1,
        127,
        128,
        good,
        2048,
        2049,
        65_536 + good,
        (1 << 32) + good,
        u64::MAX,
    ];
    for size in sizes {
        let image = trial.random.array();
        let mut sender = SenderPair::new(trial, &image);
        let number = sender.restart(trial, trial.draft, size, first);
        let expected = if (128..=2048).contains(&size) { 0 } else { 14 };
        trial.check(number == expected, "sender's start");
    }
}
