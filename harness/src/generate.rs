//! Messages, frames and states, good and damaged.

use crate::coverage::{edges, NO_WINDOWS};
use crate::model::{wire, Distance, Draft, Layout00, Layout02, Settings, Window, MAX_ROWS};
use crate::random::Random;
use btpu::raw::{RECEIVER_IMAGE, SENDER_IMAGE};

mod recordings;

pub use recordings::{
    damage_recording, full_frames, joined, recorded, recorded_frames, recording, sent_frames,
    small_frames, unrecordable, PLAYBACK, UNRECORDABLE,
};

/// Where images say their draft, and a receiver's its window.
pub const RECEIVER_WINDOW: usize = 1;
pub const RECEIVER_DRAFT: usize = 2;
pub const SENDER_DRAFT: usize = 9;

pub const ROW_IMAGE: usize = 196;
const PIECES: usize = 64;
const CELL: usize = 4096;
const MAX_FRAME: usize = 2048;

pub const PADDING: u8 = 1;
pub const BUNDLE: u8 = 2;
pub const CANCEL: u8 = 5;

/// A headed message; `hints` is a chain, or empty, as always in draft 00.
pub fn message(kind: u8, hints: &[u8], content: &[u8]) -> Vec<u8> {
    let length = hints.len() + content.len();
    let flags = if hints.is_empty() { 0 } else { 0x80 };
    let mut octets = vec![
        kind,
        flags | (length >> 16) as u8,
        (length >> 8) as u8,
        length as u8,
    ];
    octets.extend(hints);
    octets.extend(content);
    octets
}

/// A piece of a transfer: its index, and whether it is an end, for which a start stands in draft 00.
#[derive(Clone, Copy, Debug, PartialEq, Eq)]
pub struct Piece {
    pub number: u32,
    pub index: u32,
    pub end: bool,
}

impl Piece {
    /// The piece that is sent at a place, from 0, among so many of its transfer.
    pub fn sent(draft: Draft, number: u32, place: usize, count: usize) -> Piece {
        let (index, end) = match draft {
            Draft::D00 => (count - 1 - place, place == 0),
            Draft::D02 => (place, place + 1 == count),
        };
        Piece {
            number,
            index: index as u32,
            end,
        }
    }

    pub fn message(self, draft: Draft, hints: &[u8], data: &[u8]) -> Vec<u8> {
        let mut content = self.number.to_be_bytes().to_vec();
        content.extend(self.index.to_be_bytes());
        content.extend(data);
        message(draft.piece_type(self.end), hints, &content)
    }
}

pub fn cancel(number: u32, hints: &[u8]) -> Vec<u8> {
    message(CANCEL, hints, &number.to_be_bytes())
}

/// A chain of hints of at most `budget` octets, empty more often than not, and in draft 00 always.
pub fn hints(random: &mut Random, draft: Draft, budget: usize) -> Vec<u8> {
    let mut chain = Vec::new();
    if draft == Draft::D00 || budget < 2 || !random.once_in(4) {
        return chain;
    }
    loop {
        let room = budget - chain.len() - 2;
        let length = match random.below(4) {
            0 => 0,
            1 => random.below(9),
            _ => random.below(40),
        }
        .min(room)
        .min(255);
        let more = random.once_in(2) && room >= length + 2;
        chain.extend([random.octet() & 0xfe | u8::from(more), length as u8]);
        chain.extend(random.octets(length));
        if !more {
            return chain;
        }
    }
}

/// Padding or a message of a type that is passed over, of at most `budget` octets.
pub fn passed(random: &mut Random, draft: Draft, budget: usize) -> Vec<u8> {
    if budget < 4 || random.once_in(3) {
        return vec![0; random.within(1, 6).min(budget)];
    }
    let kind = if random.once_in(2) {
        PADDING
    } else {
        random.within(6, 255) as u8
    };
    let length = random.below(30).min(budget - 4);
    let content = random.octets(length);
    let mut octets = message(kind, &[], &content);
    // H has no meaning in these types.
    if draft == Draft::D02 && random.once_in(4) {
        octets[1] |= 0x80;
    }
    octets
}

/// Packs messages one behind the other into frames of at most `size` octets.
pub fn pack(random: &mut Random, messages: &[Vec<u8>], size: usize) -> Vec<Vec<u8>> {
    let mut frames = Vec::new();
    let mut frame: Vec<u8> = Vec::new();
    for message in messages {
        let full = frame.len() + message.len() > size.max(message.len());
        if !frame.is_empty() && (full || random.once_in(30)) {
            frames.push(std::mem::take(&mut frame));
        }
        frame.extend(message);
    }
    if !frame.is_empty() {
        frames.push(frame);
    }
    frames
}

/// A header with other reserved bits: the message's type, and the bits that were changed.
pub type Change = (u8, u8);

/// The frame with reserved flag bits set or cleared at random in the headers of its messages, up to
/// the one that runs past its end.
pub fn with_reserved_bits(random: &mut Random, frame: &[u8]) -> (Vec<u8>, Vec<Change>) {
    let mut octets = frame.to_vec();
    let mut changes = Vec::new();
    let mut at = 0;
    while at < octets.len() {
        if octets[at] == 0 {
            at += 1;
            continue;
        }
        let Some(&[kind, flags, high, low]) = octets[at..].first_chunk::<4>() else {
            break;
        };
        let bits = (random.below(8) as u8) << 4;
        octets[at + 1] = flags & 0x8f | bits;
        if octets[at + 1] != flags {
            changes.push((kind, flags & 0x70 ^ bits));
        }
        at += 4 + u32::from_be_bytes([0, flags & 0x0f, high, low]) as usize;
    }
    (octets, changes)
}

/// Good places of a well-formed frame, or those up to the first bad message.
pub fn good_places(draft: Draft, frame: &[u8]) -> Vec<u64> {
    let mut places = vec![0];
    let mut at = 0;
    while at < frame.len() {
        let Some(next) = next_place(draft, frame, at) else {
            break;
        };
        at = next;
        places.push(at as u64);
    }
    places
}

/// The number of messages of a frame, or nothing if it is malformed.
pub fn message_count(draft: Draft, frame: &[u8]) -> Option<u64> {
    let mut count = 0;
    let mut at = 0;
    while at < frame.len() {
        at = next_place(draft, frame, at)?;
        count += 1;
    }
    Some(count)
}

/// The place after the message that starts there, or nothing if it is bad.
fn next_place(draft: Draft, frame: &[u8], at: usize) -> Option<usize> {
    let read = match draft {
        Draft::D00 => wire::read::<Layout00>(frame, at),
        Draft::D02 => wire::read::<Layout02>(frame, at),
    };
    Some(read.ok()?.1)
}

/// Where the headed messages of a frame start, up to the first bad message.
pub fn headers(draft: Draft, frame: &[u8]) -> Vec<usize> {
    let places = good_places(draft, frame).into_iter();
    let places = places.map(|place| place as usize);
    places
        .filter(|&place| frame.get(place).is_some_and(|&kind| kind != 0))
        .collect()
}

/// What a sender's frames hold of one transfer.
#[derive(Clone, Debug, PartialEq, Eq)]
pub struct SentTransfer {
    pub number: u32,
    /// Type and index of each piece, one at least, in the order in which they were sent.
    pub pieces: Vec<(u8, u32)>,
    pub cancelled: bool,
}

/// The transfers of a sender's frames.
pub fn transfers(draft: Draft, frames: &[Vec<u8>]) -> Vec<SentTransfer> {
    let mut sent: Vec<SentTransfer> = Vec::new();
    for frame in frames {
        for start in headers(draft, frame) {
            let word = |at: usize| {
                let octets = frame[start + at..][..4].try_into();
                u32::from_be_bytes(octets.expect("four octets"))
            };
            let last = sent.last_mut();
            match (frame[start], last) {
                (CANCEL, Some(last)) if last.number == word(4) => last.cancelled = true,
                (kind @ (3 | 4), Some(last)) if last.number == word(4) => {
                    last.pieces.push((kind, word(8)));
                }
                (kind @ (3 | 4), _) => sent.push(SentTransfer {
                    number: word(4),
                    pieces: vec![(kind, word(8))],
                    cancelled: false,
                }),
                _ => {}
            }
        }
    }
    sent
}

/// A number to start from, often just before one of the wraps.
pub fn first_number(random: &mut Random) -> u32 {
    match random.below(4) {
        0 => random.word(),
        1 => 0u32.wrapping_sub(random.below(40) as u32),
        2 => (1u32 << 31).wrapping_sub(random.below(40) as u32),
        _ => random.below(40) as u32,
    }
}

/// Cuts a bundle into at most `most` pieces of at most 2,000 octets, some of them empty.
pub fn cut<'a>(random: &mut Random, bundle: &'a [u8], most: usize) -> Vec<&'a [u8]> {
    let count = random.edge_or_within(bundle.len().div_ceil(2000).max(1), most.max(3));
    let mut marks: Vec<usize> = (1..count).map(|_| random.below(bundle.len() + 1)).collect();
    marks.push(0);
    marks.push(bundle.len());
    marks.sort();
    let good = marks.windows(2).all(|pair| pair[1] - pair[0] <= 2000);
    if !good {
        let size = bundle.len().div_ceil(count).max(1);
        return bundle.chunks(size).collect();
    }
    marks
        .windows(2)
        .map(|pair| &bundle[pair[0]..pair[1]])
        .collect()
}

pub fn bundle_length(random: &mut Random) -> usize {
    match random.below(8) {
        0 => 0,
        1 => 1,
        2 => CELL,
        3 => random.within(0, CELL),
        _ => random.within(0, 300),
    }
}

/// Moves each entry by at most about `reach` places.
pub fn disorder<T>(random: &mut Random, list: Vec<T>, reach: usize) -> Vec<T> {
    let mut keyed: Vec<(usize, T)> = list
        .into_iter()
        .enumerate()
        .map(|(place, entry)| (place + random.below(reach + 1), entry))
        .collect();
    keyed.sort_by_key(|entry| entry.0);
    keyed.into_iter().map(|entry| entry.1).collect()
}

/// Messages of an honest record: several transfers with loss, repeats, disorder and cancels.
pub fn honest_messages(random: &mut Random, draft: Draft, transfers: usize) -> Vec<Vec<u8>> {
    let mut messages = Vec::new();
    let mut number = first_number(random);
    let most = random.pick(&[3, 8, 20, 64]);
    let loss = random.pick(&[8, 40, usize::MAX]);
    for _ in 0..transfers {
        let length = bundle_length(random);
        let bundle = random.octets(length);
        let pieces = cut(random, &bundle, most);
        let count = pieces.len();
        let mut own = Vec::new();
        for (place, data) in pieces.into_iter().enumerate() {
            let hints = hints(random, draft, 30);
            let octets = Piece::sent(draft, number, place, count).message(draft, &hints, data);
            if random.once_in(10) {
                own.push(octets.clone());
            }
            own.push(octets);
        }
        if random.once_in(6) {
            let hints = hints(random, draft, 20);
            own.insert(random.below(own.len() + 1), cancel(number, &hints));
        }
        messages.extend(own);
        if random.once_in(3) {
            let hints = hints(random, draft, 30);
            let length = random.below(60);
            messages.push(message(BUNDLE, &hints, &random.octets(length)));
        }
        if random.once_in(3) {
            messages.push(passed(random, draft, 40));
        }
        number = number.wrapping_add(1);
    }
    let reach = random.pick(&[0, 0, 3, 20, 100]);
    let mut messages = disorder(random, messages, reach);
    messages.retain(|_| !random.once_in(loss));
    messages
}

/// Numbers near the window and far away, as seen from the greatest number so far.
fn hostile_number(random: &mut Random, window: Window, greatest: &mut Option<u32>) -> u32 {
    let Some(from) = *greatest else {
        let number = first_number(random);
        *greatest = Some(number);
        return number;
    };
    let difference = match random.below(24) {
        0..=9 => 0u32.wrapping_sub(random.below(3) as u32),
        10..=15 => 0u32.wrapping_sub(random.below(window.rows() + 2) as u32),
        16..=18 => random.below(3) as u32,
        19 => random.below(window.rows() + 4) as u32,
        20 => random.word(),
        21 => edge_of_any_window(random),
        _ => random.pick(&edges(window)),
    };
    let number = from.wrapping_add(difference);
    if window.distance(difference) == Distance::New {
        *greatest = Some(number);
    }
    number
}

/// The edges of the other windows are no edges of a board's own.
fn edge_of_any_window(random: &mut Random) -> u32 {
    let window = random.pick(&Window::ALL);
    random.pick(&edges(window))
}

fn hostile_index(random: &mut Random) -> u32 {
    match random.below(20) {
        0 => random.pick(&[61, 62, 63]),
        1 => random.pick(&[64, 65, 127, 128, 255, 256, 257, 1 << 16, 1 << 31, u32::MAX]),
        2..=4 => random.below(64) as u32,
        _ => random.below(5) as u32,
    }
}

fn data_length(random: &mut Random) -> usize {
    match random.below(12) {
        0 => 0,
        1 => random.within(1000, 2000),
        2 => random.within(100, 1000),
        _ => random.within(0, 12),
    }
}

/// One well-formed message with a hostile number and index.
pub fn hostile_message(
    random: &mut Random,
    Settings { draft, window }: Settings,
    greatest: &mut Option<u32>,
) -> Vec<u8> {
    let chain = hints(random, draft, 24);
    match random.below(20) {
        0 => passed(random, draft, 40),
        1 => {
            let length = random.below(40);
            message(BUNDLE, &chain, &random.octets(length))
        }
        2 => cancel(hostile_number(random, window, greatest), &chain),
        _ => {
            let piece = Piece {
                number: hostile_number(random, window, greatest),
                index: hostile_index(random),
                end: random.once_in(4),
            };
            let length = data_length(random);
            piece.message(draft, &chain, &random.octets(length))
        }
    }
}

/// A well-formed frame of hostile messages.
pub fn hostile_frame(
    random: &mut Random,
    settings: Settings,
    mut greatest: Option<u32>,
) -> Vec<u8> {
    let draft = settings.draft;
    let size = random.pick(&[60, 300, MAX_FRAME]);
    let mut frame = Vec::new();
    loop {
        let message = hostile_message(random, settings, &mut greatest);
        if frame.len() + message.len() > size {
            break;
        }
        frame.extend(message);
    }
    if frame.is_empty() {
        frame.push(0);
    }
    if random.once_in(20) {
        fill_up(random, draft, &mut frame);
    }
    if draft == Draft::D02 && random.once_in(4) {
        return with_reserved_bits(random, &frame).0;
    }
    frame
}

/// Fills a frame up to its greatest length with messages that have no effect.
pub fn fill_up(random: &mut Random, draft: Draft, frame: &mut Vec<u8>) {
    while frame.len() < MAX_FRAME {
        let rest = MAX_FRAME - frame.len();
        frame.extend(passed(random, draft, rest));
    }
}

/// Damages a frame: bits, cuts, length fields, hint chains, octets added.
pub fn damage_frame(random: &mut Random, draft: Draft, frame: &mut Vec<u8>) {
    let places = good_places(draft, frame);
    let start = places[random.below(places.len())] as usize;
    match random.below(7) {
        0 | 1 => {
            for _ in 0..random.within(1, 3) {
                let at = random.below(frame.len());
                frame[at] ^= 1 << random.below(8);
            }
        }
        2 => {
            frame.truncate(random.within(1, frame.len()));
        }
        3 => {
            // The length field of one message, one up or down or anything.
            if start + 4 <= frame.len() && frame[start] != 0 {
                let any = random.octet();
                let change = random.pick(&[1, 255, 2, 254, any]);
                frame[start + 3] = frame[start + 3].wrapping_add(change);
                if random.once_in(6) {
                    frame[start + 1] |= random.octet() & 0x0f;
                }
            }
        }
        4 => {
            // H set where no chain stands, so that content is read as hints; in draft 00 the length's
            // highest bit.
            if start + 1 < frame.len() && frame[start] != 0 {
                frame[start + 1] |= 0x80;
            }
        }
        5 => {
            let kind = random.pick(&[2, 3, 4, 5]);
            let length = random.below(10);
            let content = random.octets(length);
            frame.splice(start..start, message(kind, &[], &content));
        }
        _ => {
            let added = random.within(1, 3);
            frame.extend((0..added).map(|_| random.within(1, 255) as u8));
        }
    }
}

/// Octets without structure, with values that mean something made frequent.
pub fn random_frame(random: &mut Random) -> Vec<u8> {
    let length = match random.below(12) {
        0 => 0,
        1 => 1,
        2 => MAX_FRAME,
        3 => MAX_FRAME + 1,
        4 => random.within(2, MAX_FRAME + 100),
        _ => random.within(1, 40),
    };
    let style = random.below(3);
    (0..length)
        .map(|_| match style {
            0 => random.octet(),
            1 => random.pick(&[0, 0, 0, 1, 2, 3, 4, 5, 8, 0x80]),
            _ => random.pick(&[0, 2, 4, 8]),
        })
        .collect()
}

/// Pieces of an Open row as a state holds them.
#[derive(Clone, Debug)]
pub struct OpenRow {
    pub last: Option<u8>,
    pub pieces: Vec<(u8, u16)>,
}

impl OpenRow {
    /// A sound Open row with `count` pieces.
    fn sound(random: &mut Random, count: usize) -> OpenRow {
        let mut indexes: Vec<u8> = (0..PIECES as u8).collect();
        if random.once_in(2) {
            // Indexes close together, as in a transfer of few pieces.
            indexes.truncate((count + random.below(3)).min(PIECES));
        }
        random.shuffle(&mut indexes);
        indexes.truncate(count);
        let total = match random.below(4) {
            0 => CELL,
            1 => random.below(CELL + 1),
            _ => random.below(200),
        };
        let mut marks: Vec<usize> = (1..count).map(|_| random.below(total + 1)).collect();
        marks.extend([0, total]);
        marks.sort();
        let pieces: Vec<(u8, u16)> = indexes
            .iter()
            .zip(marks.windows(2))
            .map(|(&index, pair)| (index, (pair[1] - pair[0]) as u16))
            .collect();
        let greatest = *indexes.iter().max().expect("at least one piece");
        let all = usize::from(greatest) + 1 == count;
        OpenRow {
            last: (!all && random.once_in(2)).then_some(greatest),
            pieces,
        }
    }

    pub fn octets(&self) -> usize {
        self.pieces.iter().map(|piece| usize::from(piece.1)).sum()
    }

    pub fn read(octets: &[u8]) -> OpenRow {
        let (indexes, lengths) = octets[4..].split_at(PIECES);
        OpenRow {
            last: (octets[1] == 1).then_some(octets[2]),
            pieces: indexes
                .iter()
                .zip(lengths.chunks_exact(2))
                .map(|(&index, length)| (index, u16::from_be_bytes([length[0], length[1]])))
                .take(usize::from(octets[3]))
                .collect(),
        }
    }

    fn write(&self, octets: &mut [u8]) {
        octets.fill(0);
        octets[0] = 1;
        octets[1] = self.last.is_some().into();
        octets[2] = self.last.unwrap_or(0);
        octets[3] = self.pieces.len() as u8;
        for (place, &(index, length)) in self.pieces.iter().enumerate() {
            octets[4 + place] = index;
            put_length(octets, place, length);
        }
    }
}

fn put_length(octets: &mut [u8], place: usize, length: u16) {
    octets[4 + PIECES + 2 * place..][..2].copy_from_slice(&length.to_be_bytes());
}

pub fn row(image: &[u8], row: usize) -> &[u8] {
    &image[8 + ROW_IMAGE * row..][..ROW_IMAGE]
}

fn row_mut(image: &mut [u8], row: usize) -> &mut [u8] {
    &mut image[8 + ROW_IMAGE * row..][..ROW_IMAGE]
}

/// A piece for an Open row, with its data: one that just fits, completes, repeats, contradicts or
/// overflows.
pub fn piece_for(random: &mut Random, open: &OpenRow, number: u32) -> (Piece, Vec<u8>) {
    let held: Vec<u8> = open.pieces.iter().map(|piece| piece.0).collect();
    let missing: Vec<u8> = (0..64).filter(|index| !held.contains(index)).collect();
    let room = CELL - open.octets();
    let above = held.iter().max().map_or(0, |&most| most + 1);
    // An end that is too long where no other step comes first.
    let too_long = open.last.is_none() && above < 64 && room < 2036 && random.once_in(3);
    let length = match random.below(5) {
        _ if too_long => room + 1,
        0 => room,
        1 => room + 1,
        2 => room.saturating_sub(1),
        _ => random.below(40),
    }
    .min(2036);
    let index = match random.below(4) {
        _ if too_long => above,
        0 => random.pick(&held),
        1 => match open.last {
            Some(last) => random.pick(&[last, last + 1, last.saturating_sub(1)]),
            None => above,
        },
        _ if missing.is_empty() => 64,
        // The lowest missing one completes a row that lacks no other.
        _ => missing[random.below(2).min(missing.len() - 1)],
    };
    let piece = Piece {
        number,
        index: index.into(),
        end: too_long || random.once_in(3),
    };
    (piece, random.octets(length))
}

fn piece_count(random: &mut Random) -> usize {
    match random.below(4) {
        0 => 1,
        1 => random.pick(&[60, 62, 63, 63, 64]),
        2 => random.within(1, 64),
        _ => random.within(1, 6),
    }
}

/// The image of a fresh receiver.
pub fn fresh_receiver(settings: Settings) -> [u8; RECEIVER_IMAGE] {
    let mut image = [0; RECEIVER_IMAGE];
    image[RECEIVER_WINDOW] = settings.window.octet();
    image[RECEIVER_DRAFT] = settings.draft.octet();
    image
}

/// The image of a sound receiver with a greatest number and rows of every kind.
pub fn sound_receiver(random: &mut Random, settings: Settings) -> [u8; RECEIVER_IMAGE] {
    let mut image = fresh_receiver(settings);
    image[0] = 1;
    let greatest = first_number(random);
    image[4..8].copy_from_slice(&greatest.to_be_bytes());
    let style = random.below(8);
    for place in 0..settings.window.rows() {
        let phase = if style < 2 {
            style as u8
        } else {
            random.pick(&[0, 1, 1, 1, 2, 3, 4])
        };
        let octets = row_mut(&mut image, place);
        if phase == 1 {
            let count = piece_count(random);
            OpenRow::sound(random, count).write(octets);
        } else {
            octets[0] = phase;
        }
    }
    image
}

/// The image of a sound receiver without a Free row.
pub fn busy_receiver(random: &mut Random, settings: Settings) -> [u8; RECEIVER_IMAGE] {
    let mut image = sound_receiver(random, settings);
    for place in 0..settings.window.rows() {
        let octets = row_mut(&mut image, place);
        if octets[0] == 0 {
            octets[0] = random.pick(&[2, 3, 4]);
        }
    }
    image
}

/// The damage to an image that a draft would undo, and that a window would.
pub const NO_DRAFT: &str = "draft's octet above 1";
pub const NO_WINDOW: &str = "window's octet not 4, 8 or 16";

/// The ways in which a receiver's image is unsound or no state.
pub const RECEIVER_DAMAGE: [&str; 26] = [
    "erased from an octet on",
    "G's flag above 1",
    "octet 3 not zero",
    "G absent and not zero",
    "G absent, a row not Free",
    "phase above 4",
    "final's flag above 1",
    "Open without pieces",
    "more than 64 pieces",
    "index above 63",
    "index held twice",
    "octets above 4,096",
    "index above the final",
    "final not held",
    "final above 63",
    "all up to the final held",
    "unknown final not zero",
    "index beyond the pieces",
    "length beyond the pieces",
    "pieces in a row not Open",
    "known final in a row not Open",
    "final in a row not Open",
    "index in a row not Open",
    "length in a row not Open",
    NO_DRAFT,
    NO_WINDOW,
];

/// An image of a receiver that must be refused, damaged in the way of that place in the list.
pub fn unsound_receiver(
    random: &mut Random,
    settings: Settings,
    damage: usize,
) -> [u8; RECEIVER_IMAGE] {
    let mut image = sound_receiver(random, settings);
    let place = random.below(settings.window.rows());
    let wrong_flag = random.within(2, 255) as u8;
    let not_zero = random.within(1, 255) as u8;
    let phase = random.pick(&[0, 2, 3, 4]);
    match damage {
        0 => {
            // The last row's phase is erased too.
            let from = random.edge_or_within(0, RECEIVER_IMAGE - ROW_IMAGE);
            image[from..].fill(0xff);
            return image;
        }
        1 => {
            image[0] = wrong_flag;
            return image;
        }
        2 => {
            image[3] = not_zero;
            return image;
        }
        3 => {
            image = fresh_receiver(settings);
            image[random.within(4, 7)] = not_zero;
            return image;
        }
        4 => {
            let kept = row(&image, place).to_vec();
            image = fresh_receiver(settings);
            let octets = row_mut(&mut image, place);
            octets.copy_from_slice(&kept);
            if octets[0] == 0 {
                octets[0] = random.pick(&[2, 3, 4]);
            }
            return image;
        }
        24 => {
            image[RECEIVER_DRAFT] = random.pick(&[2, 255, wrong_flag]);
            return image;
        }
        25 => {
            image[RECEIVER_WINDOW] = random.pick(&NO_WINDOWS);
            return image;
        }
        _ => {}
    }
    let octets = row_mut(&mut image, place);
    let count = piece_count(random);
    let mut open = OpenRow::sound(random, count);
    match damage {
        5 => {
            octets.fill(0);
            octets[0] = random.within(5, 255) as u8;
        }
        6 => {
            if random.once_in(2) {
                open.write(octets);
            } else {
                octets.fill(0);
                octets[0] = phase;
            }
            octets[1] = wrong_flag;
        }
        7 => {
            octets.fill(0);
            octets[0] = 1;
            if random.once_in(2) {
                octets[1] = 1;
                octets[2] = random.below(64) as u8;
            }
        }
        8 => {
            OpenRow::sound(random, 64).write(octets);
            octets[1..3].fill(0);
            octets[3] = random.pick(&[65, 66, 127, 128, 255]);
        }
        9 => {
            open.last = None;
            let at = random.below(open.pieces.len());
            open.pieces[at].0 = random.pick(&[64, 65, 127, 128, 255]);
            open.write(octets);
        }
        10 => {
            let count = random.within(2, 64);
            open = OpenRow::sound(random, count);
            open.last = None;
            let (from, to) = two_places(random, count);
            open.pieces[to].0 = open.pieces[from].0;
            open.write(octets);
        }
        11 => {
            let count = random.within(1, 64);
            open = OpenRow::sound(random, count);
            let at = random.below(count);
            let others = open.octets() - usize::from(open.pieces[at].1);
            // The last two make sums that a narrow number would take for small ones.
            match random.below(4) {
                0 => open.pieces[at].1 = (CELL + 1 - others) as u16,
                1 => open.pieces[at].1 = random.within(CELL + 1, 65_535) as u16,
                2 => open.pieces[at].1 = (65_536 - others.max(1)) as u16,
                _ => open.pieces.iter_mut().for_each(|piece| piece.1 = 1 << 15),
            }
            open.write(octets);
        }
        12 => {
            let count = random.within(2, 64);
            open = OpenRow::sound(random, count);
            let greatest = open.pieces.iter().map(|piece| piece.0).max();
            let lower: Vec<u8> = open
                .pieces
                .iter()
                .map(|piece| piece.0)
                .filter(|&index| Some(index) != greatest)
                .collect();
            open.last = Some(random.pick(&lower));
            open.write(octets);
        }
        13 => {
            let held: Vec<u8> = open.pieces.iter().map(|piece| piece.0).collect();
            let Some(last) = (0..PIECES as u8)
                .rev()
                .take_while(|index| !held.contains(index))
                .last()
                .map(|least| random.within(usize::from(least), PIECES - 1) as u8)
            else {
                // Index 63 is held: take it out, or move it if it is the only one.
                open.pieces.retain(|piece| piece.0 != 63);
                if open.pieces.is_empty() {
                    open.pieces.push((0, 0));
                }
                open.last = Some(63);
                open.write(octets);
                return image;
            };
            open.last = Some(last);
            open.write(octets);
        }
        14 => {
            open.last = Some(random.pick(&[64, 65, 127, 128, 255]));
            open.write(octets);
        }
        15 => {
            let count = random.within(1, 64);
            open = OpenRow::sound(random, count);
            let mut indexes: Vec<u8> = (0..count as u8).collect();
            random.shuffle(&mut indexes);
            for (piece, index) in open.pieces.iter_mut().zip(indexes) {
                piece.0 = index;
            }
            open.last = Some(count as u8 - 1);
            open.write(octets);
        }
        16 => {
            open.last = None;
            open.write(octets);
            octets[2] = not_zero;
        }
        17 | 18 => {
            let count = random.within(1, 63);
            open = OpenRow::sound(random, count);
            open.write(octets);
            let beyond = random.within(count, 63);
            if damage == 17 {
                octets[4 + beyond] = not_zero;
            } else {
                let length = 1 << random.below(16);
                put_length(octets, beyond, length);
            }
        }
        _ => {
            octets.fill(0);
            octets[0] = phase;
            match damage {
                19 => octets[3] = not_zero,
                20 => {
                    octets[1] = 1;
                    octets[2] = random.octet();
                }
                21 => octets[2] = not_zero,
                22 => octets[4 + random.below(PIECES)] = not_zero,
                _ => {
                    let length = 1 << random.below(16);
                    put_length(octets, random.below(PIECES), length);
                }
            }
        }
    }
    image
}

/// What may stand in a row beyond the window of an image: an Open row, another one, an octet anywhere.
#[derive(Clone, Copy, Debug, PartialEq, Eq)]
pub enum Beyond {
    Open,
    NotOpen,
    Octet,
}

impl Beyond {
    pub const ALL: [Beyond; 3] = [Beyond::Open, Beyond::NotOpen, Beyond::Octet];
}

/// The image of a receiver, sound but for what stands in a row beyond its window, which is not 16.
pub fn with_beyond(random: &mut Random, settings: Settings, way: Beyond) -> [u8; RECEIVER_IMAGE] {
    let mut image = match random.once_in(4) {
        true => fresh_receiver(settings),
        false => sound_receiver(random, settings),
    };
    let place = random.edge_or_within(settings.window.rows(), MAX_ROWS - 1);
    let octets = row_mut(&mut image, place);
    match way {
        Beyond::Open => {
            let count = piece_count(random);
            OpenRow::sound(random, count).write(octets);
        }
        Beyond::NotOpen => octets[0] = random.pick(&[2, 3, 4]),
        Beyond::Octet => octets[random.below(ROW_IMAGE)] = 1 << random.below(8),
    }
    image
}

fn two_places(random: &mut Random, count: usize) -> (usize, usize) {
    let from = random.below(count);
    let to = (from + random.within(1, count - 1)) % count;
    (from, to)
}

/// The frame sizes that senders are tried with.
pub fn frame_size(random: &mut Random) -> usize {
    match random.below(3) {
        0 => random.pick(&[128, 129, 2047, 2048]),
        1 => random.pick(&[140, 255, 256, 257, 512, 1024]),
        _ => random.within(128, 2048),
    }
}

/// Entries of a sender's image.
#[derive(Clone, Copy, Debug, Default)]
pub struct SenderEntries {
    pub frame_size: u16,
    pub fill: u16,
    pub next_number: u32,
    pub begun: u8,
    pub draft: u8,
    pub zeros: [u8; 2],
    pub number: u32,
    pub length: u16,
    pub placed: u16,
    pub next_index: u32,
}

impl SenderEntries {
    pub fn image(&self) -> [u8; SENDER_IMAGE] {
        let mut image = [0; SENDER_IMAGE];
        image[0..2].copy_from_slice(&self.frame_size.to_be_bytes());
        image[2..4].copy_from_slice(&self.fill.to_be_bytes());
        image[4..8].copy_from_slice(&self.next_number.to_be_bytes());
        image[8] = self.begun;
        image[SENDER_DRAFT] = self.draft;
        image[10..12].copy_from_slice(&self.zeros);
        image[12..16].copy_from_slice(&self.number.to_be_bytes());
        image[16..18].copy_from_slice(&self.length.to_be_bytes());
        image[18..20].copy_from_slice(&self.placed.to_be_bytes());
        image[20..24].copy_from_slice(&self.next_index.to_be_bytes());
        image
    }

    pub fn idle(random: &mut Random, draft: Draft) -> SenderEntries {
        let size = frame_size(random);
        let fill = match random.below(4) {
            0 => 0,
            1 => size - random.within(1, 20),
            _ => random.below(size),
        };
        SenderEntries {
            frame_size: size as u16,
            fill: fill as u16,
            next_number: first_number(random),
            draft: draft.octet(),
            ..SenderEntries::default()
        }
    }

    pub fn begun(random: &mut Random, draft: Draft) -> SenderEntries {
        let size = frame_size(random);
        let length = random.edge_or_within(size - 3, CELL);
        let full = random.within(1, (length - 1) / (size - 12));
        let placed = match random.below(3) {
            // What remains fills frames.
            0 => length - full * (size - 12),
            _ => random.edge_or_within(1, length - 1),
        };
        let (least, greatest) = Self::indexes(draft, size, length - placed);
        let next_index = random.edge_or_within(least, greatest);
        SenderEntries {
            frame_size: size as u16,
            fill: 0,
            next_number: first_number(random),
            begun: 1,
            draft: draft.octet(),
            zeros: [0; 2],
            number: first_number(random),
            length: length as u16,
            placed: placed as u16,
            next_index: next_index as u32,
        }
    }

    /// Idle, or with a transfer begun.
    pub fn any(random: &mut Random, draft: Draft) -> SenderEntries {
        match random.once_in(3) {
            true => SenderEntries::idle(random, draft),
            false => SenderEntries::begun(random, draft),
        }
    }

    /// With another length and other octets placed, and an index that may be next.
    fn with_placed(self, draft: Draft, length: usize, placed: usize) -> SenderEntries {
        let size = usize::from(self.frame_size);
        SenderEntries {
            length: length as u16,
            placed: placed as u16,
            next_index: Self::indexes(draft, size, length - placed).0 as u32,
            ..self
        }
    }

    /// The least and the greatest index that may be next where so many octets remain.
    fn indexes(draft: Draft, size: usize, remaining: usize) -> (usize, usize) {
        let pieces = remaining.div_ceil(size - 12);
        match draft {
            Draft::D00 => (pieces - 1, pieces - 1),
            Draft::D02 => (1, 64 - pieces),
        }
    }
}

/// The ways in which a sender's image is unsound or no state.
pub const SENDER_DAMAGE: [&str; 18] = [
    "erased from an octet on",
    "frame size below 128",
    "frame size above 2,048",
    "fill not below the frame size",
    "flag above 1",
    "octet 10 or 11 not zero",
    "number with nothing begun",
    "length with nothing begun",
    "placed with nothing begun",
    "index with nothing begun",
    "fill with a transfer begun",
    "length that goes whole",
    "length above 4,096",
    "nothing placed",
    "all placed",
    "index too small",
    "index too great",
    NO_DRAFT,
];

/// An image of a sender that must be refused, damaged in the way of that place in the list.
pub fn unsound_sender(random: &mut Random, draft: Draft, damage: usize) -> [u8; SENDER_IMAGE] {
    let mut idle = SenderEntries::idle(random, draft);
    let mut begun = SenderEntries::begun(random, draft);
    let either = if random.once_in(2) { idle } else { begun };
    let bit = 1u32 << random.below(32);
    let short_bit = 1u16 << random.below(16);
    let size = usize::from(begun.frame_size);
    match damage {
        0 => {
            let mut image = either.image();
            image[random.below(SENDER_IMAGE)..].fill(0xff);
            image
        }
        1 => {
            idle.frame_size = random.pick(&[0, 1, 12, 13, 100, 127]);
            idle.fill = random.below(usize::from(idle.frame_size).max(1)) as u16;
            idle.image()
        }
        2 => {
            idle.frame_size = random.pick(&[2049, 2050, 4096, 65_535]);
            idle.image()
        }
        3 => {
            idle.fill = random.pick(&[idle.frame_size, idle.frame_size + 1, 65_535]);
            idle.image()
        }
        4 => SenderEntries {
            begun: random.within(2, 255) as u8,
            ..either
        }
        .image(),
        5 => {
            let mut entries = either;
            entries.zeros[random.below(2)] = random.within(1, 255) as u8;
            entries.image()
        }
        6 => SenderEntries {
            number: bit,
            ..idle
        }
        .image(),
        7 => SenderEntries {
            length: short_bit,
            ..idle
        }
        .image(),
        8 => SenderEntries {
            placed: short_bit,
            ..idle
        }
        .image(),
        9 => SenderEntries {
            next_index: bit,
            ..idle
        }
        .image(),
        10 => {
            begun.fill = random.within(1, size - 1) as u16;
            begun.image()
        }
        11 => {
            let length = random.edge_or_within(2, size - 4);
            let placed = random.within(1, length - 1);
            begun.with_placed(draft, length, placed).image()
        }
        12 => {
            let length = random.pick(&[4097, 4098, 8192, 65_535]);
            begun.with_placed(draft, length, length - 1).image()
        }
        13 => begun.with_placed(draft, begun.length.into(), 0).image(),
        14 => {
            begun.placed = random.pick(&[begun.length, begun.length + 1, 65_535]);
            begun.next_index = random.pick(&[0, 1, u32::MAX]);
            begun.image()
        }
        15 => {
            // More than a piece remains, so that the index is not 0 in draft 00 either.
            let length = usize::from(begun.length);
            let placed = random.edge_or_within(1, length + 11 - size);
            let (least, _) = SenderEntries::indexes(draft, size, length - placed);
            let any = random.below(least);
            begun.placed = placed as u16;
            begun.next_index = random.pick(&[0, least - 1, any]) as u32;
            begun.image()
        }
        16 => {
            let remaining = usize::from(begun.length - begun.placed);
            let least = SenderEntries::indexes(draft, size, remaining).1 as u32 + 1;
            begun.next_index = random.pick(&[least, least + 1, 64, 65, 256, 1 << 31, u32::MAX]);
            begun.next_index = begun.next_index.max(least);
            begun.image()
        }
        _ => {
            let any = random.within(2, 255) as u8;
            SenderEntries {
                draft: random.pick(&[2, 255, any]),
                ..either
            }
            .image()
        }
    }
}
