//! Counts of the cases that calls with images of one draft have reached.

use super::windows::{Windows, NO_WINDOWS, STARTED};
use super::{named, FRAME_LENGTHS, FRAME_SIZES};
use crate::compare::{Received, Send, Sent, Taken};
use crate::generate::{RECEIVER_DAMAGE, SENDER_DAMAGE};
use crate::model::receiver::{Contradiction, Observer, Phase, Step, CELL};
use crate::model::sender::State;
use crate::model::{Distance, Draft, Settings, Window};

/// Refusals of calls with an image, and of frames in a burst; draft 00 has no 7.
const REFUSED: [usize; 15] = [1, 2, 3, 4, 6, 7, 8, 9, 10, 11, 12, 13, 14, 19, 21];
const NOTED: [usize; 5] = [3, 4, 6, 7, 8];

/// The answers of sending calls, and what they stand for.
const SENT: [&str; 16] = [
    "Placed",
    "Placed and ready",
    "Ready",
    "Nothing",
    "bundle message",
    "first piece",
    "first piece of one octet",
    "number after 4,294,967,295",
    "further piece",
    "last piece",
    "last piece that fills the frame",
    "cancel",
    "frame closed before a bundle message",
    "frame closed before a first piece",
    "frame closed by a padding message",
    "frame closed by zero octets",
];

#[derive(Clone, Debug, Default, PartialEq, Eq)]
pub struct Cases {
    /// By number; entry 0 counts the calls that were not refused.
    pub refusals: [u64; 25],
    /// Frames of bursts, by the number of their refusal.
    pub noted: [u64; 9],
    /// Bad messages that start at 0, at 1 to 255, and beyond.
    places: [u64; 3],
    /// Lengths past the frame that are 65,536 or more.
    long_lengths: u64,
    /// Images checked that are sound, and that are not.
    pub checked_senders: [u64; 2],
    windows: [Windows; Window::ALL.len()],
    /// Receivers' starts, by the number of the window that they were given.
    receivers_started: [u64; STARTED.len()],
    /// Receivers' images refused for their window's octet alone, by that octet.
    no_windows: [u64; NO_WINDOWS.len()],
    /// Steps 1 to 6, of segments and of ends; entry 0 is not used.
    pub steps: [[u64; 7]; 2],
    /// By segments and ends above the final index; by ends with another one, and below what is held; by
    /// segments and ends where the other kind is held.
    pub contradictions: [u64; 6],
    /// Bundles joined from one piece; from several in rising, falling or another order; from 64;
    /// with an empty piece behind 4,096 octets.
    pub joins: [u64; 6],
    /// Cancels inside the window, by the row's phase before.
    pub cancels: [u64; 5],
    empty_bundles: u64,
    full_bundles: u64,
    frame_lengths: [u64; FRAME_LENGTHS.len()],
    frame_sizes: [u64; FRAME_SIZES.len()],
    sent: [u64; SENT.len()],
    pub receiver_damage: [u64; RECEIVER_DAMAGE.len()],
    pub sender_damage: [u64; SENDER_DAMAGE.len()],
    pub round_trips: u64,
    /// Bursts to the last frame's end, and stopped before.
    bursts: [u64; 2],
    /// Frames with at least 500 messages.
    pub dense_frames: u64,
    /// Transfers that window 8 hands out beyond those of window 4, and window 16 beyond those of 8.
    pub by_greater: [u64; 2],
    /// Frames of the other draft, taken and refused.
    pub other_frames: [u64; 2],
}

impl Cases {
    /// Calls with images of the draft.
    pub fn calls(&self) -> u64 {
        self.refusals.iter().sum()
    }

    /// Counts a bad message that starts there.
    pub fn refused_at(&mut self, place: u32) {
        let case = match place {
            0 => 0,
            1..=255 => 1,
            _ => 2,
        };
        self.places[case] += 1;
    }

    /// What calls with images of a window have reached.
    pub fn of(&self, window: Window) -> &Windows {
        &self.windows[place(window)]
    }

    pub fn of_mut(&mut self, window: Window) -> &mut Windows {
        &mut self.windows[place(window)]
    }

    /// Counts a receiver's start with this number for its window.
    pub fn receiver_started(&mut self, window: u32) {
        if let Some(place) = STARTED.iter().position(|&number| number == window) {
            self.receivers_started[place] += 1;
        }
    }

    /// Counts an image that is refused for this window's octet alone.
    pub fn no_window(&mut self, octet: u8) {
        if let Some(place) = NO_WINDOWS.iter().position(|&none| none == octet) {
            self.no_windows[place] += 1;
        }
    }

    /// Counts a sender's start with this frame size.
    pub fn started(&mut self, size: u64) {
        if let Some(edge) = FRAME_SIZES.iter().position(|&edge| edge == size) {
            self.frame_sizes[edge] += 1;
        }
    }

    /// Counts what a receiving call told of a frame, and of a bad message that starts at `place`.
    pub fn received(&mut self, settings: Settings, frame: &[u8], place: u32, received: Received) {
        self.of_mut(settings.window).received(received);
        if let Some(edge) = FRAME_LENGTHS.iter().position(|&edge| edge == frame.len()) {
            self.frame_lengths[edge] += 1;
        }
        match received {
            Received::Refused(6) => {
                let high = match settings.draft {
                    Draft::D00 => frame[place as usize + 1],
                    Draft::D02 => frame[place as usize + 1] & 0x0f,
                };
                self.long_lengths += u64::from(high != 0);
            }
            Received::Refused(_) | Received::Finished => {}
            Received::Bundle { length, .. } => {
                self.empty_bundles += u64::from(length == 0);
                self.full_bundles += u64::from(length == CELL);
            }
        }
    }

    /// Counts a burst that was carried out, and whether it stopped before the last frame's end.
    pub fn taken(&mut self, taken: &Taken, stopped: bool) {
        self.bursts[usize::from(stopped)] += 1;
        for &(_, number) in &taken.refused {
            self.noted[number as usize] += 1;
        }
    }

    /// Counts a sending call that was carried out, between these states.
    pub fn sent(&mut self, call: Send, before: State, after: State, sent: Sent) {
        let room = usize::from(before.frame_size - before.fill);
        let closed = sent == Sent::Ready;
        let ready = closed || sent == Sent::PlacedAndReady;
        let whole = match call {
            Send::Place(bundle) => bundle.len() + 4 <= before.frame_size.into(),
            _ => false,
        };
        let place = matches!(call, Send::Place(_));
        let piece = place && !whole && !closed;
        let first = piece && before.begun.is_none();
        let last = piece && after.begun.is_none();
        let reached = [
            sent == Sent::Placed,
            sent == Sent::PlacedAndReady,
            closed,
            sent == Sent::Nothing,
            whole && !closed,
            first,
            first && room == 13,
            first && after.next_number == 0,
            piece && !first && !last,
            last,
            last && ready,
            matches!(call, Send::Cancel),
            whole && closed,
            place && !whole && closed,
            closed && room >= 4,
            closed && room < 4,
        ];
        for (count, reached) in self.sent.iter_mut().zip(reached) {
            *count += u64::from(reached);
        }
    }

    /// Every count of a case that the draft has, with its name.
    pub fn cases(&self, draft: Draft) -> Vec<(String, u64)> {
        let lists = [
            self.refused(draft),
            self.windows(),
            self.row(draft),
            self.answers(),
            self.images(),
            self.frames(draft),
        ];
        let cases = lists.concat().into_iter();
        cases
            .map(|(name, count)| (format!("{draft}, {name}"), count))
            .collect()
    }

    fn refused(&self, draft: Draft) -> Vec<(String, u64)> {
        let given = |number: &usize| draft == Draft::D02 || *number != 7;
        let refused = REFUSED.into_iter().filter(given);
        let refused = refused.map(|number| (format!("refusal: {number}"), self.refusals[number]));
        let noted = NOTED.into_iter().filter(given);
        let noted = noted.map(|number| (format!("noted: {number}"), self.noted[number]));
        let places = ["at 0", "at 1 to 255", "at 256 or beyond"];
        let mut cases: Vec<_> = refused.chain(noted).collect();
        cases.extend(named("bad message", &places, &self.places));
        cases.extend(named("length", &["65,536 or more"], &[self.long_lengths]));
        cases
    }

    fn windows(&self) -> Vec<(String, u64)> {
        let started = STARTED.map(|number| number.to_string());
        let started = started.each_ref().map(String::as_str);
        let octets = NO_WINDOWS.map(|octet| octet.to_string());
        let octets = octets.each_ref().map(String::as_str);
        let mut cases = named("start with window", &started, &self.receivers_started);
        cases.extend(named("refused window's octet", &octets, &self.no_windows));
        for window in Window::ALL {
            let of_window = self.of(window).cases(window).into_iter();
            cases.extend(of_window.map(|(name, count)| (format!("{window}, {name}"), count)));
        }
        let greater = ["window 8 beyond 4", "window 16 beyond 8"];
        cases.extend(named("transfer handed out", &greater, &self.by_greater));
        cases
    }

    fn row(&self, draft: Draft) -> Vec<(String, u64)> {
        let (end, an_end) = match draft {
            Draft::D00 => ("start", "a start"),
            Draft::D02 => ("end", "an end"),
        };
        let steps = ["1", "2", "3", "4", "5", "6"];
        let contradictions = [
            "segment above the final",
            &format!("{end} above the final"),
            "other final",
            &format!("held above the {end}"),
            &format!("segment where the {end} is held"),
            &format!("{end} where a segment is held"),
        ];
        let joins = [
            "one piece",
            "rising order",
            "falling order",
            "other order",
            "64 pieces",
            "an empty piece behind 4,096 octets",
        ];
        let phases = ["Free", "Open", "Done", "Cancelled", "Given up"];
        [
            named("row step of a segment", &steps, &self.steps[0][1..]),
            named(
                &format!("row step of {an_end}"),
                &steps,
                &self.steps[1][1..],
            ),
            named("contradiction", &contradictions, &self.contradictions),
            named("join", &joins, &self.joins),
            named("cancel of a row", &phases, &self.cancels),
        ]
        .concat()
    }

    fn answers(&self) -> Vec<(String, u64)> {
        let lengths = ["bundle of 0 octets", "bundle of 4,096 octets"];
        let counts = [self.empty_bundles, self.full_bundles];
        let bursts = ["to the end", "stopped before"];
        [
            named("answer", &lengths, &counts),
            named("sent", &SENT, &self.sent),
            named("bundle", &["from sender to receiver"], &[self.round_trips]),
            named("burst", &bursts, &self.bursts),
        ]
        .concat()
    }

    fn images(&self) -> Vec<(String, u64)> {
        let sound = ["sound", "not sound"];
        [
            named("sender checked", &sound, &self.checked_senders),
            named("unsound receiver", &RECEIVER_DAMAGE, &self.receiver_damage),
            named("unsound sender", &SENDER_DAMAGE, &self.sender_damage),
        ]
        .concat()
    }

    fn frames(&self, draft: Draft) -> Vec<(String, u64)> {
        let lengths = ["0", "1", "2,048", "2,049"];
        let sizes = ["127", "128", "2,048", "2,049"];
        // Draft 02 has no way to refuse what draft 00 finds well formed.
        let others = match draft {
            Draft::D00 => &["taken", "refused"][..],
            Draft::D02 => &["taken"],
        };
        let counts = &self.other_frames[..others.len()];
        [
            named("frame length", &lengths, &self.frame_lengths),
            named("frame size", &sizes, &self.frame_sizes),
            named("frame", &["500 messages"], &[self.dense_frames]),
            named("frame of the other draft", others, counts),
        ]
        .concat()
    }
}

fn place(window: Window) -> usize {
    match window {
        Window::Four => 0,
        Window::Eight => 1,
        Window::Sixteen => 2,
    }
}

impl Observer for Cases {
    fn distance(&mut self, window: Window, case: Distance, difference: u32, number: u32) {
        let cases = self.of_mut(window);
        cases.distance(window, case, difference, number);
    }

    fn frees(&mut self, window: Window, row: usize, before: Phase) {
        self.of_mut(window).frees(row, before);
    }

    fn step(&mut self, step: Step, end: bool) {
        let number = match step {
            Step::Settled => 1,
            Step::IndexTooGreat => 2,
            Step::Contradicts(contradiction) => {
                let place = match contradiction {
                    Contradiction::AboveLast => usize::from(end),
                    Contradiction::OtherLast => 2,
                    Contradiction::HeldAboveEnd => 3,
                    Contradiction::OtherKind => 4 + usize::from(end),
                };
                self.contradictions[place] += 1;
                3
            }
            Step::Held => 4,
            Step::Overflow => 5,
            Step::Stored | Step::Completed(_) => 6,
        };
        self.steps[usize::from(end)][number] += 1;
    }

    fn join(&mut self, indexes: &[u8], lengths: &[u16]) {
        let several = indexes.len() > 1;
        let rising = indexes.is_sorted();
        let falling = indexes.iter().rev().is_sorted();
        self.joins[0] += u64::from(!several);
        self.joins[1] += u64::from(several && rising);
        self.joins[2] += u64::from(several && falling);
        self.joins[3] += u64::from(!rising && !falling);
        self.joins[4] += u64::from(indexes.len() == 64);
        let full = lengths
            .iter()
            .map(|&length| usize::from(length))
            .sum::<usize>()
            == CELL;
        self.joins[5] += u64::from(full && lengths.last() == Some(&0));
    }

    fn cancel(&mut self, before: Phase) {
        let place = match before {
            Phase::Free => 0,
            Phase::Open => 1,
            Phase::Done => 2,
            Phase::Cancelled => 3,
            Phase::GivenUp => 4,
        };
        self.cancels[place] += 1;
    }
}
