//! Calls made on both sides at once, and what they return and every octet lent compared.

use crate::coverage::{Coverage, NEVER_GIVEN, NEVER_GIVEN_00};
use crate::generate::{RECEIVER_DRAFT, RECEIVER_WINDOW, SENDER_DRAFT};
use crate::model::sender::State;
use crate::model::{interface, Draft, Settings, Window};
use crate::random::Random;
use crate::side::{Exported, Model, Side};
use btpu::raw::{self, MIN_OUTPUT, NO_NUMBER, RECEIVER_IMAGE, SENDER_IMAGE};

mod burst;
mod recording;

pub use burst::{Burst, Taken};
pub use recording::{Opened, PlayMemory, Played, PLAY_POOL};

/// One run of a scenario. A difference ends it with a message that names scenario and seed.
pub struct Trial<'a> {
    pub scenario: &'static str,
    pub seed: u64,
    /// The draft of its boards and senders, which the seed decides unless it is set.
    pub draft: Draft,
    /// The window of its boards, likewise.
    pub window: Window,
    pub random: Random,
    pub coverage: &'a mut Coverage,
    calls: u64,
}

impl<'a> Trial<'a> {
    pub fn new(scenario: &'static str, seed: u64, coverage: &'a mut Coverage) -> Trial<'a> {
        let mut random = Random::new(seed);
        Trial {
            scenario,
            seed,
            draft: random.pick(&Draft::BOTH),
            window: random.pick(&Window::ALL),
            random,
            coverage,
            calls: 0,
        }
    }

    /// What its boards are set to.
    pub fn settings(&self) -> Settings {
        Settings::new(self.draft, self.window)
    }

    pub fn set(&mut self, settings: Settings) {
        self.draft = settings.draft;
        self.window = settings.window;
    }

    #[track_caller]
    pub fn check(&self, good: bool, what: &str) {
        if !good {
            self.fail(what);
        }
    }

    #[track_caller]
    pub fn fail(&self, what: &str) -> ! {
        panic!(
            "scenario {}, seed {}, {}, call {}: {what}",
            self.scenario,
            self.seed,
            self.settings(),
            self.calls
        );
    }

    #[track_caller]
    fn same<T: PartialEq>(&self, model: &[T], exported: &[T], what: &str) {
        if model != exported {
            let at = model.iter().zip(exported).position(|(a, b)| a != b);
            self.fail(&format!("{what} differs at {at:?}"));
        }
    }

    /// Checks what was lent to the exported side to be read only.
    #[track_caller]
    fn untouched<T>(&self, given: &[T], lent: &Lent<T>, what: &str)
    where
        T: Copy + PartialEq + From<u8>,
    {
        self.same(given, lent.get(), what);
        self.check(lent.guards_stay(), "written past what was lent");
    }

    /// The result that the next call gets.
    fn begin_call(&mut self) -> [u64; 4] {
        self.calls += 1;
        [(); 4].map(|_| self.random.draw())
    }

    /// Compares what a call with an image of a draft, or with none, returned and left in its result; the
    /// answer is the refusal's number.
    #[track_caller]
    fn same_answer<const ENTRIES: usize>(
        &mut self,
        draft: Option<Draft>,
        model: (u32, [u64; ENTRIES]),
        exported: (u32, [u64; ENTRIES]),
    ) -> u32 {
        if model != exported {
            let [model, exported] = [model, exported]
                .map(|(returned, result)| format!("{returned:#x} with result {result:x?}"));
            self.fail(&format!("model: {model}, exported: {exported}"));
        }
        self.refusal(draft, model.0)
    }

    /// Takes apart what a call without a result returned on both sides.
    #[track_caller]
    fn same_returned(&mut self, draft: Option<Draft>, model: u32, exported: u32) -> u32 {
        if model != exported {
            self.fail(&format!("model: {model:#x}, exported: {exported:#x}"));
        }
        self.refusal(draft, model)
    }

    /// Counts a refusal, or that there is none; the answer is its number.
    #[track_caller]
    fn refusal(&mut self, draft: Option<Draft>, returned: u32) -> u32 {
        let (number, place) = (returned & 0xff, returned >> 8);
        let entry = number as usize;
        let given = entry < self.coverage.refusals.len() && !NEVER_GIVEN.contains(&entry);
        self.check(given, "no such refusal");
        let given = draft != Some(Draft::D00) || !NEVER_GIVEN_00.contains(&entry);
        self.check(given, "no such refusal in draft 00");
        let bad_message = (4..=8).contains(&number);
        self.check(bad_message || place == 0, "a place without a bad message");
        self.coverage.refusals[entry] += 1;
        if let Some(draft) = draft {
            let cases = self.coverage.of_mut(draft);
            cases.refusals[entry] += 1;
            if bad_message {
                cases.refused_at(place);
            }
        }
        number
    }

    /// The settings that frames for this trial's boards are made for: mostly theirs.
    pub fn settings_of_frames(&mut self) -> Settings {
        let draft = match self.random.once_in(8) {
            true => self.draft.other(),
            false => self.draft,
        };
        Settings::new(draft, self.window)
    }
}

/// What a plain start means.
const PLAIN: Settings = Settings::new(Draft::D02, Window::PLAIN);

/// The window that an image says.
fn window_of(image: &[u8; RECEIVER_IMAGE]) -> Option<Window> {
    Window::of_number(image[RECEIVER_WINDOW].into())
}

const GUARD: usize = 64;
const GUARD_OCTET: u8 = 0xc3;

/// What is lent to the exported side, with guards before and behind that nobody may write to.
#[derive(Clone)]
pub struct Lent<T = u8> {
    entries: Vec<T>,
}

impl<T: Copy + PartialEq + From<u8>> Lent<T> {
    pub fn new(content: &[T]) -> Lent<T> {
        let mut entries = vec![GUARD_OCTET.into(); content.len() + 2 * GUARD];
        entries[GUARD..GUARD + content.len()].copy_from_slice(content);
        Lent { entries }
    }

    pub fn get(&self) -> &[T] {
        &self.entries[GUARD..self.entries.len() - GUARD]
    }

    pub fn lend(&mut self) -> &mut [T] {
        let end = self.entries.len() - GUARD;
        &mut self.entries[GUARD..end]
    }

    /// What was lent as an array of this length.
    pub fn array<const LENGTH: usize>(&mut self) -> &mut [T; LENGTH] {
        self.lend().try_into().expect("the array's length")
    }

    fn guards_stay(&self) -> bool {
        let (before, rest) = self.entries.split_at(GUARD);
        let (_, behind) = rest.split_at(rest.len() - GUARD);
        let guard = GUARD_OCTET.into();
        before.iter().chain(behind).all(|&entry| entry == guard)
    }
}

/// What a receiving call lends besides the carried state and pool.
#[derive(Clone, Copy, Debug)]
pub struct Lending {
    /// Another pool of this length in place of the carried one.
    pub other_pool: Option<usize>,
    pub output: usize,
}

impl Default for Lending {
    fn default() -> Lending {
        Lending {
            other_pool: None,
            output: MIN_OUTPUT,
        }
    }
}

#[derive(Clone, Copy, Debug, PartialEq, Eq)]
pub enum Received {
    Refused(u32),
    Finished,
    Bundle {
        length: usize,
        next: u64,
        number: Option<u32>,
    },
}

/// The same receiver on both sides.
#[derive(Clone)]
pub struct ReceiverPair {
    image: [u8; RECEIVER_IMAGE],
    pool: Vec<u8>,
    output: Vec<u8>,
    image_before: [u8; RECEIVER_IMAGE],
    pool_before: Vec<u8>,
    output_before: Vec<u8>,
    exported_image: Lent,
    exported_pool: Lent,
    exported_output: Lent,
    exported_frame: Lent,
    /// Whether the check says that the image is a sound state.
    sound: bool,
    /// What the last call returned, and the entries of its result that carry meaning.
    told: Vec<u64>,
}

impl ReceiverPair {
    /// A receiver with this image, and a pool of the image's window or, if it has none, of the trial's.
    pub fn new(trial: &mut Trial, image: &[u8; RECEIVER_IMAGE]) -> ReceiverPair {
        let window = window_of(image).unwrap_or(trial.window);
        let pool = trial.random.octets(window.pool());
        let output = trial.random.octets(MIN_OUTPUT);
        let mut pair = ReceiverPair {
            image: *image,
            image_before: *image,
            exported_image: Lent::new(image),
            exported_pool: Lent::new(&pool),
            pool_before: pool.clone(),
            pool,
            exported_output: Lent::new(&output),
            output_before: output.clone(),
            output,
            exported_frame: Lent::new(&[]),
            sound: false,
            told: Vec::new(),
        };
        pair.check(trial);
        pair
    }

    /// A fresh receiver of the trial's draft and window.
    pub fn start(trial: &mut Trial) -> ReceiverPair {
        let image = trial.random.array();
        let mut pair = ReceiverPair::new(trial, &image);
        pair.restart(trial);
        pair
    }

    /// The receiver's start in the trial's draft and window, on the images as they are.
    pub fn restart(&mut self, trial: &mut Trial) {
        let number = match trial.settings() {
            PLAIN if trial.random.once_in(2) => self.plain_start(trial),
            _ => self.try_start(trial, trial.window.number()),
        };
        trial.check(number == 0, "a receiver's start is refused");
        let settings = self.settings();
        let cases = trial.coverage.of_mut(trial.draft);
        cases.of_mut(trial.window).started += 1;
        trial.check(settings == Some(trial.settings()), "a fresh receiver");
        self.set_pool(trial, trial.window);
    }

    /// A start in the trial's draft with this number for its window; the answer is the refusal's number.
    pub fn try_start(&mut self, trial: &mut Trial, window: u32) -> u32 {
        let draft = trial.draft;
        trial.coverage.of_mut(draft).receiver_started(window);
        let returned = Model::receiver_start(draft, window, &mut self.image);
        let exported = Exported::receiver_start(draft, window, self.exported_image.array());
        self.started(trial, draft, returned, exported)
    }

    /// The start that names neither draft nor window.
    fn plain_start(&mut self, trial: &mut Trial) -> u32 {
        trial.coverage.plain_starts += 1;
        let returned = Model::receiver_plain_start(&mut self.image);
        let exported = Exported::receiver_plain_start(self.exported_image.array());
        self.started(trial, Draft::D02, returned, exported)
    }

    fn started(&mut self, trial: &mut Trial, draft: Draft, returned: u32, exported: u32) -> u32 {
        trial.calls += 1;
        trial.coverage.starts += 1;
        let number = trial.same_returned(Some(draft), returned, exported);
        self.same_image(trial);
        if number != 0 {
            trial.same(&self.image, &self.image_before, "state of a refused start");
            return number;
        }
        self.image_before = self.image;
        self.check(trial);
        trial.check(self.sound, "a fresh receiver is not sound");
        0
    }

    /// Another pool, unless the one carried has the window's size.
    fn set_pool(&mut self, trial: &mut Trial, window: Window) {
        if self.pool.len() != window.pool() {
            self.pool = trial.random.octets(window.pool());
            self.pool_before = self.pool.clone();
            self.exported_pool = Lent::new(&self.pool);
        }
    }

    /// The draft that the image says.
    pub fn draft(&self) -> Option<Draft> {
        Draft::of_octet(self.image[RECEIVER_DRAFT])
    }

    /// The draft and window that the image says.
    pub fn settings(&self) -> Option<Settings> {
        Some(Settings {
            draft: self.draft()?,
            window: window_of(&self.image)?,
        })
    }

    pub fn is_sound(&self) -> bool {
        self.sound
    }

    /// The check of the carried image.
    fn check(&mut self, trial: &mut Trial) {
        trial.calls += 1;
        let returned = interface::receiver_check(&self.image);
        let exported = raw::receiver_check(self.exported_image.array());
        self.sound = trial.same_returned(self.draft(), returned, exported) == 0;
        trial.check(returned <= 1, "another refusal than 1");
        trial.coverage.checks += 1;
        if let Some(Settings { draft, window }) = self.settings() {
            let cases = trial.coverage.of_mut(draft).of_mut(window);
            cases.checked[usize::from(!self.sound)] += 1;
        }
        self.same_image(trial);
    }

    #[track_caller]
    fn same_image(&self, trial: &Trial) {
        trial.same(&self.image, self.exported_image.get(), "state");
        trial.check(self.exported_image.guards_stay(), "written past the image");
    }

    /// Puts another image in place of the carried one, with a pool for its window.
    pub fn set_image(&mut self, trial: &mut Trial, image: &[u8; RECEIVER_IMAGE]) {
        self.image = *image;
        self.image_before = *image;
        self.exported_image = Lent::new(image);
        if let Some(window) = window_of(image) {
            self.set_pool(trial, window);
        }
        self.check(trial);
    }

    pub fn image(&self) -> &[u8; RECEIVER_IMAGE] {
        &self.image
    }

    pub fn pool(&self) -> &[u8] {
        &self.pool
    }

    /// The octets of the last bundle, if it had this length.
    pub fn bundle(&self, length: usize) -> &[u8] {
        &self.output[..length]
    }

    pub fn greatest(&self) -> Option<u32> {
        let number = self.image[4..8].try_into().expect("four octets");
        (self.image[0] == 1).then_some(u32::from_be_bytes(number))
    }

    /// Checks that the last call told another receiver the same, and that it has the same state, pool
    /// and output.
    pub fn check_same(&self, trial: &Trial, other: &ReceiverPair) {
        trial.check(self.told == other.told, "another answer");
        trial.check(self.image == other.image, "another state");
        trial.check(self.pool == other.pool, "another pool");
        trial.check(self.output == other.output, "another output");
    }

    pub fn receive(
        &mut self,
        trial: &mut Trial,
        frame: &[u8],
        place: u64,
        lending: Lending,
    ) -> Received {
        let lent_result = trial.begin_call();
        trial.coverage.receiving_calls += 1;
        let settings = self.settings();
        let draft = self.draft();
        self.lend(trial, frame, lending.output);
        let [model, exported] = self.call(trial, frame, place, lending.other_pool, lent_result);
        let number = trial.same_answer(draft, model, exported);
        self.same_lent(trial, frame);
        trial.check((number == 1) != self.sound, "refusal 1 against the check");
        trial.check(self.settings() == settings, "another draft or window");
        let (returned, result) = model;
        let received = self.classify(trial, returned, lent_result, result, frame);
        if let Some(settings) = settings {
            let cases = trial.coverage.of_mut(settings.draft);
            cases.received(settings, frame, returned >> 8, received);
            if let (2, Some(length), MIN_OUTPUT..) = (number, lending.other_pool, lending.output) {
                let cases = cases.of_mut(settings.window);
                cases.refused_pool(length, false);
            }
        }
        self.told = match received {
            Received::Refused(_) => vec![u64::from(returned)],
            Received::Finished => vec![0, result[0]],
            Received::Bundle { .. } => [&[0], &result[..]].concat(),
        };
        self.image_before = self.image;
        if number == 0 {
            self.check(trial);
            trial.check(self.sound, "the state left is not sound");
            self.pool_before.copy_from_slice(&self.pool);
            self.output_before.copy_from_slice(&self.output);
        }
        received
    }

    /// Prepares a frame, and an output of this length.
    fn lend(&mut self, trial: &mut Trial, frame: &[u8], output: usize) {
        if self.exported_frame.get() != frame {
            self.exported_frame = Lent::new(frame);
        }
        if self.output.len() != output {
            self.output = trial.random.octets(output);
            self.output_before = self.output.clone();
            self.exported_output = Lent::new(&self.output);
        }
    }

    /// The call on both sides, with what was returned and left in the result.
    fn call(
        &mut self,
        trial: &mut Trial,
        frame: &[u8],
        place: u64,
        other_pool: Option<usize>,
        lent: [u64; 4],
    ) -> [(u32, [u64; 4]); 2] {
        let (mut result, mut exported_result) = (lent, lent);
        let mut other = other_pool.map(|length| trial.random.octets(length));
        let mut exported_other = other.as_deref().map(Lent::new);
        // An image without a draft is refused before there is anything to observe.
        let observer = trial.coverage.of_mut(self.draft().unwrap_or(Draft::D02));
        let returned = interface::receive(
            &mut self.image,
            other.as_mut().unwrap_or(&mut self.pool),
            frame,
            place,
            &mut self.output,
            &mut result,
            observer,
        );
        let pool = exported_other.as_mut().unwrap_or(&mut self.exported_pool);
        let exported = raw::receive(
            self.exported_image.array(),
            pool.lend(),
            self.exported_frame.get(),
            place,
            self.exported_output.lend(),
            &mut exported_result,
        );
        if let (Some(other), Some(exported)) = (&other, &exported_other) {
            trial.same(other, exported.get(), "other pool");
            trial.check(exported.guards_stay(), "written past the pool");
        }
        [(returned, result), (exported, exported_result)]
    }

    /// Compares all that was lent.
    #[track_caller]
    fn same_lent(&self, trial: &Trial, frame: &[u8]) {
        self.same_image(trial);
        trial.same(&self.pool, self.exported_pool.get(), "pool");
        trial.same(&self.output, self.exported_output.get(), "output");
        trial.same(frame, self.exported_frame.get(), "frame");
        let lent = [
            &self.exported_pool,
            &self.exported_output,
            &self.exported_frame,
        ];
        trial.check(
            lent.iter().all(|lent| lent.guards_stay()),
            "written past what was lent",
        );
    }

    /// Checks what holds of every answer.
    fn classify(
        &self,
        trial: &Trial,
        returned: u32,
        lent_result: [u64; 4],
        result: [u64; 4],
        frame: &[u8],
    ) -> Received {
        if returned != 0 {
            let place = (returned >> 8) as usize;
            let inside = place == 0 || place < frame.len();
            trial.check(inside, "place past the frame");
            trial.check(result == lent_result, "result of a refused call");
            trial.same(&self.image, &self.image_before, "state of a refused call");
            trial.same(&self.pool, &self.pool_before, "pool of a refused call");
            trial.same(
                &self.output,
                &self.output_before,
                "output of a refused call",
            );
            return Received::Refused(returned & 0xff);
        }
        if result[0] == 0 {
            trial.check(result[1..] == lent_result[1..], "result of Finished");
            trial.same(&self.output, &self.output_before, "output of Finished");
            return Received::Finished;
        }
        trial.check(result[0] == 1, "no such answer");
        let (length, next) = (result[1] as usize, result[2]);
        trial.check(length <= MIN_OUTPUT, "bundle too long");
        trial.check(next <= frame.len() as u64, "next place past the frame");
        trial.check(result[3] <= NO_NUMBER, "no such number");
        trial.same(
            &self.output[length..],
            &self.output_before[length..],
            "output behind the bundle",
        );
        Received::Bundle {
            length,
            next,
            number: u32::try_from(result[3]).ok(),
        }
    }

    /// Takes a frame to its end; the bundles go to `sink`.
    pub fn take(&mut self, trial: &mut Trial, frame: &[u8], sink: &mut dyn FnMut(&[u8])) {
        let mut place = 0;
        while let Received::Bundle { length, next, .. } =
            self.receive(trial, frame, place, Lending::default())
        {
            trial.check(next > place, "the place does not move on");
            sink(self.bundle(length));
            place = next;
        }
    }
}

#[derive(Clone, Copy, Debug, PartialEq, Eq)]
pub enum Sent {
    Refused(u32),
    Placed,
    PlacedAndReady,
    Ready,
    Nothing,
}

#[derive(Clone, Copy, Debug)]
pub enum Send<'a> {
    Place(&'a [u8]),
    Cancel,
    Flush,
}

/// The same sender on both sides.
pub struct SenderPair {
    image: [u8; SENDER_IMAGE],
    frame: Vec<u8>,
    exported_image: Lent,
    exported_frame: Lent,
    /// Whether the check says that the image is a sound state.
    sound: bool,
}

impl SenderPair {
    /// A sender with this image, and a frame buffer of the image's frame size.
    pub fn new(trial: &mut Trial, image: &[u8; SENDER_IMAGE]) -> SenderPair {
        let size = usize::from(u16::from_be_bytes([image[0], image[1]]));
        let frame = trial.random.octets(size);
        let mut pair = SenderPair {
            image: *image,
            exported_image: Lent::new(image),
            exported_frame: Lent::new(&frame),
            frame,
            sound: false,
        };
        pair.check(trial);
        pair
    }

    /// A fresh sender of the trial's draft.
    pub fn start(trial: &mut Trial, frame_size: usize, first_number: u32) -> SenderPair {
        let image = trial.random.array();
        let mut pair = SenderPair::new(trial, &image);
        let number = pair.restart(trial, trial.draft, frame_size as u64, first_number);
        trial.check(number == 0, "start is refused");
        pair.frame = trial.random.octets(frame_size);
        pair.exported_frame = Lent::new(&pair.frame);
        pair
    }

    /// The sender's start on the images as they are.
    pub fn restart(&mut self, trial: &mut Trial, draft: Draft, size: u64, first: u32) -> u32 {
        trial.calls += 1;
        trial.coverage.starts += 1;
        trial.coverage.of_mut(draft).started(size);
        let before = self.image;
        let returned = Model::sender_start(draft, &mut self.image, size, first);
        let exported = Exported::sender_start(draft, self.exported_image.array(), size, first);
        let number = trial.same_returned(Some(draft), returned, exported);
        self.same_image(trial);
        if number != 0 {
            trial.same(&self.image, &before, "state of a refused start");
            return number;
        }
        trial.check(self.draft() == Some(draft), "the draft of a fresh sender");
        self.check(trial);
        trial.check(self.sound, "a fresh sender is not sound");
        0
    }

    /// The check of the carried image.
    fn check(&mut self, trial: &mut Trial) {
        trial.calls += 1;
        let returned = interface::sender_check(&self.image);
        let exported = raw::sender_check(self.exported_image.array());
        self.sound = trial.same_returned(self.draft(), returned, exported) == 0;
        trial.check(returned <= 1, "another refusal than 1");
        trial.coverage.checks += 1;
        if let Some(draft) = self.draft() {
            let cases = trial.coverage.of_mut(draft);
            cases.checked_senders[usize::from(!self.sound)] += 1;
        }
        self.same_image(trial);
    }

    /// The draft that the image says.
    pub fn draft(&self) -> Option<Draft> {
        Draft::of_octet(self.image[SENDER_DRAFT])
    }

    pub fn is_sound(&self) -> bool {
        self.sound
    }

    #[track_caller]
    fn same_image(&self, trial: &Trial) {
        trial.same(&self.image, self.exported_image.get(), "state");
        trial.check(self.exported_image.guards_stay(), "written past the image");
    }

    pub fn frame(&self) -> &[u8] {
        &self.frame
    }

    pub fn fill(&self) -> usize {
        usize::from(u16::from_be_bytes([self.image[2], self.image[3]]))
    }

    /// The length of the transfer begun.
    pub fn begun(&self) -> Option<usize> {
        let length = u16::from_be_bytes([self.image[16], self.image[17]]);
        (self.image[8] == 1).then_some(usize::from(length))
    }

    pub fn send(&mut self, trial: &mut Trial, call: Send) -> Sent {
        let mut frame = std::mem::take(&mut self.frame);
        let mut lent = std::mem::replace(&mut self.exported_frame, Lent::new(&[]));
        let sent = self.send_into(trial, call, &mut frame, &mut lent);
        self.frame = frame;
        self.exported_frame = lent;
        sent
    }

    /// A call with another frame buffer of this length.
    pub fn send_elsewhere(&mut self, trial: &mut Trial, call: Send, length: usize) -> Sent {
        let mut frame = trial.random.octets(length);
        let mut lent = Lent::new(&frame);
        self.send_into(trial, call, &mut frame, &mut lent)
    }

    /// The call on both sides, with what was returned and left in the result.
    fn call(
        &mut self,
        trial: &Trial,
        call: Send,
        frame: &mut [u8],
        lent: &mut Lent,
        lent_result: [u64; 4],
    ) -> [(u32, [u64; 4]); 2] {
        let (mut result, mut exported_result) = (lent_result, lent_result);
        let image = &mut self.image;
        let exported_image = self.exported_image.array();
        let (returned, exported) = match call {
            Send::Place(bundle) => {
                let exported_bundle = Lent::new(bundle);
                let returned = interface::place(image, bundle, frame, &mut result);
                let exported = raw::place(
                    exported_image,
                    exported_bundle.get(),
                    lent.lend(),
                    &mut exported_result,
                );
                trial.untouched(bundle, &exported_bundle, "bundle");
                (returned, exported)
            }
            Send::Cancel => (
                interface::cancel(image, frame, &mut result),
                raw::cancel(exported_image, lent.lend(), &mut exported_result),
            ),
            Send::Flush => (
                interface::flush(image, frame, &mut result),
                raw::flush(exported_image, lent.lend(), &mut exported_result),
            ),
        };
        [(returned, result), (exported, exported_result)]
    }

    fn send_into(
        &mut self,
        trial: &mut Trial,
        call: Send,
        frame: &mut [u8],
        lent: &mut Lent,
    ) -> Sent {
        let lent_result = trial.begin_call();
        trial.coverage.sending_calls += 1;
        let image_before = self.image;
        let frame_before = frame.to_vec();
        let draft = self.draft();
        let [model, exported] = self.call(trial, call, frame, lent, lent_result);
        let number = trial.same_answer(draft, model, exported);
        let result = model.1;
        self.same_image(trial);
        trial.check(self.draft() == draft, "another draft");
        trial.same(frame, lent.get(), "frame");
        trial.check(lent.guards_stay(), "written past what was lent");
        trial.check((number == 1) != self.sound, "refusal 1 against the check");
        if number != 0 {
            trial.check(result == lent_result, "result of a refused call");
            trial.same(&self.image, &image_before, "state of a refused call");
            trial.same(frame, &frame_before, "frame of a refused call");
            return Sent::Refused(number);
        }
        trial.check(result[1..] == lent_result[1..], "result without meaning");
        trial.check(result[0] <= 3, "no such answer");
        self.check(trial);
        trial.check(self.sound, "the state left is not sound");
        let sent = match result[0] {
            0 => Sent::Placed,
            1 => Sent::PlacedAndReady,
            2 => Sent::Ready,
            _ => Sent::Nothing,
        };
        let [before, after] = [&image_before, &self.image].map(State::decode);
        if let (Some(before), Some(after)) = (before, after) {
            let cases = trial.coverage.of_mut(before.draft);
            cases.sent(call, before, after, sent);
        }
        sent
    }
}
