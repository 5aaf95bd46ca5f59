//! The test vectors of `vectors/`, against the model and against the exported interface.
//!
//! Those of receiver.jsonl are of window 16. Where what they do is the same in a smaller window, they are
//! run in it as well. Those of windows.jsonl say their window.

use btpu::raw::{NO_NUMBER, RECEIVER_IMAGE, SENDER_IMAGE};
use harness::board::hex;
use harness::generate::RECEIVER_WINDOW;
use harness::json::Json;
use harness::model::receiver::Observer;
use harness::model::{interface, Distance, Draft, Window, MAX_ROWS};
use harness::sha256::sha256;
use harness::side::{Exported, Model, Side};

const ROW_IMAGE: usize = 196;
const PIECES: usize = 64;

/// Entries without meaning have to keep these values.
const UNTOUCHED: [u64; 4] = [
    0x1111_1111_1111_1111,
    0x2222_2222_2222_2222,
    0x3333_3333_3333_3333,
    0x4444_4444_4444_4444,
];

fn lines(name: &str) -> Vec<Json> {
    let path = format!("{}/vectors/{name}", env!("CARGO_MANIFEST_DIR"));
    let text = std::fs::read_to_string(&path).unwrap_or_else(|fault| panic!("{path}: {fault}"));
    text.lines()
        .map(|line| Json::parse(line).unwrap_or_else(|fault| panic!("{path}: {fault}")))
        .collect()
}

fn pool_pattern(length: usize, seed: usize) -> Vec<u8> {
    (0..length)
        .map(|i| (131 * i + 17 * (i / 256) + 29 * seed) as u8)
        .collect()
}

fn bundle_pattern(length: usize, seed: usize) -> Vec<u8> {
    (0..length)
        .map(|i| (37 * i + 11 * (i / 256) + seed) as u8)
        .collect()
}

fn frame_pattern(length: usize, seed: usize) -> Vec<u8> {
    (0..length).map(|i| (7 * i + seed) as u8).collect()
}

fn size(json: &Json) -> usize {
    json.unsigned() as usize
}

/// The digest of octets, reckoned anew only where they differ from the last ones.
#[derive(Default)]
struct Digest {
    octets: Vec<u8>,
    digest: String,
}

impl Digest {
    fn of(&mut self, octets: &[u8]) -> &str {
        if self.digest.is_empty() || self.octets != octets {
            self.digest = sha256(octets);
            self.octets = octets.to_vec();
        }
        &self.digest
    }
}

/// The image of a vector's state in a window, or the name of an entry that the image cannot hold.
fn receiver_image(state: &Json, window: Window) -> Result<[u8; RECEIVER_IMAGE], &'static str> {
    let mut image = [0; RECEIVER_IMAGE];
    image[RECEIVER_WINDOW] = window.octet();
    image[0] = state.at("g_known").flag().into();
    let greatest = u32::try_from(state.at("g").unsigned()).map_err(|_| "g")?;
    image[4..8].copy_from_slice(&greatest.to_be_bytes());
    for row in state.at("rows").list() {
        let start = 8 + ROW_IMAGE * size(row.at("row"));
        let octets = &mut image[start..start + ROW_IMAGE];
        let entry = |name| u8::try_from(row.at(name).unsigned()).map_err(|_| name);
        octets[0] = entry("kind")?;
        octets[1] = row.at("final_known").flag().into();
        octets[2] = entry("final")?;
        octets[3] = entry("count")?;
        for (place, index) in row.at("index").list().iter().enumerate() {
            octets[4 + place] = index.unsigned().try_into().map_err(|_| "index")?;
        }
        for (place, length) in row.at("length").list().iter().enumerate() {
            let length = u16::try_from(length.unsigned()).map_err(|_| "length")?;
            octets[4 + PIECES + 2 * place..][..2].copy_from_slice(&length.to_be_bytes());
        }
    }
    Ok(image)
}

/// The vectors' serialisation of a state, from its image.
fn receiver_serialisation(image: &[u8]) -> Vec<u8> {
    let mut octets = vec![image[0]];
    octets.extend(&image[4..8]);
    for row in image[8..].chunks_exact(ROW_IMAGE) {
        let (head, entries) = row.split_at(4);
        let (indexes, lengths) = entries.split_at(PIECES);
        octets.extend(&head[..2]);
        for &entry in head[2..].iter().chain(indexes) {
            octets.extend([0, 0, 0, entry]);
        }
        for length in lengths.chunks_exact(2) {
            octets.extend([0, 0, length[0], length[1]]);
        }
    }
    assert_eq!(octets.len(), 5 + MAX_ROWS * (2 + 4 * (2 + 2 * PIECES)));
    octets
}

#[derive(Default)]
struct Digests {
    state: Digest,
    pool: Digest,
    output: Digest,
}

/// The frame of a call.
fn frame_of(call: &Json) -> Vec<u8> {
    match call.at("frame") {
        Json::Text(digits) => hex(digits),
        other => vec![other.at("fill").unsigned() as u8; size(other.at("len"))],
    }
}

/// What a call returns and leaves in its result, by its answer.
fn expected(call: &Json, context: &str) -> (u64, [u64; 4]) {
    let mut result = UNTOUCHED;
    match call.at("answer").text() {
        "finished" => result[0] = 0,
        "bundle" => {
            let number = match call.at("number") {
                Json::Null => NO_NUMBER,
                number => number.unsigned(),
            };
            let entry = |name| call.at(name).unsigned();
            result = [1, entry("length"), entry("next"), number];
        }
        "refused" => {
            let number = call.at("no").unsigned();
            assert_ne!(number, 0, "{context}");
            let place = match call.at("at") {
                Json::Null => {
                    assert!(!(4..=8).contains(&number), "{context}");
                    0
                }
                at => at.unsigned(),
            };
            return (number + 256 * place, result);
        }
        other => panic!("{context}: no such answer: {other}"),
    }
    (0, result)
}

/// A state, with the pool that the vector's pool begins with.
struct Receiver {
    window: Window,
    state: [u8; RECEIVER_IMAGE],
    pool: Vec<u8>,
}

impl Receiver {
    /// The receiver that a line starts with, or the name of an entry that the image cannot hold.
    fn of<S: Side>(line: &Json, window: Window) -> Result<Receiver, &'static str> {
        let state = match line.at("state") {
            Json::Text(text) => {
                assert_eq!(text, "start");
                let mut state = [0xa5; RECEIVER_IMAGE];
                let returned = S::receiver_start(Draft::D02, window.number(), &mut state);
                assert_eq!(returned, 0, "{}", line.at("id").text());
                state
            }
            state => receiver_image(state, window)?,
        };
        let pool = line.at("pool");
        let pool = pool_pattern(size(pool.at("len")), size(pool.at("seed")));
        Ok(Receiver {
            window,
            state,
            pool,
        })
    }

    /// A call; the answer is what it returned.
    fn receive<S: Side>(
        &mut self,
        call: &Json,
        output: &mut [u8],
        result: &mut [u64; 4],
        context: &str,
    ) -> u32 {
        let frame = frame_of(call);
        let place = call.at("place").unsigned();
        let Some(length) = call.get("pool_len") else {
            let pool = &mut self.pool[..self.window.pool()];
            return S::receive(&mut self.state, pool, &frame, place, output, result);
        };
        let mut other = self.pool.clone();
        other.resize(size(length), 0);
        let lent = other.clone();
        let returned = S::receive(&mut self.state, &mut other, &frame, place, output, result);
        assert!(other == lent, "{context}: the other pool changed");
        returned
    }
}

fn run_receiver<S: Side>(line: &Json, mut receiver: Receiver, digests: &mut Digests) {
    let window = receiver.window;
    for (count, call) in line.at("calls").list().iter().enumerate() {
        let id = line.at("id").text();
        let context = format!("{} {id}, {window}, call {count}", S::NAME);
        let mut output = vec![call.at("out_fill").unsigned() as u8; size(call.at("out_len"))];
        let mut result = UNTOUCHED;
        let checked = S::receiver_check(&receiver.state);
        let returned = receiver.receive::<S>(call, &mut output, &mut result, &context);
        let (refusal, entries) = expected(call, &context);
        assert_eq!(u64::from(returned), refusal, "{context}");
        assert_eq!(checked, u32::from(refusal == 1), "{context}: check");
        assert_eq!(result, entries, "{context}: result");
        if let Some(bundle) = call.get("bundle") {
            let bundle = hex(bundle.text());
            assert_eq!(output[..bundle.len()], bundle, "{context}: bundle");
            assert_eq!(entries[1], bundle.len() as u64, "{context}: bundle");
        }
        if let Some(state) = call.get("state_after") {
            let after = receiver_image(state, window);
            assert!(after == Ok(receiver.state), "{context}: state");
        }
        let digest = digests.state.of(&receiver_serialisation(&receiver.state));
        assert_eq!(digest, call.at("state_sha256").text(), "{context}: state");
        let digest = digests.pool.of(&receiver.pool);
        assert_eq!(digest, call.at("pool_sha256").text(), "{context}: pool");
        let digest = digests.output.of(&output);
        assert_eq!(digest, call.at("output_sha256").text(), "{context}: output");
    }
}

/// The smaller windows in which a line of window 16 does the same.
struct Same([(Window, bool); 2]);

impl Same {
    /// By the state that it starts with, and by what its messages do on the model.
    fn of(line: &Json) -> Same {
        let mut same = Same([(Window::Four, true), (Window::Eight, true)]);
        let mut receiver = Receiver::of::<Model>(line, Window::Sixteen).expect("an image");
        if interface::receiver_check(&receiver.state) != 0 {
            return same;
        }
        for (window, same) in &mut same.0 {
            let beyond = &receiver.state[8 + ROW_IMAGE * window.rows()..];
            *same = beyond.iter().all(|&octet| octet == 0);
        }
        for call in line.at("calls").list() {
            let frame = frame_of(call);
            let place = call.at("place").unsigned();
            let (state, pool) = (&mut receiver.state, &mut receiver.pool);
            let mut output = vec![0; size(call.at("out_len"))];
            let mut other = call.get("pool_len").map(|length| vec![0; size(length)]);
            let pool = other.as_mut().unwrap_or(pool);
            let result = &mut [0; 4];
            interface::receive(state, pool, &frame, place, &mut output, result, &mut same);
            let is_pool = |length: usize, window: &Window| length == window.pool();
            for (window, same) in &mut same.0 {
                *same &= !other
                    .as_ref()
                    .is_some_and(|pool| is_pool(pool.len(), window));
            }
        }
        same
    }
}

impl Observer for Same {
    fn distance(&mut self, _: Window, case: Distance, difference: u32, number: u32) {
        for (window, same) in &mut self.0 {
            let row = Window::Sixteen.row_of(number) == window.row_of(number);
            let meaning = case == Distance::First || window.distance(difference) == case;
            // As many numbers enter, or all rows become Free.
            let few = difference < window.number() || difference >= 16;
            *same &= row && meaning && (case != Distance::New || few);
        }
    }
}

/// Lines and calls.
#[derive(Debug, Default, PartialEq, Eq)]
struct Ran {
    lines: usize,
    calls: usize,
}

impl Ran {
    fn run<S: Side>(&mut self, line: &Json, receiver: Receiver, digests: &mut Digests) {
        run_receiver::<S>(line, receiver, digests);
        self.lines += 1;
        self.calls += line.at("calls").list().len();
    }
}

/// What was run in windows 4, 8 and 16, and the entries for which lines were left out.
fn receiver_vectors<S: Side>() -> ([Ran; 3], Vec<&'static str>) {
    let mut digests = Digests::default();
    let mut ran = <[Ran; 3]>::default();
    let mut left_out = Vec::new();
    for line in lines("receiver.jsonl") {
        assert_eq!(line.at("kind").text(), "receiver");
        match Receiver::of::<S>(&line, Window::Sixteen) {
            Ok(receiver) => ran[2].run::<S>(&line, receiver, &mut digests),
            Err(entry) => {
                left_out.push(entry);
                continue;
            }
        }
        for (ran, (window, same)) in ran.iter_mut().zip(Same::of(&line).0) {
            if same {
                let receiver = Receiver::of::<S>(&line, window).expect("an image");
                ran.run::<S>(&line, receiver, &mut digests);
            }
        }
    }
    (ran, left_out)
}

/// What was run in each window of the vectors that name theirs.
fn window_vectors<S: Side>() -> [Ran; 3] {
    let mut digests = Digests::default();
    let mut ran = <[Ran; 3]>::default();
    for line in lines("windows.jsonl") {
        assert_eq!(line.at("kind").text(), "receiver");
        let window = Window::of_number(line.at("window").unsigned() as u32).expect("a window");
        let receiver = Receiver::of::<S>(&line, window).expect("an image");
        let place = Window::ALL.iter().position(|&of| of == window);
        ran[place.expect("a window")].run::<S>(&line, receiver, &mut digests);
    }
    ran
}

/// The image of a vector's state; all the sender's vectors can be held by it.
fn sender_image(state: &Json) -> [u8; SENDER_IMAGE] {
    let two = |name| {
        let number = u16::try_from(state.at(name).unsigned()).expect("two octets");
        number.to_be_bytes()
    };
    let four = |name| {
        let number = u32::try_from(state.at(name).unsigned()).expect("four octets");
        number.to_be_bytes()
    };
    let mut image = Vec::new();
    image.extend(two("P"));
    image.extend(two("fill"));
    image.extend(four("next"));
    image.extend([state.at("begun").flag().into(), 0, 0, 0]);
    image.extend(four("number"));
    image.extend(two("length"));
    image.extend(two("placed"));
    image.extend(four("index"));
    image.try_into().expect("the image's length")
}

/// Calls S::place, S::cancel or S::flush.
fn send<S: Side>(
    call: &Json,
    state: &mut [u8; SENDER_IMAGE],
    frame: &mut [u8],
    result: &mut [u64; 4],
) -> u32 {
    match call.at("op").text() {
        "place" => {
            let bundle = call.at("bundle");
            let bundle = bundle_pattern(size(bundle.at("len")), size(bundle.at("seed")));
            S::place(state, &bundle, frame, result)
        }
        "cancel" => S::cancel(state, frame, result),
        "flush" => S::flush(state, frame, result),
        other => panic!("no such call: {other}"),
    }
}

fn run_sender<S: Side>(line: &Json, digest: &mut Digest) {
    let id = line.at("id").text();
    let mut state = [0xa5; SENDER_IMAGE];
    match line.get("start") {
        None => state = sender_image(line.at("state")),
        Some(start) => {
            let first = start.at("first").unsigned() as u32;
            let size = start.at("P").unsigned();
            let returned = S::sender_start(Draft::D02, &mut state, size, first);
            if start.at("answer").text() == "refused" {
                assert_eq!(u64::from(returned), start.at("no").unsigned(), "{id}");
                assert_eq!(state, [0xa5; SENDER_IMAGE], "{id}: state changed");
                assert!(line.at("calls").list().is_empty(), "{id}");
                return;
            }
            assert_eq!(returned, 0, "{id}");
        }
    }
    let frame = line.at("frame");
    let mut frame = frame_pattern(size(frame.at("len")), size(frame.at("seed")));
    for (count, call) in line.at("calls").list().iter().enumerate() {
        let context = format!("{} {id} call {count}", S::NAME);
        let mut result = UNTOUCHED;
        let checked = S::sender_check(&state);
        let returned = match call.get("frame_len") {
            None => send::<S>(call, &mut state, &mut frame, &mut result),
            Some(length) => {
                let mut other = frame_pattern(size(length), 0);
                let lent = other.clone();
                let returned = send::<S>(call, &mut state, &mut other, &mut result);
                assert!(other == lent, "{context}: the other frame changed");
                returned
            }
        };
        let mut expected = UNTOUCHED;
        let mut refusal = 0;
        match call.at("answer").text() {
            "placed" => expected[0] = 0,
            "placed and ready" => expected[0] = 1,
            "ready" => expected[0] = 2,
            "nothing" => expected[0] = 3,
            "refused" => {
                refusal = call.at("no").unsigned();
                assert_ne!(refusal, 0, "{context}");
            }
            other => panic!("{context}: no such answer: {other}"),
        }
        assert_eq!(u64::from(returned), refusal, "{context}");
        assert_eq!(checked, u32::from(refusal == 1), "{context}: check");
        assert_eq!(result, expected, "{context}: result");
        assert_eq!(
            state,
            sender_image(call.at("state_after")),
            "{context}: state"
        );
        if let Some(digits) = call.get("frame_hex") {
            assert_eq!(frame, hex(digits.text()), "{context}: frame");
        }
        assert_eq!(
            digest.of(&frame),
            call.at("frame_sha256").text(),
            "{context}: frame"
        );
    }
}

fn sender_vectors<S: Side>() -> (usize, usize) {
    let mut digest = Digest::default();
    let (mut ran, mut calls) = (0, 0);
    for line in lines("sender.jsonl") {
        assert_eq!(line.at("kind").text(), "sender");
        run_sender::<S>(&line, &mut digest);
        ran += 1;
        calls += line.at("calls").list().len();
    }
    (ran, calls)
}

/// Of 350 lines three have states that no image can hold.
fn receiver_lines<S: Side>() {
    let (ran, left_out) = receiver_vectors::<S>();
    let counts = ran.map(|ran| (ran.lines, ran.calls));
    assert_eq!(counts, [(97, 569), (141, 1_707), (347, 5_587)]);
    assert_eq!(left_out, ["length", "count", "index"]);
}

#[test]
fn receiver_model() {
    receiver_lines::<Model>();
}

#[test]
fn receiver_exported() {
    receiver_lines::<Exported>();
}

fn window_lines<S: Side>() {
    let counts = window_vectors::<S>().map(|ran| (ran.lines, ran.calls));
    assert_eq!(counts, [(29, 45), (26, 42), (20, 36)]);
}

#[test]
fn windows_model() {
    window_lines::<Model>();
}

#[test]
fn windows_exported() {
    window_lines::<Exported>();
}

#[test]
fn sender_model() {
    assert_eq!(sender_vectors::<Model>(), (218, 2_630));
}

#[test]
fn sender_exported() {
    assert_eq!(sender_vectors::<Exported>(), (218, 2_630));
}
