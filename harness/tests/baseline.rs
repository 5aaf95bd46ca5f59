//! The two baselines of the speed table against the model: the same answers, bundles and refusals, and of
//! the receiver on the image the same image and pool. They know draft 02 alone.

use harness::baseline::{inplace, natural};
use harness::coverage::{Cases, FRAME_LENGTHS};
use harness::generate::{self, Beyond, OpenRow, Piece, RECEIVER_DAMAGE, RECEIVER_DRAFT};
use harness::model::image::RECEIVER as RECEIVER_IMAGE;
use harness::model::receiver::{Answer, State, CELL, MIN_OUTPUT};
use harness::model::{interface, Draft, Refusal, Settings, Window};
use harness::random::Random;

const DRAFT: Draft = Draft::D02;
const SEED: u64 = 3_144;
const ROUNDS: u64 = 2_500;
const FLOOR: u64 = 200;

/// Draft 02, and any window.
fn any_settings(random: &mut Random) -> Settings {
    Settings::new(DRAFT, random.pick(&Window::ALL))
}

/// Refusals by number; entry 0 counts the calls that were not refused.
type Refusals = [u64; 10];

#[derive(Default)]
struct Tally {
    /// What the model's receiver reached.
    reached: Cases,
    bundles: u64,
    inplace: Refusals,
    natural: Refusals,
}

/// The same receiver three times: the model, in place on the image, and natural unless the image is unsound.
struct Receivers {
    image: [u8; RECEIVER_IMAGE],
    pool: Vec<u8>,
    output: [u8; MIN_OUTPUT],
    inplace_image: [u8; RECEIVER_IMAGE],
    inplace_pool: Vec<u8>,
    inplace_output: [u8; MIN_OUTPUT],
    natural: Option<natural::Receiver>,
    natural_output: [u8; MIN_OUTPUT],
}

impl Receivers {
    /// With a pool of the image's window; where the image has none, of any window.
    fn new(random: &mut Random, image: &[u8; RECEIVER_IMAGE]) -> Receivers {
        let window = Window::of_number(image[1].into());
        let window = window.unwrap_or_else(|| random.pick(&Window::ALL));
        let pool = random.octets(window.pool());
        let output = random.array();
        let sound = State::decode(image).filter(State::is_sound);
        Receivers {
            image: *image,
            inplace_image: *image,
            natural: sound.map(|state| natural::Receiver::restored(&state, &pool)),
            inplace_pool: pool.clone(),
            pool,
            output,
            inplace_output: output,
            natural_output: output,
        }
    }

    fn fresh(random: &mut Random) -> Receivers {
        let settings = any_settings(random);
        Receivers::new(random, &generate::fresh_receiver(settings))
    }

    /// Fresh, or with any sound state.
    fn some(random: &mut Random) -> Receivers {
        if random.once_in(2) {
            return Receivers::fresh(random);
        }
        let settings = any_settings(random);
        let image = generate::sound_receiver(random, settings);
        Receivers::new(random, &image)
    }

    /// What the image says.
    fn settings(&self) -> Settings {
        let window = Window::of_number(self.image[1].into());
        Settings::new(DRAFT, window.expect("a window"))
    }

    fn greatest(&self) -> Option<u32> {
        let number = self.image[4..8].try_into().expect("four octets");
        (self.image[0] == 1).then_some(u32::from_be_bytes(number))
    }

    /// One call on all sides; the answer is the next place if a bundle was handed out.
    fn receive(&mut self, tally: &mut Tally, frame: &[u8], place: u64) -> Option<u64> {
        let lent = [11, 12, 13, 14];
        let (mut result, mut inplace_result) = (lent, lent);
        let returned = interface::receive(
            &mut self.image,
            &mut self.pool,
            frame,
            place,
            &mut self.output,
            &mut result,
            &mut tally.reached,
        );
        let inplace_returned = inplace::receive(
            &mut self.inplace_image,
            &mut self.inplace_pool,
            frame,
            place,
            &mut self.inplace_output,
            &mut inplace_result,
        );
        assert_eq!((inplace_returned, inplace_result), (returned, result));
        assert!(self.inplace_image == self.image, "image");
        assert!(self.inplace_pool == self.pool, "pool");
        assert!(self.inplace_output == self.output, "output");
        let number = returned as usize & 0xff;
        tally.inplace[number] += 1;
        if let Some(natural) = &mut self.natural {
            let answer = natural.receive(frame, place as usize, &mut self.natural_output);
            assert_eq!(told(answer, lent), (returned, result));
            assert!(self.natural_output == self.output, "natural output");
            tally.natural[number] += 1;
        }
        let bundle = returned == 0 && result[0] == 1;
        tally.bundles += u64::from(bundle);
        bundle.then_some(result[2])
    }

    /// A call of model and in place with a pool and an output of these lengths.
    fn receive_lending(&self, tally: &mut Tally, frame: &[u8], place: u64, lent: [usize; 2]) {
        let (mut image, mut inplace_image) = (self.image, self.image);
        let [mut pool, mut output] = lent.map(|length| vec![0xa5; length]);
        let (mut inplace_pool, mut inplace_output) = (pool.clone(), output.clone());
        let (mut result, mut inplace_result) = ([7; 4], [7; 4]);
        let returned = interface::receive(
            &mut image,
            &mut pool,
            frame,
            place,
            &mut output,
            &mut result,
            &mut tally.reached,
        );
        let inplace_returned = inplace::receive(
            &mut inplace_image,
            &mut inplace_pool,
            frame,
            place,
            &mut inplace_output,
            &mut inplace_result,
        );
        assert_eq!((inplace_returned, inplace_result), (returned, result));
        assert!(inplace_image == image, "image");
        assert!(inplace_pool == pool && inplace_output == output, "lent");
        tally.inplace[returned as usize & 0xff] += 1;
    }

    fn take(&mut self, tally: &mut Tally, frame: &[u8]) {
        let mut place = 0;
        while let Some(next) = self.receive(tally, frame, place) {
            place = next;
        }
    }
}

/// What the exported call would return and leave in the result that was lent.
fn told(answer: Result<Answer, Refusal>, lent: [u64; 4]) -> (u32, [u64; 4]) {
    match answer {
        Ok(Answer::Finished) => (0, [0, lent[1], lent[2], lent[3]]),
        Ok(Answer::Bundle {
            length,
            next,
            number,
        }) => {
            let number = number.map_or(interface::NO_NUMBER, u64::from);
            (0, [1, length as u64, next as u64, number])
        }
        Err(refusal) => (refusal.returned(), lent),
    }
}

fn honest(random: &mut Random, tally: &mut Tally) {
    let mut receivers = Receivers::fresh(random);
    let transfers = random.within(1, 24);
    let messages = generate::honest_messages(random, DRAFT, transfers);
    let size = random.pick(&[100, 400, 1000, 2048]);
    for frame in generate::pack(random, &messages, size) {
        receivers.take(tally, &frame);
    }
}

fn hostile(random: &mut Random, tally: &mut Tally) {
    let mut receivers = Receivers::some(random);
    for _ in 0..random.within(1, 12) {
        let frame = generate::hostile_frame(random, receivers.settings(), receivers.greatest());
        receivers.take(tally, &frame);
    }
}

fn malformed(random: &mut Random, tally: &mut Tally) {
    let mut receivers = Receivers::some(random);
    for _ in 0..random.within(4, 16) {
        let settings = receivers.settings();
        let mut frame = generate::hostile_frame(random, settings, receivers.greatest());
        for _ in 0..random.within(1, 2) {
            generate::damage_frame(random, DRAFT, &mut frame);
        }
        let place = match random.below(4) {
            0 => random.below(frame.len() + 2) as u64,
            _ => 0,
        };
        receivers.receive(tally, &frame, place);
    }
}

fn octets(random: &mut Random, tally: &mut Tally) {
    let mut receivers = Receivers::some(random);
    for _ in 0..random.within(4, 16) {
        let frame = generate::random_frame(random);
        receivers.take(tally, &frame);
    }
}

/// Every place of a frame, and places beyond.
fn places(random: &mut Random, tally: &mut Tally) {
    let mut receivers = Receivers::some(random);
    let mut greatest = receivers.greatest();
    let mut frame = generate::passed(random, DRAFT, 20);
    for _ in 0..random.within(1, 4) {
        let settings = receivers.settings();
        let message = generate::hostile_message(random, settings, &mut greatest);
        if frame.len() + message.len() <= 120 {
            frame.extend(message);
        }
    }
    let beyond = [1 << 16, 1 << 32, (1 << 32) + frame.len() as u64, u64::MAX];
    for place in (0..frame.len() as u64 + 3).chain(beyond) {
        receivers.receive(tally, &frame, place);
    }
}

/// Pieces that just fit, complete, repeat, contradict or overflow the rows of a sound state.
fn rows(random: &mut Random, tally: &mut Tally) {
    let settings = any_settings(random);
    let image = generate::sound_receiver(random, settings);
    let mut receivers = Receivers::new(random, &image);
    let rows = settings.window.rows();
    for _ in 0..random.within(8, 40) {
        let greatest = receivers.greatest().expect("it stays");
        let number = greatest.wrapping_sub(random.below(rows) as u32);
        let row = generate::row(&receivers.image, number as usize % rows);
        let frame = match row[0] {
            1 => {
                let (piece, data) = generate::piece_for(random, &OpenRow::read(row), number);
                piece.message(DRAFT, &[], &data)
            }
            _ => generate::hostile_message(random, settings, &mut Some(number)),
        };
        receivers.receive(tally, &frame, 0);
    }
}

/// Transfers of up to 64 pieces in rising, falling or any order, that come in single frames.
fn joins(random: &mut Random, tally: &mut Tally) {
    let mut receivers = Receivers::fresh(random);
    let number = generate::first_number(random);
    let length = match random.once_in(2) {
        true => CELL,
        false => generate::bundle_length(random),
    };
    let bundle = random.octets(length);
    let mut pieces = generate::cut(random, &bundle, 63);
    if random.once_in(2) {
        pieces.push(&[]);
    }
    let mut order: Vec<usize> = (0..pieces.len()).collect();
    match random.below(3) {
        0 => {}
        1 => order.reverse(),
        _ => random.shuffle(&mut order),
    }
    let before = tally.bundles;
    for place in order {
        let piece = Piece::sent(DRAFT, number, place, pieces.len());
        let frame = piece.message(DRAFT, &[], pieces[place]);
        receivers.take(tally, &frame);
    }
    assert_eq!(tally.bundles, before + 1);
    assert!(receivers.natural_output[..length] == bundle, "the bundle");
}

/// Wrong sizes of what is lent, which the natural receiver cannot be given.
fn lending(random: &mut Random, tally: &mut Tally) {
    let receivers = Receivers::some(random);
    let settings = receivers.settings();
    let right = settings.window.pool();
    let [four, eight, sixteen] = Window::ALL.map(Window::pool);
    for _ in 0..random.within(2, 8) {
        let mut frame = generate::hostile_frame(random, settings, receivers.greatest());
        if random.once_in(3) {
            frame.resize(random.pick(&FRAME_LENGTHS), 0);
        }
        let wrong = [0, 1, right - 1, right + 1, four, eight, sixteen];
        let pool = match random.once_in(2) {
            true => right,
            false => random.pick(&wrong),
        };
        let output = random.pick(&[0, 1, 4095, 4096, 4097, 6000]);
        let place = random.pick(&[0, 0, 0, 1, frame.len() as u64]);
        receivers.receive_lending(tally, &frame, place, [pool, output]);
    }
}

fn unsound(random: &mut Random, tally: &mut Tally) {
    let settings = any_settings(random);
    for (damage, name) in RECEIVER_DAMAGE.iter().enumerate() {
        let image = generate::unsound_receiver(random, settings, damage);
        refused(random, tally, &image, name);
    }
    if settings.window != Window::Sixteen {
        for way in Beyond::ALL {
            let image = generate::with_beyond(random, settings, way);
            refused(random, tally, &image, "beyond the window");
        }
    }
}

fn refused(random: &mut Random, tally: &mut Tally, image: &[u8; RECEIVER_IMAGE], name: &str) {
    let before = tally.inplace[1];
    let mut receivers = Receivers::new(random, image);
    receivers.receive(tally, &generate::random_frame(random), 0);
    assert_eq!(tally.inplace[1], before + 1, "{name}");
}

const GENERATED: [fn(&mut Random, &mut Tally); 9] = [
    honest, hostile, malformed, octets, places, rows, joins, lending, unsound,
];

#[test]
fn the_baselines_agree_with_the_model() {
    let mut tally = Tally::default();
    for round in 0..ROUNDS {
        for generated in GENERATED {
            generated(&mut Random::new(SEED + round), &mut tally);
        }
    }
    let sum = |refusals: &Refusals| refusals.iter().sum::<u64>();
    println!(
        "in place: {} calls, {:?}",
        sum(&tally.inplace),
        tally.inplace
    );
    println!(
        "natural: {} calls, {:?}",
        sum(&tally.natural),
        tally.natural
    );
    println!("{} bundles", tally.bundles);
    let reached = &tally.reached;
    println!("row steps {:?}, joins {:?}", reached.steps, reached.joins);
    check_windows(reached);
    for number in [0, 1, 2, 3, 4, 6, 7, 8, 9] {
        assert!(tally.inplace[number] >= FLOOR, "in place: {number}");
        let cannot = number == 1 || number == 2;
        assert_eq!(tally.natural[number] < FLOOR, cannot, "natural: {number}");
    }
    let [segments, ends] = reached.steps.each_ref().map(|steps| &steps[1..]);
    let counts = [segments, ends, &reached.contradictions, &reached.joins];
    for counts in counts.iter().chain([&&reached.cancels[..]]) {
        assert!(counts.iter().all(|&count| count >= FLOOR), "{counts:?}");
    }
    assert!(sum(&tally.inplace) >= 300_000);
    assert!(sum(&tally.natural) >= 300_000);
    assert!(tally.bundles >= 40_000);
}

/// Every row of each window's table was reached, and every edge.
fn check_windows(reached: &Cases) {
    for window in Window::ALL {
        let reached = reached.of(window);
        println!("{window}: differences {:?}", reached.edges);
        for counts in [&reached.edges[..], &reached.distances] {
            let enough = counts.iter().all(|&count| count >= FLOOR);
            assert!(enough, "{window}: {counts:?}");
        }
    }
}

/// Every octet of some images set to values that mean something in one place or another.
#[test]
fn every_octet_of_some_images() {
    let mut random = Random::new(SEED);
    let (mut sound, mut unsound) = (0, 0);
    for window in Window::ALL.into_iter().cycle().take(12) {
        let image = generate::sound_receiver(&mut random, Settings::new(DRAFT, window));
        let (mut pool, mut output) = (vec![0; 65_536], [0; MIN_OUTPUT]);
        for at in 0..RECEIVER_IMAGE {
            let before = image[at];
            let near = [before.wrapping_sub(1), before.wrapping_add(1)];
            for octet in near.into_iter().chain([0, 1, 4, 5, 8, 16, 63, 64, 255]) {
                let mut changed = image;
                changed[at] = octet;
                let expected = match changed[RECEIVER_DRAFT] {
                    0 => interface::receiver_check(&changed),
                    _ => 1,
                };
                let left = changed;
                let lent = &mut [0; 4];
                // Only octet 1 makes it another window, with a pool of another size.
                let now = Window::of_number(changed[1].into()).unwrap_or(window);
                let pool = &mut pool[..now.pool()];
                let returned = inplace::receive(&mut changed, pool, &[0], 0, &mut output, lent);
                assert_eq!(returned, expected, "octet {at} is {octet}");
                assert!(changed == left, "image");
                match returned {
                    0 => sound += 1,
                    _ => unsound += 1,
                }
            }
        }
    }
    println!("{sound} sound, {unsound} unsound");
    assert!(sound >= 10_000 && unsound >= 100_000);
}
