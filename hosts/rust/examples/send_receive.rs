//! Sends a bundle of 3,000 octets through frames of 512 and receives it again.

use std::error::Error;

use btpu::{Bundle, Receiver, Sender};

const FRAME_SIZE: usize = 512;
const FIRST_NUMBER: u32 = 7;

fn main() -> Result<(), Box<dyn Error>> {
    let octets: Vec<u8> = (0..3000).map(|i| (37 * i + i / 256) as u8).collect();

    let mut sender = Sender::new(FRAME_SIZE, FIRST_NUMBER)?;
    let mut frames: Vec<Vec<u8>> = Vec::new();
    sender.send(&octets, |frame| frames.push(frame.to_vec()))?;
    sender.finish(|frame| frames.push(frame.to_vec()))?;

    let mut receiver = Receiver::new();
    let mut received = Vec::new();
    for frame in &frames {
        received.extend(receiver.receive(frame)?);
    }

    let number = Some(FIRST_NUMBER);
    let length = octets.len();
    if received != [Bundle { number, octets }] {
        return Err("another bundle was received".into());
    }
    println!(
        "bundle of {length} octets received through {} frames of {FRAME_SIZE} octets",
        frames.len()
    );
    Ok(())
}
