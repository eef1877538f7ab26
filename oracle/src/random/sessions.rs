//! Random lines that start a session, take frames, patch and print.

use super::rng::Rng;
use super::text::Text;
use super::values;
use crate::parser::Frame;
use crate::session::Session;
use motor_vendor_damiao::motor::adapter::{self, FrameClass};

const LAST_READING: u64 = 1 << 62;

/// The start of a session, mostly accepted.
pub fn start(rng: &mut Rng) -> Vec<u8> {
    let motor = values::motor_id(rng);
    let feedback = match rng.below(16) {
        0..=2 => rng.next() as u16,
        3..=5 => 0x7FF,
        6 => values::motor_id(rng),
        7 => motor,
        _ => motor.wrapping_add(0x10),
    };
    if rng.chance(50) {
        let limits = values::limits(rng);
        Text::new("start-limits")
            .number(rng, motor)
            .number(rng, feedback)
            .floats(rng, &limits)
            .bytes
    } else {
        let name = model_name(rng);
        Text::new("start-model")
            .word(&name)
            .number(rng, motor)
            .number(rng, feedback)
            .bytes
    }
}

/// A start that is refused, for one reason or for two: the session in use goes on.
fn refused_start(rng: &mut Rng) -> Vec<u8> {
    let motor: u16 = rng.pick(&[1, 0x4FF, 0x500, 0xFFFF]);
    if rng.chance(50) {
        return Text::new("start-model")
            .word(b"4340X")
            .number(rng, motor)
            .number(rng, 0x11u16)
            .bytes;
    }
    let mut limits = values::limits(rng);
    let at = rng.below(3) as usize;
    limits[at] = rng.pick(&[
        0,
        0x3A7F_FFFF,
        0x4780_0001,
        0x7F80_0000,
        0x7FC0_0000,
        0xC148_0000,
    ]);
    Text::new("start-limits")
        .number(rng, motor)
        .number(rng, 0x11u16)
        .floats(rng, &limits)
        .bytes
}

/// A model's name, or something like one.
fn model_name(rng: &mut Rng) -> Vec<u8> {
    let at = rng.below(16) as usize;
    let (name, _) = adapter::models().nth(at).expect("16 models");
    let mut name = name.as_bytes().to_vec();
    match rng.below(24) {
        0 => name.push(rng.pick(b"P0X_\0")),
        1 => {
            name.pop();
        }
        2 => {
            let at = rng.below(name.len() as u64) as usize;
            name[at] ^= 1 << rng.below(5);
        }
        3 => name = b"4340X".to_vec(),
        4 => name.make_ascii_lowercase(),
        5 => {
            name = (0..rng.below(20) + 1).map(|_| rng.next() as u8).collect();
            name.retain(|byte| !b" \t\r\n".contains(byte));
            name.push(b'7');
        }
        _ => {}
    }
    name
}

/// A reading for a frame: mostly the last one or little later, now and then one that is refused.
pub fn frame_reading(rng: &mut Rng, last: u64) -> u64 {
    match rng.below(64) {
        0 => last.saturating_sub(1 + rng.below(1000)),
        1 => rng.pick(&[LAST_READING + 1, u64::MAX, last + 1]),
        2 => last + rng.below(100_000_000),
        3 => rng.below(3),
        4..=15 => last + rng.below(2_000_001),
        16..=30 => last + rng.below(3),
        _ => last,
    }
}

/// These data bytes in a frame as this motor sends it; in so many percent of the cases something else about
/// the frame.
pub fn frame_with(
    rng: &mut Rng,
    session: &Session,
    reading: u64,
    data: [u8; 8],
    foreign: u64,
) -> Vec<u8> {
    let mut frame = plain(u32::from(session.feedback_id()), data);
    if rng.chance(foreign) {
        for _ in 0..rng.pick(&[1, 1, 1, 2, 3]) {
            spoil(rng, session, &mut frame);
        }
    }
    taken(rng, reading, frame)
}

/// A frame that was sent to a motor, as it is.
pub fn echo(rng: &mut Rng, reading: u64, id: u32, data: [u8; 8]) -> Vec<u8> {
    taken(rng, reading, plain(id, data))
}

fn plain(id: u32, data: [u8; 8]) -> Frame {
    Frame {
        id,
        data,
        dlc: 8,
        extended: false,
    }
}

fn taken(rng: &mut Rng, reading: u64, frame: Frame) -> Vec<u8> {
    let word = rng.pick(&["frame", "frame-lent"]);
    let text = Text::new(word).number(rng, reading);
    put_frame(rng, text, frame)
}

fn put_frame(rng: &mut Rng, text: Text, frame: Frame) -> Vec<u8> {
    text.number(rng, frame.id)
        .data(rng, frame.data)
        .number(rng, frame.dlc)
        .number(rng, frame.extended)
        .bytes
}

/// One thing about a frame made such that the frame is not this motor's, mostly.
fn spoil(rng: &mut Rng, session: &Session, frame: &mut Frame) {
    match rng.below(8) {
        0 => frame.extended = true,
        1 => frame.dlc = values::other_length(rng),
        2 | 3 => frame.id = other_id(rng, session),
        _ => spoil_address(rng, &mut frame.data),
    }
}

/// An id that is another than the feedback id, mostly.
fn other_id(rng: &mut Rng, session: &Session) -> u32 {
    let feedback = u32::from(session.feedback_id());
    match rng.below(8) {
        0 => rng.next() as u32,
        1 => feedback ^ 1 << rng.below(32),
        2 => u32::from(values::motor_id(rng)) + 0x10,
        3 | 4 => u32::from(session.motor_id()),
        _ => 0x7FF,
    }
}

/// Another motor in d0, or in d0 and d1 of a reply or an ack.
fn spoil_address(rng: &mut Rng, data: &mut [u8; 8]) {
    let low_bits = 1 + rng.below(15) as u8;
    if adapter::sort(data) == FrameClass::Feedback {
        data[0] ^= low_bits;
        return;
    }
    match rng.below(8) {
        0 | 1 => data[0] ^= low_bits << 4, // its low four bits stay
        2 => data[0] ^= low_bits,
        3 => data[0] = data[0].wrapping_add(rng.pick(&[1, 0xFF])),
        4 | 5 => data[1] = data[1].wrapping_add(rng.pick(&[1, 1, 0xFF])),
        6 => data[1] = rng.below(0x11) as u8,
        _ => (data[0], data[1]) = (rng.next() as u8, rng.below(0x10) as u8),
    }
}

/// Any frame, mostly of this motor.
pub fn frame(rng: &mut Rng, session: &Session) -> Vec<u8> {
    let mut data = values::data(rng);
    // What is not addressed is as a motor's position may look.
    if rng.chance(94) {
        data = addressed(data, session.motor_id());
    }
    let reading = frame_reading(rng, session.last());
    frame_with(rng, session, reading, data, 20)
}

/// Data bytes with the motor's id where their class has it.
fn addressed(mut data: [u8; 8], motor: u16) -> [u8; 8] {
    let [low, high] = motor.to_le_bytes();
    match adapter::sort(&data) {
        FrameClass::Feedback => data[0] = data[0] & 0xF0 | low & 0x0F,
        FrameClass::Reply | FrameClass::Ack => (data[0], data[1]) = (low, high),
    }
    data
}

fn accepts(rng: &mut Rng, session: &Session) -> Vec<u8> {
    let mut data = rng.next().to_be_bytes();
    if rng.chance(50) {
        data[0] = data[0] & 0xF0 | session.motor_id() as u8 & 0x0F;
    }
    let id = match rng.below(8) {
        0 => rng.next() as u32,
        1 => u32::from(session.motor_id()),
        2 => 0x7FF,
        _ => u32::from(session.feedback_id()),
    };
    let dlc = match rng.below(8) {
        0 => rng.next() as u8,
        1 => 0,
        _ => 8,
    };
    let extended = rng.chance(8);
    let frame = Frame {
        id,
        data,
        dlc,
        extended,
    };
    put_frame(rng, Text::new("accepts"), frame)
}

pub fn patch(rng: &mut Rng) -> Vec<u8> {
    let status = if rng.chance(60) {
        rng.below(17) as u8
    } else {
        rng.next() as u8
    };
    let (mos, rotor) = (rng.next() as u8, rng.next() as u8);
    Text::new("patch")
        .number(rng, status)
        .number(rng, mos)
        .number(rng, rotor)
        .bytes
}

/// Any line of this family, for a session that has started. Those with an even feedback id last long, so
/// that their caches fill.
pub fn line(rng: &mut Rng, session: &Session) -> Vec<u8> {
    if session.last() > LAST_READING / 2 && rng.chance(10) {
        return start(rng);
    }
    let brief = session.feedback_id() % 2 == 1;
    match rng.below(40) {
        0 if brief || rng.chance(10) => start(rng),
        1..=6 => accepts(rng, session),
        7..=10 => patch(rng),
        11..=15 => b"session".to_vec(),
        16 if brief && rng.chance(10) => {
            // A leap to the end of the clock.
            let data = values::data(rng);
            let reading = LAST_READING - rng.below(2);
            frame_with(rng, session, reading, data, 10)
        }
        17 if rng.chance(15) => refused_start(rng),
        _ => frame(rng, session),
    }
}
