//! The inputs, from a seed: random numbers are drawn in the order in which `speed` draws them.

use motor_vendor_damiao::motor::adapter::{self, FrameClass};
use motor_vendor_damiao::registers::{register_info, REGISTER_TABLE};

const REPLY: u8 = 0x33;
const ACK: u8 = 0x55;

/// How far a query may be from a model's limits.
const REACH: f32 = 2.0;

/// xorshift.
pub struct Random(u64);

impl Random {
    pub fn new(seed: u64) -> Self {
        Random(seed.wrapping_add(0x9E37_79B9_7F4A_7C15))
    }

    fn next(&mut self) -> u64 {
        self.0 ^= self.0 << 13;
        self.0 ^= self.0 >> 7;
        self.0 ^= self.0 << 17;
        self.0
    }

    fn between(&mut self, low: f32, high: f32) -> f32 {
        let unit = (self.next() >> 40) as f32 / (1u32 << 24) as f32;
        low + (high - low) * unit
    }

    fn below(&mut self, count: usize) -> usize {
        (self.next() % count as u64) as usize
    }

    fn register(&mut self) -> u8 {
        REGISTER_TABLE[self.below(REGISTER_TABLE.len())].rid
    }
}

/// Setpoints that go beyond the limits of model 4310, and those of kp and kd, by so much of their
/// span at either end; or queries near a model's limits, with a tolerance, and a number that is not
/// used.
#[derive(Clone, Copy)]
pub enum Input {
    Setpoints { beyond: f32 },
    Queries { tolerance: f32 },
}

fn ranges(input: Input, model: [f32; 3]) -> [(f32, f32); 5] {
    match input {
        Input::Setpoints { beyond } => [
            (-12.5, 12.5),
            (-30.0, 30.0),
            (0.0, 500.0),
            (0.0, 5.0),
            (-10.0, 10.0),
        ]
        .map(|(low, high)| {
            let more = beyond * (high - low);
            (low - more, high + more)
        }),
        Input::Queries { tolerance } => {
            let [p, v, t] = model.map(|limit| (limit - REACH, limit + REACH));
            [p, v, t, (tolerance, tolerance), (0.0, 0.0)]
        }
    }
}

pub fn numbers(random: &mut Random, input: Input, count: usize) -> Vec<[f32; 5]> {
    let models: Vec<[f32; 3]> = adapter::models().map(|(_, limits)| limits).collect();
    (0..count)
        .map(|_| {
            let model = models[random.below(models.len())];
            ranges(input, model).map(|(low, high)| random.between(low, high))
        })
        .collect()
}

pub type Frame = [u8; 8];

pub fn frames(random: &mut Random, make: fn(&mut Random) -> Frame, count: usize) -> Vec<Frame> {
    (0..count).map(|_| make(random)).collect()
}

/// A frame as motor 1 sends it: with its id in d0 and d1 if it is a register's, else with the low four bits in
/// d0.
pub fn of_motor_1(mut frame: Frame) -> Frame {
    match adapter::sort(&frame) {
        FrameClass::Reply | FrameClass::Ack => (frame[0], frame[1]) = (1, 0),
        FrameClass::Feedback => frame[0] = of_motor_1_in_d0(frame[0]),
    }
    frame
}

pub fn of_motor_1_in_d0(d0: u8) -> u8 {
    d0 & 0xF0 | 1
}

fn any(random: &mut Random) -> Frame {
    random.next().to_be_bytes()
}

fn register_frame(random: &mut Random, marker: u8, rid: u8) -> Frame {
    let mut frame = any(random);
    frame[1] %= 16;
    frame[2] = marker;
    frame[3] = rid;
    frame
}

pub fn reply(random: &mut Random) -> Frame {
    let rid = random.register();
    register_frame(random, REPLY, rid)
}

pub fn ack(random: &mut Random) -> Frame {
    let rid = random.register();
    register_frame(random, ACK, rid)
}

fn has_marker(frame: Frame) -> bool {
    [REPLY, ACK].contains(&frame[2])
}

pub fn feedback(random: &mut Random) -> Frame {
    let mut frame = any(random);
    if frame[1] < 16 && has_marker(frame) {
        frame[1] = 16;
    }
    frame
}

/// Feedback with a position so low that d2 decides.
pub fn low_feedback(random: &mut Random) -> Frame {
    let mut frame = any(random);
    frame[1] %= 16;
    if has_marker(frame) {
        frame[2] = 0;
    }
    frame
}

/// Feedback that looks like a reply.
pub fn unknown_register(random: &mut Random) -> Frame {
    let number = random.below(256 - REGISTER_TABLE.len());
    let mut unknown = (0..=255).filter(|rid| register_info(*rid).is_none());
    let rid = unknown.nth(number).expect("a number of no register");
    register_frame(random, REPLY, rid)
}

/// A third of each class.
pub fn mixed(random: &mut Random) -> Frame {
    match random.below(3) {
        0 => reply(random),
        1 => ack(random),
        _ => feedback(random),
    }
}
