//! Random values: floats with weight on the places where something turns, ids, registers, data bytes.
//! Floats are their bits.

use super::rng::Rng;
use motor_vendor_damiao::motor::adapter;
use motor_vendor_damiao::registers::REGISTER_TABLE;

const SPECIAL: &[u32] = &[
    0x0000_0000, // zeros
    0x8000_0000,
    0x0000_0001, // subnormals
    0x8000_0001,
    0x007F_FFFF,
    0x807F_FFFF,
    0x0080_0000, // smallest normal
    0x8080_0000,
    0x7F7F_FFFF, // largest finite
    0xFF7F_FFFF,
    0x7F80_0000, // infinities
    0xFF80_0000,
    0x7FC0_0000, // quiet NaN
    0xFFC0_0000,
    0x7FC0_0001,
    0xFFFF_FFFF,
    0x7F80_0001, // signalling NaN
    0xFF80_0001,
    0x7FA5_A5A5,
    0x7FBF_FFFF,
    0x3F80_0000, // one
    0xBF80_0000,
    0x3A80_0000, // 1/1024
    0x4780_0000, // 65,536
    0x3F80_8000, // limits whose codes fall short or beyond
    0x3F80_8001,
];

const LEAST_LIMIT: u32 = 0x3A80_0000;
const GREATEST_LIMIT: u32 = 0x4780_0000;

pub fn special(rng: &mut Rng) -> u32 {
    match rng.below(8) {
        0 => 0x7F80_0001 + rng.below(0x7F_FFFF) as u32, // any NaN
        1 => 0xFF80_0001 + rng.below(0x7F_FFFF) as u32,
        _ => rng.pick(SPECIAL),
    }
}

/// A float or one of its neighbours.
fn near(rng: &mut Rng, value: f32) -> u32 {
    let offset = if rng.chance(40) { 0 } else { rng.around(2) };
    value.to_bits().wrapping_add_signed(offset as i32)
}

/// Any float, all patterns alike, or a special one.
pub fn any_float(rng: &mut Rng) -> u32 {
    match rng.below(4) {
        0 => special(rng),
        1 => ((rng.unit() * 200.0 - 100.0) as f32).to_bits(),
        _ => rng.next() as u32,
    }
}

fn model_limits(rng: &mut Rng) -> [u32; 3] {
    let models: [[f32; 3]; 16] = {
        let mut all = adapter::models();
        std::array::from_fn(|_| all.next().expect("16 models").1)
    };
    rng.pick(&models).map(f32::to_bits)
}

/// One limit, mostly accepted.
fn limit(rng: &mut Rng) -> u32 {
    match rng.below(32) {
        0 => special(rng),
        1 => rng.next() as u32,
        2 => LEAST_LIMIT.wrapping_add_signed(rng.around(2) as i32),
        3 => GREATEST_LIMIT.wrapping_add_signed(rng.around(2) as i32),
        4 | 5 => LEAST_LIMIT,
        6 | 7 => GREATEST_LIMIT,
        8..=11 => (117 + rng.below(27) as u32) << 23, // powers of two
        12..=15 => model_limits(rng)[rng.below(3) as usize],
        _ => LEAST_LIMIT + rng.below(u64::from(GREATEST_LIMIT - LEAST_LIMIT)) as u32,
    }
}

/// Three limits, mostly accepted.
pub fn limits(rng: &mut Rng) -> [u32; 3] {
    if rng.chance(45) {
        model_limits(rng)
    } else {
        [limit(rng), limit(rng), limit(rng)]
    }
}

/// A value to be coded between `min` and `max` in `steps` steps.
pub fn setpoint(rng: &mut Rng, min: f32, max: f32, steps: u32) -> u32 {
    let (low, span) = (f64::from(min), f64::from(max) - f64::from(min));
    match rng.below(16) {
        0 => special(rng),
        1 => rng.next() as u32,
        2 | 3 => near(rng, max),
        4 => near(rng, min),
        5..=8 => {
            let half = if rng.chance(50) { 0.5 } else { 0.0 };
            let code = rng.below(u64::from(steps) + 1) as f64 + half;
            near(rng, (low + code * span / f64::from(steps)) as f32)
        }
        9 => ((low + (rng.unit() * 3.0 - 1.0) * span) as f32).to_bits(),
        _ => ((low + rng.unit() * span) as f32).to_bits(),
    }
}

/// A value near a multiple of one of `steps` steps up to `max`: force-position's two small fields.
pub fn scaled(rng: &mut Rng, max: f32, steps: u32) -> u32 {
    setpoint(rng, 0.0, max, steps)
}

/// Three numbers that ask for models.
pub fn queries(rng: &mut Rng) -> [u32; 3] {
    let base = model_limits(rng);
    let other = model_limits(rng);
    let kind = rng.below(12);
    if kind > 7 {
        return between(rng, base, other);
    }
    std::array::from_fn(|at| {
        let (base, other) = (f32::from_bits(base[at]), f32::from_bits(other[at]));
        match kind {
            0 | 1 => base.to_bits(),
            2 => near(rng, base),
            3 => ((base + other) / 2.0).to_bits(), // as far from one as from the other
            4 => {
                // far away, where distances round alike
                let bits = 0x4400_0000 + rng.below(u64::from(GREATEST_LIMIT - 0x4400_0000)) as u32;
                bits | ((rng.below(2) as u32) << 31)
            }
            5 => ((rng.unit() * 600.0 - 300.0) as f32).to_bits(),
            6 => match rng.below(6) {
                0 => special(rng),
                1 => GREATEST_LIMIT.wrapping_add_signed(rng.around(1) as i32),
                2 => (GREATEST_LIMIT | 1 << 31).wrapping_add_signed(rng.around(1) as i32),
                _ => base.to_bits(),
            },
            _ => {
                let moved = base + rng.around(40) as f32;
                near(rng, moved)
            }
        }
    })
}

/// Three numbers as far from one model as from the other, or nearly, by moving one of them.
fn between(rng: &mut Rng, one: [u32; 3], other: [u32; 3]) -> [u32; 3] {
    let exact = |bits: [u32; 3]| bits.map(|bits| f64::from(f32::from_bits(bits)));
    let (one, other) = (exact(one), exact(other));
    let reach = rng.pick(&[1.0, 60.0, 1_000.0, 65_536.0]);
    let mut query: [f64; 3] =
        std::array::from_fn(|at| f64::from((one[at] + (rng.unit() * 2.0 - 1.0) * reach) as f32));
    let apart = |at: usize| other[at] - one[at];
    let moved = if apart(1).abs() > apart(2).abs() {
        1
    } else {
        2
    };
    if apart(moved) != 0.0 {
        let beyond = |at: usize| apart(at) * (query[at] - (one[at] + other[at]) / 2.0);
        let rest: f64 = (0..3).filter(|at| *at != moved).map(beyond).sum();
        query[moved] = (one[moved] + other[moved]) / 2.0 - rest / apart(moved);
    }
    query.map(|number| near(rng, number as f32))
}

pub fn tolerance(rng: &mut Rng, query: [u32; 3]) -> u32 {
    match rng.below(14) {
        0 => 0,
        1 => special(rng),
        2 => {
            let difference = limit_difference(rng);
            near(rng, difference)
        }
        3 => ((rng.unit() * 200.0) as f32).to_bits(),
        4 => (rng.below(60) as f32).to_bits(),
        5 => 0x3880_0000 + rng.below(0x1000_0000) as u32,
        6 => (rng.unit() as f32).to_bits(),
        7 => ((rng.unit() * -60.0) as f32).to_bits(),
        8 => ((rng.unit() * 65_536.0) as f32).to_bits(),
        9 | 10 => {
            let one = differences(rng, query)[rng.below(3) as usize];
            near(rng, one)
        }
        _ => {
            let largest = differences(rng, query).into_iter().fold(0.0, f32::max);
            near(rng, largest)
        }
    }
}

/// How far a model's limits are from a query: the largest is the tolerance that just matches it.
fn differences(rng: &mut Rng, query: [u32; 3]) -> [f32; 3] {
    let model = model_limits(rng);
    std::array::from_fn(|at| (f32::from_bits(model[at]) - f32::from_bits(query[at])).abs())
}

/// The difference of two models' limits, which a tolerance may just reach.
fn limit_difference(rng: &mut Rng) -> f32 {
    let (one, other) = (model_limits(rng), model_limits(rng));
    let at = rng.below(3) as usize;
    (f32::from_bits(one[at]) - f32::from_bits(other[at])).abs()
}

/// Mostly accepted.
pub fn motor_id(rng: &mut Rng) -> u16 {
    match rng.below(16) {
        0..=6 => rng.below(32) as u16,
        7..=9 => 0x4FF,
        10 => rng.pick(&[0xFF, 0x100, 0x3FF, 0x4FE]),
        11..=13 => rng.below(0x500) as u16,
        14 => rng.pick(&[0x500, 0x5FF, 0x6FF, 0x7FF, 0xFCFF, 0xFD00, 0xFFFF]),
        _ => rng.next() as u16,
    }
}

/// Any register number, mostly known.
pub fn rid(rng: &mut Rng) -> u8 {
    match rng.below(8) {
        0 => 10,
        1 => 80,
        2 => rng.next() as u8,
        3 => rng.pick(&[36, 37, 49, 50, 56, 57, 58, 59, 65, 66, 79, 81, 82, 255]),
        _ => known_rid(rng),
    }
}

pub fn known_rid(rng: &mut Rng) -> u8 {
    REGISTER_TABLE[rng.below(REGISTER_TABLE.len() as u64) as usize].rid
}

/// A length of a frame that is mostly not 8.
pub fn other_length(rng: &mut Rng) -> u8 {
    match rng.below(4) {
        0 => rng.next() as u8,
        _ => rng.pick(&[0, 7, 9]),
    }
}

/// Data of this motor's register reply (0x33), of its write ack (0x55), or nearly one.
pub fn register_data(motor: u16, marker: u8, rid: u8, bits: u32) -> [u8; 8] {
    let [d0, d1] = motor.to_le_bytes();
    let [d4, d5, d6, d7] = bits.to_le_bytes();
    [d0, d1, marker, rid, d4, d5, d6, d7]
}

pub fn data(rng: &mut Rng) -> [u8; 8] {
    let mut data = rng.next().to_be_bytes();
    match rng.below(8) {
        0 => {}
        1 => {
            // codes at their ends
            for byte in &mut data[1..6] {
                *byte = rng.pick(&[0x00, 0xFF, 0x7F, 0x80, 0x0F, 0xF0]);
            }
        }
        2 => {
            let bits = any_float(rng).to_le_bytes();
            data[4..].copy_from_slice(&bits);
            register_head(rng, &mut data);
        }
        _ => register_head(rng, &mut data),
    }
    data
}

/// d1 to d3 of a register frame, or of one that only looks like it.
fn register_head(rng: &mut Rng, data: &mut [u8; 8]) {
    data[1] = match rng.below(8) {
        0 => 0x10,
        1 => 0x0F,
        2 => rng.next() as u8,
        _ => rng.below(0x11) as u8,
    };
    data[2] = match rng.below(10) {
        0 => rng.pick(&[0x32, 0x34, 0x54, 0x56]),
        1 => rng.next() as u8,
        2..=5 => 0x55,
        _ => 0x33,
    };
    data[3] = rid(rng);
}

/// Motor, status and the three codes of a feedback: one of them too wide now and then, the codes often at
/// their ends, and often a position and velocity that are read as a register's frame, or nearly.
pub fn feedback_fields(rng: &mut Rng) -> [u32; 5] {
    let mut fields = [4, 4, 16, 12, 12].map(|bits| field(rng, bits));
    if rng.chance(50) {
        let mut data = [0; 8];
        register_head(rng, &mut data);
        fields[2] = u32::from_be_bytes([0, 0, data[1], data[2]]);
        fields[3] = u32::from(data[3]) << 4 | rng.below(16) as u32;
    }
    if rng.chance(25) {
        let at = rng.below(5) as usize;
        let (most, widest) = [
            (0xF, 0xFF),
            (0xF, 0xFF),
            (0xFFFF, u32::MAX),
            (0xFFF, u32::MAX),
            (0xFFF, u32::MAX),
        ][at];
        fields[at] = match rng.below(4) {
            0 | 1 => most + 1,
            2 => widest,
            _ => most + 1 + rng.below(u64::from(widest - most)) as u32,
        };
    }
    fields
}

/// A number of so many bits.
fn field(rng: &mut Rng, bits: u32) -> u32 {
    let most = (1 << bits) - 1;
    match rng.below(8) {
        0 => most,
        1 => most - 1,
        2 => rng.below(2) as u32,
        _ => rng.below(1 << bits) as u32,
    }
}
