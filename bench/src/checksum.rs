//! Checksums: of numbers, and of all that a frame may change in the original's motor.

use motor_vendor_damiao::motor::adapter::Entry;
use motor_vendor_damiao::motor::{DamiaoMotor, MotorFeedbackState, RegisterValue};

/// Three times the sum, and the next number: every weight is odd, so each number counts.
pub fn next(sum: u64, number: u64) -> u64 {
    sum.wrapping_mul(3).wrapping_add(number)
}

fn mixed(numbers: &[u64]) -> u64 {
    numbers.iter().fold(0, |sum, number| next(sum, *number))
}

pub fn motor_total(motor: &DamiaoMotor, last: u64) -> u64 {
    let latest = motor.latest_state_snapshot().map_or(0, |latest| {
        let stamp = latest.received_at.0;
        let state = &latest.state;
        mixed(&[
            latest.sequence,
            stamp,
            sender_total(state),
            floats_total(state),
        ])
    });
    mixed(&[
        latest,
        motor.sequence(),
        last,
        slots_total(&motor.replies()),
        slots_total(&motor.acks()),
    ])
}

/// In the order of their numbers.
const STATUS_NAMES: [&str; 10] = [
    "DISABLED",
    "ENABLED",
    "OVER_VOLTAGE",
    "UNDER_VOLTAGE",
    "OVER_CURRENT",
    "MOS_OVER_TEMP",
    "ROTOR_OVER_TEMP",
    "LOST_COMM",
    "OVERLOAD",
    "UNKNOWN",
];

fn sender_total(state: &MotorFeedbackState) -> u64 {
    let name = STATUS_NAMES
        .iter()
        .position(|name| *name == state.status_name);
    mixed(&[
        state.can_id.into(),
        state.arbitration_id.into(),
        state.status_code.into(),
        name.expect("a status name") as u64,
    ])
}

fn floats_total(state: &MotorFeedbackState) -> u64 {
    let floats = [state.pos, state.vel, state.torq, state.t_mos, state.t_rotor];
    mixed(&floats.map(|x| x.to_bits().into()))
}

/// The places 0 to 81, an empty one as 0.
fn slots_total(held: &[Entry]) -> u64 {
    let mut slots = [0; 82];
    for (rid, value, stamp) in held {
        let (kind, bits) = match value {
            RegisterValue::UInt32(number) => (1, *number),
            RegisterValue::Float(number) => (2, number.to_bits()),
        };
        slots[usize::from(*rid)] = mixed(&[kind, bits.into(), stamp.0]);
    }
    mixed(&slots)
}
