//! Encoding, decoding and sorting, each with the limits of model 4310.

use crate::checksum::next;
use crate::inputs::Frame;
use motor_vendor_damiao::motor::adapter::{sort as class_of, FrameClass};
use motor_vendor_damiao::protocol::{decode_sensor_feedback, encode_mit_cmd, Limits};

const LIMITS: Limits = Limits {
    p_min: -12.5,
    p_max: 12.5,
    v_min: -30.0,
    v_max: 30.0,
    t_min: -10.0,
    t_max: 10.0,
};

#[inline(never)]
pub fn encode(setpoints: &[[f32; 5]]) -> u64 {
    let mut sum = 0;
    for &[pos, vel, kp, kd, torque] in setpoints {
        // the original takes the torque before kp and kd
        let data = encode_mit_cmd(pos, vel, torque, kp, kd, LIMITS);
        sum = next(sum, u64::from_be_bytes(data));
    }
    sum
}

#[inline(never)]
pub fn decode(frames: &[Frame]) -> u64 {
    let mut sum = 0;
    for &frame in frames {
        let f = decode_sensor_feedback(frame, LIMITS);
        let small = f.can_id as f32 + f.status_code as f32;
        let reading = small + f.pos + f.vel + f.torq + f.t_mos + f.t_rotor;
        sum = next(sum, reading.to_bits().into());
    }
    sum
}

#[inline(never)]
pub fn sort(frames: &[Frame]) -> u64 {
    let mut sum = 0;
    for frame in frames {
        let number = match class_of(frame) {
            FrameClass::Reply => 1,
            FrameClass::Ack => 2,
            FrameClass::Feedback => 3,
        };
        sum = next(sum, number);
    }
    sum
}
