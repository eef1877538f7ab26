//! Calls that touch no session: command frames, decoding, the tables, the model list.

use crate::answers;
use crate::bus::CatchingBus;
use crate::parser::Command;
use crate::refusals::{self, Refused};
use motor_core::error::Result as MotorResult;
use motor_vendor_damiao::motor::adapter::{self, FrameClass};
use motor_vendor_damiao::motor::{match_models_by_limits, suggest_models_by_limits, DamiaoMotor};
use motor_vendor_damiao::protocol::{
    encode_register_read_cmd, encode_set_zero_cmd, encode_store_params_cmd, status_name,
};
use motor_vendor_damiao::registers::{register_info, RegisterAccess, RegisterDataType};
use std::sync::Arc;

/// The broadcast id of register, store and feedback commands, where no method of the original sends.
const REGISTER_ID: u32 = 0x7FF;
/// Limits for commands that use none.
const ANY_LIMITS: [f32; 3] = [1.0; 3];

pub fn command(motor_id: u16, command: Command, out: &mut Vec<u8>) -> Result<(), Refused> {
    let limits = match command {
        Command::Mit { limits, .. } => limits,
        _ => ANY_LIMITS,
    };
    refusals::limits(limits)?;
    refusals::motor_id(motor_id)?;
    let (id, data) = match command {
        Command::ReadReg { rid } => (REGISTER_ID, encode_register_read_cmd(motor_id, rid)),
        Command::StoreParams => (REGISTER_ID, encode_store_params_cmd(motor_id)),
        Command::Zero => (motor_id.into(), encode_set_zero_cmd()),
        _ => {
            let bus = Arc::new(CatchingBus::default());
            let motor = adapter::motor_with_limits(motor_id, 0, limits, bus.clone());
            send(&motor, command).expect("the catching bus takes every frame");
            let frame = bus.caught();
            (frame.arbitration_id, frame.data)
        }
    };
    answers::frame(out, "frame", id, data);
    Ok(())
}

/// The commands that a method of the original sends, and sends at once.
fn send(motor: &DamiaoMotor, command: Command) -> MotorResult<()> {
    match command {
        Command::Mit { setpoint, .. } => {
            let [position, velocity, kp, kd, torque] = setpoint;
            motor.send_cmd_mit(position, velocity, kp, kd, torque)
        }
        Command::PosVel { position, limit } => motor.send_cmd_pos_vel(position, limit),
        Command::Vel { velocity } => motor.send_cmd_vel(velocity),
        Command::ForcePos {
            position,
            limit,
            ratio,
        } => motor.send_cmd_force_pos(position, limit, ratio),
        Command::WriteReg { rid, bits } => motor.send_register_write(rid, bits),
        Command::FeedbackRequest => motor.request_motor_feedback(),
        Command::Disable => motor.disable(),
        Command::Clear => motor.clear_error(),
        Command::ReadReg { .. } | Command::StoreParams | Command::Zero => {
            unreachable!("made by its encoder")
        }
    }
}

pub fn decode(limits: [f32; 3], data: [u8; 8], out: &mut Vec<u8>) -> Result<(), Refused> {
    refusals::limits(limits)?;
    let decoded = adapter::decode(limits, data);
    answers::numbered(out, "feedback", decoded.can_id.into());
    out.push(b' ');
    answers::decimal(out, decoded.status_code.into());
    answers::floats(
        out,
        &[
            decoded.pos,
            decoded.vel,
            decoded.torq,
            decoded.t_mos,
            decoded.t_rotor,
        ],
    );
    Ok(())
}

pub fn sort(data: [u8; 8], out: &mut Vec<u8>) {
    let class = match adapter::sort(&data) {
        FrameClass::Reply => "reply",
        FrameClass::Ack => "ack",
        FrameClass::Feedback => "feedback",
    };
    answers::text(out, class);
}

pub fn status(status: u8, out: &mut Vec<u8>) {
    answers::text(out, "status ");
    answers::text(out, status_name(status));
}

pub fn register(rid: u8, out: &mut Vec<u8>) {
    let text = match register_info(rid).map(|info| (info.data_type, info.access)) {
        None => "register unknown",
        Some((RegisterDataType::Float, RegisterAccess::ReadWrite)) => "register f32 rw",
        Some((RegisterDataType::Float, RegisterAccess::ReadOnly)) => "register f32 ro",
        Some((RegisterDataType::UInt32, RegisterAccess::ReadWrite)) => "register u32 rw",
        Some((RegisterDataType::UInt32, RegisterAccess::ReadOnly)) => "register u32 ro",
    };
    answers::text(out, text);
}

pub fn matching(query: [f32; 3], tolerance: f32, out: &mut Vec<u8>) -> Result<(), Refused> {
    refusals::query(query)?;
    let [p, v, t] = query;
    models(&match_models_by_limits(p, v, t, tolerance), out);
    Ok(())
}

pub fn suggest(query: [f32; 3], count: u64, out: &mut Vec<u8>) -> Result<(), Refused> {
    refusals::query(query)?;
    let [p, v, t] = query;
    let count = usize::try_from(count).unwrap_or(usize::MAX);
    models(&suggest_models_by_limits(p, v, t, count), out);
    Ok(())
}

fn models(names: &[&str], out: &mut Vec<u8>) {
    answers::text(out, "models");
    for name in names {
        out.push(b' ');
        answers::text(out, name);
    }
}
