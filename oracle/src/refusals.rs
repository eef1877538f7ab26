//! The refusals of the table 'Turned back', and those that document 02 adds, each test with its number.

use crate::parser::Frame;
use motor_vendor_damiao::motor::adapter::{self, FrameClass};
use motor_vendor_damiao::registers::{
    register_info, RegisterAccess, RegisterDataType, RegisterInfo,
};

/// A refusal with its number.
#[derive(Debug, Clone, Copy, PartialEq, Eq)]
pub struct Refused(pub u8);

pub const RUN_OPEN: Refused = Refused(8);
pub const NOT_WANTED: Refused = Refused(9);
pub const MODEL_UNKNOWN: Refused = Refused(12);

pub const LAST_MOTOR_ID: u16 = 0x4FF;
const LAST_READING: u64 = 1 << 62;
const LONGEST_TIMEOUT: u64 = 60_000_000_000;

fn refuse_if(refused: bool, number: u8) -> Result<(), Refused> {
    if refused {
        Err(Refused(number))
    } else {
        Ok(())
    }
}

pub fn limits(limits: [f32; 3]) -> Result<(), Refused> {
    let good = |limit: f32| limit.is_finite() && (1.0 / 1024.0..=65536.0).contains(&limit);
    refuse_if(!limits.into_iter().all(good), 1)
}

pub fn motor_id(motor: u16) -> Result<(), Refused> {
    refuse_if(motor > LAST_MOTOR_ID, 2)
}

pub fn reading(reading: u64, last: u64) -> Result<(), Refused> {
    refuse_if(reading < last || reading > LAST_READING, 3)
}

pub fn known_register(rid: u8) -> Result<&'static RegisterInfo, Refused> {
    register_info(rid).ok_or(Refused(4))
}

/// 4, 5, 6 of a write.
pub fn write(rid: u8, written: RegisterDataType) -> Result<(), Refused> {
    let info = known_register(rid)?;
    refuse_if(info.access != RegisterAccess::ReadWrite, 5)?;
    refuse_if(info.data_type != written, 6)
}

pub fn timeout(timeout: u64) -> Result<(), Refused> {
    refuse_if(timeout > LONGEST_TIMEOUT, 7)
}

pub fn mode(mode: u32) -> Result<(), Refused> {
    refuse_if(!(1..=4).contains(&mode), 10)
}

/// 13, of a feedback; its bytes are read otherwise where they are a register's frame.
pub fn read_as_feedback(is_feedback: bool) -> Result<(), Refused> {
    refuse_if(!is_feedback, 13)
}

/// 14, of a field and the most that it may be.
pub fn field(field: impl Into<u32>, most: u32) -> Result<(), Refused> {
    refuse_if(field.into() > most, 14)
}

/// 15, of a frame that is not this motor's. The original's sorting gives its class.
pub fn own_frame(frame: &Frame, motor: u16, feedback: u16) -> Result<(), Refused> {
    let [low, high] = motor.to_le_bytes();
    let [d0, d1, ..] = frame.data;
    let is_addressed = match adapter::sort(&frame.data) {
        FrameClass::Feedback => d0 & 0xF == low & 0xF,
        FrameClass::Reply | FrameClass::Ack => d0 == low && d1 == high,
    };
    let on_its_id = frame.id == u32::from(feedback);
    let own = !frame.extended && frame.dlc == 8 && on_its_id && is_addressed;
    refuse_if(!own, 15)
}

pub fn query(query: [f32; 3]) -> Result<(), Refused> {
    let good = |number: f32| number.is_finite() && number.abs() <= 65536.0;
    refuse_if(!query.into_iter().all(good), 11)
}
