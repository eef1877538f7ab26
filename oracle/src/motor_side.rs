//! What a motor sends. The original has the reader only, so this writer is of document 02's words, a byte at a
//! time.

use crate::answers;
use crate::refusals::{self, Refused, LAST_MOTOR_ID};
use motor_vendor_damiao::motor::adapter::{self, FrameClass};

const REPLY: u8 = 0x33;
const ACK: u8 = 0x55;

/// The fields of a feedback.
#[derive(Debug, Clone, Copy)]
pub struct Feedback {
    pub motor: u8,
    pub status: u8,
    pub position: u32,
    pub velocity: u32,
    pub torque: u32,
    pub mos: u8,
    pub rotor: u8,
}

impl Feedback {
    /// Its bytes, whatever they would be read as.
    pub fn bytes(&self) -> [u8; 8] {
        let [_, _, p1, p2] = self.position.to_be_bytes();
        let d3 = self.velocity >> 4;
        let d4 = (self.velocity & 0xF) << 4 | self.torque >> 8;
        let d5 = self.torque & 0xFF;
        [
            self.status << 4 | self.motor,
            p1,
            p2,
            d3 as u8,
            d4 as u8,
            d5 as u8,
            self.mos,
            self.rotor,
        ]
    }

    /// The original's sorting says what they would be read as.
    pub fn made(&self) -> Result<[u8; 8], Refused> {
        refusals::field(self.motor, 15)?;
        refusals::field(self.status, 15)?;
        refusals::field(self.position, 65_535)?;
        refusals::field(self.velocity, 4_095)?;
        refusals::field(self.torque, 4_095)?;
        let data = self.bytes();
        refusals::read_as_feedback(adapter::sort(&data) == FrameClass::Feedback)?;
        Ok(data)
    }
}

/// What a motor says of a register, when it is read or written.
#[derive(Debug, Clone, Copy)]
pub struct Register {
    pub id: u16,
    pub rid: u8,
    pub bits: u32,
}

impl Register {
    pub fn reply(&self) -> Result<[u8; 8], Refused> {
        self.made(REPLY)
    }

    pub fn ack(&self) -> Result<[u8; 8], Refused> {
        self.made(ACK)
    }

    fn made(&self, marker: u8) -> Result<[u8; 8], Refused> {
        refusals::field(self.id, LAST_MOTOR_ID.into())?;
        refusals::known_register(self.rid)?;
        let mut data = [0; 8];
        data[..2].copy_from_slice(&self.id.to_le_bytes());
        data[2] = marker;
        data[3] = self.rid;
        data[4..].copy_from_slice(&self.bits.to_le_bytes());
        Ok(data)
    }
}

pub fn put(out: &mut Vec<u8>, data: [u8; 8]) {
    answers::data(out, "data", data);
}
