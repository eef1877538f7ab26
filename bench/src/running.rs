//! The original's motor runs register reads, confirmed writes and mode switches on a bus that answers
//! each frame at once, as motor 1.

use crate::checksum::{motor_total, next};
use crate::inputs::{of_motor_1_in_d0, Frame};
use motor_core::bus::{CanBus, CanFrame};
use motor_core::device::MotorDevice;
use motor_core::error::Result;
use motor_vendor_damiao::motor::{ControlMode, DamiaoMotor};
use std::ptr;
use std::sync::atomic::{AtomicPtr, AtomicU32, AtomicU64, Ordering::Relaxed};
use std::sync::Arc;
use std::time::Duration;

const REPLY: u8 = 0x33;
const ACK: u8 = 0x55;
const READ_TIMEOUT: Duration = Duration::from_millis(100);
const SWITCH_TIMEOUT: Duration = Duration::from_millis(400);

/// A bus with one motor, which sends each frame back before the send is over, with its own low four bits in
/// d0: a read with the value of register 10, which a write sets.
struct PromptBus {
    motor: AtomicPtr<DamiaoMotor>,
    value: AtomicU32,
    /// The clock at the run's begin or at the last frame; what it moved on since then was slept.
    reading: AtomicU64,
    /// Of the sleeps, the frames sent and the results of the runs.
    sum: AtomicU64,
}

impl PromptBus {
    /// The bus, and motor 1 of model 4310 on it, in mode 1.
    fn with_motor() -> (Arc<Self>, Box<DamiaoMotor>) {
        let bus = Arc::new(PromptBus {
            motor: AtomicPtr::new(ptr::null_mut()),
            value: AtomicU32::new(1),
            reading: AtomicU64::new(0),
            sum: AtomicU64::new(0),
        });
        let motor = DamiaoMotor::new(1, 0x11, "4310", bus.clone()).expect("a model's name");
        let mut motor = Box::new(motor);
        bus.motor.store(&raw mut *motor, Relaxed);
        (bus, motor)
    }

    fn add(&self, number: u64) {
        self.sum
            .store(next(self.sum.load(Relaxed), number), Relaxed);
    }

    fn total(&self, motor: &DamiaoMotor, last: u64) -> u64 {
        next(self.sum.load(Relaxed), motor_total(motor, last))
    }

    fn answer(&self, mut data: [u8; 8]) -> [u8; 8] {
        match data[2] {
            REPLY => data[4..].copy_from_slice(&self.value.load(Relaxed).to_le_bytes()),
            ACK => self.value.store(value_in(data), Relaxed),
            _ => {}
        }
        data[0] = of_motor_1_in_d0(data[0]);
        data
    }
}

fn value_in([.., a, b, c, d]: [u8; 8]) -> u32 {
    u32::from_le_bytes([a, b, c, d])
}

impl CanBus for PromptBus {
    fn send(&self, frame: CanFrame) -> Result<()> {
        let now = script::Instant::now().0;
        let before = self.reading.swap(now, Relaxed);
        if before < now {
            self.add(now - before);
        }
        self.add(frame.arbitration_id.into());
        self.add(u64::from_be_bytes(frame.data));
        // SAFETY: what sends here is the motor itself, in one of its own methods.
        let motor = unsafe { &*self.motor.load(Relaxed) };
        motor.process_feedback_frame(CanFrame {
            arbitration_id: 0x11,
            data: self.answer(frame.data),
            dlc: 8,
            is_extended: false,
            is_rx: true,
        })
    }

    fn recv(&self, _: Duration) -> Result<Option<CanFrame>> {
        Ok(None)
    }

    fn shutdown(&self) -> Result<()> {
        Ok(())
    }
}

/// Reads register 10, in which the motor has each frame's value. A run's readings are its place.
#[inline(never)]
pub fn reads(frames: &[Frame]) -> u64 {
    let (bus, motor) = PromptBus::with_motor();
    let mut last = 0;
    for (place, frame) in (0..).zip(frames) {
        last = place;
        bus.value.store(value_in(*frame), Relaxed);
        bus.reading.store(place, Relaxed);
        let value = script::at_reading(place, || motor.get_register_u32(10, READ_TIMEOUT));
        bus.add(value.expect("a prompt reply").into());
    }
    bus.total(&motor, last)
}

/// Writes each frame's value to register 10. A run's readings are its place.
#[inline(never)]
pub fn writes(frames: &[Frame]) -> u64 {
    let (bus, motor) = PromptBus::with_motor();
    let mut last = 0;
    for (place, frame) in (0..).zip(frames) {
        last = place;
        bus.reading.store(place, Relaxed);
        let done = script::at_reading(place, || motor.write_register_u32(10, value_in(*frame)));
        done.expect("a prompt ack");
        bus.add(1);
    }
    bus.total(&motor, last)
}

/// Switches between the modes 2 and 1, once for each frame. The clock stands but for sleeps.
#[inline(never)]
pub fn switches(frames: &[Frame]) -> u64 {
    let (bus, motor) = PromptBus::with_motor();
    let mut now = 0;
    for place in 0..frames.len() {
        let mode = [ControlMode::PosVel, ControlMode::Mit][place % 2];
        bus.reading.store(now, Relaxed);
        now = script::at_reading(now, || {
            let done = motor.ensure_control_mode(mode, SWITCH_TIMEOUT);
            done.expect("prompt answers");
            script::Instant::now().0
        });
        bus.add(1);
    }
    bus.total(&motor, now)
}
