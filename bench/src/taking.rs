//! The original's motor takes frames, each with its place as the clock's reading.

use crate::checksum::motor_total;
use crate::inputs::Frame;
use motor_core::bus::{CanBus, CanFrame};
use motor_core::device::MotorDevice;
use motor_core::error::Result;
use motor_vendor_damiao::motor::DamiaoMotor;
use std::sync::Arc;
use std::time::Duration;

/// A bus on which nothing happens: a frame that is taken sends none.
struct IdleBus;

impl CanBus for IdleBus {
    fn send(&self, _: CanFrame) -> Result<()> {
        Ok(())
    }

    fn recv(&self, _: Duration) -> Result<Option<CanFrame>> {
        Ok(None)
    }

    fn shutdown(&self) -> Result<()> {
        Ok(())
    }
}

#[inline(never)]
pub fn take(frames: &[Frame]) -> u64 {
    let motor = DamiaoMotor::new(1, 0x11, "4310", Arc::new(IdleBus)).expect("a model's name");
    let mut last = 0;
    for (place, data) in (0..).zip(frames) {
        last = place;
        let frame = CanFrame {
            arbitration_id: 0x11,
            data: *data,
            dlc: 8,
            is_extended: false,
            is_rx: true,
        };
        script::at_reading(place, || motor.process_feedback_frame(frame))
            .expect("taking a frame never fails");
    }
    motor_total(&motor, last)
}
