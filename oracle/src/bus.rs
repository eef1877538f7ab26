//! The two buses of the oracle: the script's, and one that catches a single command frame.

use motor_core::bus::{CanBus, CanFrame};
use motor_core::error::{MotorError, Result};
use script::SendError;
use std::sync::Mutex;
use std::time::Duration;

/// Every send is a want of the run that is at work.
pub struct ScriptBus;

impl CanBus for ScriptBus {
    fn send(&self, frame: CanFrame) -> Result<()> {
        script::send(frame.arbitration_id, frame.data).map_err(|error| match error {
            SendError::Timeout => MotorError::Timeout("send timed out".to_string()),
            SendError::Failed => MotorError::Io("send failed".to_string()),
        })
    }

    fn recv(&self, _: Duration) -> Result<Option<CanFrame>> {
        Ok(None)
    }

    fn shutdown(&self) -> Result<()> {
        Ok(())
    }
}

/// Keeps the last frame sent.
#[derive(Default)]
pub struct CatchingBus(Mutex<Option<CanFrame>>);

impl CatchingBus {
    pub fn caught(&self) -> CanFrame {
        self.0.lock().expect("caught frame").expect("a frame")
    }
}

impl CanBus for CatchingBus {
    fn send(&self, frame: CanFrame) -> Result<()> {
        *self.0.lock().expect("caught frame") = Some(frame);
        Ok(())
    }

    fn recv(&self, _: Duration) -> Result<Option<CanFrame>> {
        Ok(None)
    }

    fn shutdown(&self) -> Result<()> {
        Ok(())
    }
}
