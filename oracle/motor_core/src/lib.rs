//! The original's `motor_core`: bus, error, feedback and model are copies of its files; the modules
//! below stand in for those that are not among them.

include!(concat!(env!("OUT_DIR"), "/modules.rs"));

/// Declared from its implementation in motor.rs.
pub mod device {
    use crate::bus::CanFrame;
    use crate::error::Result;

    pub trait MotorDevice: Send + Sync {
        fn vendor(&self) -> &'static str;
        fn model(&self) -> &str;
        fn motor_id(&self) -> u16;
        fn feedback_id(&self) -> u16;
        fn enable(&self) -> Result<()>;
        fn disable(&self) -> Result<()>;
        fn accepts_frame(&self, frame: &CanFrame) -> bool;
        fn process_feedback_frame(&self, frame: CanFrame) -> Result<()>;
    }
}

/// A bus that cannot be opened.
macro_rules! closed_bus {
    ($module:ident, $bus:ident, $($argument:ty),+) => {
        mod $module {
            use crate::bus::{CanBus, CanFrame};
            use crate::error::{MotorError, Result};
            use std::time::Duration;

            pub enum $bus {}

            impl $bus {
                pub fn open($(_: $argument),+) -> Result<Self> {
                    Err(MotorError::Unsupported("no such bus here".to_string()))
                }
            }

            impl CanBus for $bus {
                fn send(&self, _: CanFrame) -> Result<()> {
                    match *self {}
                }
                fn recv(&self, _: Duration) -> Result<Option<CanFrame>> {
                    match *self {}
                }
                fn shutdown(&self) -> Result<()> {
                    match *self {}
                }
            }
        }
    };
}

#[cfg(any(target_os = "windows", target_os = "macos"))]
closed_bus!(pcan, PcanBus, &str);
#[cfg(target_os = "linux")]
closed_bus!(socketcan, SocketCanBus, &str);
#[cfg(target_os = "linux")]
closed_bus!(socketcanfd, SocketCanFdBus, &str);
closed_bus!(mcu_serial, McuSerialBus, &str, u32);
closed_bus!(dm_serial, DmSerialBus, &str, u32);
