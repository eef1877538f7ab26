//! The script's clock, sleep and bus. A run of the original works on a stack of its own; where it
//! reads the clock, sleeps or sends, it is suspended with a want, and the script's answer resumes it.

mod context;
mod run;
mod time;

pub use run::{send, Answer, Progress, Run, SendError, Want};
pub use time::{at_reading, sleep, Instant};
