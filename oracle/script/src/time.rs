//! What stands in for `std::time::Instant` and `std::thread::sleep`.

use crate::run::{self, Answer, Want};
use std::cell::Cell;
use std::ops::Add;
use std::time::Duration;

thread_local! {
    /// The reading of the frame that is being taken.
    static FRAME_READING: Cell<Option<u64>> = const { Cell::new(None) };
}

/// A reading of the script's clock, in nanoseconds.
#[derive(Debug, Clone, Copy, PartialEq, Eq, PartialOrd, Ord)]
pub struct Instant(pub u64);

impl Instant {
    /// The frame's own reading while a frame is taken, else the script's answer.
    pub fn now() -> Self {
        if let Some(reading) = FRAME_READING.get() {
            return Instant(reading);
        }
        match run::ask(Want::Clock) {
            Answer::Reading(reading) => Instant(reading),
            other => unreachable!("{other:?} is no reading"),
        }
    }

    pub fn checked_duration_since(&self, earlier: Instant) -> Option<Duration> {
        self.0.checked_sub(earlier.0).map(Duration::from_nanos)
    }

    pub fn elapsed(&self) -> Duration {
        Self::now()
            .checked_duration_since(*self)
            .unwrap_or_default()
    }
}

impl Add<Duration> for Instant {
    type Output = Instant;

    fn add(self, length: Duration) -> Instant {
        u64::try_from(length.as_nanos())
            .ok()
            .and_then(|length| self.0.checked_add(length))
            .map(Instant)
            .expect("overflow when adding duration to instant")
    }
}

/// Runs `work` with every reading of the clock answered by `reading`, which sleeps move on.
pub fn at_reading<T>(reading: u64, work: impl FnOnce() -> T) -> T {
    FRAME_READING.set(Some(reading));
    let result = work();
    FRAME_READING.set(None);
    result
}

/// Sleeps as long as the script takes to answer.
pub fn sleep(length: Duration) {
    let length = u64::try_from(length.as_nanos()).expect("a sleep of at most 2^64 ns");
    if let Some(reading) = FRAME_READING.get() {
        FRAME_READING.set(Some(reading.wrapping_add(length)));
        return;
    }
    match run::ask(Want::Sleep(length)) {
        Answer::Slept => {}
        other => unreachable!("{other:?} is no end of a sleep"),
    }
}
