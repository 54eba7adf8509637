//! The least of some times.

use std::time::Duration;

/// The least of the times that were taken.
#[derive(Clone, Copy, Debug)]
pub(crate) struct Least {
    time: Duration,
}

impl Least {
    /// No time was taken yet.
    pub(crate) fn new() -> Least {
        Least {
            time: Duration::MAX,
        }
    }

    /// Takes a time.
    pub(crate) fn take(&mut self, time: Duration) {
        self.time = self.time.min(time);
    }

    /// The least time in microseconds.
    pub(crate) fn micros(&self) -> u128 {
        self.time.as_micros()
    }

    /// The least time in nanoseconds, capped at 2^64 - 1.
    pub(crate) fn nanos(&self) -> u64 {
        u64::try_from(self.time.as_nanos()).unwrap_or(u64::MAX)
    }
}
