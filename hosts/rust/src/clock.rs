//! The host's clock, and spans of time in the engine's unit.

use std::time::{Duration, Instant, SystemTime, UNIX_EPOCH};

/// Moments in nanoseconds since 1970 that never go back: that of the system's clock when this was
/// made, and from there on those of the monotonic clock.
#[derive(Clone, Copy, Debug)]
pub(crate) struct Clock {
    zero: u64,
    made: Instant,
}

impl Clock {
    pub(crate) fn new() -> Clock {
        Clock {
            zero: since_1970(SystemTime::now()),
            made: Instant::now(),
        }
    }

    pub(crate) fn now(&self) -> u64 {
        self.zero.saturating_add(nanoseconds(self.made.elapsed()))
    }

    /// The moment that comes so long after this one.
    pub(crate) fn after(&self, span: Duration) -> u64 {
        self.now().saturating_add(nanoseconds(span))
    }
}

/// A span in nanoseconds. One of more than five hundred years is cut.
pub(crate) fn nanoseconds(span: Duration) -> u64 {
    u64::try_from(span.as_nanos()).unwrap_or(u64::MAX)
}

/// The nanoseconds from 1970 to a moment, none where it is before.
pub(crate) fn since_1970(moment: SystemTime) -> u64 {
    moment.duration_since(UNIX_EPOCH).map_or(0, nanoseconds)
}

/// The first of the moments that there are.
pub(crate) fn earliest<const N: usize>(moments: [Option<u64>; N]) -> Option<u64> {
    moments.into_iter().flatten().min()
}
