//! Stand-in for the clock: a budget of steps. Each time the refinement looks at the clock, which it does once after
//! every step, one nanosecond has passed; so a duration of n nanoseconds is n + 1 steps.

use std::{cell::Cell, time::Duration};

pub struct Instant(Cell<u64>);

impl Instant {
    pub fn now() -> Self {
        Self(Cell::new(0))
    }

    pub fn elapsed(&self) -> Duration {
        self.0.set(self.0.get() + 1);
        Duration::from_nanos(self.0.get())
    }
}

/// The duration in which exactly so many steps are made, at least one.
pub fn steps(count: u64) -> Duration {
    Duration::from_nanos(count.max(1) - 1)
}
