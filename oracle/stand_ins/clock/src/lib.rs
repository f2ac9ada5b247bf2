//! The clock that is handed in. Every call of the pool gets one time: the
//! driver sets it before the call and `Instant::now` gives it back until the
//! next `set`. Times are whole milliseconds; a negative difference is 0.
//!
//! `report_spent` is where the one line added to `revalidate_within` puts the
//! cost that a finished pass has spent.

use std::cell::Cell;
pub use std::time::Duration;

thread_local! {
    static TIME: Cell<u64> = const { Cell::new(0) };
    static SPENT: Cell<Option<u64>> = const { Cell::new(None) };
}

/// The time of the call that comes next, in milliseconds.
pub fn set(ms: u64) {
    TIME.with(|t| t.set(ms));
}

pub fn report_spent(spent: u64) {
    SPENT.with(|s| s.set(Some(spent)));
}

/// What the last finished pass reported, once.
pub fn take_spent() -> Option<u64> {
    SPENT.with(|s| s.take())
}

#[derive(Clone, Copy, Debug, PartialEq, Eq, PartialOrd, Ord)]
pub struct Instant(u64);

impl Instant {
    pub fn at(ms: u64) -> Self {
        Instant(ms)
    }

    pub fn now() -> Self {
        Instant(TIME.with(|t| t.get()))
    }

    pub fn elapsed(&self) -> Duration {
        Instant::now().saturating_duration_since(*self)
    }

    pub fn duration_since(&self, earlier: Instant) -> Duration {
        self.saturating_duration_since(earlier)
    }

    pub fn saturating_duration_since(&self, earlier: Instant) -> Duration {
        Duration::from_millis(self.0.saturating_sub(earlier.0))
    }
}
