//! The clock that manta asks: it stands still until it is moved. Its arithmetic is the standard library's.
use std::cell::Cell;
use std::time::Duration;

#[derive(Debug, Clone, Copy, PartialEq, Eq, PartialOrd, Ord)]
pub struct Instant(std::time::Instant);

thread_local! {
    static NOW: Cell<Option<Instant>> = const { Cell::new(None) };
}

/// Starts it anew.
pub fn start() {
    NOW.set(Some(Instant(std::time::Instant::now())));
}

pub fn forward(by: Duration) {
    NOW.set(Some(Instant(Instant::now().0 + by)));
}

impl Instant {
    #[inline]
    pub fn now() -> Self {
        NOW.get().unwrap()
    }

    #[inline]
    pub fn elapsed(&self) -> Duration {
        Self::now().0.duration_since(self.0)
    }

    #[inline]
    pub fn duration_since(&self, earlier: Self) -> Duration {
        self.0.duration_since(earlier.0)
    }

    #[inline]
    pub fn saturating_duration_since(&self, earlier: Self) -> Duration {
        self.0.saturating_duration_since(earlier.0)
    }
}

/// Nobody waits.
pub fn sleep(_: Duration) {}
