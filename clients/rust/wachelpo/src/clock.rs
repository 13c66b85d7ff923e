//! Time.

use std::time::{Duration, Instant, SystemTime, UNIX_EPOCH};

/// What a node knows of time.
pub trait Clock: Send {
    /// The time since any one moment, which stays the same. It never goes back.
    fn elapsed(&self) -> Duration;

    /// The time of day, since the beginning of 1970. It may jump: it is only used for keys that expire.
    fn time_of_day(&self) -> Duration;
}

/// The clocks of the operating system.
///
/// ```
/// use wachelpo::{Clock, SystemClock};
///
/// let clock = SystemClock::new();
/// assert!(clock.elapsed() <= clock.elapsed());
/// assert!(clock.time_of_day().as_secs() > 1_700_000_000);
/// ```
#[derive(Clone, Copy, Debug)]
pub struct SystemClock(Instant);

impl SystemClock {
    /// A clock that begins now.
    pub fn new() -> Self {
        SystemClock(Instant::now())
    }
}

impl Default for SystemClock {
    fn default() -> Self {
        SystemClock::new()
    }
}

impl Clock for SystemClock {
    fn elapsed(&self) -> Duration {
        self.0.elapsed()
    }

    fn time_of_day(&self) -> Duration {
        SystemTime::now().duration_since(UNIX_EPOCH).unwrap_or_default()
    }
}
