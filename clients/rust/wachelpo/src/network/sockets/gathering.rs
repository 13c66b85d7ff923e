//! When clients' bytes are handed in: clients that were answered together soon ask again, and what they ask is written together.

use std::time::{Duration, Instant};

/// How long is waited for them, as by PostgreSQL's `commit_delay`: some two writes to the disk.
const LONGEST: Duration = Duration::from_micros(150);
/// So many bytes are worth a write by themselves.
const ENOUGH: usize = 4 << 10;

/// The clients that were answered since clients' bytes were handed in last.
#[derive(Default)]
pub(super) struct Gathering {
    answered: usize,
    /// How long they are waited for.
    until: Option<Instant>,
}

impl Gathering {
    /// So many clients are answered together. One alone is no reason to wait.
    pub fn answered(&mut self, count: usize, now: Instant) {
        if count > 1 {
            self.answered += count;
            self.until = Some(now + LONGEST);
        }
    }

    /// Whether others are waited for, if so many have sent so many bytes.
    pub fn waits(&self, count: usize, bytes: usize, now: Instant) -> bool {
        count < self.answered && bytes < ENOUGH && self.until.is_some_and(|until| now < until)
    }

    /// What came is handed in.
    pub fn end(&mut self) {
        *self = Gathering::default();
    }
}

#[cfg(test)]
mod tests {
    use super::*;

    #[test]
    fn clients_that_were_answered_together_are_waited_for() {
        let now = Instant::now();
        let mut gathering = Gathering::default();
        assert!(!gathering.waits(1, 1, now));
        gathering.answered(3, now);
        assert!(gathering.waits(1, 1, now) && gathering.waits(2, ENOUGH - 1, now));
        assert!(!gathering.waits(3, 3, now));
        assert!(!gathering.waits(2, ENOUGH, now));
        assert!(!gathering.waits(2, 2, now + LONGEST));
        // others were answered meanwhile
        gathering.answered(2, now + LONGEST);
        assert!(gathering.waits(4, 4, now + LONGEST));
        gathering.end();
        assert!(!gathering.waits(1, 1, now + LONGEST));
    }

    #[test]
    fn a_client_alone_waits_for_nobody() {
        let now = Instant::now();
        let mut gathering = Gathering::default();
        gathering.answered(1, now);
        assert!(!gathering.waits(1, 1, now));
    }
}
