//! Who has the sockets: while one thread writes to the log, which it does itself if that is soon done, another one takes them if it isn't.

use super::{Sockets, Turn};
use crate::inbox::Inbox;
use std::sync::{Arc, Condvar, Mutex, MutexGuard, PoisonError};
use std::thread;
use std::time::{Duration, Instant};

/// How long the sockets are left to who writes.
const LATE: Duration = Duration::from_millis(20);

/// The sockets that are left by who writes, and since when.
#[derive(Default)]
struct State {
    left: Option<(Box<Sockets>, Instant)>,
    is_over: bool,
}

struct Duty {
    state: Mutex<State>,
    changed: Condvar,
    inbox: Inbox,
}

impl Duty {
    fn state(&self) -> MutexGuard<'_, State> {
        self.state.lock().unwrap_or_else(PoisonError::into_inner)
    }

    /// Leaves the sockets for a while. (Nobody is woken: whoever stands in looks for them now and then.)
    fn leave(&self, sockets: Box<Sockets>) {
        self.state().left = Some((sockets, Instant::now()));
    }

    /// Takes them back, unless somebody else has.
    fn take_back(&self) -> Option<Box<Sockets>> {
        self.state().left.take().map(|(sockets, _)| sockets)
    }

    /// Waits for sockets that are left for too long; none once they are gone.
    fn stand_in(&self) -> Option<Box<Sockets>> {
        let mut state = self.state();
        while !state.is_over {
            if state.left.as_ref().is_some_and(|(_, since)| since.elapsed() >= LATE) {
                return state.left.take().map(|(sockets, _)| sockets);
            }
            let waited = self.changed.wait_timeout(state, LATE);
            state = waited.unwrap_or_else(PoisonError::into_inner).0;
        }
        None
    }

    /// Moves bytes until the network ends, or until another thread has the sockets.
    fn keep(&self, mut sockets: Box<Sockets>) {
        loop {
            let mut job = match sockets.turn() {
                Turn::GoOn => None,
                Turn::Write(job) => Some(job),
                Turn::Over => break,
            };
            while let Some(next) = job {
                self.leave(sockets);
                let flush = next.write();
                let Some(back) = self.take_back() else {
                    self.inbox.flushed(flush);
                    return;
                };
                sockets = back;
                job = sockets.flushed(flush);
            }
        }
        drop(sockets);
        self.state().is_over = true;
        self.changed.notify_all();
    }

    fn work(&self, mut sockets: Option<Box<Sockets>>) {
        while let Some(next) = sockets.or_else(|| self.stand_in()) {
            self.keep(next);
            sockets = None;
        }
    }
}

/// Moves bytes on this thread and another one, which stands in, until the network ends.
pub(super) fn run(sockets: Sockets, inbox: Inbox) {
    let duty = Arc::new(Duty {
        state: Mutex::default(),
        changed: Condvar::new(),
        inbox,
    });
    let others = duty.clone();
    let stands_in = move || others.work(None);
    // (without it a slow disk holds up all)
    let other = thread::Builder::new().name("stand-in".into()).spawn(stands_in);
    duty.work(Some(Box::new(sockets)));
    if let Ok(other) = other {
        let _ = other.join();
    }
}
