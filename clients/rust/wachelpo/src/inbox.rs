//! What waits for a node.

use crate::batch::Arrivals;
use crate::disk::Position;
use crate::node::{Job, Request};
use crate::Error;
use std::io;
use std::ops::ControlFlow;
use std::sync::{Arc, Condvar, Mutex, MutexGuard, PoisonError};
use std::time::Duration;

/// Up to how many bytes a thread that serves handles at a time.
const LITTLE: usize = 16 << 10;

/// What came of bytes for the log.
pub(crate) struct Flush {
    /// Where the log ends, if all before it is on disk.
    pub result: io::Result<Position>,
    pub took: Duration,
    /// The buffer that the bytes were in.
    pub bytes: Vec<u8>,
}

/// What came of bytes for a new log.
pub(crate) struct Written {
    /// The number of the new log.
    pub log: u64,
    /// How many parts of it are on disk.
    pub count: io::Result<usize>,
}

/// All that waits.
#[derive(Default)]
pub(crate) struct Mail {
    pub arrivals: Arrivals,
    pub flush: Option<Flush>,
    /// How many parts of new logs are on disk, in the order in which that was said.
    pub written: Vec<Written>,
    pub requests: Vec<Request>,
    /// Why the node doesn't go on.
    pub end: Option<Error>,
}

impl Mail {
    fn is_empty(&self) -> bool {
        let has_none = self.flush.is_none() && self.written.is_empty() && self.end.is_none();
        self.arrivals.is_empty() && has_none && self.requests.is_empty()
    }
}

/// What comes next.
#[derive(Default)]
pub(crate) struct Next {
    /// How long more is waited for.
    pub patience: Duration,
    /// A write that the caller does, who then hands in what came of it.
    pub job: Option<Job>,
}

/// What handles a node's mail, on one thread at a time.
pub(crate) trait Handler: Send {
    /// Handles all of it, and says what comes next; or that the node has ended, and why. A write is asked for of who `may_write` alone.
    fn handle(&mut self, mail: &mut Mail, may_write: bool) -> ControlFlow<Result<(), Error>, Next>;

    /// Does a little that can wait, and says whether more is left; or that the node has ended, and why.
    fn idle(&mut self) -> ControlFlow<Result<(), Error>, bool>;
}

/// A handler at work.
struct Work {
    handler: Box<dyn Handler>,
    /// A buffer for what is handled; nothing waits in it.
    mail: Mail,
}

#[derive(Default)]
struct State {
    mail: Mail,
    /// Whether the handler wants to go on at once.
    is_due: bool,
    has_ended: bool,
    /// Why, until the node's thread has taken it.
    end: Option<Result<(), Error>>,
}

impl State {
    fn is_quiet(&self) -> bool {
        self.mail.is_empty() && !self.is_due && self.end.is_none()
    }
}

#[derive(Default)]
struct Shared {
    state: Mutex<State>,
    is_there: Condvar,
    /// Whoever handles mail holds this lock: so each call of the service happens before the next, on whatever thread.
    work: Mutex<Option<Work>>,
}

/// Where a network hands in what comes to a node.
#[derive(Clone, Default)]
pub struct Inbox(Arc<Shared>);

impl Inbox {
    fn state(&self) -> MutexGuard<'_, State> {
        self.0.state.lock().unwrap_or_else(PoisonError::into_inner)
    }

    fn put(&self, arrivals: &mut Arrivals) -> usize {
        let mut state = self.state();
        if state.has_ended {
            arrivals.clear();
        }
        state.mail.arrivals.append(arrivals);
        state.mail.arrivals.byte_count()
    }

    /// Hands in a batch, which may be empty, and is left so. Returns how many bytes wait for the node now: whoever hands in more than the
    /// node takes should wait. After the node's end nothing waits.
    pub fn post(&self, arrivals: &mut Arrivals) -> usize {
        let is_news = !arrivals.is_empty();
        let waiting = self.put(arrivals);
        if is_news {
            self.0.is_there.notify_one();
        }
        waiting
    }

    /// As [`Inbox::post`]; but if little waits and the node is idle, it handles that on this thread, which is sooner done than waking its
    /// own. What comes of it is delivered meanwhile.
    pub fn serve(&self, arrivals: &mut Arrivals) -> usize {
        self.serve_by(arrivals, false).0
    }

    /// As [`Inbox::serve`], but that a small write is left to the caller, who does it holding nothing that others wait for, and hands in what
    /// came of it ([`Inbox::serve_flush`], or [`Inbox::flushed`]): that is sooner done, too.
    pub(crate) fn serve_until_write(&self, arrivals: &mut Arrivals) -> (usize, Option<Job>) {
        self.serve_by(arrivals, true)
    }

    fn serve_by(&self, arrivals: &mut Arrivals, may_write: bool) -> (usize, Option<Job>) {
        if arrivals.is_empty() {
            return (self.post(arrivals), None);
        }
        let waiting = self.put(arrivals);
        if waiting <= LITTLE {
            if let Some(job) = self.try_handle(may_write) {
                return (0, job);
            }
        }
        self.0.is_there.notify_one();
        (waiting, None)
    }

    /// Hands in what came of a write, and handles it on this thread unless another one is at work; up to the next write.
    pub(crate) fn serve_flush(&self, flush: Flush) -> Option<Job> {
        self.state().mail.flush = Some(flush);
        let handled = self.try_handle(true);
        if handled.is_none() {
            self.0.is_there.notify_one();
        }
        handled.flatten()
    }

    /// Handles what waits, up to a write, unless another thread is at it.
    fn try_handle(&self, may_write: bool) -> Option<Option<Job>> {
        let mut work = self.0.work.try_lock().ok()?;
        let Next { patience, job } = self.handle(work.as_mut()?, may_write);
        if patience.is_zero() {
            // the node's own thread goes on, or ends
            self.state().is_due = true;
            self.0.is_there.notify_one();
        }
        Some(job)
    }

    /// Lets the node do a little that can wait, on this thread, unless it has something else to do; and says whether more is left.
    pub(crate) fn idle(&self) -> bool {
        let Ok(mut work) = self.0.work.try_lock() else {
            return false;
        };
        let Some(work) = &mut *work else { return false };
        if !self.state().is_quiet() {
            return false;
        }
        match work.handler.idle() {
            ControlFlow::Continue(is_more) => is_more,
            ControlFlow::Break(end) => {
                self.end(end);
                self.0.is_there.notify_one();
                false
            }
        }
    }

    /// The node has ended.
    fn end(&self, end: Result<(), Error>) {
        let mut state = self.state();
        state.has_ended = true;
        state.mail = Mail::default();
        state.end = Some(end);
    }

    /// Whether nothing waits.
    pub(crate) fn is_empty(&self) -> bool {
        self.state().mail.is_empty()
    }

    pub(crate) fn flushed(&self, flush: Flush) {
        self.state().mail.flush = Some(flush);
        self.0.is_there.notify_one();
    }

    pub(crate) fn written(&self, written: Written) {
        self.state().mail.written.push(written);
        self.0.is_there.notify_one();
    }

    /// Ends the node, before it handles anything more.
    pub(crate) fn fail(&self, why: Error) {
        let mut state = self.state();
        if !state.has_ended {
            state.mail.end = Some(why);
        }
        drop(state);
        self.0.is_there.notify_one();
    }

    pub(crate) fn ask(&self, request: Request) -> Result<(), Error> {
        let mut state = self.state();
        if state.has_ended {
            return Err(Error::Ended);
        }
        state.mail.requests.push(request);
        drop(state);
        self.0.is_there.notify_one();
        Ok(())
    }

    /// Lets a handler handle all that comes, until it ends, and says why it did: on this thread, or on one that serves.
    pub(crate) fn run(&self, handler: Box<dyn Handler>) -> Result<(), Error> {
        let mail = Mail::default();
        *self.work() = Some(Work { handler, mail });
        let mut patience = Duration::ZERO;
        loop {
            let (mut state, _) = self
                .0
                .is_there
                .wait_timeout_while(self.state(), patience, |state| state.is_quiet())
                .unwrap_or_else(PoisonError::into_inner);
            state.is_due = false;
            if let Some(end) = state.end.take() {
                drop(state);
                *self.work() = None;
                return end;
            }
            drop(state);
            if let Some(work) = &mut *self.work() {
                patience = self.handle(work, false).patience;
            }
        }
    }

    fn work(&self) -> MutexGuard<'_, Option<Work>> {
        self.0.work.lock().unwrap_or_else(PoisonError::into_inner)
    }

    /// Handles all that waits, and says what comes next.
    fn handle(&self, Work { handler, mail }: &mut Work, may_write: bool) -> Next {
        let mut state = self.state();
        if state.has_ended {
            return Next::default();
        }
        std::mem::swap(&mut state.mail, mail);
        drop(state);
        match handler.handle(mail, may_write) {
            ControlFlow::Continue(next) => next,
            ControlFlow::Break(end) => {
                self.end(end);
                // whoever waits for an answer is told so before the handler goes, which may wait for them
                *mail = Mail::default();
                Next::default()
            }
        }
    }
}

#[cfg(test)]
mod tests {
    use super::*;
    use crate::batch::Arrival;
    use crate::ClientId;
    use std::sync::mpsc::{channel, Receiver, Sender};
    use std::thread::{self, ThreadId};

    const LONG: Duration = Duration::from_secs(30);

    /// Says which thread has handled how many bytes, and waits for leave to go on; ends once nobody gives any.
    struct Scribe {
        handled: Sender<(ThreadId, usize)>,
        leave: Receiver<()>,
    }

    fn later() -> Next {
        let (patience, job) = (LONG, None);
        Next { patience, job }
    }

    impl Handler for Scribe {
        fn handle(&mut self, mail: &mut Mail, _may_write: bool) -> ControlFlow<Result<(), Error>, Next> {
            if mail.arrivals.is_empty() {
                return ControlFlow::Continue(later());
            }
            self.handled
                .send((thread::current().id(), mail.arrivals.byte_count()))
                .unwrap();
            mail.arrivals.clear();
            match self.leave.recv() {
                Ok(()) => ControlFlow::Continue(later()),
                Err(_) => ControlFlow::Break(Err(Error::Ended)),
            }
        }

        fn idle(&mut self) -> ControlFlow<Result<(), Error>, bool> {
            ControlFlow::Continue(false)
        }
    }

    /// Has so much to do that can wait.
    struct Idler(usize);

    impl Handler for Idler {
        fn handle(&mut self, mail: &mut Mail, _may_write: bool) -> ControlFlow<Result<(), Error>, Next> {
            mail.arrivals.clear();
            ControlFlow::Continue(later())
        }

        fn idle(&mut self) -> ControlFlow<Result<(), Error>, bool> {
            match self.0.checked_sub(1) {
                Some(left) => {
                    self.0 = left;
                    ControlFlow::Continue(left > 0)
                }
                None => ControlFlow::Break(Err(Error::Ended)),
            }
        }
    }

    #[test]
    fn what_can_wait_is_done_while_nothing_else_is_to_be() {
        let inbox = Inbox::default();
        assert!(!inbox.idle());
        let (handler, mail) = (Box::new(Idler(2)), Mail::default());
        *inbox.work() = Some(Work { handler, mail });
        inbox.post(&mut bytes(1));
        // (the node has that to do)
        assert!(!inbox.idle());
        assert!(inbox.try_handle(false).is_some());
        assert!(inbox.idle());
        assert!(!inbox.idle());
        // a node that fails at it has ended
        assert!(!inbox.idle());
        assert!(inbox.state().has_ended);
    }

    fn bytes(count: usize) -> Arrivals {
        let mut arrivals = Arrivals::new();
        arrivals.push(Arrival::Received(ClientId(1)), &vec![0; count]);
        arrivals
    }

    #[test]
    fn a_late_word_of_a_log_that_was_given_up_takes_no_others_place() {
        let inbox = Inbox::default();
        for (log, count) in [(2, Err(Error::Ended)), (1, Ok(7))] {
            let count = count.map_err(|_| io::Error::other("full"));
            inbox.written(Written { log, count });
        }
        let said = &inbox.state().mail.written;
        assert!(said.len() == 2 && said[0].log == 2 && said[0].count.is_err() && said[1].log == 1);
    }

    #[test]
    fn what_is_served_is_handled_on_the_callers_thread_unless_the_node_is_at_work() {
        let inbox = Inbox::default();
        let (to, handled) = channel();
        let (give, leave) = channel();
        let scribe = Scribe { handled: to, leave };
        let nodes = inbox.clone();
        let node = thread::spawn(move || nodes.run(Box::new(scribe)));
        let (here, there) = (thread::current().id(), node.thread().id());
        // (it hasn't begun as long as its own thread hasn't)
        inbox.post(&mut bytes(1));
        assert_eq!(handled.recv_timeout(LONG), Ok((there, 1)));
        give.send(()).unwrap();
        // the node's thread may still hold it
        while inbox.0.work.try_lock().is_err() {
            thread::yield_now();
        }
        give.send(()).unwrap();
        assert_eq!(inbox.serve(&mut bytes(2)), 0);
        assert_eq!(handled.recv_timeout(LONG), Ok((here, 2)));
        // much is left to the node's thread, and so is what comes while that is at work
        assert_eq!(inbox.serve(&mut bytes(LITTLE + 1)), LITTLE + 1);
        assert_eq!(handled.recv_timeout(LONG), Ok((there, LITTLE + 1)));
        assert_eq!(inbox.serve(&mut bytes(3)), 3);
        give.send(()).unwrap();
        assert_eq!(handled.recv_timeout(LONG), Ok((there, 3)));
        drop(give);
        assert!(matches!(node.join().unwrap(), Err(Error::Ended)));
        assert_eq!(inbox.serve(&mut bytes(4)), 0);
    }
}
