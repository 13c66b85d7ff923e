//! A node at work.

use super::new_log::{write_beside, Beside};
use super::repeats::Repeats;
use super::writes::{ended, lock, Change, Job, SharedDisk, Write};
use super::{Request, TICK};
use crate::batch::{Arrival, Deliveries, Delivery};
use crate::inbox::{Flush, Handler, Inbox, Mail, Next, Written};
use crate::metrics::Metrics;
use crate::service::{Input, Output, Refusal, Service, MOMENT};
use crate::status::{Role, Status};
use crate::{ClientId, Clock, Error, Network};
use std::collections::BTreeMap;
use std::io;
use std::ops::ControlFlow;
use std::sync::mpsc::{channel, Sender};
use std::sync::Arc;
use std::thread;
use std::time::{Duration, Instant};

/// Below how many bytes for the log a thread that serves flushes them itself.
const CALM: usize = 4 << 10;
/// How many bytes of a client are handed in at a time, so that no client holds up the others for long.
const PIECE: usize = 64 << 10;
/// A buffer above this size is given back once its bytes are on disk.
const KEPT: usize = 4 << 20;
/// How often its status is noted for metrics.
const NOTED: Duration = Duration::from_millis(500);

/// A node at work: on its own thread, or on one that serves.
pub(super) struct Runner<N> {
    pub(super) service: Service,
    pub(super) clock: Box<dyn Clock>,
    /// When the service was told the time last.
    pub(super) ticked: Duration,
    /// The time of day then: a query whose time the log has needs no entry, so it is the same for some.
    pub(super) time_of_day: Duration,
    /// How much time the service is told of at once: a heartbeat's.
    pub(super) longest: Duration,
    pub(super) noted: Instant,
    pub(super) network: N,
    pub(super) disk: Arc<SharedDisk>,
    /// To the thread of the log.
    pub(super) writes: Sender<Write>,
    /// What is to be written next.
    pub(super) next: Option<Write>,
    /// The new log, if one is on its way, and how many there were.
    pub(super) beside: Option<Beside>,
    pub(super) begun: u64,
    pub(super) metrics: Arc<Metrics>,
    pub(super) random: u64,
    /// Whether bytes are on their way to the disk, and since when.
    pub(super) is_flushing: bool,
    pub(super) began: Duration,
    /// What is repeated while a disk is slow.
    pub(super) repeats: Repeats,
    /// A buffer for the next ones.
    pub(super) spare: Vec<u8>,
    /// Bytes of clients that weren't handed in yet, or that weren't taken.
    pub(super) rests: BTreeMap<ClientId, Vec<u8>>,
    /// Whether more of them may be taken at once.
    pub(super) has_more: bool,
    /// Whether clients' bytes came since the service was told the time.
    pub(super) has_come: bool,
    pub(super) deliveries: Deliveries,
    pub(super) inbox: Inbox,
}

impl<N: Network> Runner<N> {
    /// Handles all that has come, then lets the service write, then delivers; and says whether that was all.
    fn take_turn(&mut self, mail: &mut Mail, may_write: bool) -> Result<ControlFlow<(), Option<Job>>, Error> {
        if let Some(why) = mail.end.take() {
            return Err(why);
        }
        for written in mail.written.drain(..) {
            self.written(written)?;
        }
        if let Some(flush) = mail.flush.take() {
            self.flushed(flush)?;
            if !mail.arrivals.is_empty() {
                // who is answered needn't wait until what has come since is handled
                self.deliver();
            }
        }
        // first, since what a request expires by counts from the time that was told last, however long ago
        self.tick()?;
        for (arrival, bytes) in mail.arrivals.iter() {
            self.arrives(arrival, bytes)?;
        }
        mail.arrivals.clear();
        self.hand_in_rests()?;
        let job = self.write(may_write)?;
        self.fetch_piece()?;
        self.hurry()?;
        for request in mail.requests.drain(..) {
            if matches!(request, Request::Stop) {
                return Ok(ControlFlow::Break(()));
            }
            self.request(request)?;
        }
        self.deliver();
        self.note()?;
        Ok(ControlFlow::Continue(job))
    }

    /// How long it waits for what comes.
    fn patience(&self) -> Duration {
        if self.has_more || self.wants_piece() {
            Duration::ZERO
        } else {
            TICK.saturating_sub(self.clock.elapsed().saturating_sub(self.ticked))
        }
    }

    /// Lets the service write, unless bytes are on their way already. A few bytes a thread that serves flushes itself, since that is sooner
    /// done than said to another one; else what comes meanwhile is handled. A new log that has nearly all is waited for.
    fn write(&mut self, may_write: bool) -> Result<Option<Job>, Error> {
        if self.is_flushing {
            return Ok(None);
        }
        if self.beside.as_ref().is_some_and(Beside::is_near) && !self.take_over()? {
            self.let_out()?;
            return Ok(None);
        }
        self.let_out()?;
        let Some(write) = self.next_write()? else {
            self.let_out()?;
            return Ok(None);
        };
        self.is_flushing = true;
        self.began = self.clock.elapsed();
        if may_write && self.is_soon_done(&write) {
            let disk = self.disk.clone();
            return Ok(Some(Job { disk, write }));
        }
        // (if its thread has ended, it has said why)
        let _ = self.writes.send(write);
        Ok(None)
    }

    /// Whether these bytes are few, and nothing waits meanwhile.
    fn is_soon_done(&self, next: &Write) -> bool {
        let is_little = matches!(&next.change, Change::Append(bytes) if bytes.len() < CALM);
        is_little && self.inbox.is_empty()
    }

    /// What is to be done to the log next. If it is long, a new one is begun beside it.
    fn next_write(&mut self) -> Result<Option<Write>, Error> {
        if self.next.is_none() {
            self.call(Input::BeginLog)?;
            self.call(Input::Write)?;
        }
        Ok(self.next.take())
    }

    /// Begins a new log, whose first bytes end there. One that can't be written is done without: the old log goes on.
    fn begin(&mut self, end: u64) -> Result<(), Error> {
        self.begun += 1;
        let (number, inbox) = (self.begun, self.inbox.clone());
        let (parts, to_write) = channel();
        let begun = lock(&self.disk)
            .as_mut()
            .map_or_else(|| Err(ended()), |disk| disk.begin(end));
        let begun = begun.and_then(|log| {
            let work = move || write_beside(log, number, &to_write, &inbox);
            thread::Builder::new().name("new log".into()).spawn(work)
        });
        if let Err(error) = begun {
            return self.give_up(&error);
        }
        self.beside = Some(Beside::new(number, parts, end));
        Ok(())
    }

    fn wants_piece(&self) -> bool {
        self.beside.as_ref().is_some_and(Beside::wants_piece)
    }

    /// Fetches a piece of the new log, if it is time for that: one, so that nobody waits for all of a large one.
    fn fetch_piece(&mut self) -> Result<(), Error> {
        if self.wants_piece() && !self.take(Input::LogPiece)?.is_piece {
            return Err(Error::Stopped("the service lacks bytes of a new log".into()));
        }
        Ok(())
    }

    /// Bytes for the new log: its next piece, or what goes behind all of them.
    fn add_beside(&mut self, bytes: Vec<u8>, is_piece: bool) {
        if let Some(beside) = &mut self.beside {
            self.metrics.log_bytes.add(bytes.len() as u64);
            match is_piece {
                true => beside.add_piece(bytes),
                false => beside.append(bytes),
            }
        }
    }

    /// Parts of a new log are on disk, or can't be written.
    fn written(&mut self, Written { log, count }: Written) -> Result<(), Error> {
        let own = self.beside.as_mut().filter(|beside| beside.number == log);
        match (own, count) {
            (Some(beside), Ok(count)) => beside.written = count,
            (Some(_), Err(error)) => self.give_up(&error)?,
            (None, _) => {}
        }
        Ok(())
    }

    fn give_up(&mut self, error: &io::Error) -> Result<(), Error> {
        log::error!("log: no new one can be written, so it grows: {error}");
        self.beside = None;
        self.give_up_disks();
        self.call(Input::GiveUpLog)
    }

    fn give_up_disks(&self) {
        if let Some(disk) = &mut *lock(&self.disk) {
            disk.give_up();
        }
    }

    /// Lets the new log take the old one's place, if all of it is on disk; says whether the log may be written.
    fn take_over(&mut self) -> Result<bool, Error> {
        if !self.beside.as_ref().is_some_and(Beside::is_written) {
            return Ok(false);
        }
        self.beside = None;
        self.call(Input::TakeOver)?;
        if self.next.is_none() {
            self.give_up_disks();
            self.call(Input::GiveUpLog)?;
        }
        Ok(true)
    }

    /// What waits for nothing on disk leaves, as a commit: no bytes more are there.
    fn let_out(&mut self) -> Result<(), Error> {
        self.call(Input::Flushed(0))
    }

    fn deliver(&mut self) {
        if !self.deliveries.is_empty() {
            self.network.deliver(&mut self.deliveries);
            self.deliveries.clear();
        }
    }

    fn arrives(&mut self, arrival: Arrival, bytes: &[u8]) -> Result<(), Error> {
        match arrival {
            Arrival::Connected(client) => self.call(Input::Connect(client)),
            Arrival::Received(client) => self.receive(client, bytes),
            Arrival::Disconnected(client) => {
                self.rests.remove(&client);
                self.call(Input::Disconnect(client))
            }
            Arrival::Frame(from) => self.call(Input::Frame { from, bytes }),
        }
    }

    /// A client has sent bytes.
    fn receive(&mut self, client: ClientId, bytes: &[u8]) -> Result<(), Error> {
        if let Some(rest) = self.rests.get_mut(&client) {
            rest.extend_from_slice(bytes);
            return Ok(());
        }
        let taken = self.hand_in(client, bytes)?;
        if taken < bytes.len() {
            self.rests.insert(client, bytes[taken..].to_vec());
        }
        Ok(())
    }

    /// Hands in a piece of a client's bytes, and says how many were taken.
    fn hand_in(&mut self, client: ClientId, bytes: &[u8]) -> Result<usize, Error> {
        self.has_come = true;
        let bytes = &bytes[..bytes.len().min(PIECE)];
        let taken = self.take(Input::Client { client, bytes })?.taken;
        if taken > 0 {
            self.deliveries.push(Delivery::Taken(client, taken), &[]);
        }
        Ok(taken)
    }

    /// Hands in the next piece of what each client has sent too much of. While bytes are on their way to the disk nothing of it is
    /// answered, so it would only wait in the service.
    fn hand_in_rests(&mut self) -> Result<(), Error> {
        self.has_more = false;
        if self.rests.is_empty() || self.is_flushing {
            return Ok(());
        }
        for (client, mut rest) in std::mem::take(&mut self.rests) {
            let taken = self.hand_in(client, &rest)?;
            if taken < rest.len() {
                rest.drain(..taken);
                self.has_more |= taken > 0;
                self.rests.insert(client, rest);
            }
        }
        Ok(())
    }

    fn flushed(&mut self, flush: Flush) -> Result<(), Error> {
        let position = flush.result.map_err(Error::Disk)?;
        self.metrics.set_log(position);
        self.metrics.flushes.observe(flush.took);
        self.spare = flush.bytes;
        self.spare.clear();
        self.spare.shrink_to(KEPT);
        self.is_flushing = false;
        self.call(Input::Flushed(position.end))
    }

    /// Tells the service how much time went by: none while a write takes long, for which what it does by the time would only
    /// wait. After a break of this thread, as of a process that was stopped, that is a heartbeat's time at most: what came
    /// meanwhile was only heard now, so a leader would find that nobody is heard any more, and refuse requests.
    fn tick(&mut self) -> Result<(), Error> {
        let now = self.clock.elapsed();
        // (a clock that goes back breaks its promise; then the time goes on from there)
        self.ticked = self.ticked.min(now + MOMENT);
        let passed = now.saturating_sub(self.ticked);
        if passed < TICK {
            return Ok(());
        }
        self.time_of_day = self.clock.time_of_day();
        if self.is_flushing && self.repeats.stand_for(now, self.began) {
            self.repeats.repeat(now, self.began, &mut self.deliveries);
            return self.pass(passed, Duration::ZERO);
        }
        self.pass(passed, passed.min(self.longest))
    }

    /// Tells the service that so much of the time that went by counts, in whole moments: the rest counts next time.
    fn pass(&mut self, passed: Duration, counted: Duration) -> Result<(), Error> {
        self.ticked += passed - Duration::from_nanos((passed.as_nanos() % MOMENT.as_nanos()) as u64);
        self.random = self.random.wrapping_add(0x9E37_79B9_7F4A_7C15);
        self.call(Input::Tick {
            elapsed: counted,
            random: crate::mixed(self.random),
            time_of_day: self.time_of_day,
        })
    }

    /// Lets the moment go by for which reads wait, so that heartbeats leave at once. The clock is ahead by that, at most. Not while bytes are
    /// on their way to the disk: no read is asked for then.
    fn hurry(&mut self) -> Result<(), Error> {
        if self.has_come && !self.is_flushing {
            self.has_come = false;
            let passed = self.clock.elapsed().saturating_sub(self.ticked);
            let passed = passed.max(MOMENT);
            self.pass(passed, passed.min(self.longest))?;
            self.let_out()?;
        }
        Ok(())
    }

    fn request(&mut self, request: Request) -> Result<(), Error> {
        // whoever has asked may have gone
        match request {
            Request::Initialize(to) => {
                self.call(Input::Initialize)?;
                let _ = to.send(Ok(()));
            }
            Request::Members(members, to) => {
                // the service would do it, and never be able to do anything more
                let refused = if members.voters.is_empty() {
                    Some("no voter would be left".into())
                } else {
                    self.take(Input::Members(&members))?.refused
                };
                let status = self.status()?;
                let _ = to.send(match refused {
                    None => Ok(()),
                    Some(_) if status.role != Role::Leader => Err(Error::NotLeader(status.leader)),
                    Some(text) => Err(Error::Refused(text)),
                });
            }
            Request::Status(to) => {
                let status = self.status()?;
                let _ = to.send(Ok(status));
            }
            Request::Stop => {}
        }
        Ok(())
    }

    fn status(&mut self) -> Result<Status, Error> {
        let came = self.take(Input::Status)?;
        let status = came.status;
        let mut status = status.ok_or_else(|| Error::Stopped("the service answers no status".into()))?;
        status.refused = self.metrics.refused();
        Ok(status)
    }

    /// Notes the status for metrics, now and then.
    fn note(&mut self) -> Result<(), Error> {
        if self.noted.elapsed() >= NOTED {
            self.noted = Instant::now();
            let status = self.status()?;
            self.metrics.note(status);
        }
        Ok(())
    }

    /// Calls the service, which refuses nothing that the caller has to know.
    fn call(&mut self, input: Input<'_>) -> Result<(), Error> {
        self.take(input).map(drop)
    }

    /// Calls the service, and takes what it puts out.
    fn take(&mut self, input: Input<'_>) -> Result<Came, Error> {
        let (mut came, mut begun, mut beside) = (Came::default(), None, None);
        let outputs = match self.service.call(input)? {
            Ok(outputs) => outputs,
            Err(refusal) => {
                self.refused(input, refusal, &mut came);
                return Ok(came);
            }
        };
        for output in outputs {
            match output {
                Output::Frame { to, bytes } => {
                    self.repeats.said(to, bytes);
                    self.deliveries.push(Delivery::Frame(to), bytes);
                }
                Output::Client { client, bytes } => self.deliveries.push(Delivery::Bytes(client), bytes),
                Output::Close(client) => self.deliveries.push(Delivery::Close(client), &[]),
                Output::Taken(count) => came.taken = count,
                Output::Status(status) => came.status = Some(status),
                Output::More => came.is_more = true,
                Output::Append { end, bytes } => {
                    let mut copy = std::mem::take(&mut self.spare);
                    copy.extend_from_slice(bytes);
                    self.metrics.log_bytes.add(bytes.len() as u64);
                    let change = Change::Append(copy);
                    self.next = Some(Write { change, end });
                }
                Output::TakenOver(end) => {
                    let change = Change::TakeOver;
                    self.next = Some(Write { change, end });
                }
                Output::NewLog(end) => begun = Some(end),
                Output::LogPiece(bytes) => {
                    came.is_piece = true;
                    beside = Some(bytes.to_vec());
                }
                Output::AppendNext(bytes) => beside = Some(bytes.to_vec()),
            }
        }
        if let Some(end) = begun {
            self.begin(end)?;
        }
        if let Some(bytes) = beside {
            self.add_beside(bytes, came.is_piece);
        }
        Ok(came)
    }

    /// Does what a refusal asks for.
    fn refused(&mut self, input: Input<'_>, refusal: Refusal, came: &mut Came) {
        match (refusal, input) {
            (Refusal::Connect, Input::Connect(client)) => self.deliveries.push(Delivery::Close(client), &[]),
            (Refusal::Frame(text), Input::Frame { from, .. }) => {
                log::warn!("peer {from}: a frame is refused: {text}");
                self.deliveries.push(Delivery::Sever(from), &[]);
            }
            (Refusal::Members(text), _) => came.refused = Some(text),
            (Refusal::Busy, _) => self.metrics.frames_dropped.add(1),
            _ => {}
        }
    }
}

impl<N: Network> Handler for Runner<N> {
    fn handle(&mut self, mail: &mut Mail, may_write: bool) -> ControlFlow<Result<(), Error>, Next> {
        match self.take_turn(mail, may_write) {
            Ok(ControlFlow::Continue(job)) => {
                let patience = self.patience();
                ControlFlow::Continue(Next { patience, job })
            }
            Ok(ControlFlow::Break(())) => ControlFlow::Break(Ok(())),
            Err(error) => ControlFlow::Break(Err(error)),
        }
    }

    fn idle(&mut self) -> ControlFlow<Result<(), Error>, bool> {
        match self.take(Input::Idle) {
            Ok(came) => ControlFlow::Continue(came.is_more),
            Err(error) => ControlFlow::Break(Err(error)),
        }
    }
}

/// What a call came to, besides what is delivered.
#[derive(Default)]
struct Came {
    taken: usize,
    is_more: bool,
    is_piece: bool,
    status: Option<Status>,
    refused: Option<String>,
}
