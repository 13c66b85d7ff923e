//! A node: the service on a thread, or on one that serves ([`Inbox::serve`]), and the log on another one.

mod new_log;
mod repeats;
mod runner;
mod writes;

use crate::batch::Deliveries;
use crate::disk::Position;
use crate::inbox::Inbox;
use crate::metrics::Metrics;
use crate::service::Service;
use crate::settings::{Builder, Limits};
use crate::status::{Members, Status};
use crate::{Clock, Disk, Error, Network, NodeId};
use repeats::Repeats;
use runner::Runner;
use std::collections::BTreeMap;
use std::sync::mpsc::{channel, sync_channel, SyncSender};
use std::sync::{Arc, Mutex};
use std::thread::{self, JoinHandle};
use std::time::{Duration, Instant};
pub(crate) use writes::Job;
use writes::{lock, write_all, SharedDisk};

/// How often a node looks at the clock.
const TICK: Duration = Duration::from_millis(10);
/// How many election timeouts a disk is waited for before others may elect one that has a faster one.
const PATIENT: u32 = 10;
/// What a node is asked for by its handle.
pub(crate) enum Request {
    Initialize(SyncSender<Result<(), Error>>),
    Members(Members, SyncSender<Result<(), Error>>),
    Status(SyncSender<Result<Status, Error>>),
    Stop,
}

/// A node that was opened on its log, and doesn't run yet.
///
/// ```
/// use wachelpo::{Deliveries, MemoryDisk, Network, Node, NodeId};
///
/// /// A node alone has nobody to send anything to.
/// struct Nobody;
///
/// impl Network for Nobody {
///     fn deliver(&mut self, deliveries: &mut Deliveries) {
///         deliveries.clear();
///     }
/// }
///
/// let node = Node::builder(NodeId(1)).member(NodeId(1), "").open(MemoryDisk::new())?;
/// let running = node.start(Nobody)?;
/// running.handle().initialize()?;
/// assert_eq!(running.handle().status()?.id, NodeId(1));
/// running.stop()?;
/// # Ok::<(), wachelpo::Error>(())
/// ```
pub struct Node {
    service: Service,
    disk: Box<dyn Disk>,
    clock: Box<dyn Clock>,
    inbox: Inbox,
    metrics: Arc<Metrics>,
    heartbeat: Duration,
    election_timeout: Duration,
    is_new: bool,
}

impl Node {
    /// The settings of a node of this id.
    pub fn builder(id: NodeId) -> Builder {
        Builder::new(id)
    }

    pub(crate) fn open(settings: &Builder, mut disk: Box<dyn Disk>, clock: Box<dyn Clock>) -> Result<Self, Error> {
        let log = disk.read().map_err(Error::Disk)?;
        let (service, end) = Service::open(settings, &log)?;
        let last = log[end as usize..].iter().rposition(|byte| *byte != 0);
        let behind = last.map_or(0, |last| last + 1);
        let Limits {
            waiting_bytes,
            unwritten_bytes,
            frame_bytes,
            ..
        } = settings.limits;
        let most = waiting_bytes
            .saturating_add(unwritten_bytes)
            .saturating_add(frame_bytes);
        if behind > most {
            return Err(Error::DamagedLog(format!(
                "{behind} bytes behind byte {end} are none of its records, and one write has {most} at most"
            )));
        }
        if behind > 0 {
            log::warn!("log: what a stop left of a last write is cut off at byte {end}");
        }
        disk.cut(end).map_err(Error::Disk)?;
        let metrics = Metrics::new(settings.id);
        metrics.set_log(Position {
            generation: disk.generation(),
            end,
        });
        Ok(Node {
            service,
            disk,
            clock,
            inbox: Inbox::default(),
            metrics: Arc::new(metrics),
            heartbeat: settings.heartbeat,
            election_timeout: settings.election_timeout,
            is_new: end == 0,
        })
    }

    /// Where a network hands in what comes to the node.
    pub fn inbox(&self) -> Inbox {
        self.inbox.clone()
    }

    /// Whether its log is empty: it has never run.
    pub fn is_new(&self) -> bool {
        self.is_new
    }

    /// What is counted of the node.
    pub fn metrics(&self) -> Arc<Metrics> {
        self.metrics.clone()
    }

    /// Asks the node for something, once it runs.
    pub fn handle(&self) -> Handle {
        Handle(self.inbox.clone())
    }

    /// Runs the node on two threads: one for the service, one for its log. A network whose threads serve ([`Inbox::serve`]) runs it too.
    ///
    /// Refusals:
    /// - [`Error::Io`]: a thread can't be started.
    pub fn start<N: Network + 'static>(self, network: N) -> Result<Running, Error> {
        let handle = self.handle();
        let (writes, to_write) = channel();
        let disk = Arc::new(Mutex::new(Some(self.disk)));
        let (inbox, shared, last) = (self.inbox.clone(), disk.clone(), disk.clone());
        let log = thread::Builder::new()
            .name("log".into())
            .spawn(move || write_all(&shared, &to_write, &inbox))
            .map_err(Error::Io)?;
        let random = crate::random().map_err(Error::Io)?;
        let (service, clock, inbox, metrics) = (self.service, self.clock, self.inbox, self.metrics);
        let longest = self.heartbeat.max(TICK);
        let runs = move || {
            let runner = Runner {
                service,
                ticked: clock.elapsed(),
                time_of_day: clock.time_of_day(),
                clock,
                longest,
                noted: Instant::now(),
                network,
                disk,
                writes,
                next: None,
                beside: None,
                begun: 0,
                metrics,
                random,
                is_flushing: false,
                began: Duration::ZERO,
                repeats: Repeats::new(self.heartbeat, self.election_timeout * PATIENT),
                spare: Vec::new(),
                rests: BTreeMap::new(),
                has_more: false,
                has_come: false,
                deliveries: Deliveries::new(),
                inbox: inbox.clone(),
            };
            inbox.run(Box::new(runner))
        };
        let thread = thread::Builder::new()
            .name("node".into())
            .spawn(runs)
            .map_err(Error::Io)?;
        Ok(Running {
            handle,
            thread,
            log,
            disk: last,
        })
    }
}

/// A node that runs.
pub struct Running {
    handle: Handle,
    thread: JoinHandle<Result<(), Error>>,
    log: JoinHandle<()>,
    disk: Arc<SharedDisk>,
}

impl Running {
    /// Asks the node for something.
    pub fn handle(&self) -> &Handle {
        &self.handle
    }

    /// Waits until the node has ended, and says why it did.
    pub fn wait(self) -> Result<(), Error> {
        let end = self.thread.join().map_err(|_| Error::Ended)?;
        // what it may still write stands in the way of a node that is started on the same log
        let _ = self.log.join();
        *lock(&self.disk) = None;
        end
    }

    /// Ends the node: as a kill does, but that its threads end, and those of its network. What was answered is on disk.
    pub fn stop(self) -> Result<(), Error> {
        match self.handle.0.ask(Request::Stop) {
            Ok(()) | Err(Error::Ended) => self.wait(),
            Err(error) => Err(error),
        }
    }
}

/// Asks a node for something, from any thread.
#[derive(Clone)]
pub struct Handle(Inbox);

impl Handle {
    fn ask<T>(&self, request: impl FnOnce(SyncSender<Result<T, Error>>) -> Request) -> Result<T, Error> {
        let (to, answer) = sync_channel(1);
        self.0.ask(request(to))?;
        answer.recv().map_err(|_| Error::Ended)?
    }

    /// Gives a new cluster its first entry, with its first voters: once, at one node. Of a node that has entries, or has given its
    /// vote, it changes nothing.
    ///
    /// Refusals:
    /// - [`Error::Ended`].
    pub fn initialize(&self) -> Result<(), Error> {
        self.ask(Request::Initialize)
    }

    /// Makes these the members. It is only begun: new voters first have to hold the log, and [`Handle::status`] says when they are.
    ///
    /// Refusals:
    /// - [`Error::NotLeader`].
    /// - [`Error::Refused`]: another change is under way, or no voter would be left.
    /// - [`Error::Ended`].
    pub fn set_members(&self, members: Members) -> Result<(), Error> {
        self.ask(|to| Request::Members(members, to))
    }

    /// What the node knows of itself and its cluster.
    ///
    /// Refusals:
    /// - [`Error::Ended`].
    pub fn status(&self) -> Result<Status, Error> {
        self.ask(Request::Status)
    }
}
