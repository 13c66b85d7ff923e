//! All sockets, which one thread has at a time: it never waits for one of them.

mod accepting;
mod duty;
mod gathering;
mod greeting;
mod linking;
mod noting;
mod reading;
mod roles;
mod writing;

use crate::batch::{Arrival, Arrivals, Deliveries, Delivery};
use crate::disk::{Folder, Noting, Presence};
use crate::inbox::{Flush, Inbox};
use crate::network::handshake::Secret;
use crate::network::tcp::{ConnectionLimits, Outbox};
use crate::node::{Handle, Job};
use crate::{ClientId, Error, Metrics, NodeId};
use accepting::descriptors;
use gathering::Gathering;
use mio::event::Event;
use mio::net::TcpListener;
use mio::{Events, Interest, Poll, Token, Waker};
use noting::Desk;
use roles::{refused, Answer, Asked, Client, Close, Found, Knock, Link, Role, Socket, Step};
use std::collections::{BTreeMap, HashMap, VecDeque};
use std::io::{self, ErrorKind};
use std::net::SocketAddr;
use std::sync::{Arc, Mutex, MutexGuard, PoisonError};
use std::thread;
use std::time::{Duration, Instant};

const CLIENTS: Token = Token(0);
const PEERS: Token = Token(1);
const PAGES: Token = Token(2);
const WAKER: Token = Token(3);
/// The token of the first connection.
const FIRST: usize = 4;

/// How often it looks for what is late.
const LOOK: Duration = Duration::from_millis(20);
/// While so few clients are connected, it looks for more for so long before it waits: for a client that is alone, to wake up takes longer than
/// what is to be done.
const FEW: usize = 2;
const AWAKE: Duration = Duration::from_micros(200);
/// How many bytes are read at a time, and of one connection in a round.
const CHUNK: usize = 64 << 10;
const SHARE: usize = 1 << 20;
/// To how many connections is written until others are read again: whoever is answered first asks on while the others are answered.
const WRITTEN: usize = 8;
/// Above so many bytes that wait for the node, no socket is read.
const CONGESTED: usize = 64 << 20;
/// How long a handshake may take, and a request for a page.
const PATIENCE: Duration = Duration::from_secs(3);
/// How long another answer to who sends nothing more is waited for, and the first one.
const LAST_ANSWERS: Duration = Duration::from_secs(1);
const UNANSWERED: Duration = Duration::from_secs(30);
/// The most connections that are neither clients' nor known nodes'.
const STRANGERS: usize = 128;
/// How long it takes until a node is connected to again: twice as long each time.
const BACKOFF: Duration = Duration::from_millis(10);
const BACKOFF_MOST: Duration = Duration::from_secs(1);
/// After a connection couldn't be taken.
const PAUSE: Duration = Duration::from_millis(100);
/// How long bytes to another node may stay unacknowledged.
const UNACKNOWLEDGED: Duration = Duration::from_secs(2);
/// How many descriptors are left for all else: the log, the listeners, peers, strangers.
const DESCRIPTORS: usize = STRANGERS + 64;

/// Where is listened.
#[derive(Clone, Debug, Default)]
pub(crate) struct Addresses {
    pub clients: Option<SocketAddr>,
    pub peers: Option<SocketAddr>,
    pub pages: Option<SocketAddr>,
}

/// What the thread of the sockets stands on.
pub(crate) struct Setup {
    pub id: NodeId,
    pub cluster: u64,
    pub is_secret: bool,
    pub secret: Secret,
    pub limits: ConnectionLimits,
    pub has_password: bool,
    pub inbox: Inbox,
    pub handle: Handle,
    pub metrics: Arc<Metrics>,
    pub outbox: Arc<Mutex<Outbox>>,
}

/// What comes next.
enum Turn {
    GoOn,
    /// The thread writes to the log: it may take longer than others wait for the sockets.
    Write(Job),
    Over,
}

/// All sockets.
pub(crate) struct Sockets {
    setup: Setup,
    presence: Presence,
    noting: Noting,
    desk: Desk,
    /// When positions were noted last.
    noted: Instant,
    poll: Poll,
    listeners: Vec<(Token, TcpListener)>,
    /// When listeners that couldn't take a connection are asked again.
    again: Option<Instant>,
    slots: Vec<Option<Socket>>,
    free: Vec<usize>,
    clients: HashMap<ClientId, usize>,
    /// The clients that came when there was a password to be said, in their order, and how many of them haven't said it.
    came: VecDeque<ClientId>,
    unknown_clients: usize,
    last_client: u64,
    most_clients: usize,
    /// How many bytes for all clients wait.
    unwritten: usize,
    peers: BTreeMap<NodeId, usize>,
    strangers: usize,
    links: BTreeMap<NodeId, Link>,
    /// What host names were found to be.
    found: Arc<Mutex<Vec<Found>>>,
    answers: Arc<Mutex<Vec<Answer>>>,
    waker: Arc<Waker>,
    /// What other nodes sent, and what clients did, until the node has it.
    frames: Arrivals,
    arrivals: Arrivals,
    gathering: Gathering,
    is_congested: bool,
    /// Whether the node may have something to do that can wait.
    may_idle: bool,
    /// Whether the node delivers nothing any more.
    is_over: bool,
    /// Connections that may have something to read, and those that something is to be written to.
    ready: Vec<usize>,
    dirty: Vec<usize>,
    chunk: Vec<u8>,
    events: Events,
    deliveries: Deliveries,
    looked: Instant,
    /// When something happened last.
    happened: Instant,
}

impl Sockets {
    /// Binds all addresses.
    pub fn open(
        setup: Setup,
        folder: Folder,
        addresses: &Addresses,
        peers: BTreeMap<NodeId, String>,
    ) -> Result<(Self, Arc<Waker>), Error> {
        let poll = Poll::new().map_err(Error::Io)?;
        let waker = Arc::new(Waker::new(poll.registry(), WAKER).map_err(Error::Io)?);
        let mut listeners = Vec::new();
        for (token, address) in [
            (CLIENTS, addresses.clients),
            (PEERS, addresses.peers),
            (PAGES, addresses.pages),
        ] {
            let Some(address) = address else { continue };
            let named = |error: io::Error| Error::Io(io::Error::new(error.kind(), format!("{address}: {error}")));
            let mut listener = TcpListener::bind(address).map_err(named)?;
            poll.registry()
                .register(&mut listener, token, Interest::READABLE)
                .map_err(Error::Io)?;
            listeners.push((token, listener));
        }
        let now = Instant::now();
        let most_clients = setup
            .limits
            .clients
            .min(descriptors().saturating_sub(DESCRIPTORS).max(1));
        let link = |address| Link {
            address,
            slot: None,
            is_sought: false,
            at: now,
            backoff: BACKOFF,
            is_up: false,
            told: String::new(),
        };
        let (presence, desk) = (folder.presence(), Desk::new(folder.notes().clone()));
        let wakes = waker.clone();
        let noting = Noting::start(folder, move || drop(wakes.wake()))?;
        let sockets = Sockets {
            presence,
            noting,
            desk,
            noted: now,
            setup,
            poll,
            listeners,
            again: None,
            slots: Vec::new(),
            free: Vec::new(),
            clients: HashMap::new(),
            came: VecDeque::new(),
            unknown_clients: 0,
            last_client: 0,
            most_clients,
            unwritten: 0,
            peers: BTreeMap::new(),
            strangers: 0,
            links: peers.into_iter().map(|(id, address)| (id, link(address))).collect(),
            found: Arc::default(),
            answers: Arc::default(),
            waker: waker.clone(),
            frames: Arrivals::new(),
            arrivals: Arrivals::new(),
            gathering: Gathering::default(),
            is_congested: false,
            may_idle: false,
            is_over: false,
            ready: Vec::new(),
            dirty: Vec::new(),
            chunk: vec![0; CHUNK],
            events: Events::with_capacity(1024),
            deliveries: Deliveries::new(),
            looked: now,
            happened: now,
        };
        Ok((sockets, waker))
    }

    /// Moves bytes, until the network ends.
    pub fn run(self) {
        let inbox = self.setup.inbox.clone();
        duty::run(self, inbox);
    }

    /// Waits for what happens, and moves bytes once.
    fn turn(&mut self) -> Turn {
        let has_ready = !self.ready.is_empty() && !self.is_congested;
        let is_behind = has_ready || !self.arrivals.is_empty() || !self.dirty.is_empty();
        let stays_awake = !is_behind && !self.is_congested && self.stays_awake();
        let patience = match (is_behind, self.is_congested) {
            (true, _) => Duration::ZERO,
            (false, true) => Duration::from_millis(1),
            (false, false) if self.may_idle || stays_awake => Duration::ZERO,
            (false, false) => LOOK,
        };
        if let Err(error) = self.poll.poll(&mut self.events, Some(patience)) {
            if error.kind() != ErrorKind::Interrupted {
                log::error!("sockets: {error}");
                thread::sleep(PAUSE);
            }
            return Turn::GoOn;
        }
        if !self.events.is_empty() {
            self.happened = Instant::now();
        } else if stays_awake && !self.may_idle {
            return Turn::GoOn;
        }
        // also while clients are waited for that were just answered
        if self.events.is_empty() && !has_ready && self.dirty.is_empty() && self.may_idle {
            self.may_idle = self.setup.inbox.idle();
        }
        self.outbox().is_awake = true;
        let events = std::mem::replace(&mut self.events, Events::with_capacity(0));
        for event in &events {
            self.happens(event);
        }
        self.events = events;
        self.notes_are_written();
        self.tell_answers();
        self.read_ready();
        let job = self.serve();
        if self.is_over {
            return Turn::Over;
        }
        if self.looked.elapsed() >= LOOK {
            self.looked = Instant::now();
            self.look();
        }
        job.map_or(Turn::GoOn, Turn::Write)
    }

    /// Hands in what came of a write, and sends what the node says to that; up to the next write.
    fn flushed(&mut self, flush: Flush) -> Option<Job> {
        let job = self.setup.inbox.serve_flush(flush);
        self.deliver_all(job.is_some());
        job
    }

    /// Whether it looks for more before it waits.
    fn stays_awake(&self) -> bool {
        (1..=FEW).contains(&self.clients.len()) && self.happened.elapsed() < AWAKE
    }

    fn outbox(&self) -> MutexGuard<'_, Outbox> {
        self.setup.outbox.lock().unwrap_or_else(PoisonError::into_inner)
    }

    /// Gives the node what was read, and sends what it says to that. What other nodes sent goes first: the answers that come of it leave
    /// before what clients have asked meanwhile, which this thread may write to the disk, and which may wait for what others ask.
    fn serve(&mut self) -> Option<Job> {
        if !self.arrivals.is_empty() {
            let job = self.hand_in();
            self.deliver_all(true);
            if job.is_some() {
                return job;
            }
            let (count, bytes) = (self.arrivals.len(), self.arrivals.byte_count());
            if self.gathering.waits(count, bytes, Instant::now()) {
                return None;
            }
            self.gathering.end();
        }
        self.frames.append(&mut self.arrivals);
        self.may_idle |= !self.frames.is_empty();
        let job = self.hand_in();
        self.deliver_all(job.is_some());
        job
    }

    /// Hands in what waits in `frames`. This thread runs the node only if it has nothing else to do, up to a write.
    fn hand_in(&mut self) -> Option<Job> {
        let (waiting, job) = if self.dirty.is_empty() && self.ready.is_empty() {
            self.setup.inbox.serve_until_write(&mut self.frames)
        } else {
            (self.setup.inbox.post(&mut self.frames), None)
        };
        self.is_congested = waiting > CONGESTED;
        job
    }

    /// Sends what the node has said, and tells it whether this thread will look for more before it waits.
    fn deliver_all(&mut self, is_awake: bool) {
        let mut deliveries = std::mem::take(&mut self.deliveries);
        let mut outbox = self.outbox();
        std::mem::swap(&mut outbox.deliveries, &mut deliveries);
        outbox.is_awake = is_awake;
        let is_over = outbox.is_over;
        drop(outbox);
        self.is_over = is_over;
        let mut answered = 0;
        for (delivery, bytes) in deliveries.iter() {
            answered += usize::from(matches!(delivery, Delivery::Bytes(_)));
            self.deliver(delivery, bytes);
        }
        deliveries.clear();
        self.deliveries = deliveries;
        self.write_dirty(WRITTEN);
        if answered > 0 {
            self.gathering.answered(answered, Instant::now());
        }
    }

    fn happens(&mut self, event: &Event) {
        let token = event.token();
        if token == WAKER {
            return;
        }
        if token.0 < FIRST {
            self.accept(token);
            return;
        }
        let slot = token.0 - FIRST;
        let Some(Some(socket)) = self.slots.get_mut(slot) else {
            return;
        };
        if let Role::Link {
            step: Step::Connecting, ..
        } = socket.role
        {
            if event.is_writable() || event.is_error() || event.is_read_closed() {
                self.connected(slot);
            }
            return;
        }
        if event.is_readable() || event.is_read_closed() || event.is_error() {
            socket.can_read = true;
            socket.is_ending |= event.is_read_closed() || event.is_error();
            self.make_ready(slot);
        }
        if event.is_writable() {
            self.make_dirty(slot);
        }
    }

    fn make_ready(&mut self, slot: usize) {
        if let Some(socket) = &mut self.slots[slot] {
            if !socket.is_ready {
                socket.is_ready = true;
                self.ready.push(slot);
            }
        }
    }

    fn make_dirty(&mut self, slot: usize) {
        if let Some(socket) = &mut self.slots[slot] {
            if !socket.is_dirty && (socket.written < socket.output.len() || socket.is_closing) {
                socket.is_dirty = true;
                match socket.role {
                    // who is answered next waits for other nodes
                    Role::Link { .. } => self.dirty.insert(0, slot),
                    _ => self.dirty.push(slot),
                }
            }
        }
    }

    fn close(&mut self, slot: usize, why: Option<String>) {
        let Some(mut socket) = self.slots[slot].take() else {
            return;
        };
        let _ = self.poll.registry().deregister(&mut socket.stream);
        // a later connection in this slot must not be taken for it
        self.ready.retain(|it| *it != slot);
        self.dirty.retain(|it| *it != slot);
        self.free.push(slot);
        let waiting = socket.waiting();
        match socket.role {
            Role::Client(client) => {
                self.count_unwritten(waiting, 0);
                self.unknown_clients -= usize::from(client.unknown.is_some());
                self.clients.remove(&client.id);
                self.setup.metrics.connections.set(self.clients.len() as u64);
                self.arrivals.push(Arrival::Disconnected(client.id), &[]);
            }
            Role::Stranger(_) => {
                self.strangers -= 1;
                if let Some(why) = why {
                    log::warn!("peers: {} isn't admitted: {why}", socket.whose());
                }
            }
            Role::Page | Role::Admin { .. } => self.strangers -= 1,
            Role::Peer { from, .. } => {
                if self.peers.get(&from) == Some(&slot) {
                    self.peers.remove(&from);
                }
                if let Some(why) = why {
                    log::warn!("peer {from}: its connection is closed: {why}");
                }
            }
            Role::Link { to, .. } => self.unlinked(to, why.as_deref().unwrap_or("it can't be reached")),
        }
    }

    fn look(&mut self) {
        let now = self.looked;
        if self.again.is_some_and(|at| now >= at) {
            self.again = None;
            for token in [CLIENTS, PEERS, PAGES] {
                self.accept(token);
            }
        }
        let found = std::mem::take(&mut *self.found.lock().unwrap_or_else(PoisonError::into_inner));
        for (to, address) in found {
            self.connect(to, address);
        }
        self.connect_again(now);
        self.note_positions(now);
        let (idle, unknown) = (self.setup.limits.idle, self.setup.limits.unknown);
        let is_late = |socket: &Socket| {
            let is_late = |since: Instant| now.saturating_duration_since(since) > PATIENCE;
            match &socket.role {
                Role::Client(client) => {
                    let is_silent = idle.is_some_and(|idle| now.saturating_duration_since(socket.heard) > idle);
                    is_silent || client.unknown.is_some() && now.saturating_duration_since(socket.since) > unknown
                }
                // (it waits for the disk)
                Role::Stranger(Knock::Noted(_)) => false,
                Role::Stranger(_) | Role::Page | Role::Admin { .. } => is_late(socket.since),
                Role::Link { step, .. } => !matches!(step, Step::Open(_) | Step::Noting(_)) && is_late(socket.since),
                Role::Peer { .. } => false,
            }
        };
        for slot in self.slots_of(is_late) {
            self.close(slot, Some("it is silent".into()));
        }
        for slot in self.slots_of(|it| matches!(&it.role, Role::Client(client) if client.is_over(now))) {
            self.say(slot, &[], true);
        }
    }

    fn slots_of(&self, is_meant: impl Fn(&Socket) -> bool) -> Vec<usize> {
        let slots = self.slots.iter().enumerate();
        slots
            .filter(|(_, it)| it.as_ref().is_some_and(&is_meant))
            .map(|(slot, _)| slot)
            .collect()
    }
}
