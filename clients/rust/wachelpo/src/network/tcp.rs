//! A network over TCP.

use crate::batch::{Deliveries, Delivery};
use crate::disk::Folder;
use crate::network::handshake::{cluster_number, Secret};
use crate::network::sockets::{Addresses, Setup, Sockets};
use crate::network::Network;
use crate::node::Node;
use crate::{Error, NodeId};
use mio::Waker;
use std::collections::BTreeMap;
use std::net::SocketAddr;
use std::sync::mpsc::{channel, Receiver};
use std::sync::{Arc, Mutex, MutexGuard, PoisonError};
use std::thread;
use std::time::Duration;

/// Fewer bytes that were taken are no reason to wake a thread.
const FEW: usize = 32 << 10;
/// How long the end of the thread of the sockets is waited for: for ever it would be if it asks a node that has never run.
const PATIENCE: Duration = Duration::from_secs(1);

/// How much is taken of connections.
#[derive(Clone, Copy, PartialEq, Eq, Debug)]
#[non_exhaustive]
pub struct ConnectionLimits {
    /// The most clients; one more is refused. Never more than the process has descriptors for.
    pub clients: usize,
    /// How long a client may be silent; for ever by default.
    pub idle: Option<Duration>,
    /// The most clients that haven't said the password yet, if there is one: then the oldest one of them makes room.
    pub unknown_clients: usize,
    /// How long a client may take to say it.
    pub unknown: Duration,
    /// How many of its bytes are read until then.
    pub unknown_bytes: usize,
    /// The most bytes of a client that were read, and wait for the node: then its socket isn't read.
    pub unread_bytes: usize,
    /// The most bytes for a client that wait: then its connection is closed.
    pub client_bytes: usize,
    /// The most bytes for all clients that wait: then the connection is closed for which most wait (Redis, `maxmemory-clients`).
    pub all_client_bytes: usize,
    /// The most bytes for another node that wait: then frames are dropped.
    pub peer_bytes: usize,
    /// The most bytes of another node's frame.
    pub frame_bytes: usize,
}

impl Default for ConnectionLimits {
    fn default() -> Self {
        ConnectionLimits {
            clients: 10_000,
            idle: None,
            unknown_clients: 1000,
            unknown: Duration::from_secs(10),
            unknown_bytes: 16 << 10,
            unread_bytes: 1 << 20,
            client_bytes: 64 << 20,
            all_client_bytes: 256 << 20,
            peer_bytes: 64 << 20,
            frame_bytes: 512 << 20,
        }
    }
}

/// The settings of a network over TCP.
#[derive(Clone, Debug)]
pub struct TcpBuilder {
    id: NodeId,
    cluster: String,
    addresses: Addresses,
    peers: BTreeMap<NodeId, String>,
    secret: Option<Secret>,
    has_password: bool,
    limits: ConnectionLimits,
}

impl TcpBuilder {
    /// Where clients connect.
    pub fn listen(mut self, address: SocketAddr) -> Self {
        self.addresses.clients = Some(address);
        self
    }

    /// Where other nodes connect.
    pub fn listen_for_peers(mut self, address: SocketAddr) -> Self {
        self.addresses.peers = Some(address);
        self
    }

    /// Where metrics are read by HTTP.
    pub fn metrics(mut self, address: SocketAddr) -> Self {
        self.addresses.pages = Some(address);
        self
    }

    /// Another node, and the `HOST:PORT` where it listens for its peers. A host's name is looked up at each connection.
    pub fn peer(mut self, id: NodeId, address: impl Into<String>) -> Self {
        self.peers.insert(id, address.into());
        self
    }

    /// What nodes prove to each other that they have.
    pub fn secret(mut self, secret: Secret) -> Self {
        self.secret = Some(secret);
        self
    }

    /// Clients must say a password, so that any may connect: [`Builder::password`](crate::Builder::password).
    pub fn clients_have_a_password(mut self) -> Self {
        self.has_password = true;
        self
    }

    /// How much is taken of connections.
    pub fn limits(mut self, limits: ConnectionLimits) -> Self {
        self.limits = limits;
        self
    }

    /// Without a secret, all that is said is believed: so no other machine may say it.
    fn check(&self) -> Result<(), Error> {
        let Addresses { clients, peers, pages } = &self.addresses;
        let is_open = |address: &Option<SocketAddr>| address.is_some_and(|it| !it.ip().is_loopback());
        let text = if self.secret.is_none() && [clients, peers, pages].into_iter().any(is_open) {
            "without a secret only loopback addresses are listened on"
        } else if !self.has_password && is_open(clients) {
            "without a password clients are only listened for on a loopback address"
        } else {
            return Ok(());
        };
        Err(Error::Settings(text.into()))
    }

    /// Binds the addresses, and moves bytes between sockets and the node, on one thread: while little comes, and it has nothing else to do, it
    /// runs the node, too, so that no thread waits for another one.
    ///
    /// Refusals:
    /// - [`Error::Settings`]: an address that isn't a loopback one wants a secret, and that for clients a password.
    /// - [`Error::Io`]: an address can't be bound, or a thread not started.
    pub fn start(self, folder: Folder, node: &Node) -> Result<Tcp, Error> {
        self.check()?;
        let outbox = Arc::default();
        let setup = Setup {
            id: self.id,
            cluster: cluster_number(&self.cluster),
            is_secret: self.secret.is_some(),
            secret: self.secret.unwrap_or_else(|| Secret::new("")),
            limits: self.limits,
            has_password: self.has_password,
            inbox: node.inbox(),
            handle: node.handle(),
            metrics: node.metrics(),
            outbox: Arc::clone(&outbox),
        };
        let (sockets, waker) = Sockets::open(setup, folder, &self.addresses, self.peers)?;
        let (runs, has_ended) = channel();
        thread::Builder::new()
            .name("sockets".into())
            .spawn(move || {
                sockets.run();
                drop(runs);
            })
            .map_err(Error::Io)?;
        Ok(Tcp {
            outbox,
            waker,
            has_ended,
        })
    }
}

/// A network over TCP: clients speak RESP, nodes send each other frames, and metrics are read by HTTP. With it end its connections, and
/// its folder is free again.
pub struct Tcp {
    outbox: Arc<Mutex<Outbox>>,
    /// Wakes the thread of the sockets.
    waker: Arc<Waker>,
    /// Says nothing, until that thread has ended.
    has_ended: Receiver<()>,
}

/// What waits for the thread of the sockets.
#[derive(Default)]
pub(crate) struct Outbox {
    pub deliveries: Deliveries,
    /// Whether the thread will look before it waits again.
    pub is_awake: bool,
    /// Whether nothing comes any more.
    pub is_over: bool,
}

impl Tcp {
    /// The settings of a node's network. Nodes of clusters of different names don't speak with each other.
    pub fn builder(id: NodeId, cluster: impl Into<String>) -> TcpBuilder {
        TcpBuilder {
            id,
            cluster: cluster.into(),
            addresses: Addresses::default(),
            peers: BTreeMap::new(),
            secret: None,
            has_password: false,
            limits: ConnectionLimits::default(),
        }
    }

    fn outbox(&self) -> MutexGuard<'_, Outbox> {
        self.outbox.lock().unwrap_or_else(PoisonError::into_inner)
    }
}

impl Drop for Tcp {
    fn drop(&mut self) {
        self.outbox().is_over = true;
        let _ = self.waker.wake();
        let _ = self.has_ended.recv_timeout(PATIENCE);
    }
}

impl Network for Tcp {
    fn deliver(&mut self, deliveries: &mut Deliveries) {
        // that a few bytes were taken can wait until something is to be sent, or the thread looks around
        let can_wait = |it| matches!(it, Delivery::Taken(_, count) if count < FEW);
        let is_urgent = deliveries.iter().any(|(it, _)| !can_wait(it));
        let mut outbox = self.outbox();
        outbox.deliveries.append(deliveries);
        let wakes = is_urgent && !outbox.is_awake;
        outbox.is_awake |= wakes;
        drop(outbox);
        if wakes {
            // (its thread ends only with this)
            let _ = self.waker.wake();
        }
    }
}
