//! What a node is told before it starts.

use crate::network::cluster_number;
use crate::{Clock, Disk, SystemClock};
use crate::{Error, Node, NodeId};
use std::collections::BTreeMap;
use std::fmt;
use std::time::Duration;

/// How much is taken of clients and peers. All nodes of a cluster have the same.
#[derive(Clone, Copy, PartialEq, Eq, Debug)]
#[non_exhaustive]
pub struct Limits {
    /// The most clients.
    pub clients: usize,
    /// The most bytes of a key, a value, and a whole request's entry in the log.
    pub value_bytes: usize,
    /// The most bytes of a client that wait to be read, and so of one of its requests.
    pub request_bytes: usize,
    /// The most requests of a client that wait for their answers.
    pub requests: usize,
    /// The most commands of a transaction.
    pub transaction_commands: usize,
    /// The most requests of all clients that wait for their answers.
    pub all_requests: usize,
    /// The most bytes of requests that wait for the disk.
    pub waiting_bytes: usize,
    /// From how many bytes on requests are no longer gathered.
    pub batch_bytes: usize,
    /// The most entries of a frame to another node. So many of the largest ones have less than `frame_bytes`.
    pub message_entries: usize,
    /// The most bytes of a frame of another node.
    pub frame_bytes: usize,
    /// After how many bytes that wait for the disk other nodes' frames are refused.
    pub unwritten_bytes: usize,
}

impl Default for Limits {
    fn default() -> Self {
        Limits {
            clients: 10_000,
            value_bytes: 1 << 20,
            request_bytes: 2 << 20,
            requests: 128,
            transaction_commands: 1000,
            all_requests: 1 << 16,
            waiting_bytes: 16 << 20,
            batch_bytes: 1 << 20,
            message_entries: 256,
            frame_bytes: 512 << 20,
            unwritten_bytes: 64 << 20,
        }
    }
}

/// What clients must say, which is in no text that is printed.
#[derive(Clone)]
pub(crate) struct Password(pub Vec<u8>);

impl fmt::Debug for Password {
    fn fmt(&self, f: &mut fmt::Formatter<'_>) -> fmt::Result {
        f.write_str("Password(..)")
    }
}

/// The settings of a node, and the way to open it.
///
/// All nodes that may ever be members are told with the addresses by which clients reach them, so that a client is sent on to the
/// leader.
///
/// ```
/// use std::time::Duration;
/// use wachelpo::{MemoryDisk, Node, NodeId};
///
/// let node = Node::builder(NodeId(1))
///     .member(NodeId(1), "127.0.0.1:6379")
///     .election_timeout(Duration::from_millis(500))
///     .open(MemoryDisk::new())?;
/// # Ok::<(), wachelpo::Error>(())
/// ```
#[derive(Clone, Debug)]
pub struct Builder {
    pub(crate) id: NodeId,
    pub(crate) cluster: u64,
    pub(crate) members: BTreeMap<NodeId, String>,
    pub(crate) election_timeout: Duration,
    pub(crate) voters: Option<Vec<NodeId>>,
    pub(crate) heartbeat: Duration,
    pub(crate) patience: Duration,
    pub(crate) request_timeout: Duration,
    pub(crate) password: Option<Password>,
    pub(crate) info: String,
    pub(crate) snapshot_entries: u64,
    pub(crate) kept_entries: u64,
    pub(crate) log_bytes: u64,
    pub(crate) limits: Limits,
}

/// After how many bytes a log is replaced, if nothing else is said.
const LOG_BYTES: u64 = 64 << 20;

impl Builder {
    pub(crate) fn new(id: NodeId) -> Self {
        Builder {
            id,
            cluster: cluster_number("wachelpo"),
            members: BTreeMap::new(),
            election_timeout: Duration::from_secs(1),
            voters: None,
            heartbeat: Duration::from_millis(100),
            patience: Duration::from_secs(1),
            request_timeout: Duration::from_secs(5),
            password: None,
            info: format!(
                "# Server\r\nserver:wachelpo\r\nwachelpo_version:{}\r\nredis_mode:standalone\r\n",
                env!("CARGO_PKG_VERSION")
            ),
            snapshot_entries: 500,
            kept_entries: 10_000,
            log_bytes: LOG_BYTES,
            limits: Limits::default(),
        }
    }

    /// The name of the cluster, by which its log is known: the log of another cluster is refused. By default `wachelpo`.
    pub fn cluster(mut self, name: &str) -> Self {
        self.cluster = cluster_number(name);
        self
    }

    /// A node that may be a member, with the `HOST:PORT` by which clients reach it.
    pub fn member(mut self, id: NodeId, clients: impl Into<String>) -> Self {
        self.members.insert(id, clients.into());
        self
    }

    /// The voters with which a new cluster begins: the same at each node and each start. By default all who may be members.
    pub fn voters(mut self, ids: impl IntoIterator<Item = NodeId>) -> Self {
        self.voters = Some(ids.into_iter().collect());
        self
    }

    /// How long a node hears nothing of a leader before it asks for votes: at least two heartbeats. By default a second, and up to as much
    /// more by chance. All nodes of a cluster have the same.
    pub fn election_timeout(mut self, timeout: Duration) -> Self {
        self.election_timeout = timeout;
        self
    }

    /// How often a leader lets the others hear from it. By default each 100 ms.
    pub fn heartbeat(mut self, interval: Duration) -> Self {
        self.heartbeat = interval;
        self
    }

    /// How long a request waits until it is answered that its fate isn't known. By default 5 s.
    pub fn request_timeout(mut self, timeout: Duration) -> Self {
        self.request_timeout = timeout;
        self
    }

    /// What a client must say by `AUTH` before anything else. By default nothing.
    pub fn password(mut self, password: impl Into<Vec<u8>>) -> Self {
        self.password = Some(Password(password.into()));
        self
    }

    /// After how many entries that were executed since the last snapshot the next one is made; 0: never. By default 500: the entries'
    /// effects are added to it at once, and all clients wait meanwhile. It is written to the log once as many bytes came behind the last one
    /// as that has. All nodes of a cluster have the same.
    pub fn snapshot_entries(mut self, count: u64) -> Self {
        self.snapshot_entries = count;
        self
    }

    /// How many entries that a snapshot has are kept, for nodes that lack few: one that lacks more is sent the snapshot. By default 10,000.
    /// All nodes of a cluster have the same.
    pub fn kept_entries(mut self, count: u64) -> Self {
        self.kept_entries = count;
        self
    }

    /// After how many bytes the log is replaced by a new one, which begins with the last snapshot and the entries behind it; later if it
    /// would be more than half as long. By default 64 MiB. A folder's files should suit it: [`Folder::log_for`](crate::Folder::log_for).
    pub fn log_bytes(mut self, count: u64) -> Self {
        self.log_bytes = count;
        self
    }

    /// How much is taken of clients and peers.
    pub fn limits(mut self, limits: Limits) -> Self {
        self.limits = limits;
        self
    }

    /// Opens a node on its log, with the clocks of the operating system. What stands behind the log's end is cut off.
    ///
    /// Refusals, which change nothing:
    /// - [`Error::Settings`]: the settings aren't those of a node.
    /// - [`Error::DamagedLog`]: the log is damaged, or another node's.
    /// - [`Error::Disk`]: it can't be read or cut.
    pub fn open<D: Disk + 'static>(&self, disk: D) -> Result<Node, Error> {
        self.open_at(disk, SystemClock::new())
    }

    /// As [`Builder::open`], with clocks of the caller's.
    pub fn open_at<D: Disk + 'static, C: Clock + 'static>(&self, disk: D, clock: C) -> Result<Node, Error> {
        Node::open(self, Box::new(disk), Box::new(clock))
    }
}

#[cfg(test)]
mod tests {
    use super::*;

    #[test]
    fn a_password_is_not_printed() {
        let text = format!("{:?}", Node::builder(NodeId(1)).password([201, 202, 203]));
        assert!(text.contains("Password(..)") && !text.contains("202"), "{text}");
    }
}
