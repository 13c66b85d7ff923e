//! A replicated key-value server that any Redis client speaks to.
//!
//! All that decides what is stored, agreed on and answered is the *service*: code of which every function is proved, behind a C library
//! that does no input or output. This crate is what stands around it, and is not proved: a [`Disk`] for its log, a [`Network`] to
//! its clients and peers, a [`Clock`], and the threads of a [`Node`]. The program `wachelpo` is made of the standard ones: a [`Folder`] of
//! files, [`Tcp`], [`SystemClock`].
//!
//! ```no_run
//! use std::path::Path;
//! use wachelpo::{Folder, Node, NodeId, Secret, Tcp};
//!
//! let (id, path) = (NodeId(1), Path::new("/var/lib/wachelpo"));
//! Folder::create(path, id, "orders")?;
//! let folder = Folder::open(path, id, "orders")?;
//! let node = Node::builder(id).member(id, "127.0.0.1:6379").open(folder.log())?;
//! let tcp = Tcp::builder(id, "orders").listen("127.0.0.1:6379".parse().unwrap()).start(folder, &node)?;
//! let running = node.start(tcp)?;
//! running.handle().initialize()?;
//! running.wait()?;
//! # Ok::<(), wachelpo::Error>(())
//! ```
#![deny(missing_docs)]

mod batch;
mod clock;
mod disk;
mod error;
mod inbox;
mod metrics;
mod network;
mod node;
#[cfg(test)]
mod scratch;
mod service;
mod settings;
mod status;

pub use batch::{Arrival, Arrivals, Batch, Deliveries, Delivery};
pub use clock::{Clock, SystemClock};
pub use disk::{Disk, Folder, MemoryDisk, NewLog, Presence, Segments};
pub use error::{Error, FolderError};
pub use inbox::Inbox;
pub use metrics::Metrics;
pub use network::{ConnectionLimits, Network, Secret, Tcp, TcpBuilder};
pub use node::{Handle, Node, Running};
pub use settings::{Builder, Limits};
pub use status::{Members, Role, Status};

pub mod admin {
    //! Asks a running cluster, from outside of it.
    pub use crate::network::admin::*;
}

use std::{fmt, io, str};

/// A node of a cluster. No id is 0, and none is used again once its node's folder is lost.
#[derive(Clone, Copy, PartialEq, Eq, PartialOrd, Ord, Hash, Debug)]
pub struct NodeId(pub u64);

/// A connection of a client. Later ones have greater ids.
#[derive(Clone, Copy, PartialEq, Eq, PartialOrd, Ord, Hash, Debug)]
pub struct ClientId(pub u64);

impl fmt::Display for NodeId {
    fn fmt(&self, f: &mut fmt::Formatter<'_>) -> fmt::Result {
        self.0.fmt(f)
    }
}

impl fmt::Display for ClientId {
    fn fmt(&self, f: &mut fmt::Formatter<'_>) -> fmt::Result {
        self.0.fmt(f)
    }
}

impl str::FromStr for NodeId {
    type Err = std::num::ParseIntError;

    fn from_str(text: &str) -> Result<Self, Self::Err> {
        text.parse::<std::num::NonZeroU64>().map(|id| NodeId(id.get()))
    }
}

/// Bytes that nobody can tell before.
fn random_bytes(bytes: &mut [u8]) -> io::Result<()> {
    // SAFETY: the pointer and the length are those of a slice.
    let count = unsafe { libc::getrandom(bytes.as_mut_ptr().cast(), bytes.len(), 0) };
    // so few bytes are given all at once, or not at all
    if usize::try_from(count) == Ok(bytes.len()) {
        Ok(())
    } else {
        Err(io::Error::last_os_error())
    }
}

/// A number that nobody can tell before.
fn random() -> io::Result<u64> {
    let mut bytes = [0; 8];
    random_bytes(&mut bytes)?;
    Ok(u64::from_le_bytes(bytes))
}

/// A number of SplitMix64 (Steele, Lea, Flood: Fast splittable pseudorandom number generators, 2014).
fn mixed(state: u64) -> u64 {
    let mixed = (state ^ (state >> 30)).wrapping_mul(0xBF58_476D_1CE4_E5B9);
    let mixed = (mixed ^ (mixed >> 27)).wrapping_mul(0x94D0_49BB_1331_11EB);
    mixed ^ (mixed >> 31)
}
