//! How a node reaches clients and other nodes.

mod frames;
mod handshake;
mod page;
mod sockets;
mod tcp;

pub use handshake::Secret;
pub(crate) use handshake::{cluster_number, Refusal};
pub use tcp::{ConnectionLimits, Tcp, TcpBuilder};

pub(crate) mod admin;

use crate::batch::Deliveries;

/// Delivers what a node says. What comes to the node is handed in by its [`Inbox`](crate::Inbox).
pub trait Network: Send {
    /// Delivers a batch in its order, without waiting for anybody. Frames to other nodes may be lost, repeated, and arrive late and in any
    /// order; bytes for a client arrive in their order, or its connection ends.
    fn deliver(&mut self, deliveries: &mut Deliveries);
}
