//! Many small things with bytes, in one buffer.

use crate::{ClientId, NodeId};

/// What comes to a node.
#[derive(Clone, Copy, PartialEq, Eq, Debug)]
#[non_exhaustive]
pub enum Arrival {
    /// A client connects. No id is used twice in a start.
    Connected(ClientId),
    /// A client sends these bytes.
    Received(ClientId),
    /// A client is gone.
    Disconnected(ClientId),
    /// A node, which has proved who it is, sends this frame.
    Frame(NodeId),
}

/// What leaves a node.
#[derive(Clone, Copy, PartialEq, Eq, Debug)]
#[non_exhaustive]
pub enum Delivery {
    /// This frame goes to another node. It may be lost, or arrive late.
    Frame(NodeId),
    /// These bytes go to a client, behind those before.
    Bytes(ClientId),
    /// A client's connection is closed, once all bytes for it are sent.
    Close(ClientId),
    /// This node has sent what is no frame: its connection is closed.
    Sever(NodeId),
    /// So many of a client's bytes have been taken, and as many more may be handed in.
    Taken(ClientId, usize),
}

/// Things of one kind, one after another, each with bytes.
///
/// ```
/// use wachelpo::{Arrivals, Arrival, ClientId};
///
/// let mut arrivals = Arrivals::new();
/// arrivals.push(Arrival::Connected(ClientId(1)), b"");
/// arrivals.push(Arrival::Received(ClientId(1)), b"PING\r\n");
/// assert_eq!(arrivals.iter().nth(1), Some((Arrival::Received(ClientId(1)), &b"PING\r\n"[..])));
/// ```
#[derive(Clone, Debug)]
pub struct Batch<K> {
    /// Each thing, and where its bytes end.
    heads: Vec<(K, usize)>,
    bytes: Vec<u8>,
}

/// What comes to a node, in its order.
pub type Arrivals = Batch<Arrival>;
/// What leaves a node, in its order.
pub type Deliveries = Batch<Delivery>;

/// A buffer above this size is given back once it is empty.
const KEPT: usize = 4 << 20;

impl<K: Copy> Batch<K> {
    /// None.
    pub fn new() -> Self {
        Batch {
            heads: Vec::new(),
            bytes: Vec::new(),
        }
    }

    /// Adds one behind all others.
    pub fn push(&mut self, kind: K, bytes: &[u8]) {
        self.bytes.extend_from_slice(bytes);
        self.heads.push((kind, self.bytes.len()));
    }

    /// Moves all of another batch behind those of this one.
    pub fn append(&mut self, other: &mut Self) {
        if self.is_empty() {
            std::mem::swap(self, other);
        } else {
            let before = self.bytes.len();
            self.bytes.extend_from_slice(&other.bytes);
            self.heads
                .extend(other.heads.iter().map(|(kind, end)| (*kind, end + before)));
        }
        other.clear();
    }

    /// Each thing with its bytes.
    pub fn iter(&self) -> impl Iterator<Item = (K, &[u8])> {
        let starts = std::iter::once(0).chain(self.heads.iter().map(|(_, end)| *end));
        self.heads
            .iter()
            .zip(starts)
            .map(|((kind, end), start)| (*kind, &self.bytes[start..*end]))
    }

    /// Forgets all.
    pub fn clear(&mut self) {
        self.heads.clear();
        self.bytes.clear();
        self.bytes.shrink_to(KEPT);
    }

    /// Whether there are none.
    pub fn is_empty(&self) -> bool {
        self.heads.is_empty()
    }

    /// How many there are.
    pub fn len(&self) -> usize {
        self.heads.len()
    }

    /// How many bytes all of them have.
    pub fn byte_count(&self) -> usize {
        self.bytes.len()
    }
}

impl<K: Copy> Default for Batch<K> {
    fn default() -> Self {
        Batch::new()
    }
}

#[cfg(test)]
mod tests {
    use super::*;

    #[test]
    fn batches_follow_one_another() {
        let mut first = Batch::new();
        first.push('a', b"1");
        first.push('b', b"");
        let mut second = Batch::new();
        second.push('c', b"23");
        first.append(&mut second);
        assert!(second.is_empty());
        let all: Vec<_> = first.iter().collect();
        assert_eq!(all, [('a', &b"1"[..]), ('b', b""), ('c', b"23")]);
        second.append(&mut first);
        assert_eq!((first.len(), second.len(), second.byte_count()), (0, 3, 3));
    }
}
