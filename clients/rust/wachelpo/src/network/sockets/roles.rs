//! Whose connections there are.

use super::{LAST_ANSWERS, UNANSWERED};
use crate::network::frames::{BadFrame, Seal};
use crate::network::handshake::{Known, Nonce, Refusal, HELLO};
use crate::{ClientId, NodeId};
use mio::net::TcpStream;
use std::io;
use std::net::SocketAddr;
use std::time::{Duration, Instant};

/// One connection.
pub(super) struct Socket {
    pub(super) stream: TcpStream,
    pub(super) role: Role,
    /// What was read of it, and isn't whole yet.
    pub(super) input: Vec<u8>,
    /// What is to be written, of which so many bytes are.
    pub(super) output: Vec<u8>,
    pub(super) written: usize,
    /// Whether it may have something to read, and nothing but what is read comes any more.
    pub(super) can_read: bool,
    pub(super) is_ending: bool,
    pub(super) is_ready: bool,
    pub(super) is_dirty: bool,
    /// Closed once all is written.
    pub(super) is_closing: bool,
    /// When it was made, and when something was last read of it.
    pub(super) since: Instant,
    pub(super) heard: Instant,
}

/// Whose connection it is.
pub(super) enum Role {
    Client(Client),
    /// Somebody has connected, and has not proved yet who it is.
    Stranger(Knock),
    /// Another node, which sends frames.
    Peer {
        from: NodeId,
        seal: Seal,
    },
    /// Somebody who asks for the status or a change of the members.
    Admin {
        there: Seal,
        back: Seal,
        is_asking: bool,
    },
    /// This node has connected, and sends frames.
    Link {
        to: NodeId,
        step: Step,
    },
    Page,
}

impl Role {
    /// Whether it is neither a client's nor a known node's.
    pub(super) fn is_strangers(&self) -> bool {
        matches!(self, Role::Stranger(_) | Role::Admin { .. } | Role::Page)
    }
}

pub(super) struct Client {
    pub(super) id: ClientId,
    /// Whether nothing has come of it yet.
    pub(super) is_new: bool,
    /// None once it is known to have said the password, if there is one; until then how many bytes have come of it.
    pub(super) unknown: Option<usize>,
    /// How many bytes wait for the node.
    pub(super) unread: usize,
    /// When its bytes came that aren't answered yet.
    pub(super) asked: Option<Instant>,
    /// When it was answered last.
    pub(super) told: Instant,
    /// When it has said that it sends nothing more, if it has.
    pub(super) ended: Option<Instant>,
}

impl Client {
    /// Whether nothing more is to be said to who sends nothing more. (Answers to what was asked together come soon one after another; half a
    /// request has none.)
    pub(super) fn is_over(&self, now: Instant) -> bool {
        let is_past = |since, patience| now.saturating_duration_since(since) >= patience;
        let is_answered = self.asked.is_none() && is_past(self.told, LAST_ANSWERS);
        self.ended
            .is_some_and(|ended| is_answered || is_past(ended, UNANSWERED))
    }
}

/// What who connects has said, was asked, and by what it is known.
#[derive(Clone, Copy)]
pub(super) struct Asked {
    pub(super) hello: [u8; HELLO],
    pub(super) nonce: Nonce,
    pub(super) known: Known,
}

/// How far somebody is who has connected.
pub(super) enum Knock {
    Silent,
    Asked(Asked),
    /// It is admitted once that is noted.
    Noted(Asked),
}

/// How far a connection to another node is.
pub(super) enum Step {
    Connecting,
    Hello([u8; HELLO]),
    /// It is said to have the secret once it is noted that the other node is told of this start.
    Noting(Asked),
    Proof(Asked),
    Open(Seal),
}

/// Another node.
pub(super) struct Link {
    pub(super) address: String,
    pub(super) slot: Option<usize>,
    /// Whether a thread looks its host's name up.
    pub(super) is_sought: bool,
    /// When it is connected to again, and how long after the next failure.
    pub(super) at: Instant,
    pub(super) backoff: Duration,
    pub(super) is_up: bool,
    /// Why it isn't, as it was told.
    pub(super) told: String,
}

/// What the node answers to who has asked over a connection, which was made then.
pub(super) struct Answer {
    pub(super) slot: usize,
    pub(super) since: Instant,
    pub(super) text: String,
}

/// What a node's host name was found to be.
pub(super) type Found = (NodeId, Option<SocketAddr>);

/// A connection is to be closed, for a reason that is told if there is one.
pub(super) struct Close(pub(super) Option<String>);

impl From<io::Error> for Close {
    fn from(_: io::Error) -> Self {
        Close(None)
    }
}

impl From<BadFrame> for Close {
    fn from(bad: BadFrame) -> Self {
        Close(Some(match bad {
            BadFrame::TooLong => "a frame is too long".into(),
            BadFrame::Sum => "a frame has a wrong sum".into(),
        }))
    }
}

pub(super) fn refused(refusal: Refusal) -> Close {
    Close(Some(refusal.to_string()))
}
