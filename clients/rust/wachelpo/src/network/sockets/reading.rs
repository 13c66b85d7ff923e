//! What comes over connections.

use super::{Answer, Client, Close, Knock, Role, Socket, Sockets, Step, SHARE};
use crate::batch::Arrival;
use crate::disk::Position;
use crate::network::handshake::{CHALLENGE, HELLO, PROOF, VERDICT};
use crate::network::{admin, page};
use crate::NodeId;
use std::io::{ErrorKind, Read};
use std::sync::PoisonError;
use std::thread;
use std::time::Instant;

/// What a browser says first if a page of a stranger's wants it to: what follows would be commands, each in its line. (Redis closes such
/// connections, too.)
const METHODS: [&[u8]; 5] = [b"POST ", b"PUT ", b"PATCH ", b"DELETE ", b"OPTIONS "];

/// Whether bytes begin as a request of HTTP's that has a body.
fn is_http(bytes: &[u8]) -> bool {
    let begins = |it: &&&[u8]| bytes.len() >= it.len() && bytes[..it.len()].eq_ignore_ascii_case(it);
    METHODS.iter().find(begins).is_some()
}

impl Sockets {
    pub(super) fn read_ready(&mut self) {
        if self.is_congested {
            return;
        }
        for slot in std::mem::take(&mut self.ready) {
            let Some(socket) = &mut self.slots[slot] else { continue };
            socket.is_ready = false;
            if let Err(Close(why)) = self.read(slot) {
                self.close(slot, why);
            }
        }
    }

    /// Reads a socket for as long as it has something, and as it may.
    fn read(&mut self, slot: usize) -> Result<(), Close> {
        let mut share = SHARE;
        loop {
            let Some(socket) = &mut self.slots[slot] else {
                return Ok(());
            };
            if !socket.can_read || !socket.may_read(&self.setup.limits) {
                return Ok(());
            }
            if share == 0 {
                self.make_ready(slot);
                return Ok(());
            }
            let room = socket.room(&self.setup.limits).min(self.chunk.len());
            let count = match socket.stream.read(&mut self.chunk[..room]) {
                Ok(0) => return self.ended(slot),
                Ok(count) => count,
                Err(error) if error.kind() == ErrorKind::WouldBlock => {
                    socket.can_read = false;
                    return Ok(());
                }
                Err(error) if error.kind() == ErrorKind::Interrupted => continue,
                Err(error) => return Err(error.into()),
            };
            // less than there is room for is all there is
            socket.can_read = count == room || socket.is_ending;
            socket.heard = self.looked;
            share = share.saturating_sub(count);
            if let Role::Client(client) = &mut socket.role {
                if std::mem::take(&mut client.is_new) && is_http(&self.chunk[..count]) {
                    let id = client.id;
                    let whose = socket.whose();
                    log::warn!(
                        "client {id}: {whose} speaks HTTP, as a page in a browser does; its connection is closed"
                    );
                    return Err(Close(None));
                }
                client.unread += count;
                client.unknown = client.unknown.map(|before| before + count);
                client.asked.get_or_insert_with(Instant::now);
                self.setup.metrics.client_bytes_received.add(count as u64);
                self.arrivals.push(Arrival::Received(client.id), &self.chunk[..count]);
            } else {
                socket.input.extend_from_slice(&self.chunk[..count]);
                self.parse(slot)?;
            }
        }
    }

    /// Nothing more comes: a client that waits for answers still gets them, as by Redis, and any other connection is closed.
    fn ended(&mut self, slot: usize) -> Result<(), Close> {
        match &mut self.slots[slot] {
            Some(Socket {
                role: Role::Client(client @ Client { asked: Some(_), .. }),
                can_read,
                ..
            }) => {
                client.ended = Some(self.looked);
                *can_read = false;
                Ok(())
            }
            _ => Err(Close(None)),
        }
    }

    /// Takes what is whole of what was read.
    fn parse(&mut self, slot: usize) -> Result<(), Close> {
        while self.parse_one(slot)? {}
        Ok(())
    }

    /// Takes the next thing, and says whether there was one. Of who was turned away nothing more is taken.
    fn parse_one(&mut self, slot: usize) -> Result<bool, Close> {
        let Some(socket) = self.slots[slot].as_mut().filter(|it| !it.is_closing) else {
            return Ok(false);
        };
        match &mut socket.role {
            Role::Client(_) => Ok(false),
            Role::Page => {
                if let Some(answer) = page::answer(&socket.input, &self.setup.metrics) {
                    self.say(slot, &answer, true);
                }
                Ok(false)
            }
            Role::Peer { from, seal } => {
                let from = *from;
                let mut rest = &socket.input[..];
                while let Some((bytes, behind)) = seal.read(rest, self.setup.limits.frame_bytes)? {
                    let (log, frame) = bytes
                        .split_first_chunk()
                        .ok_or_else(|| Close(Some("a frame has no position".into())))?;
                    self.desk.notes.hear(from, Position::of_bytes(log));
                    self.frames.push(Arrival::Frame(from), frame);
                    self.setup.metrics.frames_received.add(1);
                    rest = behind;
                }
                let count = socket.input.len() - rest.len();
                self.setup.metrics.peer_bytes_received.add(count as u64);
                socket.input.drain(..count);
                if socket.input.is_empty() {
                    socket.input.shrink_to(SHARE);
                }
                Ok(false)
            }
            Role::Admin { is_asking: true, .. } => Ok(false),
            Role::Admin { there, is_asking, .. } => {
                let Some((request, rest)) = there.read(&socket.input, SHARE)? else {
                    return Ok(false);
                };
                *is_asking = true;
                let (question, left) = (String::from_utf8_lossy(request).into_owned(), rest.len());
                socket.input.drain(..socket.input.len() - left);
                let since = socket.since;
                self.ask_node(slot, since, question)?;
                Ok(false)
            }
            Role::Stranger(Knock::Noted(_)) => Ok(false),
            Role::Stranger(Knock::Silent) => {
                let Some(hello) = take::<HELLO>(&mut socket.input) else {
                    return Ok(false);
                };
                self.hello(slot, hello)?;
                Ok(true)
            }
            Role::Stranger(Knock::Asked(_)) => {
                let Some(proof) = take::<PROOF>(&mut socket.input) else {
                    return Ok(false);
                };
                self.proof(slot, &proof)?;
                Ok(true)
            }
            Role::Link { step, .. } => {
                match step {
                    Step::Hello(_) => {
                        let Some(challenge) = take::<CHALLENGE>(&mut socket.input) else {
                            return Ok(false);
                        };
                        self.challenge(slot, &challenge)?;
                    }
                    Step::Proof(_) => {
                        let Some(verdict) = take::<VERDICT>(&mut socket.input) else {
                            return Ok(false);
                        };
                        self.verdict(slot, &verdict)?;
                    }
                    _ if socket.input.is_empty() => return Ok(false),
                    // nothing is said back
                    Step::Connecting | Step::Noting(_) | Step::Open(_) => {
                        return Err(Close(Some("it says what it shouldn't".into())))
                    }
                }
                Ok(true)
            }
        }
    }
}

impl Sockets {
    /// Asks the node on a thread of its own, since that may take long.
    fn ask_node(&self, slot: usize, since: Instant, question: String) -> Result<(), Close> {
        let known: Vec<NodeId> = self.links.keys().copied().chain([self.setup.id]).collect();
        let (handle, answers, waker) = (self.setup.handle.clone(), self.answers.clone(), self.waker.clone());
        let ask = move || {
            let text = admin::answer(&question, &handle, |id| known.contains(&id));
            let answer = Answer { slot, since, text };
            answers.lock().unwrap_or_else(PoisonError::into_inner).push(answer);
            let _ = waker.wake();
        };
        thread::Builder::new().name("admin".into()).spawn(ask)?;
        Ok(())
    }

    /// Sends what the node has answered to administrators.
    pub(super) fn tell_answers(&mut self) {
        let answers = std::mem::take(&mut *self.answers.lock().unwrap_or_else(PoisonError::into_inner));
        for Answer { slot, since, text } in answers {
            let Some(Socket {
                role: Role::Admin { back, is_asking, .. },
                since: made,
                ..
            }) = &mut self.slots[slot]
            else {
                continue;
            };
            if *made == since {
                *is_asking = false;
                let mut framed = Vec::new();
                back.write(text.as_bytes(), &mut framed);
                self.say(slot, &framed, false);
                self.make_ready(slot);
            }
        }
    }
}

/// So many bytes from the front, once they are there.
fn take<const COUNT: usize>(bytes: &mut Vec<u8>) -> Option<[u8; COUNT]> {
    let taken = *bytes.first_chunk::<COUNT>()?;
    bytes.drain(..COUNT);
    Some(taken)
}
