//! What leaves over connections.

use super::{Client, Role, Socket, Sockets, Step, SHARE};
use crate::batch::Delivery;
use crate::network::tcp::ConnectionLimits;
use crate::{ClientId, NodeId};
use std::io::{self, ErrorKind, Write};

impl Sockets {
    pub(super) fn deliver(&mut self, delivery: Delivery, bytes: &[u8]) {
        match delivery {
            Delivery::Frame(to) => self.send(to, bytes),
            Delivery::Bytes(client) => self.tell(client, bytes),
            Delivery::Close(client) => {
                if let Some(slot) = self.clients.get(&client).copied() {
                    self.say(slot, &[], true);
                }
            }
            Delivery::Sever(from) => {
                if let Some(slot) = self.peers.get(&from).copied() {
                    self.close(slot, None);
                }
            }
            Delivery::Taken(client, count) => {
                let Some(slot) = self.clients.get(&client).copied() else {
                    return;
                };
                if let Some(Socket {
                    role: Role::Client(client),
                    can_read,
                    ..
                }) = &mut self.slots[slot]
                {
                    client.unread = client.unread.saturating_sub(count);
                    if *can_read {
                        self.make_ready(slot);
                    }
                }
            }
        }
    }

    /// A frame goes to another node, or is dropped.
    fn send(&mut self, to: NodeId, frame: &[u8]) {
        let metrics = &self.setup.metrics;
        let slot = self.links.get(&to).and_then(|link| link.slot);
        let Some(slot) = slot else {
            metrics.frames_dropped.add(1);
            return;
        };
        let Some(Socket {
            role: Role::Link {
                step: Step::Open(seal), ..
            },
            output,
            written,
            ..
        }) = &mut self.slots[slot]
        else {
            metrics.frames_dropped.add(1);
            return;
        };
        let waiting = output.len() - *written;
        // (one frame is sent, however long it is)
        if waiting > 0 && waiting + frame.len() > self.setup.limits.peer_bytes {
            metrics.frames_dropped.add(1);
            return;
        }
        let before = output.len();
        seal.write_parts(&metrics.log().to_bytes(), frame, output);
        metrics.frames_sent.add(1);
        metrics.peer_bytes_sent.add((output.len() - before) as u64);
        self.make_dirty(slot);
    }

    /// Bytes go to a client, or its connection ends: too many wait.
    fn tell(&mut self, client: ClientId, bytes: &[u8]) {
        let Some(slot) = self.clients.get(&client).copied() else {
            return;
        };
        let Some(socket) = &mut self.slots[slot] else { return };
        let mut is_known_now = false;
        if let Role::Client(client) = &mut socket.role {
            client.told = self.looked;
            // (without the password only this and refusals are answered)
            if client.unknown.is_some() && !bytes.starts_with(b"-") && !bytes.starts_with(b"+RESET") {
                client.unknown = None;
                self.unknown_clients -= 1;
                is_known_now = true;
            }
            if let Some(asked) = client.asked.take() {
                self.setup.metrics.answers.observe(asked.elapsed());
            }
        }
        self.setup.metrics.client_bytes_sent.add(bytes.len() as u64);
        let waiting = socket.waiting();
        if waiting > self.setup.limits.client_bytes {
            self.overrun(slot, client);
            return;
        }
        self.say(slot, bytes, false);
        if is_known_now {
            self.make_ready(slot);
        }
        self.count_unwritten(waiting, waiting + bytes.len());
        if self.unwritten > self.setup.limits.all_client_bytes {
            // of a batch nothing may be written yet
            self.write_dirty(usize::MAX);
        }
        if self.unwritten > self.setup.limits.all_client_bytes {
            self.close_greediest();
        }
    }

    /// So many bytes waited for a client, and now so many do.
    pub(super) fn count_unwritten(&mut self, before: usize, after: usize) {
        self.unwritten = self.unwritten - before + after;
        self.setup.metrics.client_bytes_waiting.set(self.unwritten as u64);
    }

    /// Closes the connection of the client for which most bytes wait.
    fn close_greediest(&mut self) {
        let waiting = |slot: usize| self.slots[slot].as_ref().map_or(0, Socket::waiting);
        let greediest = self.clients.iter().max_by_key(|(_, slot)| waiting(**slot));
        if let Some((client, slot)) = greediest.map(|(client, slot)| (*client, *slot)) {
            self.overrun(slot, client);
        }
    }

    fn overrun(&mut self, slot: usize, client: ClientId) {
        if let Some(socket) = &self.slots[slot] {
            log::warn!(
                "client {client}: {} doesn't read its answers; its connection is closed",
                socket.whose()
            );
        }
        self.setup.metrics.connections_overrun.add(1);
        self.close(slot, None);
    }

    /// Writes bytes behind all others; then nothing more, if that is the end.
    pub(super) fn say(&mut self, slot: usize, bytes: &[u8], is_end: bool) {
        if let Some(socket) = &mut self.slots[slot] {
            socket.output.extend_from_slice(bytes);
            socket.is_closing |= is_end;
            self.make_dirty(slot);
        }
    }

    /// Writes to so many connections at most: to other nodes first, then in the order in which there was something for them.
    pub(super) fn write_dirty(&mut self, most: usize) {
        let count = self.dirty.len().min(most);
        let now: Vec<usize> = self.dirty.drain(..count).collect();
        for slot in now {
            let Some(socket) = &mut self.slots[slot] else { continue };
            socket.is_dirty = false;
            let was_full = !socket.may_read(&self.setup.limits);
            let before = socket.waiting();
            let result = socket.write();
            if matches!(socket.role, Role::Client(_)) {
                let after = socket.waiting();
                self.count_unwritten(before, after);
            }
            let Some(socket) = &self.slots[slot] else { continue };
            match result {
                Ok(()) if socket.is_closing && socket.output.is_empty() => self.close(slot, None),
                Ok(()) => {
                    if was_full && socket.can_read {
                        self.make_ready(slot);
                    }
                }
                Err(error) => self.close(slot, Some(error.to_string())),
            }
        }
    }
}

impl Socket {
    /// Where it comes from, for who reads what is told.
    pub(super) fn whose(&self) -> String {
        let address = self.stream.peer_addr();
        address.map_or("somebody".into(), |it| format!("who is at {it}"))
    }

    /// How many bytes wait to be written.
    pub(super) fn waiting(&self) -> usize {
        self.output.len() - self.written
    }

    /// Whether it is read: neither too much of it waits for the node, nor too much for it.
    pub(super) fn may_read(&self, limits: &ConnectionLimits) -> bool {
        let is_behind = matches!(&self.role, Role::Client(client) if client.unread >= limits.unread_bytes
            || self.waiting() >= limits.unread_bytes);
        !self.is_closing && !is_behind && self.room(limits) > 0
    }

    /// How many bytes more of it are read: few as long as it hasn't said a password.
    pub(super) fn room(&self, limits: &ConnectionLimits) -> usize {
        match &self.role {
            Role::Client(Client {
                unknown: Some(count), ..
            }) => limits.unknown_bytes.saturating_sub(*count),
            _ => usize::MAX,
        }
    }

    /// Writes as much as there is room for.
    fn write(&mut self) -> io::Result<()> {
        while self.written < self.output.len() {
            match self.stream.write(&self.output[self.written..]) {
                Ok(count) => self.written += count,
                Err(error) if error.kind() == ErrorKind::Interrupted => {}
                Err(error) if error.kind() == ErrorKind::WouldBlock => {
                    // what is written needn't stay, but isn't worth a copy each time
                    if self.written > SHARE {
                        self.output.drain(..self.written);
                        self.written = 0;
                    }
                    return Ok(());
                }
                Err(error) => return Err(error),
            }
        }
        self.output.clear();
        self.written = 0;
        self.output.shrink_to(SHARE);
        Ok(())
    }
}
