//! Connections that others make.

use super::linking::notice_absence;
use super::{Client, Knock, Role, Socket, Sockets, CLIENTS, FIRST, PAUSE, PEERS, STRANGERS};
use crate::batch::Arrival;
use crate::ClientId;
use mio::net::TcpStream;
use mio::{Interest, Token};
use std::io::{self, ErrorKind, Write};
use std::time::Instant;

/// How many files the process may have open, after it has asked for as many as it may.
pub(super) fn descriptors() -> usize {
    let mut limit = libc::rlimit {
        rlim_cur: 0,
        rlim_max: 0,
    };
    // SAFETY: the pointer is that of a limit.
    if unsafe { libc::getrlimit(libc::RLIMIT_NOFILE, &mut limit) } != 0 {
        return 1024;
    }
    let most = libc::rlimit {
        rlim_cur: limit.rlim_max,
        ..limit
    };
    // SAFETY: as above.
    if unsafe { libc::setrlimit(libc::RLIMIT_NOFILE, &most) } == 0 {
        limit = most;
    }
    usize::try_from(limit.rlim_cur).unwrap_or(usize::MAX)
}

impl Sockets {
    pub(super) fn accept(&mut self, token: Token) {
        loop {
            let listener = self.listeners.iter().find(|(it, _)| *it == token);
            let Some((_, listener)) = listener else { return };
            match listener.accept() {
                Ok((stream, _)) => self.accepted(token, stream),
                Err(error) if error.kind() == ErrorKind::WouldBlock => return,
                Err(error) if error.kind() == ErrorKind::ConnectionAborted => {}
                Err(error) => {
                    log::warn!("sockets: no connection can be taken: {error}");
                    self.again = Some(Instant::now() + PAUSE);
                    return;
                }
            }
        }
    }

    fn accepted(&mut self, token: Token, mut stream: TcpStream) {
        if token == CLIENTS && self.setup.has_password {
            self.make_room_for_unknown();
        }
        if token == CLIENTS && self.clients.len() >= self.most_clients {
            self.setup.metrics.connections_refused.add(1);
            // as Redis says it; if it isn't sent, the end says it
            let _ = stream.write(b"-ERR max number of clients reached\r\n");
            return;
        }
        if token != CLIENTS && self.strangers >= STRANGERS {
            self.close_oldest_stranger();
        }
        let _ = stream.set_nodelay(true);
        notice_absence(&stream);
        let role = match token {
            CLIENTS => {
                self.last_client += 1;
                Role::Client(Client {
                    id: ClientId(self.last_client),
                    is_new: true,
                    unknown: self.setup.has_password.then_some(0),
                    unread: 0,
                    asked: None,
                    told: Instant::now(),
                    ended: None,
                })
            }
            PEERS => Role::Stranger(Knock::Silent),
            _ => Role::Page,
        };
        let client = match &role {
            Role::Client(client) => Some(client.id),
            _ => None,
        };
        let Ok(slot) = self.add(stream, role) else {
            return;
        };
        match client {
            Some(id) => {
                self.clients.insert(id, slot);
                if self.setup.has_password {
                    self.unknown_clients += 1;
                    self.came.push_back(id);
                }
                self.setup.metrics.connections.set(self.clients.len() as u64);
                self.arrivals.push(Arrival::Connected(id), &[]);
            }
            None => self.strangers += 1,
        }
    }

    /// The client that hasn't said the password for longest makes room, if so many haven't, or if there is none, so that silent ones keep nobody
    /// out.
    fn make_room_for_unknown(&mut self) {
        let most = self.setup.limits.unknown_clients;
        while self.unknown_clients >= most || self.unknown_clients > 0 && self.clients.len() >= self.most_clients {
            let Some(id) = self.came.pop_front() else { return };
            let slot = self.clients.get(&id).copied();
            let socket = slot.and_then(|slot| self.slots[slot].as_ref());
            let is_unknown = |it: &Socket| matches!(&it.role, Role::Client(client) if client.unknown.is_some());
            if let Some(slot) = slot.filter(|_| socket.is_some_and(is_unknown)) {
                self.setup.metrics.connections_refused.add(1);
                self.close(slot, None);
            }
        }
        // (most have said it soon, and needn't be remembered)
        if self.came.len() > 2 * self.most_clients {
            let clients = &self.clients;
            self.came.retain(|id| clients.contains_key(id));
        }
    }

    /// Who has proved nothing for longest makes room, so that silent connections don't keep nodes out.
    fn close_oldest_stranger(&mut self) {
        self.setup.metrics.connections_refused.add(1);
        let strangers = self.slots.iter().enumerate().filter_map(|(slot, socket)| {
            let socket = socket.as_ref().filter(|it| it.role.is_strangers())?;
            Some((socket.since, slot))
        });
        if let Some((_, slot)) = strangers.min() {
            self.close(slot, None);
        }
    }

    pub(super) fn add(&mut self, mut stream: TcpStream, role: Role) -> io::Result<usize> {
        let slot = self.free.pop().unwrap_or(self.slots.len());
        let both = Interest::READABLE | Interest::WRITABLE;
        if let Err(error) = self.poll.registry().register(&mut stream, Token(slot + FIRST), both) {
            if slot < self.slots.len() {
                self.free.push(slot);
            }
            return Err(error);
        }
        let now = Instant::now();
        let socket = Some(Socket {
            stream,
            role,
            input: Vec::new(),
            output: Vec::new(),
            written: 0,
            can_read: false,
            is_ending: false,
            is_ready: false,
            is_dirty: false,
            is_closing: false,
            since: now,
            heard: now,
        });
        match self.slots.get_mut(slot) {
            Some(place) => *place = socket,
            None => self.slots.push(socket),
        }
        Ok(slot)
    }
}
