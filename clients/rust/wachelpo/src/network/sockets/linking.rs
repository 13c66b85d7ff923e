//! Connections to other nodes.

use super::{Close, Link, Role, Socket, Sockets, Step, BACKOFF_MOST, UNACKNOWLEDGED};
use crate::network::handshake::Hello;
use crate::NodeId;
use mio::net::TcpStream;
use std::io::ErrorKind;
use std::net::{SocketAddr, ToSocketAddrs};
use std::os::fd::AsRawFd;
use std::sync::PoisonError;
use std::thread;
use std::time::Instant;

/// Sets a number of a connection's. If it has no effect, what it is for is noticed later.
fn set(stream: &TcpStream, level: libc::c_int, name: libc::c_int, number: libc::c_int) {
    // SAFETY: the descriptor is open, the pointer and the length are those of a number.
    unsafe {
        libc::setsockopt(
            stream.as_raw_fd(),
            level,
            name,
            (&raw const number).cast(),
            size_of_val(&number) as libc::socklen_t,
        );
    }
}

/// A connection whose bytes stay unacknowledged ends: it may have been cut off.
fn notice_cuts(stream: &TcpStream) {
    let milliseconds = UNACKNOWLEDGED.as_millis() as libc::c_int;
    set(stream, libc::IPPROTO_TCP, libc::TCP_USER_TIMEOUT, milliseconds);
}

/// A silent connection is asked whether it is still there, as by Redis: after 300 s, and then three times. Who is gone without a word would
/// count as a client for ever, else, of whom only so many are taken.
pub(super) fn notice_absence(stream: &TcpStream) {
    set(stream, libc::SOL_SOCKET, libc::SO_KEEPALIVE, 1);
    set(stream, libc::IPPROTO_TCP, libc::TCP_KEEPIDLE, 300);
    set(stream, libc::IPPROTO_TCP, libc::TCP_KEEPINTVL, 100);
    set(stream, libc::IPPROTO_TCP, libc::TCP_KEEPCNT, 3);
}

impl Sockets {
    /// Connects to nodes for which it is time.
    pub(super) fn connect_again(&mut self, now: Instant) {
        let due = |link: &Link| link.slot.is_none() && !link.is_sought && now >= link.at;
        let due: Vec<_> = self
            .links
            .iter()
            .filter(|(_, link)| due(link))
            .map(|(id, link)| (*id, link.address.clone()))
            .collect();
        for (to, address) in due {
            match address.parse() {
                Ok(address) => self.connect(to, Some(address)),
                Err(_) => self.look_up(to, address),
            }
        }
    }

    pub(super) fn connect(&mut self, to: NodeId, address: Option<SocketAddr>) {
        if let Some(link) = self.links.get_mut(&to) {
            link.is_sought = false;
        }
        let added = match address {
            Some(address) => TcpStream::connect(address)
                .and_then(|stream| {
                    self.add(
                        stream,
                        Role::Link {
                            to,
                            step: Step::Connecting,
                        },
                    )
                })
                .map_err(|error| error.to_string()),
            None => Err("its host's name isn't known".into()),
        };
        match added {
            Ok(slot) => {
                if let Some(link) = self.links.get_mut(&to) {
                    link.slot = Some(slot);
                }
            }
            Err(why) => self.unlinked(to, &why),
        }
    }

    /// Looks a host's name up on a thread, since that may take long.
    pub(super) fn look_up(&mut self, to: NodeId, address: String) {
        let (found, waker) = (self.found.clone(), self.waker.clone());
        let look_up = move || {
            let address = address.to_socket_addrs().ok().and_then(|mut all| all.next());
            found.lock().unwrap_or_else(PoisonError::into_inner).push((to, address));
            let _ = waker.wake();
        };
        if thread::Builder::new().name("names".into()).spawn(look_up).is_err() {
            self.unlinked(to, "no thread can be started to look its host's name up");
        } else if let Some(link) = self.links.get_mut(&to) {
            // of two that are found one connection would be lost, and cut off by the other node, again and again
            link.is_sought = true;
        }
    }

    /// A connection to another node stands, or has failed.
    pub(super) fn connected(&mut self, slot: usize) {
        let Some(socket) = &self.slots[slot] else { return };
        let failure = match (socket.stream.take_error(), socket.stream.peer_addr()) {
            (Ok(None), Ok(_)) => None,
            (Ok(None), Err(error)) if error.kind() == ErrorKind::NotConnected => return,
            (Ok(Some(error)) | Err(error), _) | (_, Err(error)) => Some(error.to_string()),
        };
        match failure {
            Some(why) => self.close(slot, Some(why)),
            None => {
                if let Err(Close(why)) = self.greet(slot) {
                    self.close(slot, why);
                }
            }
        }
    }

    /// Says who this node is.
    fn greet(&mut self, slot: usize) -> Result<(), Close> {
        let Some(Socket {
            stream,
            role: Role::Link { to, step },
            ..
        }) = &mut self.slots[slot]
        else {
            return Ok(());
        };
        let _ = stream.set_nodelay(true);
        notice_cuts(stream);
        let mut nonce = [0; 32];
        crate::random_bytes(&mut nonce)?;
        let hello = Hello {
            is_secret: self.setup.is_secret,
            cluster: self.setup.cluster,
            from: Some(self.setup.id),
            to: *to,
            presence: self.presence,
            log: self.setup.metrics.log(),
            nonce,
        };
        let bytes = hello.to_bytes();
        *step = Step::Hello(bytes);
        self.say(slot, &bytes, false);
        Ok(())
    }

    /// A connection to another node has ended.
    pub(super) fn unlinked(&mut self, to: NodeId, why: &str) {
        let Some(link) = self.links.get_mut(&to) else { return };
        if link.told != why {
            log::warn!("peer {to} at {}: {why}", link.address);
            link.told = why.to_string();
        }
        link.slot = None;
        link.is_up = false;
        link.at = Instant::now() + link.backoff;
        link.backoff = (link.backoff * 2).min(BACKOFF_MOST);
        self.count_links();
    }
}

#[cfg(test)]
mod tests {
    use super::*;
    use crate::disk::Folder;
    use crate::network::handshake::Secret;
    use crate::network::sockets::{Addresses, Setup};
    use crate::network::ConnectionLimits;
    use crate::scratch::Scratch;
    use crate::{MemoryDisk, Node};
    use std::sync::Arc;
    use std::time::Duration;

    fn sockets(scratch: &Scratch, address: &str) -> Sockets {
        let id = NodeId(1);
        Folder::create(scratch.path(), id, "a").unwrap();
        let folder = Folder::open(scratch.path(), id, "a").unwrap();
        let node = Node::builder(id).member(id, "").open(MemoryDisk::new()).unwrap();
        let setup = Setup {
            id,
            cluster: 7,
            is_secret: false,
            secret: Secret::new(""),
            limits: ConnectionLimits::default(),
            has_password: false,
            inbox: node.inbox(),
            handle: node.handle(),
            metrics: node.metrics(),
            outbox: Arc::default(),
        };
        let peers = [(NodeId(2), address.to_string())].into();
        Sockets::open(setup, folder, &Addresses::default(), peers).unwrap().0
    }

    #[test]
    fn a_name_is_looked_up_once_however_long_that_takes() {
        let scratch = Scratch::new("names");
        let mut sockets = sockets(&scratch, "localhost:1");
        let later = Instant::now() + Duration::from_secs(3600);
        for _ in 0..3 {
            sockets.connect_again(later);
        }
        let found = sockets.found.clone();
        let count = move || found.lock().unwrap().len();
        while count() == 0 {
            thread::yield_now();
        }
        thread::sleep(Duration::from_millis(200));
        assert_eq!(count(), 1);
        // once it is found, it is connected to; and looked up again after that has failed
        sockets.look();
        sockets.links.get_mut(&NodeId(2)).unwrap().slot = None;
        sockets.connect_again(later);
        while count() == 0 {
            thread::yield_now();
        }
    }
}
