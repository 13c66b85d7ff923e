//! The network between nodes: each connection goes through a proxy, which can hold back what it gets, slow it, or end it.

use std::io::{Read, Write};
use std::net::{Shutdown, SocketAddr, TcpListener, TcpStream};
use std::sync::atomic::{AtomicU64, AtomicU8, Ordering};
use std::sync::Arc;
use std::thread;
use std::time::Duration;

/// What happens to bytes on their way.
#[derive(Clone, Copy, PartialEq, Eq, Debug)]
#[repr(u8)]
pub enum State {
    Open = 0,
    /// They wait, as if a cable were pulled.
    Cut = 1,
    Slow = 2,
}

/// The way from one node to another.
#[derive(Default)]
pub struct Way {
    state: AtomicU8,
    /// How often all connections were ended.
    ends: AtomicU64,
}

impl Way {
    pub fn set(&self, state: State) {
        self.state.store(state as u8, Ordering::Relaxed);
    }

    /// Ends all connections.
    pub fn end(&self) {
        self.ends.fetch_add(1, Ordering::Relaxed);
    }

    fn is(&self, state: State) -> bool {
        self.state.load(Ordering::Relaxed) == state as u8
    }
}

/// Passes bytes on, until the connection ends.
fn pump(mut from: TcpStream, mut to: TcpStream, way: &Way) {
    let began = way.ends.load(Ordering::Relaxed);
    let mut bytes = vec![0; 64 << 10];
    let _ = from.set_read_timeout(Some(Duration::from_millis(50)));
    loop {
        if way.ends.load(Ordering::Relaxed) != began {
            break;
        }
        if way.is(State::Cut) {
            thread::sleep(Duration::from_millis(5));
            continue;
        }
        let most = if way.is(State::Slow) { 1024 } else { bytes.len() };
        match from.read(&mut bytes[..most]) {
            Ok(0) => break,
            Ok(count) => {
                if way.is(State::Slow) {
                    thread::sleep(Duration::from_millis(10));
                }
                while way.is(State::Cut) && way.ends.load(Ordering::Relaxed) == began {
                    thread::sleep(Duration::from_millis(5));
                }
                if to.write_all(&bytes[..count]).is_err() {
                    break;
                }
            }
            Err(error)
                if matches!(
                    error.kind(),
                    std::io::ErrorKind::WouldBlock | std::io::ErrorKind::TimedOut
                ) => {}
            Err(_) => break,
        }
    }
    let _ = from.shutdown(Shutdown::Both);
    let _ = to.shutdown(Shutdown::Both);
}

/// Passes what comes to one address on to another one. Returns the first address.
pub fn start(to: SocketAddr) -> std::io::Result<(SocketAddr, Arc<Way>)> {
    let listener = TcpListener::bind("127.0.0.1:0")?;
    let address = listener.local_addr()?;
    let way = Arc::new(Way::default());
    let ways = way.clone();
    thread::spawn(move || {
        for stream in listener.incoming().flatten() {
            let Ok(there) = TcpStream::connect_timeout(&to, Duration::from_millis(500)) else {
                continue;
            };
            let _ = there.set_nodelay(true);
            let _ = stream.set_nodelay(true);
            let (Ok(back), Ok(answers)) = (there.try_clone(), stream.try_clone()) else {
                continue;
            };
            let (first, second) = (ways.clone(), ways.clone());
            thread::spawn(move || pump(stream, there, &first));
            thread::spawn(move || pump(back, answers, &second));
        }
    });
    Ok((address, way))
}
