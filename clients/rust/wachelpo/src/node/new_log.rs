//! A new log beside the old one.

use crate::inbox::{Inbox, Written};
use crate::NewLog;
use std::sync::mpsc::{Receiver, Sender};

/// Of how many parts of a new log the log itself waits that they are on disk.
const NEAR: usize = 2;
/// How many of them wait for its thread at most, before the next piece is fetched: so they are no second copy of all of it.
const AHEAD: usize = 64;

/// A new log beside the old one, which a thread of its own writes.
pub(super) struct Beside {
    /// Which one it is.
    pub(super) number: u64,
    /// To its thread.
    parts: Sender<Vec<u8>>,
    /// How many parts went there, and how many of them are on disk.
    sent: usize,
    pub(super) written: usize,
    /// How many of them are pieces: its first bytes, which the service has. So many bytes of these are still there.
    pieces: usize,
    lacking: u64,
    /// What came meanwhile, and goes behind the pieces.
    later: Vec<Vec<u8>>,
}

impl Beside {
    /// One whose first bytes, so many, are in the service.
    pub(super) fn new(number: u64, parts: Sender<Vec<u8>>, lacking: u64) -> Self {
        Beside {
            number,
            parts,
            sent: 0,
            written: 0,
            pieces: 0,
            lacking,
            later: Vec::new(),
        }
    }

    fn send(&mut self, bytes: Vec<u8>) {
        self.sent += 1;
        // (if its thread has ended, it has said why)
        let _ = self.parts.send(bytes);
    }

    pub(super) fn add_piece(&mut self, bytes: Vec<u8>) {
        self.pieces += 1;
        self.lacking = self.lacking.saturating_sub(bytes.len() as u64);
        self.send(bytes);
        if self.lacking == 0 {
            for bytes in std::mem::take(&mut self.later) {
                self.send(bytes);
            }
        }
    }

    /// Bytes that go behind all others.
    pub(super) fn append(&mut self, bytes: Vec<u8>) {
        match self.lacking {
            0 => self.send(bytes),
            _ => self.later.push(bytes),
        }
    }

    /// Whether a piece is to be fetched: few parts wait for its thread.
    pub(super) fn wants_piece(&self) -> bool {
        self.lacking > 0 && self.sent - self.written < AHEAD
    }

    /// Whether all that came for it is on disk.
    pub(super) fn is_written(&self) -> bool {
        self.lacking == 0 && self.sent == self.written
    }

    /// Whether all but a little is on disk, and so all pieces: the rest is waited for.
    pub(super) fn is_near(&self) -> bool {
        self.lacking == 0 && self.written >= self.pieces && self.sent - self.written <= NEAR
    }
}

/// Writes the parts of a new log, as many at a time as there are, until nobody gives anything more, or until it fails.
pub(super) fn write_beside(mut log: Box<dyn NewLog>, number: u64, parts: &Receiver<Vec<u8>>, inbox: &Inbox) {
    let mut count = 0;
    while let Ok(mut bytes) = parts.recv() {
        count += 1;
        while let Ok(more) = parts.try_recv() {
            count += 1;
            bytes.extend_from_slice(&more);
        }
        let result = log.append(&bytes);
        let has_failed = result.is_err();
        inbox.written(Written {
            log: number,
            count: result.map(|()| count),
        });
        if has_failed {
            break;
        }
    }
}

#[cfg(test)]
mod tests {
    use super::*;
    use std::sync::mpsc::channel;

    #[test]
    fn what_comes_for_a_new_log_goes_behind_all_of_its_pieces() {
        let (parts, to_write) = channel();
        let mut beside = Beside::new(1, parts, 5);
        beside.append(vec![6, 7]);
        beside.add_piece(vec![1, 2, 3]);
        beside.append(vec![8]);
        beside.written = 1;
        // (what came later waits for a piece)
        assert!(beside.wants_piece() && !beside.is_near() && !beside.is_written());
        beside.add_piece(vec![4, 5]);
        beside.append(vec![9]);
        assert_eq!(
            to_write.try_iter().collect::<Vec<_>>().concat(),
            [1, 2, 3, 4, 5, 6, 7, 8, 9]
        );
        assert!(!beside.wants_piece() && !beside.is_near());
        beside.written = 3;
        assert!(beside.is_near() && !beside.is_written());
        beside.written = 5;
        assert!(beside.is_written());
    }

    #[test]
    fn no_piece_is_fetched_while_many_wait_for_the_disk() {
        let (parts, _to_write) = channel();
        let mut beside = Beside::new(1, parts, 1000);
        for _ in 0..AHEAD {
            assert!(beside.wants_piece());
            beside.add_piece(vec![0]);
        }
        assert!(!beside.wants_piece());
        beside.written += 1;
        assert!(beside.wants_piece());
    }
}
