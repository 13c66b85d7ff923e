//! What is written to the log.

use crate::disk::Position;
use crate::inbox::{Flush, Inbox};
use crate::Disk;
use std::io;
use std::sync::mpsc::Receiver;
use std::sync::{Arc, Mutex, MutexGuard, PoisonError};
use std::time::Instant;

/// What is done to the log.
pub(super) enum Change {
    Append(Vec<u8>),
    TakeOver,
}

/// A change of the log.
pub(super) struct Write {
    pub(super) change: Change,
    /// Where the log ends then.
    pub(super) end: u64,
}

/// A node's disk, until that has ended.
pub(super) type SharedDisk = Mutex<Option<Box<dyn Disk>>>;

/// A change of the log, to be made by whoever has it.
pub(crate) struct Job {
    pub(super) disk: Arc<SharedDisk>,
    pub(super) write: Write,
}

impl Job {
    /// Makes it: this takes as long as the disk does.
    pub fn write(self) -> Flush {
        write(&self.disk, self.write)
    }
}

pub(super) fn lock(disk: &SharedDisk) -> MutexGuard<'_, Option<Box<dyn Disk>>> {
    disk.lock().unwrap_or_else(PoisonError::into_inner)
}

/// Why nothing is done to a disk that is gone.
pub(super) fn ended() -> io::Error {
    io::Error::other("the node has ended")
}

fn change(disk: &mut dyn Disk, change: &Change) -> io::Result<u64> {
    match change {
        Change::Append(bytes) => disk.append(bytes)?,
        Change::TakeOver => disk.take_over()?,
    }
    Ok(disk.generation())
}

fn write(disk: &SharedDisk, Write { change, end }: Write) -> Flush {
    let began = Instant::now();
    let result = match &mut *lock(disk) {
        Some(disk) => self::change(&mut **disk, &change),
        None => Err(ended()),
    };
    Flush {
        result: result.map(|generation| Position { generation, end }),
        took: began.elapsed(),
        bytes: match change {
            Change::Append(bytes) => bytes,
            Change::TakeOver => Vec::new(),
        },
    }
}

/// Writes to the log until nobody gives anything more, or until it fails: a log that has failed isn't tried again, since what is on
/// disk isn't known then.
pub(super) fn write_all(disk: &SharedDisk, writes: &Receiver<Write>, inbox: &Inbox) {
    while let Ok(next) = writes.recv() {
        let flush = write(disk, next);
        let has_failed = flush.result.is_err();
        inbox.flushed(flush);
        if has_failed {
            break;
        }
    }
}
