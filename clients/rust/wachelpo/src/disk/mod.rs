//! Where a node's log is.

mod ahead;
mod aside;
mod blocks;
mod files;
mod folder;
mod notes;
mod noting;
mod removal;
mod segments;

pub use folder::{Folder, Presence};
pub(crate) use notes::{verdict, Heard, Lack, Note, Notes, Start};
pub(crate) use noting::Noting;
pub use segments::Segments;

use std::sync::{Arc, Mutex, MutexGuard, PoisonError};
use std::{fmt, io};

/// A log of bytes, which are appended and then stay.
pub trait Disk: Send {
    /// All bytes of the log, which no crash loses any more. Zeros may stand behind its end.
    fn read(&mut self) -> io::Result<Vec<u8>>;

    /// Cuts off what stands behind this byte, so that it isn't read again. Called once, before anything is appended.
    fn cut(&mut self, end: u64) -> io::Result<()>;

    /// Appends bytes, which are on disk once this returns: no crash of the process, the system or the machine loses them. After an
    /// error it isn't called again, since nobody knows what is on disk then.
    fn append(&mut self, bytes: &[u8]) -> io::Result<()>;

    /// Begins a new log of about so many bytes beside this one, which goes on: nothing of it is read yet, and one that was begun before is
    /// given up.
    fn begin(&mut self, count: u64) -> io::Result<Box<dyn NewLog>>;

    /// The new log has this one's place once this returns, with all that was appended to it, as surely as what is appended to this one. What
    /// the old one takes of the disk may be given back later, so that nothing waits for that. A crash before leaves one of the two, whole.
    /// After an error nothing is called again, as for [`Disk::append`].
    fn take_over(&mut self) -> io::Result<()>;

    /// The new log is given up, if one was begun: this one goes on alone.
    fn give_up(&mut self);

    /// How often the log was replaced, over all starts: of what [`Disk::read`] found, and of what was done since. Other nodes know by it
    /// a log that is shorter since it is a new one.
    fn generation(&self) -> u64;
}

/// A new log beside another one. It is written on a thread of its own.
pub trait NewLog: Send {
    /// Appends bytes, which are on disk once this returns. After an error it isn't called again.
    fn append(&mut self, bytes: &[u8]) -> io::Result<()>;
}

/// How many bytes a position has.
pub(crate) const POSITION: usize = 16;

/// How far a log has come. What the same node says later is never less, unless it has lost what it has promised.
#[derive(Clone, Copy, PartialEq, Eq, PartialOrd, Ord, Default, Debug)]
pub(crate) struct Position {
    /// How often the log was replaced.
    pub generation: u64,
    /// Up to which byte it is on disk.
    pub end: u64,
}

impl fmt::Display for Position {
    fn fmt(&self, f: &mut fmt::Formatter<'_>) -> fmt::Result {
        write!(f, "byte {} after {} new logs", self.end, self.generation)
    }
}

impl Position {
    pub fn to_bytes(self) -> [u8; POSITION] {
        let mut bytes = [0; POSITION];
        bytes[..8].copy_from_slice(&self.generation.to_le_bytes());
        bytes[8..].copy_from_slice(&self.end.to_le_bytes());
        bytes
    }

    pub fn of_bytes(bytes: &[u8; POSITION]) -> Self {
        let number = |at: usize| u64::from_le_bytes(bytes[at..at + 8].try_into().expect("it has 8"));
        Position {
            generation: number(0),
            end: number(8),
        }
    }
}

/// A log in memory, for tests: clones of it have the same bytes, so that a node can be started again on what another has written.
///
/// ```
/// use wachelpo::{Disk, MemoryDisk};
///
/// let mut disk = MemoryDisk::new();
/// disk.append(b"record")?;
/// assert_eq!(disk.clone().read()?, b"record");
/// # Ok::<(), std::io::Error>(())
/// ```
#[derive(Clone, Default, Debug)]
pub struct MemoryDisk(Arc<Mutex<Memory>>);

#[derive(Default, Debug)]
struct Memory {
    bytes: Vec<u8>,
    generation: u64,
    /// The new log, if one is begun, and the number of those that were begun.
    next: Option<Vec<u8>>,
    begun: u64,
}

/// The new log of this number.
struct NextMemory(MemoryDisk, u64);

impl NewLog for NextMemory {
    fn append(&mut self, bytes: &[u8]) -> io::Result<()> {
        let NextMemory(disk, number) = self;
        let mut memory = disk.memory();
        if memory.begun == *number {
            memory.next.get_or_insert_default().extend_from_slice(bytes);
        }
        Ok(())
    }
}

impl MemoryDisk {
    /// An empty log.
    pub fn new() -> Self {
        MemoryDisk::default()
    }

    /// A log of these bytes.
    pub fn of(bytes: Vec<u8>) -> Self {
        let disk = MemoryDisk::new();
        disk.memory().bytes = bytes;
        disk
    }

    fn memory(&self) -> MutexGuard<'_, Memory> {
        self.0.lock().unwrap_or_else(PoisonError::into_inner)
    }
}

impl Disk for MemoryDisk {
    fn read(&mut self) -> io::Result<Vec<u8>> {
        Ok(self.memory().bytes.clone())
    }

    fn cut(&mut self, end: u64) -> io::Result<()> {
        self.memory().bytes.truncate(end as usize);
        Ok(())
    }

    fn append(&mut self, bytes: &[u8]) -> io::Result<()> {
        self.memory().bytes.extend_from_slice(bytes);
        Ok(())
    }

    fn begin(&mut self, _count: u64) -> io::Result<Box<dyn NewLog>> {
        let mut memory = self.memory();
        memory.next = None;
        memory.begun += 1;
        Ok(Box::new(NextMemory(self.clone(), memory.begun)))
    }

    fn take_over(&mut self) -> io::Result<()> {
        let mut memory = self.memory();
        memory.bytes = memory.next.take().unwrap_or_default();
        memory.begun += 1;
        memory.generation += 1;
        Ok(())
    }

    fn give_up(&mut self) {
        let mut memory = self.memory();
        memory.next = None;
        memory.begun += 1;
    }

    fn generation(&self) -> u64 {
        self.memory().generation
    }
}

#[cfg(test)]
mod tests {
    use super::*;

    #[test]
    fn a_log_in_memory_is_replaced_for_all_its_clones() {
        let mut disk = MemoryDisk::new();
        disk.append(b"old").unwrap();
        let mut clone = disk.clone();
        let mut given_up = disk.begin(3).unwrap();
        let mut new = disk.begin(3).unwrap();
        given_up.append(b"never").unwrap();
        new.append(b"new").unwrap();
        clone.append(b"er").unwrap();
        assert_eq!(disk.read().unwrap(), b"older");
        disk.take_over().unwrap();
        clone.append(b"er").unwrap();
        new.append(b"never").unwrap();
        assert_eq!(
            (disk.read().unwrap(), disk.generation(), clone.generation()),
            (b"newer".to_vec(), 1, 1)
        );
    }

    #[test]
    fn a_later_log_is_further_than_any_earlier_one() {
        let at = |generation, end| Position { generation, end };
        assert!(at(0, 7) < at(0, 8) && at(0, 8) < at(1, 0));
        assert_eq!(Position::of_bytes(&at(3, 1 << 60).to_bytes()), at(3, 1 << 60));
    }
}
