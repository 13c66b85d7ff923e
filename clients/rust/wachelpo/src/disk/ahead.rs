//! Files of zeros that are made ahead, on a thread of their own.

use crate::disk::files::{name, note_lengths, sync, write_zeros};
use std::fs::{self, File};
use std::io;
use std::path::{Path, PathBuf};
use std::sync::atomic::{AtomicBool, AtomicUsize, Ordering};
use std::sync::mpsc::{sync_channel, Receiver, SyncSender, TrySendError};
use std::sync::Arc;
use std::thread::{self, JoinHandle};
use std::time::Duration;

/// The name of a file that isn't whole yet. What a crash leaves of it is none of a log's.
pub(super) const ASIDE: &str = "log.new";
/// How long it takes until a full disk is tried again.
const PAUSE: Duration = Duration::from_secs(1);
/// How often it is tried while files of an old log make room.
const AGAIN: Duration = Duration::from_millis(50);

/// The thread that makes files ahead. It ends with this value, so that none is made in a folder that another log has meanwhile.
pub(super) struct Ahead {
    /// None once it is to end.
    pub ready: Option<Receiver<io::Result<File>>>,
    /// The number of the last file that it makes.
    pub last: Arc<AtomicUsize>,
    pub thread: Option<JoinHandle<()>>,
}

impl Ahead {
    pub fn start(folder: &Path, generation: u64, first: usize, size: u64, frees: Arc<AtomicBool>) -> io::Result<Self> {
        let (to, ready) = sync_channel(0);
        let last = Arc::new(AtomicUsize::new(usize::MAX));
        let filler = Filler {
            folder: folder.to_path_buf(),
            generation,
            size,
            last: last.clone(),
            frees,
            ready: to,
        };
        let thread = thread::Builder::new()
            .name("fill".into())
            .spawn(move || filler.run(first))?;
        Ok(Ahead {
            ready: Some(ready),
            last,
            thread: Some(thread),
        })
    }

    /// Waits for the next file.
    pub fn next(&self) -> io::Result<File> {
        let next = self.ready.as_ref().and_then(|ready| ready.recv().ok());
        next.unwrap_or_else(|| Err(io::Error::other("no file can be made for the log")))
    }

    /// Lets none be made behind the file of this number, which is the next one. (By its number: that the one before was taken may not
    /// have been noticed yet.)
    pub fn end_with(&self, number: usize) {
        self.last.store(number, Ordering::SeqCst);
    }
}

impl Drop for Ahead {
    fn drop(&mut self) {
        self.ready = None;
        if let Some(thread) = self.thread.take() {
            // (it has said why it failed, if it did)
            let _ = thread.join();
        }
    }
}

/// Makes a file of zeros, which is there whole or not at all.
fn fill(folder: &Path, name: &str, size: u64) -> io::Result<File> {
    let new = folder.join(ASIDE);
    let filled = (|| {
        let file = File::create(&new)?;
        // little at a time, so that the log's own writes needn't wait for all of it
        write_zeros(&file, 0, size, || file.sync_data())?;
        file.sync_all()?;
        note_lengths(folder, [(name.to_string(), size)])?;
        fs::rename(&new, folder.join(name))?;
        sync(folder)?;
        Ok(file)
    })();
    if filled.is_err() {
        // half a file would only take room
        let _ = fs::remove_file(&new);
    }
    filled
}

pub(super) fn is_full(error: &io::Error) -> bool {
    matches!(error.kind(), io::ErrorKind::StorageFull | io::ErrorKind::QuotaExceeded)
}

/// What the thread that makes files ahead has.
struct Filler {
    folder: PathBuf,
    generation: u64,
    size: u64,
    last: Arc<AtomicUsize>,
    /// Whether room is being made on the disk.
    frees: Arc<AtomicBool>,
    ready: SyncSender<io::Result<File>>,
}

impl Filler {
    /// Makes a file; on a full disk as soon as there is room. Whoever needs it before is told that there is none.
    fn fill_once_there_is_room(&self, number: usize) -> io::Result<File> {
        let mut is_told = false;
        loop {
            let frees = self.frees.load(Ordering::SeqCst);
            let filled = fill(&self.folder, &name(self.generation, number), self.size);
            if !filled.as_ref().is_err_and(is_full) {
                return filled;
            }
            if frees {
                thread::sleep(AGAIN);
                continue;
            }
            if !is_told {
                is_told = true;
                log::error!(
                    "log: the disk is full: no file of {} bytes can be made, and the node ends once those before it are used",
                    self.size
                );
            }
            match self.ready.try_send(filled) {
                Err(TrySendError::Full(_)) => thread::sleep(PAUSE),
                Ok(()) | Err(TrySendError::Disconnected(_)) => return Err(io::ErrorKind::StorageFull.into()),
            }
        }
    }

    /// Makes files ahead, each once the one before it is taken.
    fn run(&self, first: usize) {
        for number in first.. {
            let filled = self.fill_once_there_is_room(number);
            let has_failed = filled.is_err();
            if self.ready.send(filled).is_err() || has_failed || number >= self.last.load(Ordering::SeqCst) {
                return;
            }
        }
    }
}
