//! Files of logs before, which are removed little by little, on a thread of their own.

use crate::disk::files::{files, path};
use std::fs::{self, OpenOptions};
use std::io;
use std::path::Path;
use std::sync::atomic::{AtomicBool, Ordering};
use std::sync::Arc;
use std::thread::{self, JoinHandle};
use std::time::Duration;

/// How many bytes of an old log's file are removed at a time, and how long it takes until the next ones are: with more of the one or less of
/// the other, what is flushed meanwhile waits longer. (A gigabyte at once holds a disk up for a second.)
pub(super) const REMOVED: u64 = 1 << 20;
pub(super) const REST: Duration = Duration::from_millis(4);

/// The thread that removes the files of other logs, little by little. It ends with this value.
pub(super) struct Removal {
    /// Whether it is at work, and so makes room.
    pub frees: Arc<AtomicBool>,
    thread: Option<JoinHandle<()>>,
}

impl Removal {
    pub fn start(folder: &Path, generation: u64) -> io::Result<Self> {
        let frees = Arc::new(AtomicBool::new(true));
        let (folder, goes_on) = (folder.to_path_buf(), frees.clone());
        let work = move || {
            let rest = |count: u64| {
                thread::sleep(REST.mul_f64(count as f64 / REMOVED as f64));
                goes_on.load(Ordering::SeqCst)
            };
            if let Err(error) = remove_others(&folder, generation, rest) {
                log::error!("log: files of the one before take room until the next start: {error}");
            }
            goes_on.store(false, Ordering::SeqCst);
        };
        let thread = thread::Builder::new().name("remove".into()).spawn(work)?;
        Ok(Removal {
            frees,
            thread: Some(thread),
        })
    }
}

impl Drop for Removal {
    fn drop(&mut self) {
        self.frees.store(false, Ordering::SeqCst);
        if let Some(thread) = self.thread.take() {
            let _ = thread.join();
        }
    }
}

/// Removes the files of other logs than that of this generation, little by little: as long as it may go on, which is asked after so many
/// bytes each time.
pub(super) fn remove_others(folder: &Path, generation: u64, mut may_go_on: impl FnMut(u64) -> bool) -> io::Result<()> {
    for file in files(folder)? {
        if file.generation == generation {
            continue;
        }
        let path = path(folder, file.generation, file.number);
        let mut left = file.length;
        while left > REMOVED {
            left -= REMOVED;
            OpenOptions::new().write(true).open(&path)?.set_len(left)?;
            if !may_go_on(REMOVED) {
                return Ok(());
            }
        }
        fs::remove_file(&path)?;
        if !may_go_on(left) {
            return Ok(());
        }
    }
    Ok(())
}
