//! A new log beside another one: a file that no start reads before it has a log's name.

use crate::disk::files::write_zeros;
use std::fs::{self, File, OpenOptions};
use std::io;
use std::os::fd::AsRawFd;
use std::os::unix::fs::FileExt;
use std::path::{Path, PathBuf};

/// How many bytes are written at a time: so the log beside it needn't wait for all of them.
const CHUNK: usize = 1 << 20;

/// The file of a new log: its bytes, and zeros behind them.
pub(super) struct Aside {
    path: PathBuf,
    pub file: File,
    /// How many bytes the file has, and how many of them are used.
    pub length: u64,
    pub used: u64,
    /// Its length is a multiple of this.
    unit: u64,
    /// For how many bytes room is to be made, before the first ones are appended.
    wanted: u64,
    /// Whether nothing more is appended to it here.
    is_over: bool,
}

impl Aside {
    /// A new file, for so many bytes: whoever appends the first ones makes room for all of them. What stood at its path is gone.
    pub fn create(path: &Path, count: u64, unit: u64) -> io::Result<Self> {
        let made = OpenOptions::new()
            .read(true)
            .write(true)
            .create(true)
            .truncate(true)
            .open(path);
        let wanted = count.next_multiple_of(unit);
        Ok(Aside {
            wanted,
            ..Aside::of(path, made?, 0, unit)
        })
    }

    /// A file that has so many zeros.
    pub fn of(path: &Path, file: File, length: u64, unit: u64) -> Self {
        let path = path.to_path_buf();
        Aside {
            path,
            file,
            length,
            used: 0,
            unit,
            wanted: 0,
            is_over: false,
        }
    }

    /// Makes sure that a disk has room for so many bytes; one that can't is found out as they are written.
    fn reserve(&self, count: u64) -> io::Result<()> {
        // SAFETY: the descriptor is open; it only gives the file room.
        let code = unsafe { libc::posix_fallocate(self.file.as_raw_fd(), 0, count as libc::off_t) };
        match code {
            libc::ENOSPC | libc::EDQUOT => Err(io::Error::from_raw_os_error(code)),
            _ => Ok(()),
        }
    }

    /// Appends bytes, which are on disk once this returns.
    pub fn append(&mut self, bytes: &[u8]) -> io::Result<()> {
        if self.is_over {
            return Ok(());
        }
        let wanted = std::mem::take(&mut self.wanted);
        if wanted > 0 {
            self.reserve(wanted)?;
        }
        for chunk in bytes.chunks(CHUNK) {
            self.file.write_all_at(chunk, self.used)?;
            self.used += chunk.len() as u64;
            if self.used > self.length {
                self.length = self.used;
            }
            self.file.sync_data()?;
        }
        self.fill()
    }

    /// Fills what is left of the last unit with zeros: a write into bytes that are there already is synced sooner.
    fn fill(&mut self) -> io::Result<()> {
        let whole = self.length.next_multiple_of(self.unit);
        if self.length < whole {
            write_zeros(&self.file, self.length, whole - self.length, || self.file.sync_data())?;
            self.file.sync_all()?;
            self.length = whole;
        }
        Ok(())
    }

    /// Nothing more is appended: all of it is on disk, and nothing stands behind its length.
    pub fn end(&mut self) -> io::Result<()> {
        self.is_over = true;
        self.file.set_len(self.length)?;
        self.file.sync_all()
    }

    /// It is none any more.
    pub fn remove(&mut self) -> io::Result<()> {
        self.is_over = true;
        fs::remove_file(&self.path)
    }

    /// Gets another name.
    pub fn rename(&mut self, to: &Path) -> io::Result<()> {
        fs::rename(&self.path, to)?;
        self.path = to.to_path_buf();
        Ok(())
    }
}
