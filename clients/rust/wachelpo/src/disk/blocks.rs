//! Writes of whole blocks from memory to the disk, past what the system remembers of a file: that takes it two thirds of the time of a
//! small write into a page that it remembers, and writes back.

use std::fs::{File, OpenOptions};
use std::io;
use std::os::unix::fs::{FileExt, OpenOptionsExt};
use std::path::Path;

/// How many bytes a block has: as many as file systems and disks want at least, or a multiple.
pub(super) const BLOCK: usize = 4096;
/// How many bytes are written at a time.
const ROOM: usize = 1 << 20;

/// A file of zeros, into which bytes are written one behind the other.
pub(super) struct Blocks {
    file: File,
    /// Room for blocks, the first of which begins with what stands in the file already.
    bytes: Vec<u8>,
    /// Where the room begins: at a multiple of a block's length in memory.
    start: usize,
}

impl Blocks {
    /// A file of so many bytes, of which so many are used. None if it can't be written so: it isn't of whole blocks, or the file system
    /// refuses it.
    pub fn open(path: &Path, length: u64, used: u64) -> Option<Self> {
        if !length.is_multiple_of(BLOCK as u64) {
            return None;
        }
        let mut options = OpenOptions::new();
        let file = options.read(true).write(true).custom_flags(libc::O_DIRECT).open(path);
        let bytes = vec![0; ROOM + BLOCK];
        let mut blocks = Blocks {
            file: file.ok()?,
            start: bytes.as_ptr().align_offset(BLOCK),
            bytes,
        };
        if used < length {
            blocks.begin(used).ok()?;
        }
        Some(blocks)
    }

    fn room(&mut self) -> &mut [u8] {
        &mut self.bytes[self.start..][..ROOM]
    }

    /// Reads the block that is begun, and writes it as it is, to see whether that is taken.
    fn begin(&mut self, used: u64) -> io::Result<()> {
        let at = used - used % BLOCK as u64;
        let block = &mut self.bytes[self.start..][..BLOCK];
        self.file.read_exact_at(block, at)?;
        self.file.write_all_at(block, at)
    }

    /// Writes bytes behind those that are used; they aren't synced. Up to the end of their last block zeros stand behind them, as before.
    pub fn write(&mut self, mut bytes: &[u8], mut used: u64) -> io::Result<()> {
        while !bytes.is_empty() {
            let begun = (used % BLOCK as u64) as usize;
            let (now, later) = bytes.split_at(bytes.len().min(ROOM - begun));
            let end = begun + now.len();
            let whole = end.next_multiple_of(BLOCK);
            let room = self.room();
            room[begun..end].copy_from_slice(now);
            room[end..whole].fill(0);
            self.file
                .write_all_at(&self.bytes[self.start..][..whole], used - begun as u64)?;
            // the last block is written again with what follows
            self.room().copy_within(end - end % BLOCK..whole, 0);
            used += now.len() as u64;
            bytes = later;
        }
        Ok(())
    }
}

#[cfg(test)]
mod tests {
    use super::*;
    use crate::scratch::Scratch;
    use std::fs;

    const LENGTH: usize = 3 * ROOM;

    #[test]
    fn what_is_written_stands_in_the_file_and_zeros_behind_it() {
        let scratch = Scratch::new("blocks");
        let path = scratch.path().join("file");
        let mut all = vec![0; LENGTH];
        fs::write(&path, &all).unwrap();
        let mut used = 0;
        for (part, count) in [1, 4095, 4096, 7, 100_000, ROOM + 1, 8192, 3].into_iter().enumerate() {
            // (the file system may refuse it)
            let Some(mut blocks) = Blocks::open(&path, LENGTH as u64, used as u64) else {
                return;
            };
            for piece in [vec![part as u8 + 1; count], vec![101; 5]] {
                blocks.write(&piece, used as u64).unwrap();
                all[used..used + piece.len()].copy_from_slice(&piece);
                used += piece.len();
            }
            assert!(fs::read(&path).unwrap() == all, "{count}");
        }
    }

    #[test]
    fn a_file_that_is_not_of_whole_blocks_is_refused() {
        let scratch = Scratch::new("part");
        let path = scratch.path().join("file");
        fs::write(&path, [0; 100]).unwrap();
        assert!(Blocks::open(&path, 100, 0).is_none());
    }
}
