//! The files of logs in a folder, by their names.

use crate::disk::folder::replace;
use std::collections::BTreeMap;
use std::fs::{self, File};
use std::io::{self, Read};
use std::os::fd::AsRawFd;
use std::os::unix::fs::FileExt;
use std::path::{Path, PathBuf};

/// How many bytes are filled at a time.
const CHUNK: usize = 1 << 20;
/// The name of a file that says with which lengths the files of logs were made.
const LENGTHS: &str = "lengths";

/// A file of a log that is there.
#[derive(PartialEq, Eq, PartialOrd, Ord)]
pub(super) struct Found {
    pub generation: u64,
    pub number: usize,
    pub length: u64,
}

pub(super) fn name(generation: u64, number: usize) -> String {
    match generation {
        0 => format!("log.{number:06}"),
        _ => format!("log.{generation:06}.{number:06}"),
    }
}

pub(super) fn path(folder: &Path, generation: u64, number: usize) -> PathBuf {
    folder.join(name(generation, number))
}

/// Whose file has this name, and which of them it is.
pub(super) fn parse(text: &str) -> Option<(u64, usize)> {
    let numbers = text.strip_prefix("log.")?;
    let (generation, number) = match numbers.split_once('.') {
        Some((generation, number)) => (generation.parse().ok()?, number.parse().ok()?),
        None => (0, numbers.parse().ok()?),
    };
    (name(generation, number) == text).then_some((generation, number))
}

pub(super) fn damaged(text: String) -> io::Error {
    io::Error::new(io::ErrorKind::InvalidData, text)
}

/// The files of all logs in a folder, those of the newest one last.
pub(super) fn files(folder: &Path) -> io::Result<Vec<Found>> {
    let mut found = Vec::new();
    for entry in fs::read_dir(folder)? {
        let entry = entry?;
        if let Some((generation, number)) = entry.file_name().to_str().and_then(parse) {
            let length = match entry.metadata() {
                // (one of an old log, which goes)
                Err(error) if error.kind() == io::ErrorKind::NotFound => continue,
                metadata => metadata?.len(),
            };
            found.push(Found {
                generation,
                number,
                length,
            });
        }
    }
    found.sort_unstable();
    Ok(found)
}

/// The newest log of a folder: no file of it is there before its first one is durably, nor is one of the log before removed.
pub(super) fn newest(files: &[Found]) -> u64 {
    files.last().map_or(0, |file| file.generation)
}

/// Where the first file of a folder's log is, or is missing.
pub(super) fn first_file(folder: &Path) -> io::Result<PathBuf> {
    Ok(path(folder, newest(&files(folder)?), 0))
}

/// The lengths of the files of a log, which have all numbers from 0 on, and the lengths with which they were made.
pub(super) fn lengths(folder: &Path, files: &[Found], generation: u64) -> io::Result<Vec<u64>> {
    let own = files.iter().filter(|file| file.generation == generation);
    let made = lengths_made(folder)?;
    let length = |(place, file): (usize, &Found)| {
        if place != file.number {
            return Err(damaged(format!(
                "{} is missing",
                path(folder, generation, place).display()
            )));
        }
        match made.get(&name(generation, place)) {
            Some(made) if *made != file.length => Err(damaged(format!(
                "{} has {} bytes, and was made with {made}; nothing was changed",
                path(folder, generation, place).display(),
                file.length
            ))),
            _ => Ok(file.length),
        }
    };
    own.enumerate().map(length).collect()
}

pub(super) fn sync(folder: &Path) -> io::Result<()> {
    File::open(folder)?.sync_all()
}

/// Reads a file from the disk, and not from what the system remembers of it: after a write that failed, that may be what isn't there.
pub(super) fn read_from_disk(path: &Path, into: &mut Vec<u8>) -> io::Result<()> {
    let mut file = File::open(path)?;
    file.sync_all()?;
    // SAFETY: the descriptor is open; it is advice, without effect on what is read.
    unsafe { libc::posix_fadvise(file.as_raw_fd(), 0, 0, libc::POSIX_FADV_DONTNEED) };
    file.read_to_end(into)?;
    Ok(())
}

/// Writes so many zeros from a byte on, a little at a time.
pub(super) fn write_zeros(
    file: &File,
    mut from: u64,
    count: u64,
    mut after_each: impl FnMut() -> io::Result<()>,
) -> io::Result<()> {
    let zeros = vec![0; CHUNK.min(count as usize)];
    let end = from + count;
    while from < end {
        let count = (end - from).min(zeros.len() as u64);
        file.write_all_at(&zeros[..count as usize], from)?;
        after_each()?;
        from += count;
    }
    Ok(())
}

/// With which lengths files were made. One that isn't named is of a log of before, and has the length that it has.
pub(super) fn lengths_made(folder: &Path) -> io::Result<BTreeMap<String, u64>> {
    let text = match fs::read_to_string(folder.join(LENGTHS)) {
        Err(error) if error.kind() == io::ErrorKind::NotFound => return Ok(BTreeMap::new()),
        text => text?,
    };
    let of_line = |line: &str| {
        let (name, length) = line.split_once(' ')?;
        Some((name.to_string(), length.parse().ok()?))
    };
    let made: Option<BTreeMap<_, _>> = text.lines().map(of_line).collect();
    made.ok_or_else(|| {
        damaged(format!(
            "{}: it isn't what a log has written",
            folder.join(LENGTHS).display()
        ))
    })
}

/// Notes with which lengths files are made: before they get their names. Others are forgotten once they are gone.
pub(super) fn note_lengths(folder: &Path, made: impl IntoIterator<Item = (String, u64)>) -> io::Result<()> {
    let mut all = lengths_made(folder)?;
    let before = all.clone();
    all.retain(|name, _| folder.join(name).exists());
    all.extend(made);
    if all == before {
        return Ok(());
    }
    let text: String = all.iter().map(|(name, length)| format!("{name} {length}\n")).collect();
    replace(folder, LENGTHS, &text)
}
