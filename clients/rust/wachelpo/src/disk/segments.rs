//! A log in files of a folder, one behind the other, which are filled with zeros ahead: a write into bytes that are there already
//! changes no metadata, so that `fdatasync` writes the bytes alone. One file more is always ready, which is what is left once the disk
//! is full.
//!
//! A new log is written beside the old one, into a file that takes the old one's place by the name that it gets then: a start reads the
//! files of the newest log, and removes all others. While a node runs, the files of the log before go little by little, on a thread of
//! their own.

use crate::disk::ahead::{is_full, Ahead, ASIDE};
use crate::disk::aside::Aside;
use crate::disk::blocks::{Blocks, BLOCK};
use crate::disk::files::{damaged, files, lengths, name, newest, note_lengths, path, read_from_disk, sync};
use crate::disk::removal::{remove_others, Removal};
use crate::disk::{Disk, NewLog, Position};
use std::ffi::OsStr;
use std::fs::{self, File, OpenOptions};
use std::io::{self, Read, Seek, SeekFrom};
use std::os::unix::fs::FileExt;
use std::path::{Path, PathBuf};
use std::sync::atomic::{AtomicBool, Ordering};
use std::sync::{Arc, Mutex, PoisonError};

/// How many bytes a file has, and at least if its log is to be short.
const SEGMENT: u64 = 16 << 20;
const SHORT_SEGMENT: u64 = 64 << 10;
/// The name of a new log's file before it has the old one's place.
const NEXT: &str = "log.next";
/// The first part of the names of files that keep what was cut off a log, and how many of them stay.
const CUT: &str = "cut.";
const KEPT: usize = 4;
/// The name of a file that is there once the log had anything. A log that has nothing is then a lost one, and not a new node's.
const BEGUN: &str = "begun";

/// A log in files `log.000000`, `log.000001` and so on. The first one that takes its place is in `log.000001.000000`,
/// `log.000001.000001` and so on, the next one in `log.000002.000000`.
///
/// ```
/// use wachelpo::{Disk, Segments};
///
/// let folder = std::env::temp_dir().join(format!("wachelpo-doc-{}", std::process::id()));
/// std::fs::create_dir_all(&folder)?;
/// let mut log = Segments::with_size(&folder, 4096);
/// assert_eq!(log.read()?, b"");
/// log.cut(0)?;
/// log.append(b"record")?;
/// assert!(Segments::new(&folder).read()?.starts_with(b"record\0"));
/// log.begin(11)?.append(b"another one")?;
/// log.take_over()?;
/// assert!(Segments::new(&folder).read()?.starts_with(b"another one\0"));
/// # drop(log); // (its threads make and remove files)
/// # std::fs::remove_dir_all(&folder)?;
/// # Ok::<(), std::io::Error>(())
/// ```
pub struct Segments {
    folder: PathBuf,
    /// The bytes of a file that is begun.
    size: u64,
    /// How often the log was replaced.
    generation: u64,
    /// The lengths of its files that were there when it was read, or replaced.
    lengths: Vec<u64>,
    /// Whether it is noted that the log had anything.
    is_begun: bool,
    open: Option<Segment>,
    ahead: Option<Ahead>,
    /// The log before this one, which goes.
    before: Option<Removal>,
    /// The new log beside this one.
    next: Option<Arc<Mutex<Aside>>>,
    /// Whether the disk had no room for the last one.
    is_full: Arc<AtomicBool>,
    /// How far it is known to have been on disk.
    least: Position,
}

/// A new log in its file.
struct NewSegments {
    aside: Arc<Mutex<Aside>>,
    /// Noted if the disk has no room for it.
    is_full: Arc<AtomicBool>,
}

impl NewLog for NewSegments {
    fn append(&mut self, bytes: &[u8]) -> io::Result<()> {
        let appended = lock(&self.aside).append(bytes);
        if appended.as_ref().is_err_and(is_full) {
            self.is_full.store(true, Ordering::SeqCst);
        }
        appended
    }
}

fn read_from(file: &mut File, from: u64, into: &mut Vec<u8>) -> io::Result<()> {
    file.seek(SeekFrom::Start(from))?;
    file.read_to_end(into)?;
    Ok(())
}

fn lock(aside: &Mutex<Aside>) -> std::sync::MutexGuard<'_, Aside> {
    aside.lock().unwrap_or_else(PoisonError::into_inner)
}

/// The file that is written.
struct Segment {
    file: File,
    /// How it is written, if it can be so.
    blocks: Option<Blocks>,
    number: usize,
    length: u64,
    used: u64,
}

impl Segment {
    fn open(path: &Path, file: File, number: usize, length: u64, used: u64) -> Self {
        Segment {
            file,
            blocks: Blocks::open(path, length, used),
            number,
            length,
            used,
        }
    }

    /// Appends as many bytes as there is room for, and says how many.
    fn append(&mut self, bytes: &[u8]) -> io::Result<usize> {
        let bytes = &bytes[..bytes.len().min((self.length - self.used) as usize)];
        match &mut self.blocks {
            Some(blocks) => blocks.write(bytes, self.used)?,
            None => self.file.write_all_at(bytes, self.used)?,
        }
        self.file.sync_data()?;
        self.used += bytes.len() as u64;
        Ok(bytes.len())
    }
}

/// A file of zeros, behind those that are used.
struct Ready {
    file: File,
    number: usize,
    length: u64,
}

impl Segments {
    /// A log in a folder, which is there.
    pub fn new(folder: &Path) -> Self {
        Segments::with_size(folder, SEGMENT)
    }

    /// A log in a folder, whose next files have so many bytes. (One that is there keeps its own.)
    pub fn with_size(folder: &Path, size: u64) -> Self {
        Segments {
            folder: folder.to_path_buf(),
            size,
            generation: 0,
            lengths: Vec::new(),
            is_begun: false,
            open: None,
            ahead: None,
            before: None,
            next: None,
            is_full: Arc::default(),
            least: Position::default(),
        }
    }

    /// The same, but that one is refused which ends before this place: it was on disk up to there.
    pub(super) fn at_least(mut self, least: Position) -> Self {
        self.least = least;
        self
    }

    /// A log in a folder that is replaced after about so many bytes: its next files are no larger than that wants.
    pub(super) fn for_length(folder: &Path, length: u64) -> Self {
        let size = (length / 4).clamp(SHORT_SEGMENT, SEGMENT);
        Segments::with_size(folder, size.next_multiple_of(BLOCK as u64))
    }

    fn path(&self, number: usize) -> PathBuf {
        path(&self.folder, self.generation, number)
    }

    fn segment(&self, file: File, number: usize, length: u64, used: u64) -> Segment {
        Segment::open(&self.path(number), file, number, length, used)
    }

    /// Zeroes what isn't zero of a file from a byte on.
    fn zero(&self, number: usize, from: u64) -> io::Result<File> {
        let mut file = OpenOptions::new().read(true).write(true).open(self.path(number))?;
        let mut rest = Vec::new();
        read_from(&mut file, from, &mut rest)?;
        if let Some(last) = rest.iter().rposition(|byte| *byte != 0) {
            file.write_all_at(&vec![0; last + 1], from)?;
            file.sync_all()?;
        }
        Ok(file)
    }

    /// Refuses a log that ends before a place up to which it was on disk.
    fn check_end(&self, end: u64) -> io::Result<()> {
        let generation = self.generation;
        let at = Position { generation, end };
        if at >= self.least {
            return Ok(());
        }
        Err(damaged(format!(
            "the log ends at {at}, and was on disk up to {}: it has lost its end; nothing was changed. Other nodes may have what it has lost: a \
             node of a new id takes its place. (A lone node goes on without that once its file `peers` is removed)",
            self.least
        )))
    }

    /// What stands in the files behind the log's end, without the zeros behind that.
    fn behind(&self, end: u64) -> io::Result<Vec<u8>> {
        let (mut start, mut bytes) = (0, Vec::new());
        for (number, length) in self.lengths.iter().enumerate() {
            if end < start + length {
                let mut file = File::open(self.path(number))?;
                read_from(&mut file, end.saturating_sub(start), &mut bytes)?;
            }
            start += length;
        }
        let count = bytes.iter().rposition(|byte| *byte != 0).map_or(0, |last| last + 1);
        bytes.truncate(count);
        Ok(bytes)
    }

    /// Keeps what is to be cut off in a file of its own, and the last ones of before.
    fn keep_behind(&self, end: u64) -> io::Result<()> {
        let bytes = self.behind(end)?;
        if bytes.is_empty() {
            return Ok(());
        }
        let kept = self.folder.join(format!("{CUT}{:06}.{end:012}", self.generation));
        let file = File::create(&kept)?;
        file.write_all_at(&bytes, 0)?;
        file.sync_all()?;
        log::warn!(
            "log: {} bytes that are cut off are kept as {}",
            bytes.len(),
            kept.display()
        );
        let mut others = Vec::new();
        for entry in fs::read_dir(&self.folder)? {
            let path = entry?.path();
            let is_cut = |name: &OsStr| name.to_string_lossy().starts_with(CUT);
            others.extend((path != kept && path.file_name().is_some_and(is_cut)).then_some(path));
        }
        others.sort();
        for old in others.iter().rev().skip(KEPT - 1) {
            fs::remove_file(old)?;
        }
        sync(&self.folder)
    }

    /// Notes once that the log has something: before anybody relies on that.
    fn note_begun(&mut self) -> io::Result<()> {
        if !self.is_begun {
            File::create(self.folder.join(BEGUN))?;
            sync(&self.folder)?;
            self.is_begun = true;
        }
        Ok(())
    }

    /// The number of the file behind the one that is written.
    fn next_number(&self) -> usize {
        self.open.as_ref().map_or(0, |open| open.number + 1)
    }

    /// A file as zeros: one that was there before, and was ahead then; or else the next one, which is waited for.
    fn ready(&mut self, number: usize) -> io::Result<Ready> {
        let (file, length) = match self.lengths.get(number).copied() {
            Some(length) => (self.zero(number, 0)?, length),
            None => (self.ahead(number)?.next()?, self.size),
        };
        Ok(Ready { file, number, length })
    }

    /// The thread that makes files ahead, which is started for the file of this number if there is none.
    fn ahead(&mut self, number: usize) -> io::Result<&Ahead> {
        let ahead = match self.ahead.take() {
            Some(ahead) => ahead,
            None => self.start_ahead(number)?,
        };
        Ok(self.ahead.insert(ahead))
    }

    fn start_ahead(&self, number: usize) -> io::Result<Ahead> {
        let frees = self.before.as_ref().map(|it| it.frees.clone());
        Ahead::start(
            &self.folder,
            self.generation,
            number,
            self.size,
            frees.unwrap_or_default(),
        )
    }

    /// Waits for the file that was filled ahead.
    fn next(&mut self) -> io::Result<Segment> {
        let Ready { file, number, length } = self.ready(self.next_number())?;
        Ok(self.segment(file, number, length, 0))
    }
}

/// A new log takes the old one's place.
impl Segments {
    /// Waits for the last file that was filled ahead, and lets no other one be made. (Without one before the last a log has a gap.)
    fn last_ready(&mut self) -> io::Result<Ready> {
        let last = self.lengths.len().saturating_sub(1).max(self.next_number());
        if last >= self.lengths.len() {
            self.ahead(last)?.end_with(last);
        }
        let ready = self.ready(last);
        self.ahead = None;
        ready
    }

    /// On a full disk a new log has the file that is ready, if that has room for it, and the old one goes on without it.
    fn set_aside(&mut self, count: u64) -> io::Result<Aside> {
        let Ready { file, number, length } = self.last_ready()?;
        if length < count {
            return Err(io::ErrorKind::StorageFull.into());
        }
        let next = self.folder.join(NEXT);
        fs::rename(self.path(number), &next)?;
        self.lengths.truncate(number);
        // else a crash might leave the new log's bytes behind the old one's end
        sync(&self.folder)?;
        Ok(Aside::of(&next, file, length, self.size))
    }

    /// Removes files that aren't whole.
    fn remove_parts(&self) -> io::Result<()> {
        for name in [ASIDE, NEXT] {
            match fs::remove_file(self.folder.join(name)) {
                Err(error) if error.kind() != io::ErrorKind::NotFound => return Err(error),
                _ => {}
            }
        }
        Ok(())
    }

    /// [`Disk::take_over`], which calls `after` behind each thing that it does to a file or the folder: a crash may come there.
    fn take_over_step_by_step(&mut self, mut after: impl FnMut()) -> io::Result<()> {
        let next = self.next.take();
        let next = next.ok_or_else(|| io::Error::other("no new log was begun"))?;
        let mut aside = lock(&next);
        // no file of the old log is made any more
        self.ahead = None;
        aside.end()?;
        after();
        note_lengths(&self.folder, [(name(self.generation + 1, 0), aside.length)])?;
        aside.rename(&path(&self.folder, self.generation + 1, 0))?;
        after();
        sync(&self.folder)?;
        after();
        self.generation += 1;
        self.lengths = vec![aside.length];
        self.open = Some(self.segment(aside.file.try_clone()?, 0, aside.length, aside.used));
        self.note_begun()?;
        self.remove_parts()?;
        self.before = None;
        // (if there are no threads for these now: what is left is removed with this log, and there is one once a file is needed)
        self.before = Removal::start(&self.folder, self.generation).ok();
        self.ahead = self.start_ahead(1).ok();
        Ok(())
    }
}

impl Disk for Segments {
    fn read(&mut self) -> io::Result<Vec<u8>> {
        let files = files(&self.folder)?;
        self.generation = newest(&files);
        self.lengths = lengths(&self.folder, &files, self.generation)?;
        let mut bytes = Vec::with_capacity(self.lengths.iter().sum::<u64>() as usize);
        for number in 0..self.lengths.len() {
            read_from_disk(&self.path(number), &mut bytes)?;
        }
        Ok(bytes)
    }

    fn cut(&mut self, end: u64) -> io::Result<()> {
        self.check_end(end)?;
        self.is_begun = self.folder.join(BEGUN).try_exists()?;
        match end {
            0 if self.is_begun => {
                return Err(damaged(
                    "the log has nothing, and had something; nothing was changed".into(),
                ))
            }
            0 => {}
            _ => self.note_begun()?,
        }
        self.keep_behind(end)?;
        // a log that a stop has left in its place may not be there durably yet
        sync(&self.folder)?;
        let made = self.lengths.iter().enumerate();
        note_lengths(
            &self.folder,
            made.map(|(number, length)| (name(self.generation, number), *length)),
        )?;
        remove_others(&self.folder, self.generation, |_| true)?;
        self.remove_parts()?;
        let mut start = 0;
        for (number, length) in self.lengths.clone().into_iter().enumerate() {
            let used = end.saturating_sub(start).min(length);
            if used < length || number + 1 == self.lengths.len() {
                let file = self.zero(number, used)?;
                if self.open.is_none() {
                    self.open = Some(self.segment(file, number, length, used));
                }
            }
            start += length;
        }
        if self.open.is_none() {
            self.open = Some(self.next()?);
        }
        sync(&self.folder)
    }

    fn append(&mut self, mut bytes: &[u8]) -> io::Result<()> {
        let has_any = !bytes.is_empty();
        while !bytes.is_empty() {
            if self.open.as_ref().is_none_or(|open| open.used == open.length) {
                self.open = Some(self.next()?);
            }
            let Some(open) = &mut self.open else { continue };
            let count = open.append(bytes)?;
            bytes = &bytes[count..];
        }
        // not before: of a first record that is torn a new node's log has nothing, too
        if has_any {
            self.note_begun()?;
        }
        Ok(())
    }

    fn begin(&mut self, count: u64) -> io::Result<Box<dyn NewLog>> {
        self.give_up();
        // (the room itself is made by who appends, since that may take long)
        let aside = match self.is_full.swap(false, Ordering::SeqCst) {
            true => self.set_aside(count)?,
            false => Aside::create(&self.folder.join(NEXT), count, self.size)?,
        };
        let aside = Arc::new(Mutex::new(aside));
        self.next = Some(aside.clone());
        let is_full = self.is_full.clone();
        Ok(Box::new(NewSegments { aside, is_full }))
    }

    fn take_over(&mut self) -> io::Result<()> {
        self.take_over_step_by_step(|| {})
    }

    fn give_up(&mut self) {
        if let Some(next) = self.next.take() {
            // (it would only take room)
            let _ = lock(&next).remove();
        }
    }

    fn generation(&self) -> u64 {
        self.generation
    }
}

#[cfg(test)]
mod tests {
    use super::*;
    use crate::disk::files::{parse, Found};
    use crate::disk::removal::{REMOVED, REST};
    use crate::scratch::Scratch;
    use std::sync::mpsc::sync_channel;
    use std::thread;
    use std::time::Duration;

    fn reopened(folder: &Path, end: u64) -> Segments {
        reopened_with(100, folder, end)
    }

    fn reopened_with(size: u64, folder: &Path, end: u64) -> Segments {
        let mut log = Segments::with_size(folder, size);
        log.read().unwrap();
        log.cut(end).unwrap();
        log
    }

    #[test]
    fn what_is_appended_is_read_over_files_and_starts() {
        // files of whole blocks, and others
        for (size, unit) in [(100, 1), (8192, 80)] {
            let scratch = Scratch::new(&format!("appended-{size}"));
            let mut all = Vec::new();
            for part in 0..20u8 {
                let mut log = reopened_with(size, scratch.path(), all.len() as u64);
                for count in [1, 7, 100, 130] {
                    let bytes = vec![part + 1; count * unit];
                    log.append(&bytes).unwrap();
                    all.extend(bytes);
                }
                let read = Segments::new(scratch.path()).read().unwrap();
                assert!(read.starts_with(&all));
                assert!(read[all.len()..].iter().all(|byte| *byte == 0));
            }
        }
    }

    #[test]
    fn what_is_cut_is_zeros() {
        let scratch = Scratch::new("cut");
        reopened(scratch.path(), 0).append(&[7; 350]).unwrap();
        reopened(scratch.path(), 120).append(&[9; 10]).unwrap();
        let read = Segments::new(scratch.path()).read().unwrap();
        assert_eq!(read[..120], [7; 120]);
        assert_eq!(read[120..130], [9; 10]);
        assert!(read[130..].iter().all(|byte| *byte == 0));
    }

    #[test]
    fn a_file_that_is_missing_is_told() {
        let scratch = Scratch::new("missing");
        reopened(scratch.path(), 0).append(&[7; 350]).unwrap();
        fs::remove_file(path(scratch.path(), 0, 1)).unwrap();
        let error = Segments::new(scratch.path()).read().unwrap_err();
        assert!(error.to_string().ends_with("log.000001 is missing"), "{error}");
    }

    #[test]
    fn a_log_that_was_lost_is_not_a_new_one() {
        // (files of before are of any length)
        for (length, lengths) in [(0, false), (100, true)] {
            let scratch = Scratch::new(&format!("begun-{length}"));
            // (a start that writes nothing leaves it new)
            reopened(scratch.path(), 0);
            reopened(scratch.path(), 0).append(&[7; 50]).unwrap();
            for file in files(scratch.path()).unwrap() {
                fs::write(path(scratch.path(), 0, file.number), vec![0; length]).unwrap();
            }
            if !lengths {
                fs::remove_file(scratch.path().join("lengths")).unwrap();
            }
            let mut log = Segments::with_size(scratch.path(), 100);
            assert!(log.read().unwrap().iter().all(|byte| *byte == 0));
            let error = log.cut(0).unwrap_err();
            assert!(error.to_string().contains("had something"), "{error}");
        }
    }

    #[test]
    fn a_name_is_that_of_one_file() {
        for (text, file) in [("log.000007", (0, 7)), ("log.000002.1234567", (2, 1_234_567))] {
            assert_eq!((parse(text), &name(file.0, file.1)[..]), (Some(file), text));
        }
        for text in [
            "log.7",
            "log.new",
            "log.000000.000001",
            "log.000001.",
            "log.+00001",
            "lock",
        ] {
            assert_eq!(parse(text), None, "{text}");
        }
    }

    #[test]
    fn files_are_as_long_as_their_log_wants() {
        for (log, file) in [
            (0, 64 << 10),
            (300_000, 77_824),
            (64 << 20, 16 << 20),
            (1 << 40, 16 << 20),
        ] {
            assert_eq!(Segments::for_length(Path::new("nowhere"), log).size, file, "{log}");
        }
    }

    /// What a start finds is this, and zeros behind it.
    fn assert_found(folder: &Path, bytes: &[u8], when: &str) {
        let found = Segments::new(folder).read().expect(when);
        assert!(found.starts_with(bytes), "{when}");
        assert!(found[bytes.len()..].iter().all(|byte| *byte == 0), "{when}");
    }

    /// A start goes on from this, and then nothing is there but its log's files.
    fn assert_goes_on(size: u64, folder: &Path, bytes: &[u8], when: &str) {
        assert_found(folder, bytes, when);
        let mut log = reopened_with(size, folder, bytes.len() as u64);
        let more = vec![200; size as usize + 1];
        log.append(&more).unwrap();
        let generation = log.generation();
        // (its thread ends first)
        drop(log);
        let is_its = |name: &str| {
            let is_its_file = parse(name).is_some_and(|(of, _)| of == generation);
            is_its_file || [BEGUN, "lengths"].contains(&name) || name.starts_with(CUT)
        };
        for entry in fs::read_dir(folder).unwrap() {
            let name = entry.unwrap().file_name().into_string().unwrap();
            assert!(is_its(&name), "{when}: {name} is left");
        }
        assert_found(folder, &[bytes, &more].concat(), when);
    }

    fn refusal(folder: &Path) -> String {
        Segments::new(folder).read().unwrap_err().to_string()
    }

    #[test]
    fn a_file_of_another_length_than_it_was_made_with_is_refused_and_nothing_is_changed() {
        let scratch = Scratch::new("lengths");
        let folder = scratch.path();
        let mut log = reopened(folder, 0);
        log.append(&[7; 350]).unwrap();
        drop(log);
        let lengths: Vec<u64> = files(folder).unwrap().iter().map(|file| file.length).collect();
        assert!(lengths.len() >= 5, "one is ahead");
        for number in 0..lengths.len() {
            let path = path(folder, 0, number);
            let whole = fs::read(&path).unwrap();
            let longer = [&whole[..], &[0]].concat();
            for bytes in [&whole[..99], &whole[..50], &[], &longer] {
                fs::write(&path, bytes).unwrap();
                let expected = format!("has {} bytes, and was made with 100; nothing was changed", bytes.len());
                assert!(refusal(folder).ends_with(&expected), "{}", refusal(folder));
                assert_eq!(fs::read(&path).unwrap(), bytes);
            }
            fs::write(&path, whole).unwrap();
        }
        assert_goes_on(100, folder, &[7; 350], "whole");
        // so is the first file of a new log
        let mut log = reopened(folder, 451);
        replace(&mut log, &[&[8; 130]]);
        drop(log);
        let first = path(folder, 1, 0);
        OpenOptions::new()
            .write(true)
            .open(&first)
            .unwrap()
            .set_len(100)
            .unwrap();
        assert!(refusal(folder).contains("has 100 bytes, and was made with 200"));
        // files of before are taken as they are, and known then
        fs::remove_file(folder.join("lengths")).unwrap();
        drop(reopened(folder, 100));
        OpenOptions::new()
            .write(true)
            .open(&first)
            .unwrap()
            .set_len(99)
            .unwrap();
        assert!(refusal(folder).contains("has 99 bytes, and was made with 100"));
        fs::write(folder.join("lengths"), "garbage\n").unwrap();
        assert!(refusal(folder).contains("lengths: it isn't what a log has written"));
    }

    #[test]
    fn a_log_that_has_lost_its_end_is_refused_and_nothing_is_changed() {
        let scratch = Scratch::new("least");
        let folder = scratch.path();
        let mut log = reopened(folder, 0);
        log.append(&[7; 350]).unwrap();
        drop(log);
        let cut = |end, generation, least| {
            let least = Position { generation, end: least };
            let mut log = Segments::with_size(folder, 100).at_least(least);
            log.read().unwrap();
            log.cut(end).map_err(|error| error.to_string())
        };
        let text = cut(349, 0, 350).unwrap_err();
        assert!(text.starts_with("the log ends at byte 349 after 0 new logs, and was on disk up to byte 350 after 0"));
        cut(350, 1, 3).unwrap_err();
        assert_found(folder, &[7; 350], "refused");
        cut(350, 0, 350).unwrap();
        cut(350, 0, 349).unwrap();
    }

    #[test]
    fn what_is_cut_off_is_kept() {
        let scratch = Scratch::new("kept");
        let folder = scratch.path();
        let kept = || {
            let names = fs::read_dir(folder)
                .unwrap()
                .map(|it| it.unwrap().file_name().into_string().unwrap());
            let mut names: Vec<String> = names.filter(|it| it.starts_with(CUT)).collect();
            names.sort();
            names
        };
        let mut log = reopened(folder, 0);
        for _ in 0..2 {
            log.append(&[7; 350]).unwrap();
            drop(log);
            log = reopened(folder, 150);
            assert_eq!(kept(), ["cut.000000.000000000150"]);
            let bytes = fs::read(folder.join(&kept()[0])).unwrap();
            assert!(bytes.len() >= 200 && bytes.iter().all(|byte| *byte == 7));
            drop(log);
            assert_found(folder, &[7; 150], "cut");
            log = reopened(folder, 150);
        }
        for count in 1..=10 {
            drop(log);
            log = reopened(folder, count);
            log.append(&[9; 50]).unwrap();
        }
        let last: Vec<String> = [8, 9, 10, 150].map(|end| format!("cut.000000.{end:012}")).to_vec();
        assert_eq!(kept(), last);
    }

    #[test]
    fn what_replaces_a_log_is_appended_to_and_read_over_starts() {
        for size in [100, 8192] {
            let scratch = Scratch::new(&format!("replaced-{size}"));
            let folder = scratch.path();
            let mut all = Vec::new();
            let lengths = [3, size - 1, size, size + 1, 3 * size + 7, 1];
            for (generation, length) in lengths.into_iter().enumerate() {
                let mut log = reopened_with(size, folder, all.len() as u64);
                assert_eq!(log.generation(), 2 * generation as u64);
                log.append(&vec![1; 2 * size as usize]).unwrap();
                replace(&mut log, &[&[2; 5]]);
                all = vec![generation as u8 + 3; length as usize];
                let given_up = log.begin(7).unwrap();
                let mut new = log.begin(length).unwrap();
                drop(given_up);
                let (front, back) = all.split_at(all.len() / 2);
                new.append(front).unwrap();
                log.append(&vec![1; size as usize]).unwrap();
                new.append(back).unwrap();
                log.take_over().unwrap();
                // what comes late is no part of it
                new.append(&[1]).unwrap();
                assert_found(folder, &all, "replaced");
                for count in [1, size + 50] {
                    let bytes = vec![9; count as usize];
                    log.append(&bytes).unwrap();
                    all.extend(bytes);
                }
                drop(log);
                assert_goes_on(size, folder, &all, "appended");
                all.extend(vec![200; size as usize + 1]);
            }
        }
    }

    /// A log is replaced by one of these parts.
    fn replace(log: &mut Segments, parts: &[&[u8]]) {
        let mut new = log.begin(parts.concat().len() as u64).unwrap();
        for part in parts {
            new.append(part).unwrap();
        }
        log.take_over().unwrap();
    }

    fn copy(from: &Path, to: &str) -> Scratch {
        let copy = Scratch::new(to);
        for entry in fs::read_dir(from).unwrap() {
            let path = entry.unwrap().path();
            // (a thread may just give one that is being made its name)
            if path.extension().is_none_or(|it| it != "new") {
                fs::copy(&path, copy.path().join(path.file_name().unwrap())).unwrap();
            }
        }
        copy
    }

    /// A log is replaced: what is in its folder before, and behind each thing that is done there.
    fn steps(mut log: Segments, bytes: &[u8]) -> Vec<Scratch> {
        let folder = log.folder.clone();
        let label = folder.file_name().unwrap().to_string_lossy().into_owned();
        let mut states = Vec::new();
        let mut note = || states.push(copy(&folder, &format!("{label}-{}", states.len())));
        let mut new = log.begin(bytes.len() as u64).unwrap();
        note();
        let (front, back) = bytes.split_at(bytes.len() / 3);
        new.append(front).unwrap();
        note();
        new.append(back).unwrap();
        note();
        log.take_over_step_by_step(&mut note).unwrap();
        states
    }

    /// How many things are done until a new log is written beside the old one, and until it has its name, durably.
    const WRITTEN: usize = 4;
    const PLACED: usize = 6;

    #[test]
    fn a_crash_leaves_the_old_log_or_the_new_one_whole() {
        // the old log is cut, so that files may be ahead that a start has found
        for (size, old, end, new) in [
            (100, 350, 350, 30),
            (100, 350, 120, 777),
            (100, 350, 120, 99),
            (4096, 9000, 9000, 100),
            (4096, 1, 1, 20_000),
        ] {
            let scratch = Scratch::new(&format!("crash-{size}-{end}-{new}"));
            let (old, new) = (vec![7; old], vec![8; new]);
            reopened_with(size, scratch.path(), 0).append(&old).unwrap();
            let log = reopened_with(size, scratch.path(), end as u64);
            let states = steps(log, &new);
            assert_eq!(states.len(), PLACED);
            for (step, state) in (1..).zip(&states) {
                // (the name is there before it is durable)
                let bytes = if step > WRITTEN { &new } else { &old[..end] };
                assert_goes_on(size, state.path(), bytes, &format!("{size}, {end}: step {step}"));
            }
        }
    }

    #[test]
    fn a_new_log_that_is_given_up_leaves_the_old_one() {
        let scratch = Scratch::new("given-up");
        let mut log = reopened(scratch.path(), 0);
        log.append(&[7; 350]).unwrap();
        let mut new = log.begin(30).unwrap();
        new.append(&[8; 30]).unwrap();
        log.give_up();
        new.append(&[8; 30]).unwrap();
        log.take_over().unwrap_err();
        drop(log);
        assert_goes_on(100, scratch.path(), &[7; 350], "given up");
    }

    #[test]
    fn what_a_crash_leaves_of_a_file_aside_is_none_of_the_log() {
        let scratch = Scratch::new("aside");
        let mut log = reopened(scratch.path(), 0);
        log.append(&[7; 350]).unwrap();
        let states = steps(log, &[8; 777]);
        for (step, state) in (1..=WRITTEN).zip(&states) {
            for bytes in [&[][..], &[9; 10], &[8; 400]] {
                fs::write(state.path().join(ASIDE), bytes).unwrap();
                fs::write(state.path().join(NEXT), bytes).unwrap();
                assert_found(state.path(), &[7; 350], &format!("step {step}"));
            }
            assert_goes_on(100, state.path(), &[7; 350], &format!("step {step}"));
        }
    }

    #[test]
    fn a_crash_may_leave_any_files_of_the_old_log() {
        let scratch = Scratch::new("any");
        let mut log = reopened(scratch.path(), 0);
        log.append(&[7; 350]).unwrap();
        let states = steps(log, &[8; 30]);
        let placed = states[PLACED - 1].path();
        let mut old = files(placed).unwrap();
        old.retain(|file| file.generation == 0);
        assert!(!old.is_empty());
        for left in 0..1 << old.len() {
            let state = copy(placed, &format!("any-{left}"));
            for (place, file) in old.iter().enumerate() {
                let path = path(state.path(), 0, file.number);
                match left >> place & 1 {
                    0 => fs::remove_file(path).unwrap(),
                    // (it may have lost its end)
                    _ => fs::write(path, [7; 50]).unwrap(),
                }
            }
            assert_goes_on(100, state.path(), &[8; 30], &format!("files {left:b}"));
        }
    }

    #[test]
    fn what_replaces_a_log_has_the_disk_to_itself_soon() {
        let scratch = Scratch::new("soon");
        let mut log = reopened(scratch.path(), 0);
        log.append(&[7; 350]).unwrap();
        replace(&mut log, &[&[8; 30]]);
        let is_old = |file: &Found| file.generation == 0;
        let until = std::time::Instant::now() + Duration::from_secs(30);
        while files(scratch.path()).unwrap().iter().any(is_old) {
            assert!(std::time::Instant::now() < until);
            thread::sleep(REST);
        }
        drop(log);
        assert_goes_on(100, scratch.path(), &[8; 30], "soon");
    }

    #[test]
    fn a_large_file_of_an_old_log_is_removed_little_by_little() {
        let scratch = Scratch::new("little");
        let large = path(scratch.path(), 0, 0);
        File::create(&large).unwrap().set_len(2 * REMOVED + 5).unwrap();
        fs::write(path(scratch.path(), 0, 1), [7; 100]).unwrap();
        fs::write(path(scratch.path(), 1, 0), [8; 100]).unwrap();
        let mut lengths = Vec::new();
        let mut remove = |most: usize| {
            lengths.clear();
            let note = |count| {
                lengths.push((count, fs::metadata(&large).map_or(0, |it| it.len())));
                lengths.len() < most
            };
            remove_others(scratch.path(), 1, note).unwrap();
            lengths.clone()
        };
        assert_eq!(remove(1), [(REMOVED, REMOVED + 5)]);
        assert_eq!(remove(9), [(REMOVED, 5), (5, 0), (100, 0)]);
        assert_goes_on(100, scratch.path(), &[8; 100], "little");
    }

    #[test]
    fn a_new_log_that_has_lost_its_first_file_is_not_the_old_one() {
        let scratch = Scratch::new("lost");
        let mut log = reopened(scratch.path(), 0);
        log.append(&[7; 350]).unwrap();
        let state = &steps(log, &[8; 130])[PLACED - 1];
        fs::write(path(state.path(), 1, 1), [0; 100]).unwrap();
        fs::remove_file(path(state.path(), 1, 0)).unwrap();
        let error = Segments::new(state.path()).read().unwrap_err();
        assert!(error.to_string().ends_with("log.000001.000000 is missing"), "{error}");
    }

    #[test]
    fn files_are_made_until_the_last_one() {
        let scratch = Scratch::new("last");
        let ahead = Ahead::start(scratch.path(), 0, 0, 100, Arc::default()).unwrap();
        // as if its thread hadn't noticed yet that the first one was taken
        ahead.end_with(1);
        ahead.next().unwrap();
        ahead.next().unwrap();
        ahead.next().unwrap_err();
        assert_eq!(files(scratch.path()).unwrap().len(), 2);
    }

    /// A thread that finds no room for a file.
    fn full() -> Ahead {
        let (to, ready) = sync_channel(0);
        let tell = move || drop(to.send(Err(io::ErrorKind::StorageFull.into())));
        Ahead {
            ready: Some(ready),
            last: Arc::default(),
            thread: Some(thread::spawn(tell)),
        }
    }

    #[test]
    fn on_a_full_disk_a_new_log_has_the_file_that_is_ready() {
        for (new, has_room) in [(100, true), (4096, true), (5000, false)] {
            let scratch = Scratch::new(&format!("full-{new}"));
            let mut log = reopened_with(4096, scratch.path(), 0);
            log.append(&[7; 4000]).unwrap();
            assert_eq!(log.set_aside(new).is_ok(), has_room);
            log.append(&[7; 96]).unwrap();
            drop(log);
            assert_goes_on(4096, scratch.path(), &[7; 4096], "full");
        }
    }

    #[test]
    fn on_a_disk_so_full_that_no_file_is_ready_there_is_no_new_log() {
        let scratch = Scratch::new("fuller");
        let mut log = reopened_with(16384, scratch.path(), 0);
        log.append(&[7; 10_000]).unwrap();
        log.ahead = Some(full());
        log.set_aside(100).map(drop).unwrap_err();
        drop(log);
        assert_goes_on(16384, scratch.path(), &[7; 10_000], "full");
    }

    #[test]
    fn a_log_that_cannot_be_replaced_is_the_old_one() {
        let scratch = Scratch::new("failed");
        let mut log = reopened(scratch.path(), 0);
        log.append(&[7; 350]).unwrap();
        // nothing gets the name of a folder that isn't empty
        let taken = path(scratch.path(), 1, 0);
        fs::create_dir(&taken).unwrap();
        fs::write(taken.join("file"), "").unwrap();
        log.begin(30).unwrap().append(&[8; 30]).unwrap();
        log.take_over().unwrap_err();
        drop(log);
        fs::remove_dir_all(taken).unwrap();
        assert_goes_on(100, scratch.path(), &[7; 350], "failed");
    }
}
