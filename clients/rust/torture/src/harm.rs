//! Harms the files of nodes that don't run, and starts them on old copies, and twice. A node that is started so is to tell it, and to end.

use crate::cluster::Cluster;
use crate::random::Random;
use std::fs;
use std::io;
use std::path::{Path, PathBuf};
use std::thread;
use std::time::{Duration, Instant};

/// What is done to a folder.
#[derive(Clone, Copy, PartialEq, Eq, Debug)]
pub enum Harm {
    /// A bit of the log is another one, in its first half, so that records follow that are whole.
    Bit,
    /// A page there is zeros.
    Page,
    /// The first bytes of the log are another log's.
    Begin,
    /// A file of the log is missing.
    Missing,
    /// A part of a file that says whose the folder is.
    Identity,
    /// What is known of other nodes is garbage.
    Peers,
    /// All files are gone.
    Emptied,
    /// It is another node's folder.
    Swapped,
    /// A file of the log is shorter than it was made.
    Shorter,
    /// A file of the log is longer.
    Longer,
    /// The log has lost its end, from half of what was noted to be on disk.
    Tail,
    /// It is an old copy, from before a start of which others have heard.
    Copy,
    /// A second process runs on such a copy, beside the first one.
    Second,
}

/// What came of a harm.
pub struct Came {
    /// Whether it was done: not to a log that is too short.
    pub is_done: bool,
    /// Whether the node told it, and ended.
    pub is_told: bool,
    /// Other nodes that ended meanwhile.
    pub others: Vec<u64>,
}

const LONG: Duration = Duration::from_secs(60);
/// How long a node's admission may take that isn't held up.
const SOON: Duration = Duration::from_secs(10);
const PAGE: usize = 4096;

impl Harm {
    pub fn any(random: &mut Random) -> Self {
        [
            Harm::Bit,
            Harm::Bit,
            Harm::Page,
            Harm::Page,
            Harm::Begin,
            Harm::Missing,
            Harm::Identity,
            Harm::Peers,
            Harm::Emptied,
            Harm::Swapped,
            Harm::Shorter,
            Harm::Longer,
            Harm::Tail,
            Harm::Copy,
            Harm::Copy,
            Harm::Second,
        ][random.below(16) as usize]
    }

    /// Does it to a folder; `other` is that of another node. Whether it could be done.
    fn harm(self, folder: &Path, other: &Path, random: &mut Random) -> io::Result<bool> {
        let log = files_of_log(folder)?;
        match self {
            Harm::Bit | Harm::Page | Harm::Begin => {
                // the first file of a new folder is empty
                let Some(log) = log.iter().find(|path| fs::metadata(path).is_ok_and(|it| it.len() > 0)) else {
                    return Ok(false);
                };
                let mut bytes = fs::read(log)?;
                let end = bytes.iter().rposition(|byte| *byte != 0).map_or(0, |last| last + 1);
                if end < 8 * PAGE {
                    return Ok(false);
                }
                let place = random.below(end as u64 / 2) as usize;
                match self {
                    Harm::Bit => bytes[place] ^= 1 << random.below(8),
                    Harm::Page => bytes[place / PAGE * PAGE..][..PAGE].fill(0),
                    _ => bytes[..32].reverse(),
                }
                fs::write(log, bytes)?;
            }
            Harm::Missing => match log.first() {
                Some(first) => fs::remove_file(first)?,
                None => return Ok(false),
            },
            Harm::Identity => {
                let text = fs::read(folder.join("identity"))?;
                fs::write(folder.join("identity"), &text[..text.len() / 2])?;
            }
            Harm::Peers => fs::write(folder.join("peers"), b"\xff\0garbage")?,
            Harm::Emptied => {
                fs::remove_dir_all(folder)?;
                fs::create_dir(folder)?;
            }
            Harm::Swapped => {
                fs::remove_dir_all(folder)?;
                copy(other, folder)?;
            }
            Harm::Shorter | Harm::Longer => {
                let place = random.below(log.len().max(1) as u64) as usize;
                let Some(path) = log.get(place) else { return Ok(false) };
                let length = fs::metadata(path)?.len();
                let file = fs::OpenOptions::new().write(true).open(path)?;
                match self {
                    Harm::Longer => file.set_len(length + PAGE as u64)?,
                    _ if length == 0 => return Ok(false),
                    _ => file.set_len(length - PAGE as u64 * (1 + random.below(length / PAGE as u64)))?,
                }
            }
            Harm::Tail => return lose_end(folder, &log),
            // (these are another matter)
            Harm::Copy | Harm::Second => return Ok(false),
        }
        Ok(true)
    }
}

/// Zeroes a log from half of what was noted to be on disk, if something was noted of it.
fn lose_end(folder: &Path, log: &[PathBuf]) -> io::Result<bool> {
    let notes = fs::read_to_string(folder.join("peers")).unwrap_or_default();
    let noted = notes
        .lines()
        .find_map(|line| line.strip_prefix("log ")?.split_once(' '));
    let noted = noted.and_then(|(generation, end)| Some((generation.parse::<u64>().ok()?, end.parse::<u64>().ok()?)));
    let newest = log.first().and_then(|path| place(path.file_name()?.to_str()?));
    let (Some((noted, end)), Some((newest, _))) = (noted, newest) else {
        return Ok(false);
    };
    if noted != newest || end < 8 * PAGE as u64 {
        return Ok(false);
    }
    let mut start = 0;
    for path in log {
        let mut bytes = fs::read(path)?;
        let from = (end / 2).saturating_sub(start).min(bytes.len() as u64);
        start += bytes.len() as u64;
        bytes[from as usize..].fill(0);
        fs::write(path, bytes)?;
    }
    Ok(true)
}

/// How often a log was replaced by the one that a file is of, and which of its files that is.
fn place(name: &str) -> Option<(u64, u64)> {
    let numbers = name.strip_prefix("log.")?;
    let (generation, number) = numbers.split_once('.').unwrap_or(("0", numbers));
    Some((generation.parse().ok()?, number.parse().ok()?))
}

/// The files of a folder's newest log, in their order.
fn files_of_log(folder: &Path) -> io::Result<Vec<PathBuf>> {
    let mut files = Vec::new();
    for entry in fs::read_dir(folder)? {
        let entry = entry?;
        files.extend(entry.file_name().to_str().and_then(place).map(|it| (it, entry.path())));
    }
    files.sort();
    let newest = files.last().map(|((generation, _), _)| *generation);
    files.retain(|((generation, _), _)| Some(*generation) == newest);
    Ok(files.into_iter().map(|(_, path)| path).collect())
}

/// Copies a folder of a node, which may run: a file that is being made gets its name once it is whole, and those of an old log go.
fn copy(from: &Path, to: &Path) -> io::Result<()> {
    fs::create_dir(to)?;
    for entry in fs::read_dir(from)? {
        let name = entry?.file_name();
        if !name.to_string_lossy().ends_with(".new") {
            match fs::copy(from.join(&name), to.join(&name)) {
                Err(error) if error.kind() != io::ErrorKind::NotFound => return Err(error),
                _ => {}
            }
        }
    }
    Ok(())
}

/// Starts a node, and waits until it has ended with an error.
fn is_told(cluster: &mut Cluster, id: u64, others: &mut Vec<u64>) -> io::Result<bool> {
    let told = cluster.errors_of(id);
    let before = fs::metadata(&told)?.len();
    cluster.start(id)?;
    let until = Instant::now() + LONG;
    while Instant::now() < until {
        let (this, other): (Vec<u64>, Vec<u64>) = cluster.ended().into_iter().partition(|ended| *ended == id);
        others.extend(other);
        if !this.is_empty() {
            let text = fs::read(&told)?.split_off(before as usize);
            // (it was asked for, so it isn't told at the end)
            fs::OpenOptions::new().write(true).open(&told)?.set_len(before)?;
            return Ok(String::from_utf8_lossy(&text).contains("level=error"));
        }
        thread::sleep(Duration::from_millis(20));
    }
    Ok(false)
}

/// Starts a node, and waits until all others that run have admitted it: whether that was so soon, and there are any.
fn is_admitted(cluster: &mut Cluster, id: u64) -> io::Result<bool> {
    let others = cluster
        .ids
        .iter()
        .filter(|it| **it != id && cluster.is_running(**it))
        .count();
    let before = cluster.admissions(id);
    cluster.start(id)?;
    let until = Instant::now() + SOON;
    while others > 0 && Instant::now() < until {
        if cluster.admissions(id) >= before + others {
            return Ok(true);
        }
        thread::sleep(Duration::from_millis(20));
    }
    Ok(false)
}

/// Starts a node on a copy from before its last start, in its place or beside it; once the copy has ended by that, all is as before.
fn run_on_copy(cluster: &mut Cluster, harm: Harm, id: u64, random: &mut Random, came: &mut Came) -> io::Result<()> {
    let (folder, old) = (cluster.folder(id), cluster.folder(id).with_extension("old"));
    let ran = cluster.is_running(id);
    cluster.kill(id)?;
    copy(&folder, &old)?;
    came.is_done = is_admitted(cluster, id)?;
    // others may have been started since, too
    let other = 1 + (id + random.below(cluster.ids.len() as u64 - 1)) % cluster.ids.len() as u64;
    if came.is_done && random.below(2) == 0 && cluster.is_running(other) {
        cluster.kill(other)?;
        came.is_done = is_admitted(cluster, other)?;
    }
    if came.is_done && harm == Harm::Copy {
        let kept = folder.with_extension("kept");
        cluster.kill(id)?;
        fs::rename(&folder, &kept)?;
        fs::rename(&old, &folder)?;
        // (also at its second start)
        came.is_told = is_told(cluster, id, &mut came.others)? && is_told(cluster, id, &mut came.others)?;
        cluster.kill(id)?;
        fs::remove_dir_all(&folder)?;
        fs::rename(&kept, &folder)?;
    } else if came.is_done {
        let errors = folder.with_extension("second");
        let mut second = cluster.start_copy(id, &old, &cluster.ids, &errors)?;
        let until = Instant::now() + LONG;
        while second.try_wait()?.is_none() && Instant::now() < until {
            thread::sleep(Duration::from_millis(20));
        }
        came.is_told = second.try_wait()?.is_some() && fs::read_to_string(&errors)?.contains("level=error");
        let _ = second.kill();
        second.wait()?;
        // the first one goes on
        came.others.extend(cluster.ended());
    }
    cluster.kill(id)?;
    let _ = fs::remove_dir_all(&old);
    if ran {
        cluster.start(id)?;
    }
    Ok(())
}

/// Kills a node, harms its folder, and starts it; once it has ended by that, it gets its folder back.
pub fn suffer(cluster: &mut Cluster, harm: Harm, id: u64, random: &mut Random) -> io::Result<Came> {
    let mut came = Came {
        is_done: false,
        is_told: false,
        others: Vec::new(),
    };
    if matches!(harm, Harm::Copy | Harm::Second) && cluster.folder(id).join("identity").exists() {
        run_on_copy(cluster, harm, id, random, &mut came)?;
        return Ok(came);
    }
    let (folder, kept) = (cluster.folder(id), cluster.folder(id).with_extension("kept"));
    let other = cluster.folder(1 + id % cluster.ids.len() as u64);
    if !folder.join("identity").exists() || !other.join("identity").exists() {
        return Ok(came);
    }
    let ran = cluster.is_running(id);
    cluster.kill(id)?;
    copy(&folder, &kept)?;
    came.is_done = harm.harm(&folder, &other, random)?;
    if came.is_done {
        came.is_told = is_told(cluster, id, &mut came.others)?;
        cluster.kill(id)?;
    }
    fs::remove_dir_all(&folder)?;
    fs::rename(&kept, &folder)?;
    if ran {
        cluster.start(id)?;
    }
    Ok(came)
}
