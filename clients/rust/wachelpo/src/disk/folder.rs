//! The folder of a node: whose it is, and who uses it.

use crate::disk::files::first_file;
use crate::disk::{Notes, Segments, Start};
use crate::{FolderError, NodeId};
use std::fs::{self, File, OpenOptions, TryLockError};
use std::io::{self, Write};
use std::path::{Path, PathBuf};

/// What a node says of its folder and its start, so that another one can tell an old copy of it.
#[derive(Clone, Copy, PartialEq, Eq, Default, Debug)]
pub struct Presence {
    /// A number that was drawn when the folder was made.
    pub folder: u64,
    /// How many starts others may know, up to this one.
    pub starts: u64,
    /// A number that was drawn at this start.
    pub run: u64,
}

impl Presence {
    pub(crate) fn start(&self) -> Start {
        Start {
            number: self.starts,
            run: self.run,
        }
    }
}

/// The folder of a node, which no other process uses meanwhile.
///
/// It has `identity` (whose it is), `peers` (which folders and starts other nodes have, and by which they know this one), the files of the
/// log ([`Segments`]), `begun` (once the log had anything), and `lock`.
pub struct Folder {
    path: PathBuf,
    presence: Presence,
    notes: Notes,
    _lock: File,
}

/// Replaces a file: whenever the machine stops, all of it is there, or the one before.
pub(super) fn replace(folder: &Path, name: &str, text: &str) -> io::Result<()> {
    let new = folder.join(format!("{name}.new"));
    let mut file = File::create(&new)?;
    file.write_all(text.as_bytes())?;
    file.sync_all()?;
    fs::rename(&new, folder.join(name))?;
    File::open(folder)?.sync_all()
}

/// Makes a folder, and those above it: once this returns, all of them are there durably.
fn make(path: &Path) -> io::Result<()> {
    let is_new = |it: &&Path| !it.as_os_str().is_empty() && !it.exists();
    let above = path.ancestors().skip(1);
    let made = above.clone().take_while(is_new).count();
    fs::create_dir_all(path)?;
    for folder in above.take(made + 1) {
        // (above a name alone is where the process stands)
        let folder = if folder.as_os_str().is_empty() {
            Path::new(".")
        } else {
            folder
        };
        File::open(folder)?.sync_all()?;
    }
    Ok(())
}

/// What the file `identity` says.
struct Identity {
    node: NodeId,
    cluster: String,
    folder: u64,
}

impl Identity {
    fn to_text(&self) -> String {
        let Identity { node, cluster, folder } = self;
        format!("format 2\nnode {node}\nfolder {folder:016x}\ncluster {cluster}\n")
    }

    fn of_text(text: &str) -> Option<Self> {
        let mut lines = text.lines();
        let mut value = |name: &str| lines.next()?.strip_prefix(name)?.strip_prefix(' ');
        let format = value("format").filter(|format| ["1", "2"].contains(format))?;
        let node = NodeId(value("node")?.parse().ok()?);
        let folder = u64::from_str_radix(value("folder")?, 16).ok()?;
        if format == "1" {
            value("starts")?;
        }
        let cluster = value("cluster")?.to_string();
        Some(Identity { node, cluster, folder })
    }
}

/// The file of a node's notes.
const NOTES: &str = "peers";

fn damaged(path: &Path, name: &str) -> FolderError {
    FolderError::Damaged(path.join(name), "it isn't what a node has written".into())
}

/// The text of a file, if it is there.
fn text_of(path: &Path, name: &str) -> Result<Option<String>, FolderError> {
    match fs::read_to_string(path.join(name)) {
        Ok(text) => Ok(Some(text)),
        Err(error) if error.kind() == io::ErrorKind::NotFound => Ok(None),
        Err(error) if error.kind() == io::ErrorKind::InvalidData => Err(damaged(path, name)),
        Err(error) => Err(FolderError::Io(path.to_path_buf(), error)),
    }
}

/// Locks a folder, as long as the file is open.
fn lock(path: &Path) -> Result<File, FolderError> {
    let failed = |error| FolderError::Io(path.to_path_buf(), error);
    let lock = OpenOptions::new()
        .create(true)
        .truncate(false)
        .write(true)
        .open(path.join("lock"))
        .map_err(failed)?;
    match lock.try_lock() {
        Ok(()) => Ok(lock),
        Err(TryLockError::WouldBlock) => Err(FolderError::Locked(path.to_path_buf())),
        Err(TryLockError::Error(error)) => Err(failed(error)),
    }
}

impl Folder {
    /// Makes the folder of a new node: one that isn't there, or is empty. A folder that has lost its files, or another one for the
    /// same node, isn't a new node's: what the node has promised is lost with it, so it gets a new id.
    pub fn create(path: &Path, node: NodeId, cluster: &str) -> Result<(), FolderError> {
        let failed = |error| FolderError::Io(path.to_path_buf(), error);
        make(path).map_err(failed)?;
        if fs::read_dir(path).map_err(failed)?.next().is_some() {
            return Err(FolderError::NotEmpty(path.to_path_buf()));
        }
        let identity = Identity {
            node,
            cluster: cluster.to_string(),
            folder: crate::random().map_err(failed)?,
        };
        // (of two that make it at once one fails here: the other one's log may have something already)
        File::create_new(path.join("log.000000")).map_err(failed)?;
        replace(path, "identity", &identity.to_text()).map_err(failed)
    }

    /// Opens the folder of a node. Its start counts once another node admits it.
    pub fn open(path: &Path, node: NodeId, cluster: &str) -> Result<Self, FolderError> {
        let failed = |error| FolderError::Io(path.to_path_buf(), error);
        let is_empty = || FolderError::Empty(path.to_path_buf());
        // (no file is made in a folder that isn't a node's)
        if !path.join("identity").try_exists().map_err(failed)? {
            return Err(is_empty());
        }
        let lock = lock(path)?;
        let text = text_of(path, "identity")?.ok_or_else(is_empty)?;
        let identity = Identity::of_text(&text).ok_or_else(|| damaged(path, "identity"))?;
        if (identity.node, &identity.cluster[..]) != (node, cluster) {
            let whose = format!("node {} of cluster {}", identity.node, identity.cluster);
            return Err(FolderError::Foreign(path.to_path_buf(), whose));
        }
        let first = first_file(path).map_err(failed)?;
        if !first.exists() {
            return Err(FolderError::Damaged(first, "the log is missing".into()));
        }
        let notes = match text_of(path, NOTES)? {
            None => Notes::default(),
            Some(text) => Notes::of_text(&text).ok_or_else(|| damaged(path, NOTES))?,
        };
        let presence = Presence {
            folder: identity.folder,
            starts: notes.last_start() + 1,
            // (0 stands for no run)
            run: crate::random().map_err(failed)?.max(1),
        };
        Ok(Folder {
            path: path.to_path_buf(),
            presence,
            notes,
            _lock: lock,
        })
    }

    /// The log in the folder. It is refused if it ends before a place up to which it was noted to be on disk.
    pub fn log(&self) -> Segments {
        Segments::new(&self.path).at_least(self.notes.log)
    }

    /// The log in the folder, in files that suit one that is replaced after so many bytes ([`Builder::log_bytes`](crate::Builder::log_bytes)).
    pub fn log_for(&self, log_bytes: u64) -> Segments {
        Segments::for_length(&self.path, log_bytes).at_least(self.notes.log)
    }

    /// What this node says of itself.
    pub fn presence(&self) -> Presence {
        self.presence
    }

    /// What was noted when it was opened.
    pub(crate) fn notes(&self) -> &Notes {
        &self.notes
    }

    /// Writes notes: whenever the machine stops, all of them are there, or those before.
    pub(crate) fn write_notes(&self, text: &str) -> io::Result<()> {
        replace(&self.path, NOTES, text)
    }
}

#[cfg(test)]
mod tests {
    use super::*;
    use crate::disk::Disk;
    use crate::scratch::Scratch;

    const NODE: NodeId = NodeId(3);

    fn refusal(path: &Path, node: NodeId, cluster: &str) -> String {
        match Folder::open(path, node, cluster) {
            Ok(_) => "opened".into(),
            Err(error) => error.to_string(),
        }
    }

    #[test]
    fn a_folder_is_made_once_and_opened_by_one() {
        let scratch = Scratch::new("folder");
        let path = scratch.path();
        assert!(refusal(path, NODE, "a").contains("no node's files are here"));
        Folder::create(path, NODE, "a").unwrap();
        assert!(matches!(Folder::create(path, NODE, "a"), Err(FolderError::NotEmpty(_))));
        assert!(refusal(path, NodeId(4), "a").ends_with("the folder of node 3 of cluster a"));
        assert!(refusal(path, NODE, "b").ends_with("the folder of node 3 of cluster a"));
        let first = Folder::open(path, NODE, "a").unwrap();
        assert!(refusal(path, NODE, "a").contains("another process"));
        let run = first.presence().run;
        drop(first);
        fs::remove_file(path.join("log.000000")).unwrap();
        assert!(refusal(path, NODE, "a").ends_with("the log is missing"));
        fs::write(path.join("log.000000"), []).unwrap();
        let second = Folder::open(path, NODE, "a").unwrap();
        assert_ne!(second.presence().run, run);
        let mut log = second.log_for(0);
        log.read().unwrap();
        log.cut(0).unwrap();
        log.begin(3).unwrap().append(b"new").unwrap();
        log.take_over().unwrap();
        drop((log, second));
        let third = Folder::open(path, NODE, "a").unwrap();
        assert!(third.log().read().unwrap().starts_with(b"new\0"));
        drop(third);
        fs::remove_file(path.join("log.000001.000000")).unwrap();
        assert!(refusal(path, NODE, "a").ends_with("log.000001.000000: the log is missing"));
        fs::write(path.join("identity"), "node 3\n").unwrap();
        assert!(refusal(path, NODE, "a").contains("identity: it isn't what a node has written"));
    }

    #[test]
    fn notes_are_read_at_the_next_start() {
        let scratch = Scratch::new("notes");
        let path = scratch.path();
        Folder::create(path, NODE, "a").unwrap();
        let folder = Folder::open(path, NODE, "a").unwrap();
        let mut notes = folder.notes().clone();
        assert_eq!(notes, Notes::default());
        notes.log.end = 7;
        // nothing is written into a folder's name
        let taken = path.join("peers.new");
        fs::create_dir(&taken).unwrap();
        folder.write_notes(&notes.to_text()).unwrap_err();
        fs::remove_dir(taken).unwrap();
        folder.write_notes(&notes.to_text()).unwrap();
        drop(folder);
        // a folder of before may say how often it was started
        let text = fs::read_to_string(path.join("identity")).unwrap();
        let old = text
            .replace("format 2", "format 1")
            .replace("cluster", "starts 3\ncluster");
        fs::write(path.join("identity"), old).unwrap();
        assert_eq!(Folder::open(path, NODE, "a").unwrap().notes(), &notes);
        fs::write(path.join("peers"), "format 2\n").unwrap();
        assert!(refusal(path, NODE, "a").contains("peers: it isn't what a node has written"));
    }
}
