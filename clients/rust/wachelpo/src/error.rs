//! Why something isn't done.

use crate::NodeId;
use std::path::PathBuf;
use std::{error, fmt, io};

/// Why a node doesn't start, or doesn't go on.
#[derive(Debug)]
#[non_exhaustive]
pub enum Error {
    /// The settings aren't those of a node: the text says which.
    Settings(String),
    /// The log is damaged, or another node's: the text says at which byte. Nothing of it was changed.
    DamagedLog(String),
    /// The service refuses what it was asked for: the text says why. Nothing was changed.
    Refused(String),
    /// The service has stopped, and says nothing any more: the text says why.
    Stopped(String),
    /// The folder of a node can't be used.
    Folder(FolderError),
    /// The log can't be read, or bytes of it may not be on disk. The node doesn't go on: what it would do rests on them.
    Disk(io::Error),
    /// A socket can't be bound, or no thread can be started.
    Io(io::Error),
    /// Another node leads, or none, as far as this one knows.
    NotLeader(Option<NodeId>),
    /// Another node refuses this one, for what it has lost: the text says why. It doesn't go on: what it promised isn't in its folder.
    KeptOut(NodeId, String),
    /// The node has ended.
    Ended,
}

/// Why the folder of a node can't be used.
#[derive(Debug)]
#[non_exhaustive]
pub enum FolderError {
    /// It has no node's files. A new node's folder is made on purpose, so that one that has lost its files isn't taken for new.
    Empty(PathBuf),
    /// It has files already: no new node is begun in it.
    NotEmpty(PathBuf),
    /// Another process uses it.
    Locked(PathBuf),
    /// It is that of another node, or of another cluster: the text says of which.
    Foreign(PathBuf, String),
    /// A file in it isn't what it should be: the text says which, and how.
    Damaged(PathBuf, String),
    /// It can't be read or written.
    Io(PathBuf, io::Error),
}

impl fmt::Display for Error {
    fn fmt(&self, f: &mut fmt::Formatter<'_>) -> fmt::Result {
        match self {
            Error::Settings(text) => write!(f, "settings: {text}"),
            Error::DamagedLog(text) => write!(f, "log: {text}; nothing was changed"),
            Error::Refused(text) => write!(f, "refused: {text}"),
            Error::Stopped(text) => write!(f, "stopped: {text}"),
            Error::Folder(error) => error.fmt(f),
            Error::Disk(error) => write!(f, "disk: {error}"),
            Error::Io(error) => error.fmt(f),
            Error::NotLeader(Some(id)) => write!(f, "node {id} leads"),
            Error::NotLeader(None) => write!(f, "no leader is known"),
            Error::KeptOut(by, why) => write!(
                f,
                "node {by} refuses this node: {why}; this folder can't be used any more, and a node of a new id takes its place"
            ),
            Error::Ended => write!(f, "the node has ended"),
        }
    }
}

impl fmt::Display for FolderError {
    fn fmt(&self, f: &mut fmt::Formatter<'_>) -> fmt::Result {
        match self {
            FolderError::Empty(path) => {
                write!(
                    f,
                    "{}: no node's files are here; a new node is begun with --new",
                    path.display()
                )
            }
            FolderError::NotEmpty(path) => {
                write!(f, "{}: files are here already, so no new node is begun", path.display())
            }
            FolderError::Locked(path) => write!(f, "{}: another process uses this folder", path.display()),
            FolderError::Foreign(path, whose) => write!(f, "{}: the folder of {whose}", path.display()),
            FolderError::Damaged(path, how) => write!(f, "{}: {how}", path.display()),
            FolderError::Io(path, error) => write!(f, "{}: {error}", path.display()),
        }
    }
}

impl error::Error for Error {
    fn source(&self) -> Option<&(dyn error::Error + 'static)> {
        match self {
            Error::Folder(error) => Some(error),
            Error::Disk(error) | Error::Io(error) => Some(error),
            _ => None,
        }
    }
}

impl error::Error for FolderError {
    fn source(&self) -> Option<&(dyn error::Error + 'static)> {
        match self {
            FolderError::Io(_, error) => Some(error),
            _ => None,
        }
    }
}

impl From<FolderError> for Error {
    fn from(error: FolderError) -> Self {
        Error::Folder(error)
    }
}
