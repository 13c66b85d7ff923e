//! The thread that writes a node's notes, so that nobody waits for the disk meanwhile.

use crate::disk::Folder;
use crate::Error;
use std::io;
use std::sync::mpsc::{channel, Receiver, Sender};
use std::thread::{self, JoinHandle};

/// A folder whose notes are written. It is free again once this value is gone.
pub(crate) struct Noting {
    /// None once it is to end.
    texts: Option<Sender<String>>,
    written: Receiver<io::Result<()>>,
    is_busy: bool,
    thread: Option<JoinHandle<()>>,
}

impl Noting {
    /// Starts the thread, which calls `wake` each time that notes are written.
    pub fn start(folder: Folder, wake: impl Fn() + Send + 'static) -> Result<Self, Error> {
        let ((texts, to_write), (done, written)) = (channel::<String>(), channel());
        let work = move || {
            for text in to_write {
                let _ = done.send(folder.write_notes(&text));
                wake();
            }
        };
        let thread = thread::Builder::new().name("notes".into()).spawn(work);
        Ok(Noting {
            texts: Some(texts),
            written,
            is_busy: false,
            thread: Some(thread.map_err(Error::Io)?),
        })
    }

    /// Whether notes are on their way to the disk.
    pub fn is_busy(&self) -> bool {
        self.is_busy
    }

    /// Writes them; nothing else is on its way.
    pub fn write(&mut self, text: String) {
        // (the thread ends with this value)
        self.is_busy = self.texts.as_ref().is_some_and(|texts| texts.send(text).is_ok());
    }

    /// What came of those that were on their way, once they are written.
    pub fn written(&mut self) -> Option<io::Result<()>> {
        let written = self.written.try_recv().ok()?;
        self.is_busy = false;
        Some(written)
    }
}

impl Drop for Noting {
    fn drop(&mut self) {
        self.texts = None;
        if let Some(thread) = self.thread.take() {
            let _ = thread.join();
        }
    }
}
