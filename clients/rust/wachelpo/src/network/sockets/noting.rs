//! What is to be on disk before a handshake goes on, and positions, which are noted now and then.

use super::{Close, Knock, Role, Socket, Sockets, Step};
use crate::disk::{Note, Notes};
use crate::NodeId;
use std::time::{Duration, Instant};

/// How often positions are noted that have changed.
const NOTED: Duration = Duration::from_secs(1);

/// A note for which a connection waits.
pub(super) struct Wanted {
    slot: usize,
    /// When the connection was made: another one may have its slot by then.
    since: Instant,
    note: Note,
}

/// The notes of this node.
#[derive(Default)]
pub(super) struct Desk {
    /// As they are on disk, but for positions.
    pub notes: Notes,
    /// What is to be written next, and what is on its way.
    wanted: Vec<Wanted>,
    writing: Vec<Wanted>,
    /// The notes that are on their way, and those that were written last.
    next: Notes,
    last: Notes,
}

impl Desk {
    pub fn new(notes: Notes) -> Self {
        Desk {
            last: notes.clone(),
            notes,
            ..Desk::default()
        }
    }

    /// Whether it is being noted that another node is heard.
    pub fn is_noting(&self, node: NodeId) -> bool {
        let mut all = self.wanted.iter().chain(&self.writing);
        all.any(|it| matches!(it.note, Note::Heard(of, _) if of == node))
    }
}

impl Sockets {
    /// A connection waits for a note.
    pub(super) fn want(&mut self, slot: usize, note: Note) {
        let Some(socket) = &self.slots[slot] else { return };
        let since = socket.since;
        self.desk.wanted.push(Wanted { slot, since, note });
        self.write_notes();
    }

    /// Writes all that is wanted, unless notes are on their way.
    fn write_notes(&mut self) {
        if self.noting.is_busy() {
            return;
        }
        let desk = &mut self.desk;
        desk.writing.append(&mut desk.wanted);
        desk.next = desk.notes.clone();
        desk.writing.iter().for_each(|it| desk.next.note(it.note.clone()));
        self.noting.write(desk.next.to_text());
    }

    /// Notes how far logs are on disk, if it is time for that.
    pub(super) fn note_positions(&mut self, now: Instant) {
        if now.saturating_duration_since(self.noted) >= NOTED {
            self.noted = now;
            self.desk.notes.log = self.setup.metrics.log();
            if self.desk.notes != self.desk.last {
                self.write_notes();
            }
        }
    }

    /// Goes on with what has waited for notes, once they are written.
    pub(super) fn notes_are_written(&mut self) {
        let Some(result) = self.noting.written() else { return };
        let desk = &mut self.desk;
        let written = std::mem::take(&mut desk.writing);
        if result.is_ok() {
            desk.last = std::mem::take(&mut desk.next);
            written.iter().for_each(|it| desk.notes.note(it.note.clone()));
        }
        for Wanted { slot, since, note } in written {
            if self.slots[slot].as_ref().is_none_or(|it| it.since != since) {
                continue;
            }
            let went_on = match &result {
                Ok(()) => self.go_on(slot, &note),
                Err(error) => Err(Close(Some(format!("it can't be noted: {error}")))),
            };
            if let Err(Close(why)) = went_on {
                self.close(slot, why);
            }
        }
        if !self.desk.wanted.is_empty() {
            self.write_notes();
        }
    }

    fn go_on(&mut self, slot: usize, note: &Note) -> Result<(), Close> {
        match (&self.slots[slot], note) {
            (
                Some(Socket {
                    role:
                        Role::Link {
                            step: Step::Noting(asked),
                            ..
                        },
                    ..
                }),
                Note::Told(..),
            ) => self.prove(slot, *asked, None),
            (
                Some(Socket {
                    role: Role::Stranger(Knock::Noted(asked)),
                    ..
                }),
                Note::Heard(from, _),
            ) => self.admit(slot, *asked, *from),
            _ => {}
        }
        Ok(())
    }
}
