//! What nodes note of one another, so that none counts for what it has lost.
//!
//! # Which start of a node counts
//!
//! A node that runs on an old copy of its folder, beside another process on a copy, or on a log that has lost its end, has forgotten what it
//! promised. So each start draws a number, its *run*, and two notes are on disk before anybody relies on a start:
//! - whoever connects to a node notes that it tells that node of its run: so its folder has each run by which that node may know it;
//! - whoever admits a node notes by which folder and run it knows it now, and up to where its log was heard to be on disk.
//!
//! Between the two, whoever accepts says by which run it knows the other one, and this one says whether its folder has that run. It is admitted
//! if nothing was known of it, or if its folder is the same one and has that run, and its log reaches as far as was heard ([`verdict`]).
//!
//! *Why that is enough.* What is known moves from one run to a later one alone, and only to one whose folder has the one before. A copy that was
//! taken before a run was told hasn't that run, however often it is started: its own starts are known to nobody who refuses them. Of two
//! processes on copies of one folder the first one is admitted; the other one hasn't its run. A copy that has the run is as old as the log that
//! was heard of, or its log is shorter. A crash between any two notes leaves a folder with a run more than is known, which refuses nothing:
//! runs are forgotten once the other node has said that it knows a later one. So a node may be away for any number of starts. Starts are
//! numbered, too: whoever is known by an earlier start than the other node has said to know is right, and the other one is the old copy.
//!
//! *What nobody can see.* A promise of which all who have heard are away; two processes on copies, as long as each reaches others alone, which
//! don't hear one another; what was heard in the last second before a crash of who heard it (positions are noted that often).

use crate::disk::{Position, Presence};
use crate::network::Refusal;
use crate::NodeId;
use std::collections::BTreeMap;
use std::fmt::Write;

/// The first line of the file, and the last one, so that a part of it isn't read as the whole.
const FORMAT: &str = "format 2";
const END: &str = "end";

/// How many runs are remembered that another node was told of, and hasn't said to know.
const MOST: usize = 1000;

/// A start of a node, of which others may know.
#[derive(Clone, Copy, PartialEq, Eq, Default, Debug)]
pub(crate) struct Start {
    pub number: u64,
    /// None is 0: it stands for no start.
    pub run: u64,
}

/// Why a folder hasn't the start by which another node knows it.
#[derive(Clone, Copy, PartialEq, Eq, Debug)]
pub(crate) enum Lack {
    /// The folder is an old copy, or another process runs on a copy.
    Own,
    /// The other node has said to know a later one: that one is an old copy.
    Others,
}

/// What was heard of another node last. No run is 0: it stands for none.
#[derive(Clone, Copy, PartialEq, Eq, Default, Debug)]
pub(crate) struct Heard {
    pub presence: Presence,
    /// How far its log was on disk.
    pub log: Position,
}

/// Why a node isn't admitted that says this of itself, and whether its folder has the run by which it is known.
pub(crate) fn verdict(known: Option<Heard>, next: Heard, has_run: bool) -> Result<(), Refusal> {
    let Some(known) = known else { return Ok(()) };
    let is_same = known.presence.run == next.presence.run;
    if known.presence.folder != next.presence.folder {
        Err(Refusal::Folder)
    } else if !is_same && !has_run {
        Err(Refusal::Run)
    } else if next.log < known.log {
        Err(Refusal::Log)
    } else {
        Ok(())
    }
}

/// One note.
#[derive(Clone, PartialEq, Eq, Debug)]
pub(crate) enum Note {
    /// Another node is told of a start, and these are all by which it may know this node then.
    Told(NodeId, Vec<Start>),
    Heard(NodeId, Heard),
}

/// All notes of a node.
#[derive(Clone, PartialEq, Eq, Default, Debug)]
pub(crate) struct Notes {
    /// How far its own log is on disk.
    pub log: Position,
    heard: BTreeMap<NodeId, Heard>,
    /// The starts by which each other node may know this one, in their order.
    told: BTreeMap<NodeId, Vec<Start>>,
}

impl Notes {
    pub fn heard_of(&self, node: NodeId) -> Option<Heard> {
        self.heard.get(&node).copied()
    }

    /// Another node's log is on disk up to there.
    pub fn hear(&mut self, node: NodeId, log: Position) {
        if let Some(heard) = self.heard.get_mut(&node) {
            heard.log = heard.log.max(log);
        }
    }

    /// The number of the last start of which another node was told.
    pub fn last_start(&self) -> u64 {
        self.told.values().flatten().map(|it| it.number).max().unwrap_or(0)
    }

    /// By which starts another node may know this one once it is told of one more; it has said by which it does now.
    pub fn told_too(&self, node: NodeId, known: Start, next: Start) -> Result<Vec<Start>, Lack> {
        let told = self.told.get(&node).map_or(&[][..], Vec::as_slice);
        if known == next {
            return Ok(vec![next]);
        }
        let from = match told.iter().position(|it| *it == known) {
            Some(place) => place,
            // it knows nothing of this node yet
            None if known.run == 0 => 0,
            None if told.first().is_some_and(|first| known.number < first.number) => return Err(Lack::Others),
            None => return Err(Lack::Own),
        };
        let mut told = told[from..].to_vec();
        if told.last() != Some(&next) {
            told.push(next);
        }
        if told.len() > MOST {
            // (it was told so many starts ago, and isn't known by that)
            told.remove(1);
        }
        Ok(told)
    }

    /// Whether no note is wanted for that.
    pub fn has_told(&self, node: NodeId, told: &[Start]) -> bool {
        let known = self.told.get(&node);
        known.is_some_and(|known| told.iter().all(|run| known.contains(run)))
    }

    pub fn note(&mut self, note: Note) {
        match note {
            Note::Told(node, told) => {
                self.told.insert(node, told);
            }
            Note::Heard(node, heard) => {
                self.heard.insert(node, heard);
            }
        }
    }

    pub fn to_text(&self) -> String {
        let place = |log: Position| format!("{} {}", log.generation, log.end);
        let mut text = format!("{FORMAT}\nlog {}\n", place(self.log));
        for (node, Heard { presence, log }) in &self.heard {
            let Presence { folder, starts, run } = presence;
            let _ = writeln!(text, "heard {node} {folder:016x} {starts} {run:016x} {}", place(*log));
        }
        for (node, told) in &self.told {
            let starts: String = told
                .iter()
                .map(|it| format!(" {}:{:016x}", it.number, it.run))
                .collect();
            let _ = writeln!(text, "told {node}{starts}");
        }
        text + END + "\n"
    }

    /// None if nobody has written that. What was written before there were runs knows each node's folder alone.
    pub fn of_text(text: &str) -> Option<Self> {
        let lines = text.strip_suffix('\n')?.strip_suffix(END)?;
        let mut notes = Notes::default();
        match lines.strip_prefix(FORMAT).and_then(|it| it.strip_prefix('\n')) {
            Some(lines) => lines.lines().try_for_each(|line| notes.read(line))?,
            None => lines.lines().try_for_each(|line| notes.read_old(line))?,
        }
        Some(notes)
    }

    fn read(&mut self, line: &str) -> Option<()> {
        let words: Vec<&str> = line.split(' ').collect();
        let node = |word: &str| word.parse::<NodeId>().ok();
        match words[..] {
            ["log", generation, end] => self.log = position(generation, end)?,
            ["heard", id, folder, starts, run, generation, end] => {
                let presence = Presence {
                    folder: number(folder)?,
                    starts: starts.parse().ok()?,
                    run: number(run)?,
                };
                let log = position(generation, end)?;
                self.heard.insert(node(id)?, Heard { presence, log });
            }
            ["told", id, ref starts @ ..] => {
                let of_word = |word: &&str| {
                    let (count, run) = word.split_once(':')?;
                    let (count, run) = (count.parse().ok()?, number(run)?);
                    Some(Start { number: count, run })
                };
                let starts: Option<Vec<Start>> = starts.iter().map(of_word).collect();
                self.told.insert(node(id)?, starts?);
            }
            _ => return None,
        }
        Some(())
    }

    /// A node, its folder, how often it was started, and the number of that start.
    fn read_old(&mut self, line: &str) -> Option<()> {
        let words: Vec<&str> = line.split(' ').collect();
        let [node, folder, starts, run] = words[..] else {
            return None;
        };
        let (_, _) = (starts.parse::<u64>().ok()?, number(run)?);
        let folder = number(folder)?;
        let presence = Presence {
            folder,
            ..Presence::default()
        };
        let log = Position::default();
        self.heard.insert(node.parse().ok()?, Heard { presence, log });
        Some(())
    }
}

fn number(word: &str) -> Option<u64> {
    u64::from_str_radix(word, 16).ok()
}

fn position(generation: &str, end: &str) -> Option<Position> {
    Some(Position {
        generation: generation.parse().ok()?,
        end: end.parse().ok()?,
    })
}

#[cfg(test)]
mod tests {
    use super::*;

    const PEER: NodeId = NodeId(2);

    fn heard(folder: u64, run: u64, generation: u64, end: u64) -> Heard {
        let starts = run;
        Heard {
            presence: Presence { folder, starts, run },
            log: Position { generation, end },
        }
    }

    #[test]
    fn who_is_admitted() {
        let known = heard(7, 100, 1, 50);
        let table = [
            ("nothing is known", None, heard(8, 5, 0, 0), false, Ok(())),
            ("the same start", Some(known), heard(7, 100, 1, 50), false, Ok(())),
            ("one that goes on", Some(known), heard(7, 101, 1, 50), true, Ok(())),
            ("with a new log", Some(known), heard(7, 101, 2, 3), true, Ok(())),
            (
                "another folder",
                Some(known),
                heard(8, 101, 9, 99),
                true,
                Err(Refusal::Folder),
            ),
            (
                "an old copy",
                Some(known),
                heard(7, 101, 9, 99),
                false,
                Err(Refusal::Run),
            ),
            (
                "a shorter log",
                Some(known),
                heard(7, 101, 1, 49),
                true,
                Err(Refusal::Log),
            ),
            (
                "the log before",
                Some(known),
                heard(7, 101, 0, 99),
                true,
                Err(Refusal::Log),
            ),
            (
                "a start gone back",
                Some(known),
                heard(7, 100, 1, 49),
                false,
                Err(Refusal::Log),
            ),
        ];
        for (what, known, next, has_run, expected) in table {
            assert_eq!(verdict(known, next, has_run), expected, "{what}");
        }
    }

    /// A node whose notes of one peer are these, and that peer: which run it knows.
    #[derive(Clone)]
    struct Both {
        notes: Notes,
        known: Start,
    }

    /// The first start has this number, too.
    fn start(number: u64) -> Start {
        Start { number, run: number }
    }

    impl Both {
        /// A start of this run comes as far as this many steps of the handshake: it tells, and it is admitted.
        fn start(&mut self, run: u64, steps: u32) -> Result<(), Lack> {
            let number = self.notes.last_start() + 1;
            let next = Start { number, run };
            let told = self.notes.told_too(PEER, self.known, next)?;
            if steps > 0 {
                self.notes.note(Note::Told(PEER, told));
            }
            if steps > 1 {
                self.known = next;
            }
            Ok(())
        }
    }

    #[test]
    fn a_folder_has_the_run_by_which_it_is_known_whatever_crashes_cut() {
        // each start of five stops before its note, before it is admitted, or behind that
        for ways in 0..3u32.pow(5) {
            let (notes, known) = (Notes::default(), Start::default());
            let mut both = Both { notes, known };
            for start in 0..5 {
                let copy = both.clone();
                let before = both.known;
                let steps = ways / 3u32.pow(start) % 3;
                assert_eq!(both.start(u64::from(start) + 1, steps), Ok(()), "{ways}: start {start}");
                // a copy from before it is refused once the start was admitted, whatever number it draws, and however often
                let mut copy = Both {
                    known: both.known,
                    ..copy
                };
                let expected = if both.known == before { Ok(()) } else { Err(Lack::Own) };
                for run in 100..103 {
                    assert_eq!(copy.start(run, 1), expected, "{ways}: copy of {start}");
                }
                // and if the other node is one from before a start that it has said to know, that is told
                let mut old = Both {
                    known: before,
                    ..both.clone()
                };
                let next = old.start(200, 1);
                both.start(300, 1).unwrap();
                let mut other = Both {
                    known: before,
                    ..both.clone()
                };
                let expected = if both.known == before {
                    Ok(())
                } else {
                    Err(Lack::Others)
                };
                assert!(
                    next.is_ok() && (before.run == 0 || other.start(301, 0) == expected),
                    "{ways}"
                );
            }
            assert!(both.notes.told.get(&PEER).is_none_or(|told| told.len() <= 10));
        }
    }

    #[test]
    fn runs_before_the_one_that_is_known_are_forgotten() {
        let mut notes = Notes::default();
        for number in 1..100 {
            let told = notes.told_too(PEER, start(number - 1), start(number)).unwrap();
            assert!(!notes.has_told(PEER, &told));
            notes.note(Note::Told(PEER, told));
        }
        assert_eq!(notes.last_start(), 99);
        assert_eq!(notes.told_too(PEER, start(99), start(99)), Ok(vec![start(99)]));
        assert_eq!(
            notes.told_too(PEER, start(98), start(99)),
            Ok(vec![start(98), start(99)])
        );
        // the other node has said to know a later one
        assert_eq!(notes.told_too(PEER, start(97), start(100)), Err(Lack::Others));
        // somebody else has told it, or this folder has forgotten it
        let other = Start { number: 98, run: 7 };
        assert_eq!(notes.told_too(PEER, other, start(100)), Err(Lack::Own));
        assert_eq!(notes.told_too(PEER, start(101), start(100)), Err(Lack::Own));
        assert_eq!(notes.told_too(NodeId(9), start(1), start(100)), Err(Lack::Own));
    }

    #[test]
    fn notes_read_as_they_were_written() {
        let mut notes = Notes::default();
        assert_eq!(Notes::of_text(&notes.to_text()), Some(notes.clone()));
        notes.log = Position { generation: 2, end: 77 };
        notes.note(Note::Told(PEER, vec![start(1), start(u64::MAX)]));
        notes.note(Note::Heard(PEER, heard(3, 4, 5, 6)));
        notes.hear(PEER, Position { generation: 5, end: 9 });
        notes.hear(PEER, Position { generation: 5, end: 8 });
        notes.hear(NodeId(9), Position { generation: 5, end: 8 });
        assert_eq!(notes.heard_of(PEER), Some(heard(3, 4, 5, 9)));
        let text = notes.to_text();
        assert_eq!(Notes::of_text(&text), Some(notes));
        for count in 0..text.len() {
            assert_eq!(Notes::of_text(&text[..count]), None);
        }
    }

    #[test]
    fn of_what_was_noted_before_there_were_runs_folders_are_known() {
        let notes = Notes::of_text("2 000000000000000a 3 000000000000000b\nend\n").unwrap();
        let known = notes.heard_of(PEER);
        assert_eq!(known, Some(heard(10, 0, 0, 0)));
        assert_eq!(notes.last_start(), 0);
        assert_eq!(verdict(known, heard(11, 5, 0, 1), true), Err(Refusal::Folder));
        assert_eq!(notes.told_too(PEER, start(0), start(5)), Ok(vec![start(5)]));
        assert_eq!(verdict(known, heard(10, 5, 0, 1), true), Ok(()));
        assert_eq!(Notes::of_text("2 000000000000000a 3\nend\n"), None);
    }
}
