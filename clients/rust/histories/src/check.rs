//! The parts of a history, and what comes of each.

use crate::act::{Act, Texts};
use crate::operation::{Fate, Operation};
use crate::search::{search, Item, Outcome, Stuck};
use std::collections::{BTreeMap, BTreeSet, HashMap};
use std::error::Error;
use std::fmt;

/// After how many states the search in a part may give up.
pub const STATES: u64 = 10_000_000;

/// How many sets of keys are looked at alone, if the search in a part takes long.
const REASONS: usize = 50;

/// What is said of a history. Operations are named by their places in it.
#[derive(Clone, PartialEq, Eq, Debug)]
pub enum Verdict {
    Linearizable,
    /// Of each part that isn't.
    NotLinearizable(Vec<Violation>),
    /// The search in the part of these keys went through too many states; no part is known not to be linearizable.
    GaveUp(Vec<String>),
}

/// Why a part isn't linearizable.
#[derive(Clone, PartialEq, Eq, Debug)]
pub struct Violation {
    /// Keys of the part whose operations have no order, whatever those on the others do: as few as were soon found.
    pub keys: Vec<String>,
    /// How many operations on them were answered.
    pub answered: usize,
    /// How many of these the search had ordered at its deepest point.
    pub ordered: usize,
    /// None of these could be the next one there.
    pub stuck: Vec<usize>,
    /// The values of their keys there.
    pub values: Vec<Seen>,
}

/// The value of a key, and the operation that has written it.
#[derive(Clone, PartialEq, Eq, Debug)]
pub struct Seen {
    pub key: String,
    pub value: Option<String>,
    pub writer: Option<usize>,
}

/// Why operations are no history.
#[derive(Clone, PartialEq, Eq, Debug)]
pub enum BadHistory {
    AnsweredBeforeCall(usize),
    /// The operation was called while its client had another one, or at the moment of that one's answer.
    Overlaps(usize, usize),
    /// The answers aren't such to the commands.
    ForeignAnswers(usize),
}

impl fmt::Display for BadHistory {
    fn fmt(&self, f: &mut fmt::Formatter) -> fmt::Result {
        match self {
            BadHistory::AnsweredBeforeCall(place) => write!(f, "operation {place} was answered before its call"),
            BadHistory::Overlaps(place, other) => write!(f, "operation {place} was called before {other} was answered"),
            BadHistory::ForeignAnswers(place) => write!(f, "operation {place} has answers to other commands"),
        }
    }
}

impl Error for BadHistory {}

/// The keys that operations name.
pub fn keys(operations: &[Operation]) -> BTreeSet<&str> {
    let commands = operations.iter().flat_map(|operation| &operation.commands);
    commands.map(|command| command.key()).collect()
}

/// Says whether operations, given in any order, are linearizable, unless the search in a part goes through more states
/// than that.
pub fn check(operations: &[Operation], states: u64) -> Result<Verdict, BadHistory> {
    check_clients(operations)?;
    let mut texts = Texts::default();
    let (mut violations, mut gave_up) = (Vec::new(), None);
    for part in parts(operations, &mut texts)? {
        // If a key alone has no order, that is found soon, and said shortly.
        let alone: Vec<Part> = match part.keys.len() {
            1 => Vec::new(),
            _ => part.keys_alone(),
        };
        let before = violations.len();
        for part in &alone {
            if let Outcome::Stuck(stuck) = part.search(states) {
                violations.push(part.explain(&stuck, &texts));
            }
        }
        if violations.len() > before {
            continue;
        }
        let names = part.names();
        match part.narrow(states) {
            (_, Outcome::Ordered) => {}
            (part, Outcome::Stuck(stuck)) => {
                let (part, stuck) = part.shrink(stuck, states);
                violations.push(part.explain(&stuck, &texts));
            }
            (_, Outcome::GaveUp(_)) => gave_up = gave_up.or(Some(names)),
        }
    }
    Ok(match gave_up {
        _ if !violations.is_empty() => Verdict::NotLinearizable(violations),
        Some(keys) => Verdict::GaveUp(keys),
        None => Verdict::Linearizable,
    })
}

/// Checks that each client has one operation at a time.
fn check_clients(operations: &[Operation]) -> Result<(), BadHistory> {
    let mut by_call: Vec<usize> = (0..operations.len()).collect();
    by_call.sort_by_key(|place| operations[*place].called);
    let mut last: HashMap<&str, (usize, u64)> = HashMap::new();
    for place in by_call {
        let operation = &operations[place];
        let end = match operation.fate {
            Fate::Answered { at, .. } | Fate::Failed { at } => at,
            Fate::Unknown => operation.called,
        };
        if end < operation.called {
            return Err(BadHistory::AnsweredBeforeCall(place));
        }
        if let Some((other, before)) = last.insert(&operation.client, (place, end)) {
            if before >= operation.called {
                return Err(BadHistory::Overlaps(place, other));
            }
        }
    }
    Ok(())
}

/// What an operation may do, to keys by their numbers; `None` if its answers aren't such to its commands.
fn acts<'a>(operation: &'a Operation, keys: &[&str], texts: &mut Texts<'a>) -> Option<Vec<(usize, Act)>> {
    let number = |key: &str| keys.binary_search(&key).ok();
    let mut acts = Vec::new();
    match &operation.fate {
        Fate::Answered { answers, .. } if answers.len() != operation.commands.len() => return None,
        Fate::Answered { answers, .. } => {
            for (command, answer) in operation.commands.iter().zip(answers) {
                acts.push((number(command.key())?, Act::new(command, Some(answer), texts)?));
            }
        }
        Fate::Unknown => {
            for command in &operation.commands {
                acts.push((number(command.key())?, Act::new(command, None, texts)?));
            }
            // (a read without an answer says nothing)
            acts.retain(|(_, act)| !act.is_read());
        }
        Fate::Failed { .. } => {}
    }
    Some(acts)
}

/// Operations whose keys are connected, by the moments of their calls.
#[derive(Default)]
struct Part<'a> {
    keys: Vec<&'a str>,
    items: Vec<Item>,
    /// Where they stand in the history.
    places: Vec<usize>,
}

impl<'a> Part<'a> {
    fn names(&self) -> Vec<String> {
        self.keys.iter().map(|key| key.to_string()).collect()
    }

    /// What is done to each key, without what the same operations do to others.
    fn keys_alone(&self) -> Vec<Part<'a>> {
        let alone = |key: &&'a str| Part {
            keys: vec![*key],
            ..Part::default()
        };
        let mut parts: Vec<Part> = self.keys.iter().map(alone).collect();
        for (item, place) in self.items.iter().zip(&self.places) {
            let touched: BTreeSet<usize> = item.acts.iter().map(|(key, _)| *key).collect();
            for key in touched {
                let acts = item.acts.iter().filter(|(other, _)| *other == key);
                let acts = acts.map(|(_, act)| (0, *act)).collect();
                parts[key].items.push(Item { acts, ..*item });
                parts[key].places.push(*place);
            }
        }
        parts
    }

    fn search(&self, states: u64) -> Outcome {
        search(&self.items, self.keys.len(), states)
    }

    /// Says what comes of the part. If that takes long, keys for which no order was found so far are looked at alone:
    /// that there is none of these is seen sooner, since the others don't have to be ordered again for each try.
    fn narrow(self, states: u64) -> (Self, Outcome) {
        let soon = states.min(4 * self.items.len() as u64);
        let outcome = self.search(soon);
        let Outcome::GaveUp(failed) = &outcome else {
            return (self, outcome);
        };
        let some_keys = |keys: &&BTreeSet<usize>| keys.len() > 1 && keys.len() < self.keys.len();
        for keys in failed.iter().filter(some_keys).take(REASONS) {
            let some = self.only(keys);
            let outcome = some.search(states.min(20 * some.items.len() as u64));
            if matches!(outcome, Outcome::Stuck(_)) {
                return (some, outcome);
            }
        }
        let outcome = self.search(states);
        (self, outcome)
    }

    /// Leaves out keys, first many at once, as long as it is soon seen that the others have no order either.
    fn shrink(self, stuck: Stuck, states: u64) -> (Self, Stuck) {
        let bound = states.min(20 * self.items.len() as u64);
        let mut kept = stuck.keys.clone();
        let mut least = (self, stuck);
        let (mut count, mut first) = (least.0.keys.len(), 0);
        loop {
            let smaller = least.0.only(&kept);
            match smaller.search(bound) {
                Outcome::Stuck(stuck) => least = (smaller, stuck),
                _ => first += count,
            }
            let keys = least.0.keys.len();
            if first >= keys {
                (count, first) = (count / 2, 0);
            }
            if count == 0 || keys == 1 {
                return least;
            }
            kept = (0..keys).filter(|key| *key < first || *key >= first + count).collect();
        }
    }

    /// What is done to some of the keys.
    fn only(&self, keys: &BTreeSet<usize>) -> Part<'a> {
        let numbers: BTreeMap<usize, usize> = keys.iter().enumerate().map(|(number, key)| (*key, number)).collect();
        let mut part = Part {
            keys: keys.iter().map(|key| self.keys[*key]).collect(),
            ..Part::default()
        };
        for (item, place) in self.items.iter().zip(&self.places) {
            let acts = item
                .acts
                .iter()
                .filter_map(|(key, act)| Some((*numbers.get(key)?, *act)));
            let acts: Vec<_> = acts.collect();
            if !acts.is_empty() {
                part.items.push(Item { acts, ..*item });
                part.places.push(*place);
            }
        }
        part
    }

    fn explain(&self, stuck: &Stuck, texts: &Texts) -> Violation {
        Violation {
            keys: self.names(),
            answered: self.items.iter().filter(|item| item.answered.is_some()).count(),
            ordered: stuck.placed,
            stuck: stuck.items.iter().map(|item| self.places[*item]).collect(),
            values: stuck
                .values
                .iter()
                .map(|(key, value, writer)| Seen {
                    key: self.keys[*key].to_string(),
                    value: texts.text(*value),
                    writer: writer.map(|item| self.places[item]),
                })
                .collect(),
        }
    }
}

/// Cuts a history into parts; what has no effect is in none.
fn parts<'a>(operations: &'a [Operation], texts: &mut Texts<'a>) -> Result<Vec<Part<'a>>, BadHistory> {
    let keys: Vec<&str> = keys(operations).into_iter().collect();
    let mut leaders: Vec<usize> = (0..keys.len()).collect();
    let mut items = Vec::new();
    for (place, operation) in operations.iter().enumerate() {
        let acts = acts(operation, &keys, texts).ok_or(BadHistory::ForeignAnswers(place))?;
        for pair in acts.windows(2) {
            let (one, other) = (leader(&mut leaders, pair[0].0), leader(&mut leaders, pair[1].0));
            leaders[one.max(other)] = one.min(other);
        }
        let answered = match operation.fate {
            Fate::Answered { at, .. } => Some(at),
            _ => None,
        };
        if !acts.is_empty() {
            let called = operation.called;
            items.push((place, Item { acts, called, answered }));
        }
    }
    items.sort_by_key(|(_, item)| item.called);
    let mut parts: BTreeMap<usize, Part> = BTreeMap::new();
    // (the number of each key in its part)
    let mut numbers = Vec::new();
    for (key, name) in keys.into_iter().enumerate() {
        let part = parts.entry(leader(&mut leaders, key)).or_default();
        numbers.push(part.keys.len());
        part.keys.push(name);
    }
    for (place, mut item) in items {
        let part = parts.entry(leader(&mut leaders, item.acts[0].0)).or_default();
        for (key, _) in &mut item.acts {
            *key = numbers[*key];
        }
        part.items.push(item);
        part.places.push(place);
    }
    Ok(parts.into_values().collect())
}

/// The least key that a key is known to be connected with.
fn leader(leaders: &mut [usize], mut key: usize) -> usize {
    while leaders[key] != key {
        leaders[key] = leaders[leaders[key]];
        key = leaders[key];
    }
    key
}
