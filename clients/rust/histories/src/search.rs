//! The search for an order of the operations of one part.
//!
//! It is Wing and Gong's with Lowe's memory: place an operation that may be the next, go on from there, take it back if
//! no order comes of it, and remember the configurations (what is placed, and the values) of which none does. Four
//! rules keep it short; if there is an order, each of them leaves one:
//!
//! - *Reads first.* An answered operation that changes nothing is placed as soon as its answer fits. Wherever an order
//!   has it later, it may as well stand here.
//! - *What is due.* The operation that was answered first of those that are left has to come before all that are called
//!   later. Until then only what is connected with it, by chains of common keys, is tried: the rest may as well come
//!   after it.
//! - *No idle effects.* Operations without answers are placed only in a chain, in front of an answered one, in which
//!   each makes a difference to the next: else it may as well come later, or never.
//! - *Jumps.* That no order comes of a configuration has some keys as its reason: the operations on these alone have
//!   none. If what was chosen before it touches none of these keys, any other choice there would end in the same way.

use crate::act::{Act, Value};
use crate::ring::Ring;
use std::cmp::Reverse;
use std::collections::hash_map::DefaultHasher;
use std::collections::{BTreeMap, BTreeSet, HashMap};
use std::hash::{Hash, Hasher};
use std::rc::Rc;

/// An operation of a part.
pub struct Item {
    /// Its commands on the keys of the part, by their numbers.
    pub acts: Vec<(usize, Act)>,
    pub called: u64,
    /// If it was answered.
    pub answered: Option<u64>,
}

/// What came of a search.
pub enum Outcome {
    Ordered,
    Stuck(Stuck),
    /// Configurations of which no order comes had these keys as their reasons, the most frequent ones first.
    GaveUp(Vec<BTreeSet<usize>>),
}

/// The deepest point that a search without success has reached.
pub struct Stuck {
    /// Keys whose operations have no order, whatever those on other keys do.
    pub keys: BTreeSet<usize>,
    /// How many of the answered operations were placed.
    pub placed: usize,
    /// Those of which none could be the next.
    pub items: Vec<usize>,
    /// The values that their keys had, and the items that had written them.
    pub values: Vec<(usize, Value, Option<usize>)>,
}

/// Looks for an order of items, which come by the moments of their calls, over so many keys, in at most so many steps.
pub fn search(items: &[Item], keys: usize, bound: u64) -> Outcome {
    let mut search = Search::new(items, keys, bound);
    let mut deepest: Option<Stuck> = None;
    let mut choices: Vec<Choice> = Vec::new();
    loop {
        // Here is a new configuration.
        let Some(due) = search.place_reads() else {
            return Outcome::Ordered;
        };
        let mut failed = search.failed.get(&search.sum()).cloned();
        if failed.is_none() {
            search.steps += 1;
            choices.push(Choice::new(&search, due));
        }
        // Back to the last choice that isn't over.
        loop {
            if search.steps > search.bound {
                return Outcome::GaveUp(search.reasons());
            }
            let Some(choice) = choices.last_mut() else {
                return Outcome::Stuck(Stuck {
                    keys: failed.expect("a first choice was there").as_ref().clone(),
                    ..deepest.expect("a first choice was there")
                });
            };
            search.undo(choice.mark);
            if let Some(keys) = failed.take() {
                choice.fail(&keys, &search);
            }
            if choice.next(&mut search) {
                break;
            }
            let is_deeper = |than: &Stuck| {
                (search.placed_answered, than.items.len()) > (than.placed, choice.related.answered.len())
            };
            if deepest.as_ref().is_none_or(is_deeper) {
                deepest = Some(search.stuck(&choice.related.answered));
            }
            let keys = Rc::new(std::mem::take(&mut choice.because));
            search.failed.insert(search.sum(), Rc::clone(&keys));
            failed = Some(keys);
            choices.pop();
        }
    }
}

/// The operations that may be next and are related to the one that is due, and the keys that relate them.
struct Related {
    keys: BTreeSet<usize>,
    /// By the moments of their answers.
    answered: Vec<usize>,
    unknown: Vec<usize>,
}

/// What may be done at a configuration.
struct Choice {
    /// How long the trail was.
    mark: usize,
    related: Related,
    /// How many of those that were answered have been tried alone.
    tried: usize,
    /// The chains that are left to be tried, once they are known.
    chains: Option<Vec<Vec<usize>>>,
    /// What was placed last.
    chosen: Vec<usize>,
    /// The keys because of which no order came of what was tried.
    because: BTreeSet<usize>,
    is_over: bool,
}

impl Choice {
    fn new(search: &Search, due: usize) -> Self {
        let related = search.related(due);
        Choice {
            mark: search.trail.len(),
            because: related.keys.clone(),
            related,
            tried: 0,
            chains: None,
            chosen: Vec::new(),
            is_over: false,
        }
    }

    /// No order came of what was chosen, because of some keys.
    fn fail(&mut self, keys: &BTreeSet<usize>, search: &Search) {
        let mut touched = self.chosen.iter().flat_map(|item| search.keys_of(*item));
        if touched.any(|key| keys.contains(&key)) {
            self.because.extend(keys);
        } else {
            self.because = keys.clone();
            self.is_over = true;
        }
    }

    /// Places what is tried next; false if nothing is left.
    fn next(&mut self, search: &mut Search) -> bool {
        if self.is_over {
            return false;
        }
        while let Some(item) = self.related.answered.get(self.tried) {
            self.tried += 1;
            if search.place(*item) {
                self.chosen = vec![*item];
                return true;
            }
        }
        let chains = self.chains.get_or_insert_with(|| {
            let mut chains = Vec::new();
            search.find_chains(&self.related, &mut Vec::new(), &mut chains);
            chains.reverse();
            chains
        });
        let Some(chain) = chains.pop() else {
            return false;
        };
        for item in &chain {
            search.place(*item);
        }
        self.chosen = chain;
        true
    }
}

/// What is to be undone.
enum Deed {
    Wrote {
        key: usize,
        before: Value,
        writer: Option<usize>,
    },
    Placed(usize),
}

/// A configuration, and the way to it.
struct Search<'a> {
    items: &'a [Item],
    /// What stands for an item in the sum of a configuration, if it is placed.
    sums: Vec<u128>,
    is_read: Vec<bool>,
    /// The items without an answer that touch a key.
    unknown: Vec<Vec<usize>>,
    /// For an item without an answer, the one before it that does the same.
    twins: Vec<Option<usize>>,
    values: Vec<Value>,
    writers: Vec<Option<usize>>,
    placed: Vec<bool>,
    placed_answered: usize,
    /// The answered items that aren't placed, by the moments of their calls, and of their answers.
    by_call: Ring,
    by_answer: Ring,
    sum_of_placed: u128,
    sum_of_values: u128,
    trail: Vec<Deed>,
    /// The configurations of which no order comes, by their sums, and because of which keys. (Sums have 128 bits: that
    /// two of a thousand million are the same happens once in 10^20 searches.)
    failed: HashMap<u128, Rc<BTreeSet<usize>>>,
    steps: u64,
    bound: u64,
}

impl<'a> Search<'a> {
    fn new(items: &'a [Item], keys: usize, bound: u64) -> Self {
        let (by_call, without): (Vec<usize>, Vec<usize>) =
            (0..items.len()).partition(|item| items[*item].answered.is_some());
        let mut by_answer = by_call.clone();
        by_answer.sort_by_key(|item| items[*item].answered);
        let mut unknown = vec![Vec::new(); keys];
        let mut twins = vec![None; items.len()];
        let mut last = HashMap::new();
        for item in without {
            twins[item] = last.insert(&items[item].acts, item);
            for (key, _) in &items[item].acts {
                unknown[*key].push(item);
            }
        }
        let is_read = |item: &Item| item.acts.iter().all(|(_, act)| act.is_read());
        Search {
            items,
            sums: (0..items.len()).map(|item| sum(("item", item))).collect(),
            is_read: items.iter().map(is_read).collect(),
            unknown,
            twins,
            values: vec![Value::Nil; keys],
            writers: vec![None; keys],
            placed: vec![false; items.len()],
            placed_answered: 0,
            by_call: Ring::new(items.len(), &by_call),
            by_answer: Ring::new(items.len(), &by_answer),
            sum_of_placed: 0,
            sum_of_values: 0,
            trail: Vec::new(),
            failed: HashMap::new(),
            steps: 0,
            bound,
        }
    }

    fn sum(&self) -> u128 {
        self.sum_of_placed ^ self.sum_of_values
    }

    fn keys_of(&self, item: usize) -> impl Iterator<Item = usize> + 'a {
        self.items[item].acts.iter().map(|(key, _)| *key)
    }

    /// Does what an item does; false, and nothing, if its answer doesn't fit.
    fn apply(&mut self, item: usize) -> bool {
        let mark = self.trail.len();
        for (key, act) in &self.items[item].acts {
            let before = self.values[*key];
            let Some(after) = act.at(before) else {
                self.undo(mark);
                return false;
            };
            if after != before {
                self.trail.push(Deed::Wrote {
                    key: *key,
                    before,
                    writer: self.writers[*key],
                });
                self.writers[*key] = Some(item);
                self.set(*key, after);
            }
        }
        true
    }

    fn set(&mut self, key: usize, value: Value) {
        self.sum_of_values ^= sum((key, self.values[key])) ^ sum((key, value));
        self.values[key] = value;
    }

    /// Applies an item, which counts as placed then; false, and nothing, if its answer doesn't fit.
    fn place(&mut self, item: usize) -> bool {
        let fits = self.apply(item);
        if fits {
            self.trail.push(Deed::Placed(item));
            self.placed[item] = true;
            self.sum_of_placed ^= self.sums[item];
            if self.items[item].answered.is_some() {
                self.placed_answered += 1;
                self.by_call.remove(item);
                self.by_answer.remove(item);
            }
        }
        fits
    }

    /// Takes back all that was done since the trail had this length.
    fn undo(&mut self, mark: usize) {
        while self.trail.len() > mark {
            match self.trail.pop() {
                Some(Deed::Wrote { key, before, writer }) => {
                    self.set(key, before);
                    self.writers[key] = writer;
                }
                Some(Deed::Placed(item)) => {
                    self.placed[item] = false;
                    self.sum_of_placed ^= self.sums[item];
                    if self.items[item].answered.is_some() {
                        self.placed_answered -= 1;
                        self.by_call.restore(item);
                        self.by_answer.restore(item);
                    }
                }
                None => {}
            }
        }
    }

    /// The sum of the values after some items; `None` if an answer doesn't fit.
    fn values_after(&mut self, items: &[usize]) -> Option<u128> {
        let mark = self.trail.len();
        let fits = items.iter().all(|item| self.apply(*item));
        let values = self.sum_of_values;
        self.undo(mark);
        fits.then_some(values)
    }

    /// Whether an item was called before the one that is due was answered.
    fn may_be_next(&self, item: usize, due: usize) -> bool {
        Some(self.items[item].called) <= self.items[due].answered
    }

    /// The answered items that may be next.
    fn open(&self, due: usize) -> Vec<usize> {
        let mut open = Vec::new();
        let mut place = self.by_call.first();
        while let Some(item) = place.filter(|item| self.may_be_next(*item, due)) {
            open.push(item);
            place = self.by_call.after(item);
        }
        open
    }

    /// Places the reads whose answers fit. Returns what is due then, if anything is left: what was answered first.
    fn place_reads(&mut self) -> Option<usize> {
        loop {
            let due = self.by_answer.first()?;
            for item in self.open(due) {
                if self.is_read[item] {
                    self.place(item);
                }
            }
            if self.by_answer.first() == Some(due) {
                return Some(due);
            }
        }
    }

    fn related(&self, due: usize) -> Related {
        let mut open = self.open(due);
        let (mut keys, mut answered, mut unknown) = (BTreeSet::new(), Vec::new(), BTreeSet::new());
        let mut new: Vec<usize> = self.keys_of(due).collect();
        while let Some(key) = new.pop() {
            if !keys.insert(key) {
                continue;
            }
            open.retain(|item| {
                let touches = self.keys_of(*item).any(|other| other == key);
                if touches {
                    answered.push(*item);
                    new.extend(self.keys_of(*item));
                }
                !touches
            });
            let calls = self.unknown[key]
                .iter()
                .take_while(|item| self.may_be_next(**item, due));
            for item in calls.filter(|item| !self.placed[**item]) {
                if unknown.insert(*item) {
                    new.extend(self.keys_of(*item));
                }
            }
        }
        answered.sort_by_key(|item| self.items[*item].answered);
        Related {
            keys,
            answered,
            unknown: unknown.into_iter().collect(),
        }
    }

    /// Finds the chains of items without an answer, with an answered one at the end, that begin as given, and in which
    /// each makes a difference to the next. The beginning is placed; with each comes how long the trail was before.
    fn find_chains(&mut self, related: &Related, begin: &mut Vec<(usize, usize)>, found: &mut Vec<Vec<usize>>) {
        for item in &related.unknown {
            let is_turn = !self.placed[*item] && self.twins[*item].is_none_or(|twin| self.placed[twin]);
            if !is_turn || begin.last().is_some_and(|last| !self.differs(*last, *item)) {
                continue;
            }
            let (mark, values) = (self.trail.len(), self.sum_of_values);
            self.steps += 1;
            self.place(*item);
            if self.sum_of_values != values && self.steps <= self.bound {
                begin.push((*item, mark));
                for end in &related.answered {
                    if self.differs((*item, mark), *end) {
                        found.push(begin.iter().map(|(item, _)| *item).chain([*end]).collect());
                    }
                }
                self.find_chains(related, begin, found);
                begin.pop();
            }
            self.undo(mark);
        }
    }

    /// Whether the item that was placed last, at a mark, makes a difference to a next one, whose answer fits: it would
    /// leave other values if it stood alone, and if it stood in front of the last one.
    fn differs(&mut self, (last, mark): (usize, usize), next: usize) -> bool {
        let Some(values) = self.values_after(&[next]) else {
            return false;
        };
        self.undo(mark);
        let alone = self.values_after(&[next]);
        let swapped = self.values_after(&[next, last]);
        self.place(last);
        // (of two without an answer, whose order makes none, the one that was called first comes first)
        let may_swap = self.items[next].answered.is_some() || next < last;
        alone != Some(values) && !(may_swap && swapped == Some(values))
    }

    fn reasons(&self) -> Vec<BTreeSet<usize>> {
        let mut counts: BTreeMap<&BTreeSet<usize>, usize> = BTreeMap::new();
        for keys in self.failed.values() {
            *counts.entry(keys).or_default() += 1;
        }
        let mut reasons: Vec<_> = counts.into_iter().collect();
        reasons.sort_by_key(|(_, count)| Reverse(*count));
        reasons.into_iter().map(|(keys, _)| keys.clone()).collect()
    }

    fn stuck(&self, items: &[usize]) -> Stuck {
        let keys: BTreeSet<usize> = items.iter().flat_map(|item| self.keys_of(*item)).collect();
        Stuck {
            keys: BTreeSet::new(),
            placed: self.placed_answered,
            items: items.to_vec(),
            values: keys
                .into_iter()
                .map(|key| (key, self.values[key], self.writers[key]))
                .collect(),
        }
    }
}

/// A sum that tells things apart.
fn sum(thing: impl Hash) -> u128 {
    let half = |which: u8| {
        let mut hasher = DefaultHasher::new();
        (which, &thing).hash(&mut hasher);
        u128::from(hasher.finish())
    };
    half(0) << 64 | half(1)
}
