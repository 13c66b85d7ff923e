//! Long histories of many clients.

#[path = "../../torture/src/random.rs"]
mod random;

use histories::{check, Answer, Command, Fate, Operation, Verdict};
use random::Random;
use std::collections::BTreeMap;
use std::time::Instant;

/// A history of clients that are always waiting for an answer.
struct Load {
    operations: u64,
    clients: u64,
    keys: u64,
    /// How many of 1,000 operations are on two or three keys.
    several: u64,
    /// How many of 10,000 have no answer.
    unknown: u64,
}

impl Load {
    fn history(&self, seed: u64) -> Vec<Operation> {
        let mut random = Random::new(seed);
        let mut free: Vec<u64> = (0..self.clients).collect();
        let mut operations = Vec::new();
        for number in 0..self.operations {
            let client = (0..free.len()).min_by_key(|client| free[*client]).unwrap();
            let called = free[client] + 1 + random.below(100);
            let moment = called + random.below(1_000);
            let at = moment + random.below(1_000);
            free[client] = at;
            let several = random.below(1_000) < self.several;
            let kind = random.below(100);
            let commands = (0..if several { 2 + random.below(2) } else { 1 })
                .map(|_| {
                    let key = format!("k{}", random.below(self.keys));
                    let value = format!("v{number}");
                    match kind {
                        0..=44 => Command::Get { key },
                        45..=79 => Command::Set { key, value },
                        80..=89 => Command::Swap {
                            key,
                            expected: None,
                            value,
                        },
                        90..=94 => Command::Delete { key },
                        _ => Command::Increment { key: format!("n{key}") },
                    }
                })
                .collect();
            let fate = match random.below(10_000) < self.unknown {
                true => Fate::Unknown,
                false => Fate::Answered {
                    at,
                    answers: Vec::new(),
                },
            };
            let client = format!("c{client}");
            operations.push((
                moment,
                number,
                Operation {
                    client,
                    called,
                    commands,
                    fate,
                },
            ));
        }
        operations.sort_by_key(|(moment, number, _)| (*moment, *number));
        let mut map: BTreeMap<String, String> = BTreeMap::new();
        let mut all = Vec::new();
        for (_, _, mut operation) in operations {
            if operation.fate == Fate::Unknown && random.below(2) == 0 {
                all.push(operation);
                continue;
            }
            let mut told = Vec::new();
            for command in &mut operation.commands {
                // (half of the swaps expect what is there)
                if let Command::Swap { key, expected, .. } = command {
                    *expected = map.get(key).cloned().filter(|_| random.below(2) == 0);
                }
                let before = map.get(command.key()).cloned();
                told.push(match command {
                    Command::Get { .. } => Answer::Value(before),
                    Command::Set { key, value } => {
                        map.insert(key.clone(), value.clone());
                        Answer::Set
                    }
                    Command::Swap { key, expected, value } => {
                        if *expected == before {
                            map.insert(key.clone(), value.clone());
                        }
                        Answer::Done(*expected == before)
                    }
                    Command::Delete { key } => Answer::Done(map.remove(key).is_some()),
                    Command::Increment { key } => {
                        let sum = before.map_or(0, |text| text.parse().unwrap()) + 1;
                        map.insert(key.clone(), sum.to_string());
                        Answer::Sum(sum)
                    }
                });
            }
            if let Fate::Answered { answers, .. } = &mut operation.fate {
                *answers = told;
            }
            all.push(operation);
        }
        all
    }
}

/// A read in the middle is answered a value that was there long before.
fn make_stale(history: &mut [Operation]) -> usize {
    let middle = history.len() / 2;
    let is_get = |operation: &Operation| match (&operation.fate, &operation.commands[..]) {
        (Fate::Answered { .. }, [Command::Get { key }]) => Some(key.clone()),
        _ => None,
    };
    let (place, key) = (middle..)
        .find_map(|place| Some((place, is_get(&history[place])?)))
        .unwrap();
    let written = history
        .iter()
        .flat_map(|operation| &operation.commands)
        .find_map(|command| match command {
            Command::Set { key: other, value } if *other == key => Some(value.clone()),
            _ => None,
        });
    if let Fate::Answered { answers, .. } = &mut history[place].fate {
        answers[0] = Answer::Value(written);
    }
    place
}

/// Orders a load, and finds a stale read in it, in at most so many states.
fn check_load(load: &Load, states: u64) {
    let mut history = load.history(1);
    let began = Instant::now();
    assert_eq!(check(&history, states), Ok(Verdict::Linearizable));
    println!("{} operations were ordered in {:?}", load.operations, began.elapsed());
    let place = make_stale(&mut history);
    let began = Instant::now();
    let verdict = check(&history, states).unwrap();
    println!("a stale read among them was found in {:?}", began.elapsed());
    let Verdict::NotLinearizable(violations) = verdict else {
        panic!("the read was stale: {verdict:?}");
    };
    assert_eq!(violations.len(), 1);
    assert!(violations[0].stuck.contains(&place), "{:?}", violations[0]);
}

#[test]
fn many_operations_on_one_key_each() {
    let load = Load {
        operations: 100_000,
        clients: 64,
        keys: 100,
        several: 0,
        unknown: 5,
    };
    check_load(&load, 10_000);
}

#[test]
fn many_operations_some_of_them_on_several_keys() {
    let load = Load {
        operations: 50_000,
        clients: 64,
        keys: 100,
        several: 20,
        unknown: 5,
    };
    check_load(&load, 100_000);
}

/// At the end of a long history two reads contradict each other, over two of its keys.
#[test]
fn keys_that_have_no_order_are_told_alone() {
    let load = Load {
        operations: 10_000,
        clients: 8,
        keys: 10,
        several: 300,
        unknown: 5,
    };
    let mut history = load.history(1);
    let end = 2 * history.iter().map(|operation| operation.called).max().unwrap();
    let text = [
        format!("a {} {} mset k1 x k2 x", end + 1, end + 2),
        format!("a {} {} set k1 y", end + 3, end + 9),
        format!("b {} {} set k2 y", end + 3, end + 9),
        format!("c {} {} mget k1 y k2 x", end + 4, end + 8),
        format!("d {} {} mget k1 x k2 y", end + 4, end + 8),
    ];
    let more = histories::read(&text.join("\n")).unwrap();
    history.extend(more.into_iter().map(|(_, operation)| operation));
    let verdict = check(&history, 1_000_000);
    let Ok(Verdict::NotLinearizable(violations)) = verdict else {
        panic!("the reads contradict each other: {verdict:?}");
    };
    assert_eq!(violations.len(), 1);
    assert_eq!(violations[0].keys, ["k1", "k2"]);
}
