//! The search against all orders, for histories of up to six operations.

#[path = "../../torture/src/random.rs"]
mod random;

use histories::{check, Answer, Command, Fate, Operation, Verdict, STATES};
use random::Random;
use std::collections::BTreeMap;

const HISTORIES: u64 = 2_000;

type Map = BTreeMap<String, String>;

/// Does a command, and answers it.
fn perform(command: &Command, map: &mut Map) -> Option<Answer> {
    match command {
        Command::Get { key } => Some(Answer::Value(map.get(key).cloned())),
        Command::Set { key, value } => {
            map.insert(key.clone(), value.clone());
            Some(Answer::Set)
        }
        Command::Swap { key, expected, value } => {
            let does = map.get(key) == expected.as_ref();
            if does {
                map.insert(key.clone(), value.clone());
            }
            Some(Answer::Done(does))
        }
        Command::Delete { key } => Some(Answer::Done(map.remove(key).is_some())),
        Command::Increment { key } => {
            let number: i64 = map.get(key).map_or(Ok(0), |text| text.parse()).ok()?;
            map.insert(key.clone(), (number + 1).to_string());
            Some(Answer::Sum(number + 1))
        }
    }
}

/// Whether some order of the operations that aren't placed yet explains their answers.
fn has_order(operations: &[Operation], placed: &mut Vec<bool>, map: &Map) -> bool {
    let answered = |operation: &Operation| match &operation.fate {
        Fate::Answered { at, .. } => Some(*at),
        _ => None,
    };
    let left: Vec<usize> = (0..operations.len()).filter(|place| !placed[*place]).collect();
    if left.iter().all(|place| answered(&operations[*place]).is_none()) {
        return true;
    }
    left.iter().any(|place| {
        let operation = &operations[*place];
        let is_before = |other: &usize| answered(&operations[*other]).is_some_and(|at| at < operation.called);
        if matches!(operation.fate, Fate::Failed { .. }) || left.iter().any(is_before) {
            return false;
        }
        let mut map = map.clone();
        let told: Vec<Option<Answer>> = operation.commands.iter().map(|it| perform(it, &mut map)).collect();
        if let Fate::Answered { answers, .. } = &operation.fate {
            if told
                .iter()
                .zip(answers)
                .any(|(told, answer)| told.as_ref() != Some(answer))
            {
                return false;
            }
        }
        placed[*place] = true;
        let found = has_order(operations, placed, &map);
        placed[*place] = false;
        found
    })
}

fn pick(random: &mut Random, from: &[&str]) -> String {
    from[random.below(from.len() as u64) as usize].to_string()
}

fn value(random: &mut Random) -> String {
    pick(random, &["1", "2", "x"])
}

fn command(random: &mut Random) -> Command {
    let key = pick(random, &["a", "a", "b", "c"]);
    match random.below(8) {
        0..=2 => Command::Get { key },
        3 | 4 => Command::Set {
            key,
            value: value(random),
        },
        5 => Command::Swap {
            key,
            expected: (random.below(3) > 0).then(|| value(random)),
            value: value(random),
        },
        6 => Command::Delete { key },
        _ => Command::Increment { key },
    }
}

/// A history: its answers are those of a map at moments between call and answer, but for some that are made up.
fn history(random: &mut Random) -> Vec<Operation> {
    let clients = 1 + random.below(5);
    let mut free = vec![0; clients as usize];
    let mut operations = Vec::new();
    for _ in 0..6 - random.below(6) * random.below(2) {
        let client = random.below(clients) as usize;
        let called = free[client] + random.below(4);
        let moment = called + random.below(4);
        let at = moment + random.below(4);
        free[client] = at + 1;
        let commands = (0..1 + random.below(5) / 3).map(|_| command(random)).collect();
        let fate = match random.below(10) {
            0 | 1 => Fate::Unknown,
            2 => Fate::Failed { at },
            _ => Fate::Answered {
                at,
                answers: Vec::new(),
            },
        };
        let client = client.to_string();
        operations.push((
            moment,
            random.below(100),
            Operation {
                client,
                called,
                commands,
                fate,
            },
        ));
    }
    operations.sort_by_key(|(moment, place, _)| (*moment, *place));
    let lies = random.below(4) > 0;
    let mut map = Map::new();
    let mut all = Vec::new();
    for (_, _, mut operation) in operations {
        let does = match operation.fate {
            Fate::Answered { .. } => true,
            Fate::Failed { .. } => false,
            Fate::Unknown => random.below(2) == 0,
        };
        let mut after = map.clone();
        let told: Vec<Option<Answer>> = operation.commands.iter().map(|it| perform(it, &mut after)).collect();
        match (&mut operation.fate, told.into_iter().collect()) {
            (Fate::Answered { answers, .. }, Some(told)) => *answers = told,
            (fate, _) if matches!(fate, Fate::Answered { .. }) => *fate = Fate::Unknown,
            _ => {}
        }
        if does {
            map = after;
        }
        if let Fate::Answered { answers, .. } = &mut operation.fate {
            if lies && random.below(2) == 0 {
                let place = random.below(answers.len() as u64) as usize;
                answers[place] = match &answers[place] {
                    Answer::Value(_) => Answer::Value((random.below(4) > 0).then(|| value(random))),
                    Answer::Set => Answer::Set,
                    Answer::Done(done) => Answer::Done(!done),
                    Answer::Sum(sum) => Answer::Sum(sum + 1 - random.below(3) as i64),
                };
            }
        }
        all.push(operation);
    }
    all
}

#[test]
fn verdicts_are_those_of_all_orders() {
    let mut linearizable = 0;
    let count = std::env::var("HISTORIES").map_or(HISTORIES, |text| text.parse().unwrap());
    for seed in 1..=count {
        let history = history(&mut Random::new(seed));
        let expected = has_order(&history, &mut vec![false; history.len()], &Map::new());
        let verdict = check(&history, STATES).unwrap();
        let lines: Vec<String> = history.iter().map(|operation| operation.to_string()).collect();
        assert_eq!(
            verdict == Verdict::Linearizable,
            expected,
            "seed {seed}: {verdict:?}\n{}",
            lines.join("\n")
        );
        assert_eq!(
            histories::read(&lines.join("\n"))
                .unwrap()
                .into_iter()
                .map(|(_, it)| it)
                .collect::<Vec<_>>(),
            history,
        );
        linearizable += u64::from(expected);
    }
    println!("{linearizable} of {count} are linearizable");
    assert!(linearizable > count / 4 && linearizable < count * 3 / 4);
}
