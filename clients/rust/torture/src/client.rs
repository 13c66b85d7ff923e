//! A client of the cluster, which goes to the leader and keeps what it saw.

use crate::random::Random;
use crate::resp::{Connection, Reply};
use histories::{Answer, Command, Fate, Operation};
use std::collections::HashMap;
use std::io;
use std::net::SocketAddr;
use std::sync::Mutex;
use std::time::{Duration, Instant};

/// What all clients saw.
#[derive(Default)]
pub struct Seen {
    pub operations: Vec<Operation>,
    pub acknowledged: u64,
    pub unknown: u64,
}

pub struct Client<'a> {
    name: String,
    addresses: &'a [SocketAddr],
    connections: HashMap<usize, Connection>,
    /// The place of the node that is asked first.
    leader: usize,
    began: Instant,
    /// The last moment that it has noted.
    noted: u64,
    random: Random,
    /// The last values that it saw.
    last: HashMap<String, String>,
}

const PATIENCE: Duration = Duration::from_secs(3);

/// The words of a command.
fn words(command: &Command) -> Vec<&str> {
    match command {
        Command::Get { key } => vec!["GET", key],
        Command::Set { key, value } => vec!["SET", key, value],
        Command::Swap {
            key,
            expected: Some(expected),
            value,
        } => vec!["CAS", key, expected, value],
        Command::Swap {
            key,
            expected: None,
            value,
        } => vec!["SET", key, value, "NX"],
        Command::Delete { key } => vec!["DEL", key],
        Command::Increment { key } => vec!["INCR", key],
    }
}

/// What a reply answers; none if it is no answer to the command.
fn answer(command: &Command, reply: &Reply) -> Option<Answer> {
    Some(match (command, reply) {
        (Command::Get { .. }, Reply::Bulk(value)) => Answer::Value(value.clone()),
        (Command::Set { .. }, Reply::Simple(_)) => Answer::Set,
        (Command::Swap { expected: None, .. }, Reply::Simple(_)) => Answer::Done(true),
        (Command::Swap { expected: None, .. }, Reply::Bulk(None)) => Answer::Done(false),
        (Command::Swap { .. } | Command::Delete { .. }, Reply::Number(count)) => Answer::Done(*count == 1),
        (Command::Increment { .. }, Reply::Number(sum)) => Answer::Sum(*sum),
        _ => return None,
    })
}

/// What came of a request.
enum Came {
    Answered(Vec<Answer>),
    /// It has had no effect, and never will; another node may lead.
    NotDone(Option<SocketAddr>),
    /// It may have had an effect, or have one later.
    Unknown,
}

/// What an error says of a request's fate.
fn fate_of(error: &str) -> Came {
    let mut words = error.split(' ');
    match words.next() {
        Some("MOVED") => Came::NotDone(words.nth(1).and_then(|address| address.parse().ok())),
        Some("CLUSTERDOWN" | "TRYAGAIN") => Came::NotDone(None),
        _ => Came::Unknown,
    }
}

/// What the replies to an operation's requests came to.
fn came_of(commands: &[Command], replies: &[Reply]) -> Came {
    match (replies.last(), commands) {
        (Some(Reply::Error(error)), _) => fate_of(error),
        (Some(Reply::Array(replies)), commands) => {
            let answers = commands
                .iter()
                .zip(replies)
                .map(|(command, reply)| answer(command, reply));
            answers.collect::<Option<_>>().map_or(Came::Unknown, Came::Answered)
        }
        // of MSET there is one reply
        (Some(Reply::Simple(_)), commands) if commands.len() > 1 => {
            Came::Answered(commands.iter().map(|_| Answer::Set).collect())
        }
        (Some(reply), [command]) => answer(command, reply).map_or(Came::Unknown, |answer| Came::Answered(vec![answer])),
        _ => Came::Unknown,
    }
}

/// The requests of an operation: one command, several reads or writes at once, or a transaction.
fn requests(commands: &[Command]) -> Vec<Vec<&str>> {
    if let [command] = commands {
        return vec![words(command)];
    }
    let all = |name| {
        let words = commands.iter().flat_map(|command| words(command).split_off(1));
        vec![std::iter::once(name).chain(words).collect()]
    };
    if commands.iter().all(|command| matches!(command, Command::Get { .. })) {
        return all("MGET");
    }
    if commands.iter().all(|command| matches!(command, Command::Set { .. })) {
        return all("MSET");
    }
    let queued = commands.iter().map(words);
    std::iter::once(vec!["MULTI"])
        .chain(queued)
        .chain(std::iter::once(vec!["EXEC"]))
        .collect()
}

impl<'a> Client<'a> {
    pub fn new(name: &str, addresses: &'a [SocketAddr], began: Instant, seed: u64) -> Self {
        Client {
            name: name.to_string(),
            addresses,
            connections: HashMap::new(),
            leader: seed as usize % addresses.len(),
            began,
            noted: 0,
            random: Random::new(seed),
            last: HashMap::new(),
        }
    }

    /// A moment after the last one.
    fn moment(&mut self) -> u64 {
        let now = self.began.elapsed().as_nanos() as u64;
        self.noted = now.max(self.noted + 1);
        self.noted
    }

    /// Asks one node; `None` if it can't be reached, so that it has not got the request.
    fn ask(&mut self, commands: &[Command]) -> Option<io::Result<Vec<Reply>>> {
        let place = self.leader;
        if !self.connections.contains_key(&place) {
            let connection = Connection::open(self.addresses[place], PATIENCE).ok()?;
            self.connections.insert(place, connection);
        }
        let replies = self.connections.get_mut(&place)?.ask(&requests(commands));
        if replies.is_err() {
            self.connections.remove(&place);
        }
        Some(replies)
    }

    /// Asks until a leader has answered, or for some seconds.
    fn send(&mut self, commands: &[Command]) -> Came {
        let until = Instant::now() + Duration::from_secs(4);
        while Instant::now() < until {
            let leader = match self.ask(commands) {
                Some(Ok(replies)) => match came_of(commands, &replies) {
                    Came::NotDone(leader) => leader,
                    came => return came,
                },
                Some(Err(_)) => {
                    self.next();
                    return Came::Unknown;
                }
                None => None,
            };
            match leader.and_then(|leader| self.addresses.iter().position(|address| *address == leader)) {
                Some(place) => self.leader = place,
                None => self.next(),
            }
        }
        Came::NotDone(None)
    }

    /// Another node is asked next, a little later.
    fn next(&mut self) {
        std::thread::sleep(Duration::from_millis(20));
        self.leader = (self.leader + 1) % self.addresses.len();
    }

    /// One of the keys of each kind.
    fn pick(&mut self, kind: &str, count: u64, period: u128) -> String {
        format!("{kind}{period}-{}", self.random.below(count))
    }

    /// Commands on some of the registers, on counters, or on a key of its own.
    fn commands(&mut self, registers: u64, period: u128) -> Vec<Command> {
        let key = self.pick("r", registers, period);
        let other = self.pick("r", registers, period);
        let moment = self.moment();
        let value = format!("{}-{moment}", self.name);
        match self.random.below(100) {
            0..=24 => vec![Command::Get { key }],
            25..=39 => vec![Command::Swap {
                expected: self.last.get(&key).cloned(),
                key,
                value,
            }],
            40..=64 => vec![Command::Set { key, value }],
            65..=69 => vec![Command::Delete { key }],
            70..=77 => vec![Command::Increment {
                key: self.pick("n", registers, period),
            }],
            78..=84 if key != other => vec![Command::Get { key }, Command::Get { key: other }],
            85..=89 if key != other => vec![
                Command::Set {
                    key,
                    value: value.clone(),
                },
                Command::Set { key: other, value },
            ],
            90..=95 => vec![Command::Set { key, value }, Command::Get { key: other }],
            _ => vec![Command::Set {
                key: format!("once-{value}"),
                value,
            }],
        }
    }

    /// One operation.
    pub fn step(&mut self, registers: u64, period: u128, seen: &Mutex<Seen>) {
        let commands = self.commands(registers, period);
        let operation = self.operate(commands);
        let is_read = operation.commands.iter().all(|it| matches!(it, Command::Get { .. }));
        if let Fate::Answered { answers, .. } = &operation.fate {
            for (command, answer) in operation.commands.iter().zip(answers) {
                match (command, answer) {
                    (Command::Get { key }, Answer::Value(Some(value))) | (Command::Set { key, value }, _) => {
                        self.last.insert(key.clone(), value.clone());
                    }
                    (Command::Swap { key, value, .. }, Answer::Done(true)) => {
                        self.last.insert(key.clone(), value.clone());
                    }
                    (command, _) => {
                        self.last.remove(command.key());
                    }
                }
            }
        }
        let mut seen = seen.lock().expect("no client panics");
        if !is_read {
            match operation.fate {
                Fate::Answered { .. } => seen.acknowledged += 1,
                Fate::Unknown => seen.unknown += 1,
                Fate::Failed { .. } => {}
            }
        }
        seen.operations.push(operation);
    }

    /// Asks for commands at one moment, and notes what came of them.
    fn operate(&mut self, commands: Vec<Command>) -> Operation {
        let called = self.moment();
        let came = self.send(&commands);
        let at = self.moment();
        let fate = match came {
            Came::Answered(answers) => Fate::Answered { at, answers },
            Came::NotDone(_) => Fate::Failed { at },
            Came::Unknown => Fate::Unknown,
        };
        Operation {
            client: self.name.clone(),
            called,
            commands,
            fate,
        }
    }

    /// Reads a key at the end, as often as it takes to be answered, within half a minute.
    pub fn read(&mut self, key: &str) -> Option<Operation> {
        let until = Instant::now() + Duration::from_secs(30);
        while Instant::now() < until {
            let operation = self.operate(vec![Command::Get { key: key.to_string() }]);
            if matches!(operation.fate, Fate::Answered { .. }) {
                return Some(operation);
            }
        }
        None
    }
}
