//! Histories as text.

use crate::operation::{Answer, Command, Fate, Operation};
use std::fmt;
use std::str::FromStr;

/// Why a line is refused.
#[derive(Clone, PartialEq, Eq, Debug)]
pub struct BadLine {
    /// From 1.
    pub line: usize,
    pub reason: String,
}

impl fmt::Display for BadLine {
    fn fmt(&self, f: &mut fmt::Formatter) -> fmt::Result {
        write!(f, "line {}: {}", self.line, self.reason)
    }
}

impl std::error::Error for BadLine {}

/// Reads a history; each operation comes with the number of its line, from 1.
pub fn read(text: &str) -> Result<Vec<(usize, Operation)>, BadLine> {
    let mut operations = Vec::new();
    for (place, text) in text.lines().enumerate() {
        let words: Vec<&str> = text.split_whitespace().collect();
        if words.first().is_some_and(|word| !word.starts_with('#')) {
            let line = place + 1;
            let operation = operation(&words).map_err(|reason| BadLine { line, reason })?;
            operations.push((line, operation));
        }
    }
    Ok(operations)
}

fn operation(words: &[&str]) -> Result<Operation, String> {
    let [client, called, answered, words @ ..] = words else {
        return Err("no operation: CLIENT CALLED ANSWERED|- COMMAND".to_string());
    };
    let (fails, words) = match words {
        ["failed", words @ ..] if *answered != "-" => (true, words),
        _ => (false, words),
    };
    let is_answered = *answered != "-" && !fails;
    let (mut commands, mut answers) = (Vec::new(), Vec::new());
    for words in words.split(|word| *word == ";") {
        read_command(Words(words), is_answered, &mut commands, &mut answers)?;
    }
    let fate = match *answered {
        "-" => Fate::Unknown,
        at if fails => Fate::Failed { at: number(at)? },
        at => Fate::Answered {
            at: number(at)?,
            answers,
        },
    };
    Ok(Operation {
        client: name(client)?,
        called: number(called)?,
        commands,
        fate,
    })
}

/// Reads a command, or the several of an `mget` or `mset`.
fn read_command(
    mut words: Words,
    is_answered: bool,
    commands: &mut Vec<Command>,
    answers: &mut Vec<Answer>,
) -> Result<(), String> {
    let verb = words.next()?;
    loop {
        let key = name(words.next()?)?;
        commands.push(match verb {
            "get" | "mget" => Command::Get { key },
            "set" | "mset" => Command::Set {
                key,
                value: name(words.next()?)?,
            },
            "cas" => Command::Swap {
                key,
                expected: words.value()?,
                value: name(words.next()?)?,
            },
            "del" => Command::Delete { key },
            "incr" => Command::Increment { key },
            _ => return Err(format!("no command: {verb}")),
        });
        if is_answered {
            answers.push(match commands.last() {
                Some(Command::Get { .. }) => Answer::Value(words.value()?),
                Some(Command::Increment { .. }) => Answer::Sum(number(words.next()?)?),
                Some(Command::Swap { .. } | Command::Delete { .. }) => Answer::Done(words.done()?),
                Some(Command::Set { .. }) | None => Answer::Set,
            });
        }
        match words.0 {
            [] => return Ok(()),
            [word, ..] if !matches!(verb, "mget" | "mset") => return Err(format!("a word too many: {word}")),
            _ => {}
        }
    }
}

/// The words of a command that are still to be read.
struct Words<'a>(&'a [&'a str]);

impl<'a> Words<'a> {
    fn next(&mut self) -> Result<&'a str, String> {
        let (word, rest) = self
            .0
            .split_first()
            .ok_or("a word is missing at the end of a command")?;
        self.0 = rest;
        Ok(word)
    }

    fn value(&mut self) -> Result<Option<String>, String> {
        match self.next()? {
            "nil" => Ok(None),
            word => name(word).map(Some),
        }
    }

    fn done(&mut self) -> Result<bool, String> {
        match self.next()? {
            "yes" => Ok(true),
            "no" => Ok(false),
            word => Err(format!("neither yes nor no: {word}")),
        }
    }
}

/// A client, a key or a value.
fn name(word: &str) -> Result<String, String> {
    match word {
        "nil" | ";" => Err(format!("neither a name nor a value: {word}")),
        _ => Ok(word.to_string()),
    }
}

fn number<T: FromStr>(word: &str) -> Result<T, String> {
    word.parse().map_err(|_| format!("no number, or too great: {word}"))
}

/// A line of the text of a history.
impl fmt::Display for Operation {
    fn fmt(&self, f: &mut fmt::Formatter) -> fmt::Result {
        write!(f, "{} {} ", self.client, self.called)?;
        let answers = match &self.fate {
            Fate::Answered { at, answers } => {
                write!(f, "{at}")?;
                &answers[..]
            }
            Fate::Failed { at } => {
                write!(f, "{at} failed")?;
                &[]
            }
            Fate::Unknown => {
                write!(f, "-")?;
                &[]
            }
        };
        let together = match &self.commands[..] {
            [] | [_] => None,
            all if all.iter().all(|it| matches!(it, Command::Get { .. })) => Some("mget"),
            all if all.iter().all(|it| matches!(it, Command::Set { .. })) => Some("mset"),
            _ => None,
        };
        for (place, command) in self.commands.iter().enumerate() {
            match together {
                Some(verb) if place == 0 => write!(f, " {verb}")?,
                Some(_) => {}
                None => write!(f, "{}{}", if place == 0 { " " } else { " ; " }, verb(command))?,
            }
            write!(f, " {}", command.key())?;
            match command {
                Command::Set { value, .. } => write!(f, " {value}")?,
                Command::Swap { expected, value, .. } => write!(f, " {} {value}", or_nil(expected))?,
                _ => {}
            }
            match answers.get(place) {
                Some(Answer::Value(value)) => write!(f, " {}", or_nil(value))?,
                Some(Answer::Done(done)) => write!(f, " {}", if *done { "yes" } else { "no" })?,
                Some(Answer::Sum(sum)) => write!(f, " {sum}")?,
                Some(Answer::Set) | None => {}
            }
        }
        Ok(())
    }
}

fn verb(command: &Command) -> &'static str {
    match command {
        Command::Get { .. } => "get",
        Command::Set { .. } => "set",
        Command::Swap { .. } => "cas",
        Command::Delete { .. } => "del",
        Command::Increment { .. } => "incr",
    }
}

/// The text of a value.
pub fn or_nil(value: &Option<String>) -> &str {
    value.as_deref().unwrap_or("nil")
}
