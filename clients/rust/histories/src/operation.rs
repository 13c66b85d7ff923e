//! What clients ask, and what they are answered.

/// A command on one key.
#[derive(Clone, PartialEq, Eq, Debug)]
pub enum Command {
    Get {
        key: String,
    },
    Set {
        key: String,
        value: String,
    },
    /// Compare-and-swap: sets the value if the key has the expected one.
    Swap {
        key: String,
        expected: Option<String>,
        value: String,
    },
    Delete {
        key: String,
    },
    /// Adds one to a number of 64 bits, to 0 if there is no value; changes nothing else.
    Increment {
        key: String,
    },
}

impl Command {
    pub fn key(&self) -> &str {
        match self {
            Command::Get { key }
            | Command::Set { key, .. }
            | Command::Swap { key, .. }
            | Command::Delete { key }
            | Command::Increment { key } => key,
        }
    }
}

/// What a command is answered.
#[derive(Clone, PartialEq, Eq, Debug)]
pub enum Answer {
    /// Of a get: the value, if there is one.
    Value(Option<String>),
    /// Of a set.
    Set,
    /// Of a swap: whether the key had the expected value; of a delete: whether it had a value.
    Done(bool),
    /// Of an increment: the sum.
    Sum(i64),
}

/// What became of an operation.
#[derive(Clone, PartialEq, Eq, Debug)]
pub enum Fate {
    /// It took effect at one moment between its call and this one, and was answered so, command for command.
    Answered { at: u64, answers: Vec<Answer> },
    /// Its client was told that it has had no effect, and never will.
    Failed { at: u64 },
    /// It may take effect at any moment after its call, or never.
    Unknown,
}

/// What a client asked for, at one moment: one command, or several that take effect at once.
#[derive(Clone, PartialEq, Eq, Debug)]
pub struct Operation {
    pub client: String,
    pub called: u64,
    pub commands: Vec<Command>,
    pub fate: Fate,
}
