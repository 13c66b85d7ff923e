//! Values, and what a command does to them.

use crate::operation::{Answer, Command};
use std::collections::HashMap;

/// The value of a key; a text by its number.
#[derive(Clone, Copy, PartialEq, Eq, Hash, Debug)]
pub enum Value {
    Nil,
    Number(i64),
    Text(usize),
}

/// The texts that occur as values.
#[derive(Default)]
pub struct Texts<'a> {
    texts: Vec<&'a str>,
    places: HashMap<&'a str, usize>,
}

impl<'a> Texts<'a> {
    /// The value of a text: a number, if it is written as numbers are.
    fn value(&mut self, text: &'a str) -> Value {
        match text.parse::<i64>() {
            Ok(number) if number.to_string() == text => Value::Number(number),
            _ => Value::Text(*self.places.entry(text).or_insert_with(|| {
                self.texts.push(text);
                self.texts.len() - 1
            })),
        }
    }

    fn value_or_nil(&mut self, text: &'a Option<String>) -> Value {
        text.as_ref().map_or(Value::Nil, |text| self.value(text))
    }

    /// The text of a value, if it is one.
    pub fn text(&self, value: Value) -> Option<String> {
        match value {
            Value::Nil => None,
            Value::Number(number) => Some(number.to_string()),
            Value::Text(place) => Some(self.texts[place].to_string()),
        }
    }
}

/// What a command does to the value of its key, with its answer, if it was answered.
#[derive(Clone, Copy, PartialEq, Eq, Hash, Debug)]
pub enum Act {
    Get(Option<Value>),
    Set(Value),
    Swap {
        expected: Value,
        value: Value,
        done: Option<bool>,
    },
    Delete(Option<bool>),
    Increment(Option<i64>),
}

impl Act {
    /// `None` if the answer isn't one to the command.
    pub fn new<'a>(command: &'a Command, answer: Option<&'a Answer>, texts: &mut Texts<'a>) -> Option<Act> {
        Some(match (command, answer) {
            (Command::Get { .. }, Some(Answer::Value(value))) => Act::Get(Some(texts.value_or_nil(value))),
            (Command::Get { .. }, None) => Act::Get(None),
            (Command::Set { value, .. }, None | Some(Answer::Set)) => Act::Set(texts.value(value)),
            (Command::Swap { expected, value, .. }, None | Some(Answer::Done(_))) => Act::Swap {
                expected: texts.value_or_nil(expected),
                value: texts.value(value),
                done: done(answer),
            },
            (Command::Delete { .. }, None | Some(Answer::Done(_))) => Act::Delete(done(answer)),
            (Command::Increment { .. }, Some(Answer::Sum(sum))) => Act::Increment(Some(*sum)),
            (Command::Increment { .. }, None) => Act::Increment(None),
            _ => return None,
        })
    }

    /// The value after it; `None` if at this one it would have been answered otherwise.
    pub fn at(&self, before: Value) -> Option<Value> {
        let (fits, after) = match *self {
            Act::Get(value) => (value.is_none_or(|value| value == before), before),
            Act::Set(value) => (true, value),
            Act::Swap { expected, value, done } => {
                let does = expected == before;
                (done.is_none_or(|done| done == does), if does { value } else { before })
            }
            Act::Delete(done) => (done.is_none_or(|done| done == (before != Value::Nil)), Value::Nil),
            Act::Increment(sum) => {
                let after = match before {
                    Value::Nil => Some(1),
                    Value::Number(number) => number.checked_add(1),
                    Value::Text(_) => None,
                };
                (sum.is_none() || sum == after, after.map_or(before, Value::Number))
            }
        };
        fits.then_some(after)
    }

    /// Whether it changes nothing, wherever its answer fits.
    pub fn is_read(&self) -> bool {
        matches!(
            self,
            Act::Get(_) | Act::Swap { done: Some(false), .. } | Act::Delete(Some(false))
        )
    }
}

fn done(answer: Option<&Answer>) -> Option<bool> {
    match answer {
        Some(Answer::Done(done)) => Some(*done),
        _ => None,
    }
}
