//! Whether histories of clients are linearizable: each operation takes effect at one moment between its call and its
//! answer, and is answered what a map of keys to values would answer at that moment.
//!
//! A history is cut into parts that have no key in common: it is linearizable if each of them is. Within a part the
//! operations on all keys are ordered together.
//!
//! ```
//! let history = histories::read("1 10 20 set a x\n2 15 30 get a nil\n2 40 50 get a nil\n").unwrap();
//! let operations: Vec<_> = history.into_iter().map(|(_, operation)| operation).collect();
//! let verdict = histories::check(&operations, histories::STATES).unwrap();
//! assert!(matches!(verdict, histories::Verdict::NotLinearizable(_)));
//! ```
// (its blocks are no programs)
#![cfg_attr(not(doctest), doc = include_str!("form.txt"))]

mod act;
mod check;
mod operation;
mod ring;
mod search;
mod text;

pub use check::{check, keys, BadHistory, Seen, Verdict, Violation, STATES};
pub use operation::{Answer, Command, Fate, Operation};
pub use text::{or_nil, read, BadLine};

/// How a history is written.
pub const FORM: &str = include_str!("form.txt");
