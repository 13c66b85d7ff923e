//! Says whether histories of clients are linearizable.

use histories::{check, keys, or_nil, read, BadHistory, Operation, Seen, Verdict, Violation, FORM, STATES};
use std::fs;
use std::io::{self, Read, Write};
use std::process::ExitCode;

const HELP: &str = "\
Says whether histories of clients are linearizable: each operation takes effect at one moment between its call and its
answer, and is answered what a map of keys to values would answer at that moment.

    histories [--states N] [FILE ..]

Each file is one history; without any the standard input is one. It prints, and ends with the status:

    0  linearizable: N operations over K keys
    1  not linearizable: which operations could not be ordered, at the deepest point that the search has reached
    2  a file can't be read, or is no history (to standard error)
    3  gave up: the search in a part went through more than so many states, by default ten million

Of several files the worst counts: 2, 1, 3, 0.
";

fn main() -> ExitCode {
    let mut states = STATES;
    let mut files = Vec::new();
    let mut words = std::env::args().skip(1);
    while let Some(word) = words.next() {
        match &word[..] {
            "--help" | "-h" => {
                print!("{HELP}\n{FORM}");
                return ExitCode::SUCCESS;
            }
            "--states" => match words.next().and_then(|word| word.parse().ok()) {
                Some(number) => states = number,
                None => return usage("--states is followed by a number"),
            },
            _ if word.starts_with('-') => return usage(&format!("no option: {word}")),
            _ => files.push(word),
        }
    }
    let mut statuses = Vec::new();
    if files.is_empty() {
        let mut bytes = Vec::new();
        let text = io::stdin().read_to_end(&mut bytes).map(|_| bytes);
        statuses.push(tell(text, "", states));
    }
    for file in &files {
        let name = if files.len() > 1 {
            format!("{file}: ")
        } else {
            String::new()
        };
        statuses.push(tell(fs::read(file), &name, states));
    }
    let worst = [2, 1, 3].into_iter().find(|status| statuses.contains(status));
    ExitCode::from(worst.unwrap_or(0))
}

fn usage(reason: &str) -> ExitCode {
    eprintln!("histories: {reason} (--help tells more)");
    ExitCode::from(2)
}

/// Says what comes of a file, in lines that begin with its name; returns the status.
fn tell(bytes: io::Result<Vec<u8>>, name: &str, states: u64) -> u8 {
    let (status, text) = match verdict(bytes, states) {
        Ok(told) => told,
        Err(reason) => {
            eprintln!("histories: {name}{reason}");
            return 2;
        }
    };
    // (who reads no more of it wants no more)
    let _ = writeln!(io::stdout(), "{name}{text}");
    status
}

fn verdict(bytes: io::Result<Vec<u8>>, states: u64) -> Result<(u8, String), String> {
    let bytes = bytes.map_err(|error| error.to_string())?;
    let text = String::from_utf8(bytes).map_err(|error| {
        let before = &error.as_bytes()[..error.utf8_error().valid_up_to()];
        format!(
            "line {}: not UTF-8",
            1 + before.iter().filter(|byte| **byte == b'\n').count()
        )
    })?;
    let (lines, operations): (Vec<usize>, Vec<Operation>) =
        read(&text).map_err(|error| error.to_string())?.into_iter().unzip();
    let bad = |bad| match bad {
        BadHistory::AnsweredBeforeCall(place) => format!("line {}: answered before it was called", lines[place]),
        BadHistory::Overlaps(place, other) => {
            let client = &operations[place].client;
            format!(
                "line {}: client {client} still waits for line {}",
                lines[place], lines[other]
            )
        }
        BadHistory::ForeignAnswers(place) => format!("line {}: answers to other commands", lines[place]),
    };
    Ok(match check(&operations, states).map_err(bad)? {
        Verdict::Linearizable => {
            let (count, keys) = (operations.len(), keys(&operations).len());
            (
                0,
                format!(
                    "linearizable: {} over {}",
                    number(count, "operation"),
                    number(keys, "key")
                ),
            )
        }
        Verdict::NotLinearizable(violations) => {
            let texts: Vec<String> = violations
                .iter()
                .map(|violation| explain(violation, &lines, &operations))
                .collect();
            (1, texts.join("\n"))
        }
        Verdict::GaveUp(keys) => (3, format!("gave up after {states} states, over {}", keys.join(" "))),
    })
}

fn number(count: usize, what: &str) -> String {
    format!("{count} {what}{}", if count == 1 { "" } else { "s" })
}

fn explain(violation: &Violation, lines: &[usize], operations: &[Operation]) -> String {
    let mut stuck = violation.stuck.clone();
    stuck.sort_by_key(|place| lines[*place]);
    let numbers: Vec<String> = stuck.iter().map(|place| lines[*place].to_string()).collect();
    let mut text = format!(
        "not linearizable over {}: line{} {} can't come next, after {} of {} answered operations",
        violation.keys.join(" "),
        if stuck.len() == 1 { "" } else { "s" },
        numbers.join(", "),
        violation.ordered,
        violation.answered,
    );
    for Seen { key, value, writer } in &violation.values {
        let by = writer.map_or(String::new(), |place| format!(", by line {}", lines[place]));
        text += &format!("\n    {key} is {}{by}", or_nil(value));
    }
    for place in stuck {
        text += &format!("\n    line {}: {}", lines[place], operations[place]);
    }
    text
}
