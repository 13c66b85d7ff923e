//! What the program is told by arguments.

use std::io::Write;
use std::path::PathBuf;
use std::process::{Command, Stdio};

/// Runs the program; returns its status, and what it printed.
fn run(arguments: &[&str], input: &[u8]) -> (i32, String) {
    let mut child = Command::new(env!("CARGO_BIN_EXE_histories"))
        .args(arguments)
        .stdin(Stdio::piped())
        .stdout(Stdio::piped())
        .stderr(Stdio::piped())
        .spawn()
        .unwrap();
    // (who refuses its arguments reads nothing)
    let _ = child.stdin.take().unwrap().write_all(input);
    let output = child.wait_with_output().unwrap();
    let text = String::from_utf8([output.stdout, output.stderr].concat()).unwrap();
    (output.status.code().unwrap(), text)
}

fn case(name: &str) -> String {
    let path = PathBuf::from(env!("CARGO_MANIFEST_DIR")).join("cases").join(name);
    path.to_str().unwrap().to_string()
}

#[test]
fn help_has_the_form_of_a_history() {
    let (status, text) = run(&["--help"], b"");
    assert_eq!(status, 0);
    assert!(text.ends_with(histories::FORM));
}

#[test]
fn wrong_arguments_are_refused() {
    for arguments in [&["--state", "3"][..], &["--states"], &["--states", "many"]] {
        assert_eq!(run(arguments, b"").0, 2);
    }
}

#[test]
fn a_violation_is_explained() {
    let (_, text) = run(&[], b"1 1 2 set a x\n1 3 4 set a y\n2 5 6 get a x\n");
    let expected = [
        "not linearizable over a: line 3 can't come next, after 2 of 3 answered operations",
        "    a is y, by line 2",
        "    line 3: 2 5 6 get a x",
        "",
    ];
    assert_eq!(text, expected.join("\n"));
}

#[test]
fn a_search_gives_up_after_so_many_states() {
    let history = b"1 1 9 set a x\n2 1 9 set a y\n3 1 9 set a z\n4 10 11 get a x\n";
    assert_eq!(
        run(&["--states", "2"], history),
        (3, "gave up after 2 states, over a\n".to_string())
    );
    assert_eq!(run(&["--states", "20"], history).0, 0);
}

#[test]
fn each_file_is_a_history_and_the_worst_counts() {
    let (good, stale, bad) = (case("increments.txt"), case("stale_read.txt"), case("bad_command.txt"));
    let (status, text) = run(&[&good, &stale], b"");
    assert_eq!(status, 1);
    assert!(text.starts_with(&format!(
        "{good}: linearizable: 5 operations over 1 key\n{stale}: not linearizable"
    )));
    assert_eq!(run(&[&bad, &stale, &good], b"").0, 2);
    assert_eq!(run(&[&good, &good], b"").0, 0);
    assert_eq!(run(&["no such file"], b"").0, 2);
}

#[test]
fn bytes_that_are_no_text_are_refused_with_their_line() {
    assert_eq!(
        run(&[], b"1 1 2 set a x\n\n1 3 4 set a \xff\n"),
        (2, "histories: line 3: not UTF-8\n".to_string())
    );
}
