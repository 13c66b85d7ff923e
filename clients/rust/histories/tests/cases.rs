//! The histories of `cases/`: the first line of each is a comment that says what the program prints first.

use std::fs::{self, File};
use std::path::Path;
use std::process::Command;

#[test]
fn cases_are_told_as_they_say() {
    let folder = Path::new(env!("CARGO_MANIFEST_DIR")).join("cases");
    let mut wrong = Vec::new();
    let mut count = 0;
    for entry in fs::read_dir(folder).unwrap() {
        let path = entry.unwrap().path();
        let text = fs::read_to_string(&path).unwrap();
        let expected = text.lines().next().and_then(|line| line.strip_prefix("# ")).unwrap();
        let output = Command::new(env!("CARGO_BIN_EXE_histories"))
            .stdin(File::open(&path).unwrap())
            .output()
            .unwrap();
        let told = String::from_utf8([output.stdout, output.stderr].concat()).unwrap();
        let status = match expected.split_once(' ').unwrap().0 {
            "linearizable:" => 0,
            "not" => 1,
            "histories:" => 2,
            _ => 3,
        };
        if told.lines().next() != Some(expected) || output.status.code() != Some(status) {
            wrong.push(format!("{}: {:?}\n{told}", path.display(), output.status.code()));
        }
        count += 1;
    }
    assert!(wrong.is_empty(), "{}", wrong.join("\n"));
    assert!(count > 0, "there is no case");
}
