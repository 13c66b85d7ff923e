//! Servers as processes, under what is done to them beyond kills: damaged files, emptied and copied folders, strangers, silent connections,
//! large values.

#![allow(dead_code)]

#[path = "../../torture/src/cluster.rs"]
mod cluster;
#[path = "../../torture/src/proxy.rs"]
mod proxy;
#[path = "../../torture/src/resp.rs"]
mod resp;

use crate::cluster::Cluster;
use crate::resp::{Connection, Reply};
use std::fs;
use std::io::{Read, Write};
use std::net::{Shutdown, TcpStream};
use std::os::unix::fs::PermissionsExt;
use std::os::unix::process::CommandExt;
use std::path::{Path, PathBuf};
use std::process::{Child, Command, Stdio};
use std::thread;
use std::time::{Duration, Instant};

const PROGRAM: &str = env!("CARGO_BIN_EXE_wachelpo");
const LONG: Duration = Duration::from_secs(60);

fn folder(name: &str) -> PathBuf {
    std::env::temp_dir().join(format!("wachelpo-process-{}-{name}", std::process::id()))
}

/// So many servers, which are all voters and run.
fn begin(name: &str, count: u64) -> Cluster {
    begin_by(Path::new(PROGRAM), name, count)
}

fn begin_by(program: &Path, name: &str, count: u64) -> Cluster {
    let mut cluster = Cluster::new(program, &folder(name), count, count).unwrap();
    for id in cluster.ids.clone() {
        cluster.start(id).unwrap();
    }
    set(&cluster, "begun", "1");
    cluster
}

fn wait_for<T>(what: &str, mut value: impl FnMut() -> Option<T>) -> T {
    let until = Instant::now() + LONG;
    loop {
        if let Some(value) = value() {
            return value;
        }
        assert!(Instant::now() < until, "{what}");
        thread::sleep(Duration::from_millis(20));
    }
}

/// How many bytes the files of a folder have.
fn bytes_in(folder: &Path) -> u64 {
    let length = |entry: std::io::Result<fs::DirEntry>| entry.unwrap().metadata().unwrap().len();
    fs::read_dir(folder).unwrap().map(length).sum()
}

/// What any server answers that doesn't send its client on.
fn ask(cluster: &Cluster, words: &[&str]) -> Reply {
    let ask_one = |id: &u64| {
        let mut connection = Connection::open(cluster.address(*id), Duration::from_secs(5)).ok()?;
        let reply = connection.ask(&[words.to_vec()]).ok()?.remove(0);
        (!matches!(reply, Reply::Error(_))).then_some(reply)
    };
    wait_for(&format!("{words:.60?} is answered: {}", cluster.errors()), || {
        cluster.ids.iter().find_map(ask_one)
    })
}

fn set(cluster: &Cluster, key: &str, value: &str) {
    assert_eq!(ask(cluster, &["SET", key, value]), Reply::Simple("OK".into()));
}

fn get(cluster: &Cluster, key: &str) -> Option<String> {
    match ask(cluster, &["GET", key]) {
        Reply::Bulk(value) => value,
        reply => panic!("{reply:?}"),
    }
}

fn leader(cluster: &Cluster) -> u64 {
    wait_for("a leader", || {
        let status = cluster.ask(&["status"])?;
        let line = status.lines().find(|line| line.contains("role=leader"))?;
        line.split(' ').next()?.strip_prefix("node=")?.parse().ok()
    })
}

/// Waits until a server has ended by itself, and returns what it has written.
fn refusal(cluster: &mut Cluster, id: u64) -> String {
    wait_for("it ends", || cluster.ended().contains(&id).then_some(()));
    fs::read_to_string(cluster.errors_of(id)).unwrap()
}

/// The file of a log that has the last bytes, and where they end.
fn last_of(folder: &Path) -> (PathBuf, usize) {
    let mut files: Vec<PathBuf> = fs::read_dir(folder)
        .unwrap()
        .map(|entry| entry.unwrap().path())
        .collect();
    files.retain(|path| {
        path.file_name()
            .is_some_and(|name| name.to_string_lossy().starts_with("log.0"))
    });
    files.sort();
    files
        .into_iter()
        .rev()
        .find_map(|path| {
            let last = fs::read(&path).unwrap().iter().rposition(|byte| *byte != 0)?;
            Some((path, last + 1))
        })
        .unwrap()
}

#[test]
fn a_damaged_log_is_refused_and_not_changed() {
    let mut cluster = begin("middle", 1);
    for key in 0..50 {
        set(&cluster, &format!("k{key}"), &"v".repeat(100));
    }
    cluster.kill(1).unwrap();
    let (path, end) = last_of(&cluster.folder(1));
    let whole = fs::read(&path).unwrap();
    let mut flipped = whole.clone();
    flipped[end / 2] ^= 1;
    let mut zeroed = whole.clone();
    zeroed[end / 2 - 1000..end / 2 + 1000].fill(0);
    for bytes in [flipped, zeroed] {
        fs::write(&path, &bytes).unwrap();
        cluster.start(1).unwrap();
        let text = refusal(&mut cluster, 1);
        assert!(
            text.contains("level=error") && text.contains("nothing was changed"),
            "{text}"
        );
        assert!(fs::read(&path).unwrap() == bytes);
    }
    // what a stop may leave behind the end is cut off
    let mut torn = whole;
    torn[end + 100..end + 200].fill(7);
    fs::write(&path, torn).unwrap();
    cluster.start(1).unwrap();
    assert_eq!(get(&cluster, "k49"), Some("v".repeat(100)));
    let text = fs::read_to_string(cluster.errors_of(1)).unwrap();
    assert!(text.contains("is cut off at byte"), "{text}");
}

#[test]
fn a_log_with_other_bytes_is_refused_or_lacks_its_last_record() {
    let mut cluster = begin("bytes", 1);
    for key in 0..50 {
        set(&cluster, &format!("k{key}"), &"v".repeat(100));
    }
    cluster.kill(1).unwrap();
    let (path, end) = last_of(&cluster.folder(1));
    let whole = fs::read(&path).unwrap();
    // each bit of the log's head and of its first record might be another one; a page of zeros lies on a page's border
    let flips = [0, 20, 31, 32, 36, 40, 60, end / 2, end - 40, end - 1].map(|at| (at, at + 1));
    let pages = [0, end / 2 / 4096 * 4096, (end - 1) / 4096 * 4096].map(|at| (at, at + 4096));
    for (from, to) in flips.into_iter().chain(pages) {
        let mut bytes = whole.clone();
        match to - from {
            1 => bytes[from] ^= 4,
            _ => bytes[from..to].fill(0),
        }
        fs::write(&path, &bytes).unwrap();
        fs::write(cluster.errors_of(1), "").unwrap();
        cluster.start(1).unwrap();
        let connected = wait_for("it ends or listens", || match cluster.ended()[..] {
            [] => TcpStream::connect(cluster.address(1)).is_ok().then_some(true),
            _ => Some(false),
        });
        let text = fs::read_to_string(cluster.errors_of(1)).unwrap();
        if connected {
            // what nothing follows that is whole may be a last write, which a stop has torn
            assert!(to >= end - 200, "byte {from} of {end}: {text}");
            assert!(text.contains("is cut off at byte"), "{text}");
            let key = if to - from == 1 { "k48" } else { "begun" };
            assert!(get(&cluster, key).is_some());
            cluster.kill(1).unwrap();
        } else {
            assert!(
                text.contains("level=error") && text.contains("nothing was changed"),
                "{text}"
            );
            assert!(fs::read(&path).unwrap() == bytes);
        }
    }
}

/// The files of a log, in their order.
fn files_of(folder: &Path) -> Vec<PathBuf> {
    let mut files: Vec<PathBuf> = fs::read_dir(folder).unwrap().map(|it| it.unwrap().path()).collect();
    files.retain(|it| it.file_name().unwrap().to_string_lossy().starts_with("log.0"));
    files.sort();
    files
}

#[test]
fn a_log_that_has_lost_bytes_in_the_middle_or_at_its_end_is_refused_and_not_changed() {
    let mut cluster = Cluster::new(Path::new(PROGRAM), &folder("lengths"), 1, 1).unwrap();
    let options = "--snapshot-entries 0 --log-bytes 400000";
    cluster.options = options.split(' ').map(String::from).collect();
    cluster.start(1).unwrap();
    for key in 0..100 {
        set(&cluster, &format!("k{key}"), &"v".repeat(3000));
    }
    // (how far the log is on disk is noted each second)
    thread::sleep(Duration::from_secs(2));
    cluster.kill(1).unwrap();
    let files = files_of(&cluster.folder(1));
    assert!(files.len() >= 5, "{files:?}");
    let (last, end) = last_of(&cluster.folder(1));
    let mut harms = Vec::new();
    for path in [&files[2], &last, &files[files.len() - 1]] {
        let whole = fs::read(path).unwrap();
        let half = whole.len() / 2;
        let longer = [&whole[..], &[0; 4096]].concat();
        for bytes in [
            whole[..whole.len() - 4096].to_vec(),
            longer,
            whole[..half].to_vec(),
            Vec::new(),
        ] {
            harms.push((path.clone(), bytes, "and was made with"));
        }
    }
    let whole = fs::read(&last).unwrap();
    for from in [end - 40, end / 2, 0] {
        let mut bytes = whole.clone();
        bytes[from..].fill(0);
        harms.push((last.clone(), bytes, "it has lost its end"));
    }
    for (path, bytes, told) in harms {
        let whole = fs::read(&path).unwrap();
        fs::write(&path, &bytes).unwrap();
        let others = || -> Vec<_> { files.iter().map(|it| fs::read(it).unwrap()).collect() };
        let before = others();
        cluster.start(1).unwrap();
        let text = refusal(&mut cluster, 1);
        let line = text.lines().last().unwrap();
        assert!(line.contains(told) && line.contains("nothing was changed"), "{line}");
        assert!(others() == before);
        fs::write(&path, whole).unwrap();
    }
    cluster.start(1).unwrap();
    for key in 0..100 {
        assert_eq!(get(&cluster, &format!("k{key}")), Some("v".repeat(3000)));
    }
}

#[test]
fn a_log_that_was_lost_is_not_a_new_nodes() {
    let mut cluster = begin("lost", 1);
    set(&cluster, "a", "1");
    cluster.kill(1).unwrap();
    let (path, _) = last_of(&cluster.folder(1));
    let whole = fs::read(&path).unwrap();
    fs::write(&path, vec![0; whole.len()]).unwrap();
    for _ in 0..2 {
        cluster.start(1).unwrap();
        let text = refusal(&mut cluster, 1);
        assert!(text.contains("the log has nothing, and had something"), "{text}");
    }
    fs::write(&path, whole).unwrap();
    cluster.start(1).unwrap();
    assert_eq!(get(&cluster, "a").as_deref(), Some("1"));
}

/// Sets keys and counts at others by turns, so many times in all.
fn write_by_turns(cluster: &Cluster, writes: usize, value: &str) {
    let keys: Vec<(String, String)> = (0..100).map(|key| (format!("k{key}"), format!("n{key}"))).collect();
    let pairs: Vec<_> = keys
        .iter()
        .flat_map(|(set, count)| [vec!["SET", set, value], vec!["INCR", count]])
        .collect();
    let mut connection = Connection::open(cluster.address(1), LONG).unwrap();
    for _ in 0..writes / pairs.len() {
        let replies = connection.ask(&pairs);
        let replies = replies.unwrap_or_else(|error| panic!("{error}: {}", cluster.errors()));
        for reply in replies {
            assert!(!matches!(reply, Reply::Error(_)), "{reply:?}");
        }
    }
}

/// So many servers, whose logs are short.
fn begin_short(name: &str, count: u64) -> Cluster {
    let mut cluster = Cluster::new(Path::new(PROGRAM), &folder(name), count, count).unwrap();
    let options = "--snapshot-entries 100 --kept-entries 10 --log-bytes 65536";
    cluster.options = options.split(' ').map(String::from).collect();
    for id in cluster.ids.clone() {
        cluster.start(id).unwrap();
    }
    cluster
}

#[test]
fn a_log_stays_short_and_all_is_there_after_kills() {
    let mut cluster = begin_short("bounded", 1);
    for (round, value) in (1..=2).map(|round| (round, round.to_string().repeat(1000))) {
        set(&cluster, "begun", "1");
        write_by_turns(&cluster, 5_000, &value);
        cluster.kill(1).unwrap();
        cluster.start(1).unwrap();
        for key in 0..100 {
            assert_eq!(get(&cluster, &format!("k{key}")).as_deref(), Some(&value[..]));
            let count = (round * 25).to_string();
            assert_eq!(get(&cluster, &format!("n{key}")), Some(count));
        }
        // (the values that were set alone are 2.5 MB a round)
        let left = bytes_in(&cluster.folder(1));
        assert!(left < 1 << 20, "{left}");
    }
}

/// Whether a log in a folder has taken the place of another one.
fn has_new_log(folder: &Path) -> bool {
    let is_new = |entry: std::io::Result<fs::DirEntry>| {
        let name = entry.unwrap().file_name().into_string().unwrap();
        name.starts_with("log.0") && name.matches('.').count() == 2
    };
    fs::read_dir(folder).unwrap().any(is_new)
}

#[test]
fn nodes_that_have_begun_new_logs_are_admitted_again() {
    let mut cluster = begin_short("anew", 3);
    let mut count = 0;
    wait_for("each has a new log", || {
        count += 1;
        set(&cluster, &format!("k{}", count % 10), &"v".repeat(1000));
        let has_new = |id: &u64| has_new_log(&cluster.folder(*id));
        cluster.ids.iter().all(has_new).then_some(())
    });
    for id in cluster.ids.clone() {
        cluster.kill(id).unwrap();
        cluster.start(id).unwrap();
        set(&cluster, "last", &id.to_string());
        wait_for("it is connected, and knows it", || {
            let status = cluster.ask(&["status"])?;
            let lines: Vec<&str> = status.lines().collect();
            let applied = |line: &&str| {
                line.split(' ')
                    .find_map(|word| word.strip_prefix("applied=")?.parse::<u64>().ok())
            };
            let all: Option<Vec<u64>> = lines.iter().map(applied).collect();
            all.filter(|all| all.len() == 3 && all.iter().min() == all.iter().max())
        });
    }
    for id in cluster.ids.clone() {
        let text = fs::read_to_string(cluster.errors_of(id)).unwrap();
        assert!(!text.contains("its log is shorter than it was"), "{text}");
    }
    assert_eq!(get(&cluster, "last").as_deref(), Some("3"));
}

#[test]
fn folders_that_are_swapped_are_refused_until_they_are_back() {
    let mut cluster = begin("swapped", 3);
    set(&cluster, "a", "1");
    for id in [1, 2] {
        cluster.kill(id).unwrap();
    }
    let between = cluster.folder(1).with_extension("between");
    let swap = |cluster: &Cluster| {
        fs::rename(cluster.folder(1), &between).unwrap();
        fs::rename(cluster.folder(2), cluster.folder(1)).unwrap();
        fs::rename(&between, cluster.folder(2)).unwrap();
    };
    swap(&cluster);
    for (id, other) in [(1, 2), (2, 1)] {
        cluster.start(id).unwrap();
        let text = refusal(&mut cluster, id);
        assert!(
            text.contains(&format!("the folder of node {other} of cluster torture")),
            "{text}"
        );
    }
    swap(&cluster);
    for id in [1, 2] {
        cluster.start(id).unwrap();
    }
    assert_eq!(get(&cluster, "a").as_deref(), Some("1"));
}

#[test]
fn files_beside_the_log_are_refused_if_they_are_damaged() {
    let mut cluster = begin("beside", 3);
    set(&cluster, "a", "1");
    cluster.kill(1).unwrap();
    for name in ["identity", "peers"] {
        let path = cluster.folder(1).join(name);
        let whole = fs::read(&path).unwrap();
        let half = whole[..whole.len() / 2].to_vec();
        for bytes in [half, vec![0xff; whole.len()], vec![0; whole.len()]] {
            fs::write(&path, &bytes).unwrap();
            cluster.start(1).unwrap();
            let text = refusal(&mut cluster, 1);
            let last = text.lines().last().unwrap();
            assert!(last.contains("level=error") && last.contains(name), "{text}");
        }
        fs::write(&path, whole).unwrap();
    }
    cluster.start(1).unwrap();
    assert_eq!(get(&cluster, "a").as_deref(), Some("1"));
}

#[test]
fn a_log_that_is_shorter_than_it_was_is_kept_out() {
    let mut cluster = begin("shorter", 3);
    let id = leader(&cluster);
    // as a snapshot of a machine that runs
    let copy = copy_of(&cluster, id);
    for key in 0..10 {
        set(&cluster, &format!("k{key}"), "v");
    }
    cluster.kill(id).unwrap();
    restore(&cluster, id, &copy);
    cluster.start(id).unwrap();
    let text = refusal(&mut cluster, id);
    assert!(text.contains("its log is shorter than it was"), "{text}");
    for key in 0..10 {
        assert_eq!(get(&cluster, &format!("k{key}")).as_deref(), Some("v"));
    }
}

/// What a node's status has of this name, up to a space.
fn status_of(cluster: &Cluster, id: u64, name: &str) -> Option<String> {
    let status = cluster.ask(&["status"])?;
    let line = status.lines().find(|line| line.starts_with(&format!("node={id} ")))?;
    let value = line.split(&format!(" {name}=")).nth(1)?;
    Some(value.split(' ').next()?.to_string())
}

/// The only voter of an old copy could lead by itself, and answer.
#[test]
fn a_node_that_is_refused_ends_though_its_old_members_would_let_it_lead() {
    let mut cluster = Cluster::new(Path::new(PROGRAM), &folder("grown"), 3, 1).unwrap();
    for id in 1..=3 {
        cluster.start(id).unwrap();
    }
    set(&cluster, "x", "before");
    cluster.kill(1).unwrap();
    let copy = copy_of(&cluster, 1);
    cluster.start(1).unwrap();
    for id in ["2", "3"] {
        wait_for("it joins", || cluster.ask(&["join", id]));
        wait_for("it is a voter", || {
            let voters = status_of(&cluster, 1, "voters")?;
            voters.split(',').any(|it| it == id).then_some(())
        });
    }
    set(&cluster, "x", "after");
    cluster.kill(1).unwrap();
    restore(&cluster, 1, &copy);
    cluster.start(1).unwrap();
    let text = refusal(&mut cluster, 1);
    let last = text.lines().last().unwrap();
    assert!(
        last.contains("level=error") && last.contains("refuses this node"),
        "{text}"
    );
    assert_eq!(get(&cluster, "x").as_deref(), Some("after"));
    let why = wait_for("it is shown", || {
        let of_each = [2, 3].map(|id| status_of(&cluster, id, "refused"));
        of_each.into_iter().flatten().find(|it| it != "-")
    });
    assert_eq!(why, "\"node");
}

/// A copy of a server's folder, which may run.
fn copy_of(cluster: &Cluster, id: u64) -> PathBuf {
    let copy = cluster.folder(id).with_extension("copy");
    fs::create_dir(&copy).unwrap();
    for entry in fs::read_dir(cluster.folder(id)).unwrap() {
        let name = entry.unwrap().file_name();
        // (a file that is being made gets its name once it is whole)
        if !name.to_string_lossy().ends_with(".new") {
            fs::copy(cluster.folder(id).join(&name), copy.join(&name)).unwrap();
        }
    }
    copy
}

fn restore(cluster: &Cluster, id: u64, copy: &Path) {
    fs::remove_dir_all(cluster.folder(id)).unwrap();
    fs::rename(copy, cluster.folder(id)).unwrap();
}

#[test]
fn an_emptied_folder_is_not_a_new_nodes() {
    let mut cluster = begin("emptied", 3);
    set(&cluster, "a", "1");
    cluster.kill(3).unwrap();
    set(&cluster, "b", "2");
    cluster.kill(2).unwrap();
    let data = cluster.folder(2);
    fs::remove_dir_all(&data).unwrap();
    fs::create_dir(&data).unwrap();
    // the torture's start doesn't say --new, since the folder is there
    cluster.start(2).unwrap();
    assert!(refusal(&mut cluster, 2).contains("no node's files are here"));
    // as a new one it is kept out, so the stale one and the first one go on
    fs::remove_dir_all(&data).unwrap();
    cluster.start(2).unwrap();
    cluster.start(3).unwrap();
    let text = refusal(&mut cluster, 2);
    assert!(text.contains("it isn't in the folder that it had"), "{text}");
    assert_eq!(get(&cluster, "b").as_deref(), Some("2"));
}

#[test]
fn an_old_copy_of_a_folder_is_kept_out() {
    let mut cluster = begin("copy", 3);
    let id = 1 + leader(&cluster) % 3;
    cluster.kill(id).unwrap();
    let copy = copy_of(&cluster, id);
    cluster.start(id).unwrap();
    wait_for("the others know of this start", || {
        let text = fs::read_to_string(cluster.errors_of(id)).unwrap();
        (text.matches(": connected to ").count() >= 4).then_some(())
    });
    cluster.kill(id).unwrap();
    restore(&cluster, id, &copy);
    // (however often it is started)
    for _ in 0..3 {
        cluster.start(id).unwrap();
        let text = refusal(&mut cluster, id);
        assert!(text.contains(OTHER_START), "{text}");
    }
    set(&cluster, "a", "1");
    assert_eq!(get(&cluster, "a").as_deref(), Some("1"));
}

/// Why a copy is refused.
const OTHER_START: &str = "its folder lacks the start by which it is known";

/// Starts a node, and waits until both others have admitted it.
fn start_admitted(cluster: &mut Cluster, id: u64) {
    let before = cluster.admissions(id);
    cluster.start(id).unwrap();
    wait_for("it is admitted", || {
        (cluster.admissions(id) >= before + 2).then_some(())
    });
}

#[test]
fn an_old_copy_makes_nobody_forget_what_others_have_acknowledged() {
    let mut cluster = begin("forget", 3);
    let first = leader(&cluster);
    let (id, other) = (1 + first % 3, 1 + (first + 1) % 3);
    cluster.kill(id).unwrap();
    let copy = copy_of(&cluster, id);
    start_admitted(&mut cluster, id);
    cluster.kill(other).unwrap();
    for key in 0..50 {
        set(&cluster, &format!("k{key}"), "v");
    }
    cluster.kill(id).unwrap();
    cluster.kill(first).unwrap();
    restore(&cluster, id, &copy);
    cluster.start(other).unwrap();
    for _ in 0..3 {
        cluster.start(id).unwrap();
        let text = refusal(&mut cluster, id);
        assert!(text.contains(OTHER_START), "{text}");
    }
    cluster.start(first).unwrap();
    for key in 0..50 {
        assert_eq!(get(&cluster, &format!("k{key}")).as_deref(), Some("v"));
    }
}

#[test]
fn what_was_heard_of_a_log_is_known_after_starts() {
    let mut cluster = begin("heard", 3);
    let id = 1 + leader(&cluster) % 3;
    // as a snapshot of a machine that runs
    let copy = copy_of(&cluster, id);
    for key in 0..10 {
        set(&cluster, &format!("k{key}"), "v");
    }
    // (positions are noted each second)
    thread::sleep(Duration::from_secs(2));
    for id in 1..=3 {
        cluster.kill(id).unwrap();
    }
    restore(&cluster, id, &copy);
    for id in 1..=3 {
        cluster.start(id).unwrap();
    }
    let text = refusal(&mut cluster, id);
    assert!(text.contains("it has lost what it promised: it is at byte"), "{text}");
    for key in 0..10 {
        assert_eq!(get(&cluster, &format!("k{key}")).as_deref(), Some("v"));
    }
}

#[test]
fn a_copy_from_before_the_others_starts_ends_and_they_go_on() {
    let mut cluster = begin("starts", 3);
    cluster.kill(3).unwrap();
    let copy = copy_of(&cluster, 3);
    start_admitted(&mut cluster, 3);
    for id in [1, 2] {
        cluster.kill(id).unwrap();
        start_admitted(&mut cluster, id);
    }
    set(&cluster, "a", "1");
    cluster.kill(3).unwrap();
    restore(&cluster, 3, &copy);
    for _ in 0..3 {
        cluster.start(3).unwrap();
        let text = refusal(&mut cluster, 3);
        let last = text.lines().last().unwrap();
        assert!(
            last.contains("refuses this node") && last.contains("old copy"),
            "{last}"
        );
    }
    set(&cluster, "a", "2");
    assert_eq!(cluster.ended(), []);
}

#[test]
fn starts_that_reach_nobody_keep_a_node_from_nobody() {
    let mut cluster = begin("nobody", 3);
    for id in [2, 3] {
        cluster.kill(id).unwrap();
    }
    for _ in 0..5 {
        cluster.kill(1).unwrap();
        cluster.start(1).unwrap();
        wait_for("it listens", || TcpStream::connect(cluster.address(1)).ok());
    }
    // one that was away for several starts, which another one has heard
    cluster.start(2).unwrap();
    for _ in 0..3 {
        cluster.kill(1).unwrap();
        cluster.start(1).unwrap();
        set(&cluster, "a", "1");
    }
    cluster.kill(2).unwrap();
    cluster.start(3).unwrap();
    set(&cluster, "a", "2");
    assert_eq!(cluster.ended(), []);
}

/// A process on a copy of node 3's folder, which listens elsewhere, and reaches these nodes.
fn start_copy(cluster: &Cluster, copy: &Path, reached: &[u64]) -> Child {
    let errors = copy.with_extension("err");
    cluster.start_copy(3, copy, reached, &errors).unwrap()
}

fn copys_refusal(mut child: Child, copy: &Path) -> String {
    let status = wait_for("it ends", || child.try_wait().unwrap());
    assert_eq!(status.code(), Some(1));
    fs::read_to_string(copy.with_extension("err")).unwrap()
}

#[test]
fn a_second_process_on_a_copy_ends_and_the_first_one_goes_on() {
    let mut cluster = begin("second", 3);
    cluster.kill(3).unwrap();
    let copy = copy_of(&cluster, 3);
    start_admitted(&mut cluster, 3);
    for _ in 0..2 {
        let child = start_copy(&cluster, &copy, &[1, 2]);
        let text = copys_refusal(child, &copy);
        assert!(text.contains(OTHER_START), "{text}");
    }
    set(&cluster, "a", "1");
    assert_eq!(cluster.ended(), []);
}

#[test]
fn of_two_processes_on_copies_whoever_hears_of_the_other_one_ends() {
    let mut cluster = begin("two", 3);
    cluster.kill(3).unwrap();
    let copy = copy_of(&cluster, 3);
    // one reaches node 1 alone, and the other one node 2
    cluster.way(3, 2).set(proxy::State::Cut);
    cluster.way(2, 3).set(proxy::State::Cut);
    let before = cluster.admissions(3);
    cluster.start(3).unwrap();
    wait_for("it is admitted", || (cluster.admissions(3) > before).then_some(()));
    let mut child = start_copy(&cluster, &copy, &[2]);
    wait_for("the other one is admitted", || {
        let text = fs::read_to_string(copy.with_extension("err")).unwrap();
        text.contains(": connected to ").then_some(())
    });
    cluster.way(3, 2).set(proxy::State::Open);
    let text = refusal(&mut cluster, 3);
    assert!(text.contains(OTHER_START), "{text}");
    child.kill().unwrap();
    child.wait().unwrap();
    let child = start_copy(&cluster, &copy, &[1, 2]);
    let text = copys_refusal(child, &copy);
    assert!(text.contains(OTHER_START), "{text}");
    set(&cluster, "a", "1");
}

#[test]
fn a_folder_is_one_processs_and_one_nodes() {
    let mut cluster = begin("locked", 1);
    let start = |id: &str, cluster: &Cluster| {
        let mut command = Command::new(PROGRAM);
        command.args([
            "serve",
            "--cluster",
            "torture",
            "--listen",
            "127.0.0.1:0",
            "--id",
            id,
            "--data",
        ]);
        let output = command.arg(cluster.folder(1)).stdin(Stdio::null()).output().unwrap();
        assert_eq!(output.status.code(), Some(1));
        String::from_utf8(output.stderr).unwrap()
    };
    assert!(start("1", &cluster).contains("another process uses this folder"));
    cluster.kill(1).unwrap();
    assert!(start("2", &cluster).contains("the folder of node 1 of cluster torture"));
}

#[test]
fn strangers_reach_nothing() {
    let cluster = begin("strangers", 1);
    let mut command = Command::new(PROGRAM);
    let peer = format!("1={}", cluster.peers_address(1));
    command.args(["status", "--cluster", "torture", "--peer", &peer]);
    let text = |output: std::process::Output| String::from_utf8(output.stdout).unwrap();
    let none = command.output().unwrap();
    assert!(!none.status.success());
    assert!(text(none).contains("its secret is another one"));
    let secret = folder("strangers").join("other");
    fs::write(&secret, "another secret").unwrap();
    let other = command.arg("--secret").arg(&secret).output().unwrap();
    assert!(text(other).contains("its secret is another one"));
    // what is no hello ends its connection
    let mut stream = TcpStream::connect(cluster.peers_address(1)).unwrap();
    stream.write_all(&[7; 200]).unwrap();
    stream.set_read_timeout(Some(LONG)).unwrap();
    assert_eq!(stream.read_to_end(&mut Vec::new()).unwrap_or(0), 0);
    set(&cluster, "a", "1");
}

/// A hello of nobody, which wants any node of a cluster of this number, without a secret.
fn hello(cluster: u64) -> Vec<u8> {
    let words = [3, 0, cluster, 0, 0, 0, 0, 0, 0, 0];
    let words = words.iter().flat_map(|word: &u64| word.to_le_bytes());
    b"wachelpo".iter().copied().chain(words).chain([0; 32]).collect()
}

#[test]
fn who_was_turned_away_is_not_heard_again() {
    let cluster = begin("away", 1);
    let mut stream = TcpStream::connect(cluster.peers_address(1)).unwrap();
    stream.set_read_timeout(Some(LONG)).unwrap();
    stream.write_all(&hello(7).repeat(100)).unwrap();
    let mut said = Vec::new();
    let _ = stream.read_to_end(&mut said);
    // a challenge, and why
    assert_eq!((said.len(), said.get(96)), (96 + 33, Some(&1)));
}

/// Runs the program with words, at a cluster's nodes.
fn run(cluster: &Cluster, words: &[&str]) -> std::process::Output {
    let mut command = Command::new(PROGRAM);
    command.args(words).args(["--cluster", "torture", "--secret"]);
    command.arg(cluster.folder(1).with_file_name("secret"));
    for id in &cluster.ids {
        command
            .arg("--peer")
            .arg(format!("{id}={}", cluster.peers_address(*id)));
    }
    command.output().unwrap()
}

#[test]
fn why_the_leader_refuses_is_told_whatever_others_say() {
    let cluster = {
        let mut cluster = Cluster::new(Path::new(PROGRAM), &folder("refuses"), 2, 1).unwrap();
        for id in [1, 2] {
            cluster.start(id).unwrap();
        }
        set(&cluster, "begun", "1");
        cluster
    };
    for (id, why) in [("1", "no voter would be left"), ("2", "node 2 is no member")] {
        let output = run(&cluster, &["leave", id]);
        let text = String::from_utf8(output.stderr).unwrap();
        assert_eq!(output.status.code(), Some(1), "{text}");
        let told = text
            .split("node 1 at ")
            .nth(1)
            .and_then(|text| text.split_once(": "))
            .unwrap();
        assert!(told.1.starts_with(&format!("refused: {why}; node 2 at ")), "{text}");
    }
    // and nothing was changed
    set(&cluster, "still", "1");
}

#[test]
fn an_output_that_takes_nothing_is_told() {
    let cluster = begin("full", 1);
    let peer = format!("1={}", cluster.peers_address(1));
    for words in [&["--help"][..], &["--version"], &["status", "--peer", &peer]] {
        let full = fs::OpenOptions::new().write(true).open("/dev/full").unwrap();
        let output = Command::new(PROGRAM).args(words).stdout(full).output().unwrap();
        let text = String::from_utf8(output.stderr).unwrap();
        assert_eq!(output.status.code(), Some(1), "{text}");
        assert!(text.contains("No space left on device"), "{text}");
    }
}

#[test]
fn a_page_in_a_browser_writes_nothing() {
    let cluster = begin("page", 1);
    let mut stream = TcpStream::connect(cluster.address(1)).unwrap();
    stream.set_read_timeout(Some(LONG)).unwrap();
    let request = b"POST / HTTP/1.1\r\nHost: 127.0.0.1\r\nContent-Length: 14\r\n\r\nSET page here\r\n";
    stream.write_all(request).unwrap();
    assert_eq!(stream.read_to_end(&mut Vec::new()).unwrap_or(0), 0);
    assert_eq!(get(&cluster, "page"), None);
}

#[test]
fn who_sends_nothing_more_is_answered() {
    let cluster = begin("half", 1);
    let answers = |requests: &str| {
        let mut stream = TcpStream::connect(cluster.address(1)).unwrap();
        stream.set_read_timeout(Some(LONG)).unwrap();
        stream.write_all(requests.as_bytes()).unwrap();
        stream.shutdown(Shutdown::Write).unwrap();
        let mut text = String::new();
        stream.read_to_string(&mut text).unwrap();
        text
    };
    assert_eq!(answers("SET half 1\r\nGET half\r\n"), "+OK\r\n$1\r\n1\r\n");
    assert_eq!(answers(&"INCR half\r\n".repeat(100)).lines().last(), Some(":101"));
    assert_eq!(answers(""), "");
}

/// The system asks whether a silent client is still there: its connection has the timer for that.
#[test]
fn clients_that_go_without_a_word_are_noticed() {
    let cluster = begin("absent", 1);
    let _client = TcpStream::connect(cluster.address(1)).unwrap();
    let here = format!("0100007F:{:04X}", cluster.address(1).port());
    wait_for("its timer", || {
        let table = fs::read_to_string("/proc/net/tcp").unwrap();
        let is_asked = |line: &str| {
            let words: Vec<&str> = line.split_whitespace().collect();
            words.get(1) == Some(&&here[..]) && words[3] == "01" && words[5].starts_with("02:")
        };
        table.lines().any(is_asked).then_some(())
    });
}

#[test]
fn who_isnt_known_doesnt_join() {
    let cluster = begin("unknown", 3);
    assert_eq!(cluster.ask(&["join", "99"]), None);
    let learners = |cluster: &Cluster| cluster.ask(&["status"]).map(|text| text.contains("learners= "));
    assert_eq!(learners(&cluster), Some(true));
    set(&cluster, "a", "1");
}

#[test]
fn without_a_secret_only_loopback_addresses_are_listened_on() {
    let data = folder("open");
    let listen = |address: &str| {
        let _ = fs::remove_dir_all(&data);
        let mut command = Command::new(PROGRAM);
        command.args(["serve", "--new", "--id", "1", "--listen", address, "--data"]);
        let output = command.arg(&data).stdin(Stdio::null()).output().unwrap();
        assert_eq!(output.status.code(), Some(1));
        String::from_utf8(output.stderr).unwrap()
    };
    assert!(listen("0.0.0.0:0").contains("without a secret only loopback addresses are listened on"));
    fs::remove_dir_all(&data).unwrap();
}

/// A program that runs servers with so many descriptors.
fn with_descriptors(count: u64) -> PathBuf {
    let path = folder("descriptors").with_extension("sh");
    fs::write(
        &path,
        format!("#!/bin/sh\nulimit -n {count}\nexec '{PROGRAM}' \"$@\"\n"),
    )
    .unwrap();
    fs::set_permissions(&path, fs::Permissions::from_mode(0o755)).unwrap();
    path
}

#[test]
fn silent_connections_neither_end_servers_nor_part_them() {
    let program = with_descriptors(256);
    let mut cluster = begin_by(&program, "silent", 3);
    let connect = |address| TcpStream::connect_timeout(&address, Duration::from_secs(1)).ok();
    let mut silent = Vec::new();
    for id in cluster.ids.clone() {
        for _ in 0..200 {
            silent.extend(connect(cluster.address(id)));
            silent.extend(connect(cluster.peers_address(id)));
        }
    }
    // one more is told so, once it is noticed that the client is gone who has set a key
    let told = wait_for("one more is told so", || {
        let mut more = connect(cluster.address(1))?;
        more.set_read_timeout(Some(Duration::from_secs(1))).unwrap();
        let mut text = String::new();
        let _ = more.read_to_string(&mut text);
        silent.push(more);
        (!text.is_empty()).then_some(text)
    });
    assert_eq!(told, "-ERR max number of clients reached\r\n");
    // without node 2, which comes back among them, node 1 can't go on
    cluster.kill(2).unwrap();
    cluster.kill(3).unwrap();
    cluster.start(2).unwrap();
    drop(silent);
    set(&cluster, "a", "1");
    assert_eq!(cluster.ended(), []);
    fs::remove_file(program).unwrap();
}

/// Each sync of a file waits for as many milliseconds as a file says.
const SLOW: &str = r#"
#define _GNU_SOURCE
#include <dlfcn.h>
#include <stdio.h>
#include <stdlib.h>
#include <unistd.h>
static int wait_and_call(const char *name, int fd) {
    int milliseconds = 0;
    FILE *file = fopen(getenv("SLOW"), "r");
    if (file) {
        if (fscanf(file, "%d", &milliseconds) != 1) milliseconds = 0;
        fclose(file);
    }
    usleep(milliseconds * 1000);
    return ((int (*)(int))dlsym(RTLD_NEXT, name))(fd);
}
int fdatasync(int fd) { return wait_and_call("fdatasync", fd); }
int fsync(int fd) { return wait_and_call("fsync", fd); }
"#;

/// A program that runs servers whose disks are slow, and the file that says how slow. None if there is no compiler.
fn with_slow_disks() -> Option<(PathBuf, PathBuf)> {
    let (path, delay) = (
        folder("slow").with_extension("sh"),
        folder("slow").with_extension("delay"),
    );
    let (source, library) = (path.with_extension("c"), path.with_extension("so"));
    fs::write(&source, SLOW).unwrap();
    fs::write(&delay, "0").unwrap();
    let mut compiler = Command::new("cc");
    let compiled = compiler
        .args(["-shared", "-fPIC", "-o"])
        .arg(&library)
        .arg(&source)
        .status();
    if !compiled.is_ok_and(|status| status.success()) {
        return None;
    }
    let (delay_name, library) = (delay.display(), library.display());
    let script = format!("#!/bin/sh\nSLOW='{delay_name}' LD_PRELOAD='{library}' exec '{PROGRAM}' \"$@\"\n");
    fs::write(&path, script).unwrap();
    fs::set_permissions(&path, fs::Permissions::from_mode(0o755)).unwrap();
    Some((path, delay))
}

#[test]
fn disks_slower_than_the_election_timeout_change_no_term() {
    let Some((program, delay)) = with_slow_disks() else {
        eprintln!("not tried, since there is no compiler");
        return;
    };
    let cluster = begin_by(&program, "slow", 3);
    let id = leader(&cluster);
    let term = |cluster: &Cluster| wait_for("a status", || status_of(cluster, id, "term"));
    let before = term(&cluster);
    // (the election timeout is a second)
    fs::write(&delay, "1500").unwrap();
    let mut connection = Connection::open(cluster.address(id), LONG).unwrap();
    let (mut answered, mut asked) = (0, 0);
    while answered < 4 {
        asked += 1;
        assert!(asked < 20, "{answered} of {asked}");
        match connection.ask(&[vec!["INCR", "n"]]).unwrap().remove(0) {
            Reply::Number(_) => answered += 1,
            // (four syncs one behind the other may take longer than a request waits, which is 5 s)
            Reply::Error(text) => assert!(text.starts_with("UNBLOCKED"), "{text}"),
            reply => panic!("{reply:?}"),
        }
        // administrators are answered meanwhile
        assert_eq!(term(&cluster), before);
    }
    fs::write(&delay, "0").unwrap();
    set(&cluster, "a", "1");
    assert_eq!((leader(&cluster), term(&cluster)), (id, before));
    for extension in ["sh", "c", "so", "delay"] {
        fs::remove_file(program.with_extension(extension)).unwrap();
    }
}

/// Serves on a small file system in memory, once for each line: its size, and a word more for the server.
const SMALL: &str = r#"
mount -t tmpfs none "$0" || exit
while read -r size word; do
    mount -o remount,size="$size" none "$0" || exit
    "$@" $word < /dev/null
done
"#;

/// A process and all that it has started, which are killed.
struct Group(Child);

impl Drop for Group {
    fn drop(&mut self) {
        let _ = Command::new("kill")
            .args(["-KILL", "--", &format!("-{}", self.0.id())])
            .status();
        let _ = self.0.wait();
    }
}

#[test]
fn a_full_disk_ends_a_server_that_loses_nothing() {
    let cluster = Cluster::new(Path::new(PROGRAM), &folder("small"), 1, 1).unwrap();
    let disk = cluster.folder(1);
    fs::create_dir(&disk).unwrap();
    let mut command = Command::new("unshare");
    command.args(["-rm", "sh", "-c", SMALL]).arg(&disk).arg(PROGRAM);
    command.args(["serve", "--id", "1", "--log-bytes", "200000", "--listen"]);
    command
        .arg(cluster.address(1).to_string())
        .arg("--data")
        .arg(disk.join("data"));
    let errors = fs::File::create(cluster.errors_of(1)).unwrap();
    command
        .stdin(Stdio::piped())
        .stdout(Stdio::null())
        .stderr(errors)
        .process_group(0);
    let mut group = Group(command.spawn().unwrap());
    let mut lines = group.0.stdin.take().unwrap();
    lines.write_all(b"1500k --new\n").unwrap();
    let told = || fs::read_to_string(cluster.errors_of(1)).unwrap();
    let is_there = wait_for("it serves", || {
        let is_there = TcpStream::connect(cluster.address(1)).is_ok();
        (is_there || group.0.try_wait().unwrap().is_some()).then_some(is_there)
    });
    if !is_there {
        eprintln!("not tried, since nothing may be mounted: {}", told());
        return;
    }
    set(&cluster, "first", "1");
    let mut connection = Connection::open(cluster.address(1), LONG).unwrap();
    let value = "v".repeat(20_000);
    let mut write = |key| connection.ask(&[vec!["SET", &format!("k{key}"), &value]]);
    let written = (0..200)
        .take_while(|key| write(*key).is_ok_and(|it| it[0] == Reply::Simple("OK".into())))
        .count();
    assert!((1..200).contains(&written));
    wait_for("it is told", || {
        told().contains("No space left on device").then_some(())
    });
    // with more room it goes on with all that it has answered
    lines.write_all(b"64m\n").unwrap();
    for key in 0..written {
        assert!(get(&cluster, &format!("k{key}")).is_some_and(|it| it == value));
    }
    set(&cluster, "last", "1");
}

#[test]
fn a_server_that_returns_catches_up_over_large_values() {
    let mut cluster = begin("large", 3);
    let behind = 1 + leader(&cluster) % 3;
    cluster.kill(behind).unwrap();
    let value = "v".repeat(1_000_000);
    for key in 0..30 {
        set(&cluster, &format!("k{key}"), &value);
    }
    cluster.start(behind).unwrap();
    let mut count = 0;
    wait_for("it has caught up", || {
        // meanwhile the others go on
        set(&cluster, &format!("small{count}"), "v");
        count += 1;
        let status = cluster.ask(&["status"])?;
        let line = status
            .lines()
            .find(|line| line.starts_with(&format!("node={behind} ")))?;
        let applied: u64 = line
            .split(' ')
            .find_map(|word| word.strip_prefix("applied="))?
            .parse()
            .ok()?;
        (applied > 31).then_some(())
    });
}

#[test]
fn metrics_are_a_page_and_a_text() {
    let data = folder("metrics");
    let listen = |port: u16| format!("127.0.0.1:{port}");
    let (clients, pages) = (
        9_000 + std::process::id() as u16 % 900,
        8_000 + std::process::id() as u16 % 900,
    );
    let mut command = Command::new(PROGRAM);
    command.args([
        "serve",
        "--new",
        "--id",
        "1",
        "--listen",
        &listen(clients),
        "--metrics",
        &listen(pages),
        "--data",
    ]);
    let mut child = command.arg(&data).stderr(Stdio::null()).spawn().unwrap();
    let read = |path: &str| {
        let mut stream = TcpStream::connect(listen(pages)).ok()?;
        stream
            .write_all(format!("GET {path} HTTP/1.1\r\nHost: a\r\n\r\n").as_bytes())
            .ok()?;
        let mut text = String::new();
        stream.read_to_string(&mut text).ok()?;
        Some(text)
    };
    let text = wait_for("it leads", || {
        read("/metrics").filter(|text| text.contains("wachelpo_role 3"))
    });
    assert!(text.contains("wachelpo_voters 1\n"));
    let page = read("/").unwrap();
    assert!(
        page.contains("<b>leader</b> in term") && page.contains("node 1"),
        "{page}"
    );
    child.kill().unwrap();
    child.wait().unwrap();
    fs::remove_dir_all(&data).unwrap();
}

/// Runs a program of Redis' at a server, if it is installed.
fn run_if_there(program: &str, words: &[&str]) -> Option<String> {
    let output = Command::new(program).args(words).stdin(Stdio::null()).output().ok()?;
    assert!(
        output.status.success(),
        "{program}: {}",
        String::from_utf8_lossy(&output.stderr)
    );
    Some(String::from_utf8(output.stdout).unwrap())
}

/// A transaction by python's `redis`, if that is installed, and one that wants to watch a key: its client is told that it can't.
const PYTHON: &str = "
import sys
try:
    import redis
except ImportError:
    sys.exit()
client = redis.Redis(port=int(sys.argv[1]))
print(client.pipeline().set('p', 5).incr('p').execute())
try:
    client.transaction(lambda pipe: pipe.incr('p'), 'p')
except redis.ResponseError as error:
    print(error)
print(client.get('p'))
";

#[test]
fn clients_of_redis_are_served() {
    let cluster = begin("redis", 1);
    let port = cluster.address(1).port().to_string();
    let ask = |words: &[&str]| run_if_there("redis-cli", &[&["-p", &port], words].concat());
    for (words, expected) in [
        (&["SET", "a", "1"][..], "OK\n"),
        (&["INCR", "a"], "2\n"),
        (&["-3", "MGET", "a", "b"], "2\n\n"),
        (&["PING"], "PONG\n"),
        (&["WATCH", "a"], "ERR watching keys is not supported\n\n"),
        (&["CAS", "a", "2", "3"], "1\n"),
    ] {
        assert!(ask(words).is_none_or(|text| text == expected), "{words:?}");
    }
    let words = [
        "-p",
        &port,
        "-t",
        "ping,set,get,incr,mset",
        "-P",
        "16",
        "-n",
        "2000",
        "-q",
    ];
    assert!(run_if_there("redis-benchmark", &words).is_none_or(|text| !text.contains("rror")));
    let text = run_if_there("/usr/bin/python3", &["-c", PYTHON, &port]);
    assert!(text.is_none_or(|text| ["[True, 6]\nwatching keys is not supported\nb'6'\n", ""].contains(&&text[..])));
}

/// How many files a process may have open.
fn open_files() -> usize {
    let limits = fs::read_to_string("/proc/self/limits").unwrap();
    let line = limits.lines().find(|line| line.starts_with("Max open files")).unwrap();
    line.split_whitespace().nth(3).unwrap().parse().unwrap_or(usize::MAX)
}

#[test]
fn a_thousand_idle_clients_and_a_thousand_slow_ones_hold_nobody_up() {
    let cluster = begin("crowd", 1);
    let count = (open_files() / 5).min(1000);
    let crowd = || -> Vec<_> {
        let open = |_| TcpStream::connect(cluster.address(1)).unwrap();
        (0..count).map(open).collect()
    };
    let (idle, mut slow) = (crowd(), crowd());
    for byte in b"PING\r\n" {
        for stream in &mut slow {
            stream.write_all(&[*byte]).unwrap();
        }
        let begun = Instant::now();
        set(&cluster, "served", "1");
        assert!(begun.elapsed() < Duration::from_secs(5), "{:?}", begun.elapsed());
    }
    for stream in &mut slow {
        stream.set_read_timeout(Some(LONG)).unwrap();
        let mut reply = [0; 7];
        stream.read_exact(&mut reply).unwrap();
        assert_eq!(&reply, b"+PONG\r\n");
    }
    assert_eq!(idle.len(), count);
}
