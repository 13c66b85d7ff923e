//! What `clients/release` packs is built, and runs, without the Rattle kit.

use std::fs;
use std::io::{Read, Write};
use std::net::TcpStream;
use std::path::{Path, PathBuf};
use std::process::{Command, Stdio};
use std::thread;
use std::time::{Duration, Instant};

const TOP: &str = concat!(env!("CARGO_MANIFEST_DIR"), "/../../..");

/// What a gate has printed that passed.
const GATE: &str = "before\nrt ci: 2 libraries\n136 passed, 0 failed\n";

fn address() -> String {
    format!("127.0.0.1:{}", 7_000 + std::process::id() % 900)
}

fn run(command: &mut Command) -> String {
    let output = command.stdin(Stdio::null()).output().unwrap();
    let text = String::from_utf8_lossy(&output.stderr);
    assert!(output.status.success(), "{command:?}: {text}");
    String::from_utf8(output.stdout).unwrap()
}

/// The release of this library and program, unpacked; none if the program isn't built, or the library is older than its sources.
fn unpacked(room: &Path) -> Option<PathBuf> {
    if !Path::new(TOP).join("clients/rust/target/release/wachelpo").exists() {
        return None;
    }
    let is_proved = Path::new(TOP).join("crates/service_c/out/libservice_c.a").exists();
    let pack = |gate: &str| {
        let file = room.join("gate");
        fs::write(&file, gate).unwrap();
        let mut command = Command::new(format!("{TOP}/clients/release"));
        command.args((!is_proved).then_some("--unproved"));
        command.arg("--gate").arg(file).arg(room).output().unwrap()
    };
    let output = pack(GATE);
    let text = String::from_utf8_lossy(&output.stderr);
    if text.contains("older than") {
        eprintln!("nothing is packed: {text}");
        return None;
    }
    assert!(output.status.success(), "{text}");
    for gate in ["", "rt ci: 2 libraries\n135 passed, 1 failed\n"] {
        let refused = pack(gate);
        assert!(String::from_utf8_lossy(&refused.stderr).contains("the gate didn't pass"));
        assert_eq!(refused.status.code(), Some(1));
    }
    let line = String::from_utf8(output.stdout).unwrap();
    let archive = line.split_whitespace().nth(1).unwrap();
    run(Command::new("sha256sum")
        .args(["--check", &format!("{archive}.sha256")])
        .current_dir(room));
    run(Command::new("tar").args(["-xf", archive, "-C"]).arg(room));
    let folder = fs::read_dir(room)
        .unwrap()
        .map(|it| it.unwrap().path())
        .find(|it| it.is_dir())
        .unwrap();
    run(Command::new("sha256sum")
        .args(["--check", "--quiet", "SHA256SUMS"])
        .current_dir(&folder));
    let page = fs::read_to_string(folder.join("README.md")).unwrap();
    assert!(
        page.contains("    rt ci: 2 libraries\n    136 passed, 0 failed\n"),
        "{page}"
    );
    assert!(!page.contains("before"));
    Some(folder)
}

/// A command that finds no kit: with no other commands on its path than those of cargo and of the system, and with an empty folder
/// in the kit's place, if the system lets it have one.
fn without_kit(program: &Path) -> Command {
    let cargo = PathBuf::from(env!("CARGO"));
    let hides = "mount -t tmpfs none /opt/rattle 2> /dev/null; exec \"$0\" \"$@\"";
    let can_hide = Command::new("unshare")
        .args(["-m", "true"])
        .output()
        .is_ok_and(|it| it.status.success());
    let mut command = if can_hide {
        let mut command = Command::new("unshare");
        command.args(["-m", "/bin/sh", "-c", hides]).arg(program);
        command
    } else {
        Command::new(program)
    };
    command
        .env_clear()
        .env("PATH", format!("{}:/usr/bin:/bin", cargo.parent().unwrap().display()));
    for name in ["HOME", "CARGO_HOME", "RUSTUP_HOME"] {
        command.envs(std::env::var_os(name).map(|value| (name, value)));
    }
    command
}

fn ask(request: &str) -> Option<String> {
    let mut stream = TcpStream::connect(address()).ok()?;
    stream.set_read_timeout(Some(Duration::from_secs(5))).ok()?;
    stream.write_all(format!("{request}\r\nQUIT\r\n").as_bytes()).ok()?;
    let mut text = String::new();
    stream.read_to_string(&mut text).ok()?;
    Some(text)
}

#[test]
fn a_release_is_built_and_runs_without_the_kit() {
    let room = std::env::temp_dir().join(format!("wachelpo-release-{}", std::process::id()));
    let _ = fs::remove_dir_all(&room);
    fs::create_dir_all(&room).unwrap();
    let Some(folder) = unpacked(&room) else { return };
    let mut cargo = without_kit(Path::new(env!("CARGO")));
    cargo.args([
        "build",
        "--offline",
        "--package",
        "wachelpo",
        "--config",
        ".cargo/debian.toml",
    ]);
    cargo
        .env("WACHELPO_LIB", folder.join("lib"))
        .env("WACHELPO_KIT", folder.join("lib"));
    run(cargo
        .env("CARGO_TARGET_DIR", room.join("target"))
        .current_dir(folder.join("rust")));
    for program in [folder.join("bin/wachelpo"), room.join("target/debug/wachelpo")] {
        let data = room.join("data");
        let mut command = without_kit(&program);
        command
            .args(["serve", "--new", "--id", "1", "--listen", &address(), "--data"])
            .arg(&data);
        let mut child = command.stderr(Stdio::null()).spawn().unwrap();
        let until = Instant::now() + Duration::from_secs(60);
        while ask("SET a 1").as_deref() != Some("+OK\r\n+OK\r\n") {
            assert!(Instant::now() < until, "it answers");
            thread::sleep(Duration::from_millis(50));
        }
        assert_eq!(ask("GET a").as_deref(), Some("$1\r\n1\r\n+OK\r\n"));
        child.kill().unwrap();
        child.wait().unwrap();
        fs::remove_dir_all(&data).unwrap();
    }
    fs::remove_dir_all(&room).unwrap();
}
