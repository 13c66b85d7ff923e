//! Nodes as processes on the loopback interface, which are killed, stopped and started again, and the ways between them.

use crate::proxy::{self, Way};
use std::collections::BTreeMap;
use std::fs;
use std::io;
use std::net::{SocketAddr, TcpListener};
use std::path::{Path, PathBuf};
use std::process::{Child, Command, Stdio};
use std::sync::atomic::{AtomicU16, Ordering};
use std::sync::Arc;

/// The processes of a cluster, their folders and addresses.
pub struct Cluster {
    program: PathBuf,
    folder: PathBuf,
    pub ids: Vec<u64>,
    voters: u64,
    /// Where each node listens: for clients, and for its peers.
    addresses: BTreeMap<u64, (SocketAddr, SocketAddr)>,
    /// From which node to which one.
    ways: BTreeMap<(u64, u64), (SocketAddr, Arc<Way>)>,
    /// What each node is started with besides.
    pub options: Vec<String>,
    children: BTreeMap<u64, Child>,
}

/// How many ports a process has of its own: more than its tests want, since one that is given away a second time may be in use by then.
const EACH: u16 = 250;
/// The ports that were given away last, by clusters of this process.
static PORTS: AtomicU16 = AtomicU16::new(0);

/// An address that nobody listens on, nor connects from: below the ports that the system gives to connections.
fn free() -> io::Result<SocketAddr> {
    loop {
        let own = (std::process::id() % 80) as u16 * EACH;
        let port = 10_000 + own + PORTS.fetch_add(1, Ordering::Relaxed) % EACH;
        match TcpListener::bind(("127.0.0.1", port)) {
            Ok(listener) => return listener.local_addr(),
            Err(error) if error.kind() == io::ErrorKind::AddrInUse => {}
            Err(error) => return Err(error),
        }
    }
}

impl Cluster {
    /// A cluster whose nodes are not started yet: `1` to `count`, of which the first ones vote.
    pub fn new(program: &Path, folder: &Path, count: u64, voters: u64) -> io::Result<Self> {
        let _ = fs::remove_dir_all(folder);
        fs::create_dir_all(folder)?;
        fs::write(folder.join("secret"), "a secret of the torture\n")?;
        let ids: Vec<u64> = (1..=count).collect();
        let mut addresses = BTreeMap::new();
        for id in &ids {
            addresses.insert(*id, (free()?, free()?));
        }
        let mut ways = BTreeMap::new();
        for from in &ids {
            for to in &ids {
                if from != to {
                    ways.insert((*from, *to), proxy::start(addresses[to].1)?);
                }
            }
        }
        Ok(Cluster {
            program: program.to_path_buf(),
            folder: folder.to_path_buf(),
            ids,
            voters,
            addresses,
            ways,
            options: Vec::new(),
            children: BTreeMap::new(),
        })
    }

    pub fn address(&self, id: u64) -> SocketAddr {
        self.addresses[&id].0
    }

    pub fn peers_address(&self, id: u64) -> SocketAddr {
        self.addresses[&id].1
    }

    /// Where a node's files are.
    pub fn folder(&self, id: u64) -> PathBuf {
        self.folder.join(id.to_string())
    }

    /// Where what it tells is.
    pub fn errors_of(&self, id: u64) -> PathBuf {
        self.folder.join(format!("{id}.err"))
    }

    pub fn way(&self, from: u64, to: u64) -> &Way {
        &self.ways[&(from, to)].1
    }

    pub fn ways(&self) -> impl Iterator<Item = &Way> {
        self.ways.values().map(|(_, way)| &**way)
    }

    fn common(&self, command: &mut Command) {
        command
            .arg("--secret")
            .arg(self.folder.join("secret"))
            .arg("--cluster")
            .arg("torture");
    }

    /// Starts a node; as a new one, if it has no folder.
    pub fn start(&mut self, id: u64) -> io::Result<()> {
        let data = self.folder(id);
        let log = fs::OpenOptions::new()
            .create(true)
            .append(true)
            .open(self.errors_of(id))?;
        let mut command = Command::new(&self.program);
        command.args(["serve", "--election-timeout", "1000", "--id", &id.to_string()]);
        command
            .arg("--data")
            .arg(&data)
            .arg("--listen")
            .arg(self.address(id).to_string());
        command.args((!data.exists()).then_some("--new"));
        let voters: Vec<String> = (1..=self.voters).map(|id| id.to_string()).collect();
        command.arg("--voters").arg(voters.join(","));
        for other in &self.ids {
            let peers = if *other == id {
                self.peers_address(id)
            } else {
                self.ways[&(id, *other)].0
            };
            command
                .arg("--peer")
                .arg(format!("{other}={peers},{}", self.address(*other)));
        }
        self.common(&mut command);
        command.args(&self.options);
        let child = command.stdin(Stdio::null()).stderr(log).spawn()?;
        self.children.insert(id, child);
        Ok(())
    }

    /// Starts a process on a copy of a node's folder, which listens elsewhere, and reaches these nodes.
    pub fn start_copy(&self, id: u64, data: &Path, reached: &[u64], errors: &Path) -> io::Result<Child> {
        let mut command = Command::new(&self.program);
        command.args(["serve", "--listen", "127.0.0.1:0", "--id", &id.to_string(), "--data"]);
        command.arg(data);
        for other in &self.ids {
            let peers = match reached.contains(other) {
                true => self.peers_address(*other).to_string(),
                false => "127.0.0.1:0".into(),
            };
            command
                .arg("--peer")
                .arg(format!("{other}={peers},{}", self.address(*other)));
        }
        self.common(&mut command);
        let errors = fs::File::create(errors)?;
        command.stdin(Stdio::null()).stderr(errors).spawn()
    }

    /// How often a node was admitted by others.
    pub fn admissions(&self, id: u64) -> usize {
        let text = fs::read_to_string(self.errors_of(id)).unwrap_or_default();
        text.matches(": connected to ").count()
    }

    /// Asks the nodes for something, by the program: its words.
    pub fn ask(&self, words: &[&str]) -> Option<String> {
        let mut command = Command::new(&self.program);
        command.args(words);
        for id in &self.ids {
            command.arg("--peer").arg(format!("{id}={}", self.peers_address(*id)));
        }
        self.common(&mut command);
        let output = command.stderr(Stdio::null()).output().ok()?;
        output
            .status
            .success()
            .then(|| String::from_utf8_lossy(&output.stdout).into_owned())
    }

    fn signal(&self, id: u64, name: &str) {
        if let Some(child) = self.children.get(&id) {
            let _ = Command::new("kill")
                .arg(format!("-{name}"))
                .arg(child.id().to_string())
                .status();
        }
    }

    /// Stops a node for a while, as if its machine had hung.
    pub fn stop(&self, id: u64) {
        self.signal(id, "STOP");
    }

    pub fn go_on(&self, id: u64) {
        self.signal(id, "CONT");
    }

    /// Kills a node: SIGKILL, at whatever it does.
    pub fn kill(&mut self, id: u64) -> io::Result<()> {
        if let Some(mut child) = self.children.remove(&id) {
            child.kill()?;
            child.wait()?;
        }
        Ok(())
    }

    pub fn is_running(&self, id: u64) -> bool {
        self.children.contains_key(&id)
    }

    /// The nodes that have ended by themselves, which none should.
    pub fn ended(&mut self) -> Vec<u64> {
        let has_ended = |child: &mut Child| matches!(child.try_wait(), Ok(Some(_)));
        let ended: Vec<u64> = self
            .children
            .iter_mut()
            .filter_map(|(id, child)| has_ended(child).then_some(*id))
            .collect();
        for id in &ended {
            self.children.remove(id);
        }
        ended
    }

    /// What nodes have written as errors.
    pub fn errors(&self) -> String {
        let texts = self
            .ids
            .iter()
            .filter_map(|id| fs::read_to_string(self.errors_of(*id)).ok());
        let lines: Vec<String> = texts
            .flat_map(|text| {
                text.lines()
                    .filter(|line| line.contains("level=error"))
                    .map(str::to_string)
                    .collect::<Vec<_>>()
            })
            .collect();
        lines.join("\n")
    }
}

impl Drop for Cluster {
    fn drop(&mut self) {
        for child in self.children.values_mut() {
            let _ = child.kill();
            let _ = child.wait();
        }
        if !std::thread::panicking() && std::env::var_os("KEEP").is_none() {
            let _ = fs::remove_dir_all(&self.folder);
        }
    }
}
