//! The command line, and the file of settings: what both say, the command line says.

use lexopt::prelude::*;
use serde::Deserialize;
use std::collections::BTreeMap;
use std::error::Error;
use std::fs;
use std::net::{SocketAddr, ToSocketAddrs};
use std::path::{Path, PathBuf};
use std::time::Duration;
use wachelpo::NodeId;

pub const USAGE: &str = "\
usage: wachelpo serve --id ID --data DIR --listen HOST:PORT [--peer ID=HOST:PORT[,HOST:PORT]].. [OPTION]..
       wachelpo status|join ID|leave ID --peer ID=HOST:PORT.. [OPTION]..

  serve     runs a server, to which any Redis client speaks
  status    prints what each node knows of itself
  join      makes a node a voter, once it holds the log
  leave     makes a node no member

  --id ID           the number of this node
  --data DIR        the folder of its files
  --new             begins a new node: makes the folder, which must not be there, or be empty. The first voter begins the cluster
  --listen H:P      where clients connect
  --peer ID=H:P     a node that may ever be a member (each, this one included): where it listens for the others; behind a comma, where
                    clients connect to it (by default the same host, with the port of --listen)
  --voters ID,ID..  the voters with which the cluster begins, the same at each node and start (by default all nodes)
  --cluster NAME    nodes of clusters of different names don't speak with each other (by default wachelpo)
  --metrics H:P     where / is a page and /metrics has the metrics, over HTTP
  --secret FILE     what the nodes share: without it only loopback addresses are listened on
  --password FILE   what clients must say by AUTH: without it clients are only listened for on a loopback address
  --election-timeout MS  how long a node hears nothing of a leader before it asks for votes, the same at each node (by default 1000)
  --client-timeout S     how long a client may be silent (0: for ever, as by default)
  --snapshot-entries N   after how many entries the next snapshot is made, the same at each node; 0: never (by default 500)
  --kept-entries N       how many entries of a snapshot are kept for nodes that lack few, the same at each node (by default 10000)
  --log-bytes N          after how many bytes the log is replaced by one that begins with the last snapshot (by default 67108864)
  --config FILE     a file in TOML with the same: id, data, listen, peers (a list of strings), voters, cluster, metrics, secret, password,
                    election_timeout, client_timeout, snapshot_entries, kept_entries, log_bytes

WACHELPO_LOG=error|warn|info|debug says how much is told on standard error.
";

/// What is to be done.
#[derive(Clone, Copy, PartialEq, Eq, Debug)]
pub enum Command {
    Serve,
    Status,
    Join(NodeId),
    Leave(NodeId),
    Help,
    Version,
}

/// Where a node is reached.
#[derive(Clone, PartialEq, Eq, Debug)]
pub struct Member {
    pub peers: String,
    pub clients: String,
}

/// What a file of settings says.
#[derive(Default, Deserialize)]
#[serde(deny_unknown_fields, default)]
struct Config {
    id: Option<u64>,
    data: Option<PathBuf>,
    listen: Option<String>,
    peers: Vec<String>,
    voters: Option<Vec<u64>>,
    cluster: Option<String>,
    metrics: Option<String>,
    secret: Option<PathBuf>,
    password: Option<PathBuf>,
    election_timeout: Option<u64>,
    client_timeout: Option<u64>,
    snapshot_entries: Option<u64>,
    kept_entries: Option<u64>,
    log_bytes: Option<u64>,
}

/// What the command line and the file of settings say.
#[derive(Debug)]
pub struct Options {
    pub command: Command,
    pub id: Option<NodeId>,
    pub data: Option<PathBuf>,
    pub is_new: bool,
    pub voters: Option<Vec<NodeId>>,
    pub cluster: String,
    pub election_timeout: Option<Duration>,
    pub client_timeout: Option<Duration>,
    pub snapshot_entries: Option<u64>,
    pub kept_entries: Option<u64>,
    pub log_bytes: Option<u64>,
    listen: Option<String>,
    peers: Vec<String>,
    metrics: Option<String>,
    secret: Option<PathBuf>,
    password: Option<PathBuf>,
}

type Result<T> = std::result::Result<T, Box<dyn Error>>;

/// The first address of a `HOST:PORT`.
fn resolved(address: &str) -> Result<SocketAddr> {
    let mut all = address
        .to_socket_addrs()
        .map_err(|error| format!("{address}: {error}"))?;
    all.next().ok_or_else(|| format!("{address} has no address").into())
}

/// The bytes of a file, without the end of its line.
fn bytes_of(file: &Path) -> Result<Vec<u8>> {
    let mut bytes = fs::read(file).map_err(|error| format!("{}: {error}", file.display()))?;
    while bytes.last().is_some_and(|byte| b"\r\n".contains(byte)) {
        bytes.pop();
    }
    if bytes.is_empty() {
        return Err(format!("{} is empty", file.display()).into());
    }
    Ok(bytes)
}

impl Options {
    /// The options that this process was started with.
    pub fn of_process() -> Result<Self> {
        Options::of_args(lexopt::Parser::from_env())
    }

    fn of_args(mut args: lexopt::Parser) -> Result<Self> {
        let mut options = Options {
            command: Command::Help,
            id: None,
            data: None,
            is_new: false,
            voters: None,
            cluster: String::new(),
            election_timeout: None,
            client_timeout: None,
            snapshot_entries: None,
            kept_entries: None,
            log_bytes: None,
            listen: None,
            peers: Vec::new(),
            metrics: None,
            secret: None,
            password: None,
        };
        let mut words: Vec<String> = Vec::new();
        let mut config = None;
        while let Some(arg) = args.next()? {
            match arg {
                Short('h') | Long("help") => words = vec!["help".into()],
                Short('V') | Long("version") => words = vec!["version".into()],
                Long("id") => options.id = Some(args.value()?.parse()?),
                Long("data") => options.data = Some(args.value()?.into()),
                Long("new") => options.is_new = true,
                Long("listen") => options.listen = Some(args.value()?.parse()?),
                Long("peer") => options.peers.push(args.value()?.parse()?),
                Long("voters") => options.voters = Some(ids(&args.value()?.parse::<String>()?)?),
                Long("cluster") => options.cluster = args.value()?.parse()?,
                Long("metrics") => options.metrics = Some(args.value()?.parse()?),
                Long("secret") => options.secret = Some(args.value()?.into()),
                Long("password") => options.password = Some(args.value()?.into()),
                Long("election-timeout") => {
                    options.election_timeout = Some(Duration::from_millis(args.value()?.parse()?))
                }
                Long("client-timeout") => options.client_timeout = Some(Duration::from_secs(args.value()?.parse()?)),
                Long("snapshot-entries") => options.snapshot_entries = Some(args.value()?.parse()?),
                Long("kept-entries") => options.kept_entries = Some(args.value()?.parse()?),
                Long("log-bytes") => options.log_bytes = Some(args.value()?.parse()?),
                Long("config") => config = Some(PathBuf::from(args.value()?)),
                Value(word) => words.push(word.parse()?),
                _ => return Err(arg.unexpected().into()),
            }
        }
        let words: Vec<&str> = words.iter().map(String::as_str).collect();
        options.command = match words[..] {
            ["serve"] => Command::Serve,
            ["status"] => Command::Status,
            ["join", id] => Command::Join(id.parse()?),
            ["leave", id] => Command::Leave(id.parse()?),
            ["help"] => Command::Help,
            ["version"] => Command::Version,
            _ => return Err("it is serve, status, join ID or leave ID".into()),
        };
        if let Some(file) = config {
            let text = fs::read_to_string(&file).map_err(|error| format!("{}: {error}", file.display()))?;
            let config = toml::from_str(&text).map_err(|error| format!("{}: {error}", file.display()))?;
            options.fill(config)?;
        }
        if options.cluster.is_empty() {
            options.cluster = "wachelpo".into();
        }
        if options.cluster.contains(char::is_control) {
            return Err("a cluster's name is one line".into());
        }
        Ok(options)
    }

    /// Takes from a file what the command line doesn't say.
    fn fill(&mut self, config: Config) -> Result<()> {
        if self.id.is_none() {
            self.id = config.id.map(|id| id.to_string().parse()).transpose()?;
        }
        if self.peers.is_empty() {
            self.peers = config.peers;
        }
        if self.voters.is_none() {
            self.voters = config.voters.map(|ids| ids.into_iter().map(NodeId).collect());
        }
        if self.cluster.is_empty() {
            self.cluster = config.cluster.unwrap_or_default();
        }
        let timeout = config.election_timeout.map(Duration::from_millis);
        self.election_timeout = self.election_timeout.or(timeout);
        let timeout = config.client_timeout.map(Duration::from_secs);
        self.client_timeout = self.client_timeout.or(timeout);
        self.snapshot_entries = self.snapshot_entries.or(config.snapshot_entries);
        self.kept_entries = self.kept_entries.or(config.kept_entries);
        self.log_bytes = self.log_bytes.or(config.log_bytes);
        self.data = self.data.take().or(config.data);
        self.listen = self.listen.take().or(config.listen);
        self.metrics = self.metrics.take().or(config.metrics);
        self.secret = self.secret.take().or(config.secret);
        self.password = self.password.take().or(config.password);
        Ok(())
    }

    /// All nodes that may ever be members, and where they are reached.
    pub fn members(&self) -> Result<BTreeMap<NodeId, Member>> {
        let mut members = BTreeMap::new();
        for text in &self.peers {
            let bad = || format!("{text} isn't ID=HOST:PORT[,HOST:PORT]");
            let (id, addresses) = text.split_once('=').ok_or_else(bad)?;
            let id: NodeId = id.parse().map_err(|_| bad())?;
            let (peers, clients) = match addresses.split_once(',') {
                Some((peers, clients)) => (peers, clients.to_string()),
                None => (addresses, self.clients_of(addresses, Some(id) == self.id)?),
            };
            let (peers, is_double) = (peers.to_string(), members.contains_key(&id));
            members.insert(id, Member { peers, clients });
            if is_double {
                return Err(format!("node {id} is named twice").into());
            }
        }
        if let (Some(id), Some(listen)) = (self.id, &self.listen) {
            let alone = Member {
                peers: String::new(),
                clients: listen.clone(),
            };
            members.entry(id).or_insert(alone);
        }
        Ok(members)
    }

    /// Where clients reach a node, if nothing else is said: its host, and the port at which this one listens.
    fn clients_of(&self, peers: &str, is_this: bool) -> Result<String> {
        let Some(listen) = &self.listen else {
            return Ok(String::new());
        };
        if is_this {
            return Ok(listen.clone());
        }
        let (host, _) = peers
            .rsplit_once(':')
            .ok_or_else(|| format!("{peers} isn't HOST:PORT"))?;
        let (_, port) = listen
            .rsplit_once(':')
            .ok_or_else(|| format!("{listen} isn't HOST:PORT"))?;
        Ok(format!("{host}:{port}"))
    }

    /// The voter that begins a new cluster.
    pub fn first_voter(&self, members: &BTreeMap<NodeId, Member>) -> Option<NodeId> {
        match &self.voters {
            Some(voters) => voters.iter().min().copied(),
            None => members.keys().next().copied(),
        }
    }

    /// Where clients connect.
    pub fn listen_address(&self) -> Result<SocketAddr> {
        resolved(self.listen.as_deref().ok_or("--listen is missing")?)
    }

    /// Where metrics are read.
    pub fn metrics_address(&self) -> Result<Option<SocketAddr>> {
        self.metrics.as_deref().map(resolved).transpose()
    }

    /// Where other nodes connect: none if there are no others.
    pub fn peers_address(&self) -> Result<Option<SocketAddr>> {
        let members = self.members()?;
        match self.id.and_then(|id| members.get(&id)) {
            Some(member) if !member.peers.is_empty() => Ok(Some(resolved(&member.peers)?)),
            _ if members.len() > 1 => Err("this node's own --peer is missing".into()),
            _ => Ok(None),
        }
    }

    /// What the nodes share.
    pub fn secret(&self) -> Result<Option<Vec<u8>>> {
        self.secret.as_deref().map(bytes_of).transpose()
    }

    /// What clients must say.
    pub fn password(&self) -> Result<Option<Vec<u8>>> {
        self.password.as_deref().map(bytes_of).transpose()
    }
}

/// Ids behind commas.
fn ids(text: &str) -> Result<Vec<NodeId>> {
    text.split(',').map(|id| Ok(id.parse()?)).collect()
}

#[cfg(test)]
mod tests {
    use super::*;

    fn options(line: &str) -> Result<Options> {
        let words: Vec<String> = line.split_whitespace().map(str::to_string).collect();
        Options::of_args(lexopt::Parser::from_args(words))
    }

    #[test]
    fn a_command_line() {
        let options = options(
            "serve --id 2 --data d --listen a:6379 --peer 1=b:7000 --peer 2=a:7000 --peer 3=c:7000,d:1 --voters 2,3",
        )
        .unwrap();
        assert_eq!(options.command, Command::Serve);
        let members = options.members().unwrap();
        let clients: Vec<&str> = members.values().map(|member| &member.clients[..]).collect();
        assert_eq!(clients, ["b:6379", "a:6379", "d:1"]);
        assert_eq!(options.first_voter(&members), Some(NodeId(2)));
        assert_eq!(options.cluster, "wachelpo");
    }

    #[test]
    fn what_isnt_understood_is_told() {
        for line in [
            "",
            "serve --x",
            "serve join",
            "join",
            "join 0",
            "serve --id x",
            "serve --id 0",
            "serve --voters 1,,2",
            "serve --log-bytes 64k",
        ] {
            assert!(options(line).is_err(), "{line}");
        }
        for line in [
            "serve --peer 1",
            "serve --peer x=a:1",
            "serve --peer 1=a:1 --peer 1=a:2",
            "serve --listen a:1 --id 2 --peer 1=a",
        ] {
            assert!(options(line).unwrap().members().is_err(), "{line}");
        }
    }

    #[test]
    fn a_clusters_name_is_one_line() {
        let of = |name: &'static str| Options::of_args(lexopt::Parser::from_args(["serve", "--cluster", name]));
        assert!(of("a b").is_ok() && of("a\nb").is_err() && of("a\r").is_err());
    }

    #[test]
    fn a_file_says_what_the_command_line_doesnt() {
        let mut options = options("serve --id 1 --cluster a").unwrap();
        let text =
            "id = 2\ncluster = \"b\"\nlisten = \"c:1\"\npeers = [\"1=x:2\"]\nvoters = [1]\nelection_timeout = 900";
        options.cluster = "a".into();
        options.fill(toml::from_str(text).unwrap()).unwrap();
        assert_eq!(
            (options.id, &options.cluster[..], options.listen.as_deref()),
            (Some(NodeId(1)), "a", Some("c:1"))
        );
        assert_eq!(
            (options.voters, options.election_timeout),
            (Some(vec![NodeId(1)]), Some(Duration::from_millis(900)))
        );
        assert!(toml::from_str::<Config>("port = 1").is_err());
    }

    #[test]
    fn how_long_a_log_gets_is_said_by_either() {
        let mut options = options("serve --snapshot-entries 0 --log-bytes 65536").unwrap();
        let text = "snapshot_entries = 1\nkept_entries = 2\nlog_bytes = 3";
        options.fill(toml::from_str(text).unwrap()).unwrap();
        assert_eq!(
            (options.snapshot_entries, options.kept_entries, options.log_bytes),
            (Some(0), Some(2), Some(65536))
        );
    }
}
