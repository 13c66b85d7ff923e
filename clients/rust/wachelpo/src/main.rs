//! The program `wachelpo`: a replicated key-value server, and what is asked of a running cluster.

mod program {
    #[cfg(jemalloc)]
    pub mod memory;
    pub mod options;
    pub mod telling;
}

use program::options::{Command, Options, USAGE};
use program::telling;
use std::error::Error;
use std::io::{self, Write};
use std::process::ExitCode;
use wachelpo::admin::{self, Question};
use wachelpo::{ConnectionLimits, Folder, Node, NodeId, Secret, Tcp};

/// Prints a line, and says if it couldn't: standard output may be closed or full.
fn print(line: &str) -> io::Result<()> {
    let mut out = io::stdout().lock();
    writeln!(out, "{line}")?;
    out.flush()
}

/// Runs a server, until it fails.
fn serve(options: &Options) -> Result<(), Box<dyn Error>> {
    let id = options.id.ok_or("--id is missing")?;
    let data = options.data.as_deref().ok_or("--data is missing")?;
    let listen = options.listen_address()?;
    let members = options.members()?;
    if options.is_new {
        Folder::create(data, id, &options.cluster)?;
    }
    let folder = Folder::open(data, id, &options.cluster)?;
    let mut builder = Node::builder(id).cluster(&options.cluster);
    let mut tcp = Tcp::builder(id, &options.cluster).listen(listen);
    for (peer, member) in &members {
        builder = builder.member(*peer, &member.clients);
        if *peer != id {
            tcp = tcp.peer(*peer, &member.peers);
        }
    }
    if let Some(voters) = &options.voters {
        builder = builder.voters(voters.clone());
    }
    if let Some(milliseconds) = options.election_timeout {
        builder = builder.election_timeout(milliseconds);
    }
    if let Some(count) = options.snapshot_entries {
        builder = builder.snapshot_entries(count);
    }
    if let Some(count) = options.kept_entries {
        builder = builder.kept_entries(count);
    }
    let log = match options.log_bytes {
        Some(count) => {
            builder = builder.log_bytes(count);
            folder.log_for(count)
        }
        None => folder.log(),
    };
    let mut limits = ConnectionLimits::default();
    limits.idle = options.client_timeout.filter(|timeout| !timeout.is_zero());
    tcp = tcp.limits(limits);
    if let Some(password) = options.password()? {
        builder = builder.password(password);
        tcp = tcp.clients_have_a_password();
    }
    if let Some(secret) = options.secret()? {
        tcp = tcp.secret(Secret::new(secret));
    }
    if let Some(address) = options.peers_address()? {
        tcp = tcp.listen_for_peers(address);
    }
    if let Some(address) = options.metrics_address()? {
        tcp = tcp.metrics(address);
    }
    let node = builder.open(log)?;
    let begins = node.is_new() && options.first_voter(&members) == Some(id);
    let tcp = tcp.start(folder, &node)?;
    let running = node.start(tcp)?;
    log::info!("node {id} of cluster {}: clients at {listen}", options.cluster);
    if begins {
        match running.handle().initialize() {
            // (its end says why)
            Ok(()) | Err(wachelpo::Error::Ended) => {}
            Err(error) => return Err(error.into()),
        }
    }
    Ok(running.wait()?)
}

/// Asks each node until one has done it. If none has, what each says is told: one may refuse it, and the others only say who leads.
fn change(options: &Options, question: Question) -> Result<(), Box<dyn Error>> {
    let secret = options.secret()?.map(Secret::new);
    let mut refusals = Vec::new();
    for (id, member) in options.members()? {
        match admin::ask(&member.peers, &options.cluster, secret.as_ref(), question) {
            Ok(text) => return Ok(print(&text)?),
            Err(error) => refusals.push(format!("node {id} at {}: {error}", member.peers)),
        }
    }
    if refusals.is_empty() {
        return Err("no --peer is given".into());
    }
    Err(refusals.join("; ").into())
}

/// Prints what each node says of itself.
fn status(options: &Options) -> Result<(), Box<dyn Error>> {
    let secret = options.secret()?.map(Secret::new);
    let mut is_reached = false;
    for (id, member) in options.members()? {
        match admin::ask(&member.peers, &options.cluster, secret.as_ref(), Question::Status) {
            Ok(text) => {
                is_reached = true;
                print(&text)?;
            }
            Err(error) => print(&format!("node={id} error={:?}", error.to_string()))?,
        }
    }
    is_reached.then_some(()).ok_or_else(|| "no node is reached".into())
}

fn run(options: &Options) -> Result<(), Box<dyn Error>> {
    let question = |what: fn(NodeId) -> Question, id: NodeId| change(options, what(id));
    match options.command {
        Command::Serve => serve(options),
        Command::Status => status(options),
        Command::Join(id) => question(Question::Join, id),
        Command::Leave(id) => question(Question::Leave, id),
        Command::Help => Ok(print(USAGE.trim_end())?),
        Command::Version => Ok(print(&format!("wachelpo {}", env!("CARGO_PKG_VERSION")))?),
    }
}

fn main() -> ExitCode {
    telling::start();
    let options = match Options::of_process() {
        Ok(options) => options,
        Err(error) => {
            eprintln!("wachelpo: {error}; --help says what there is");
            return ExitCode::from(2);
        }
    };
    match run(&options) {
        Ok(()) => ExitCode::SUCCESS,
        Err(error) => {
            log::error!("{error}");
            ExitCode::FAILURE
        }
    }
}
