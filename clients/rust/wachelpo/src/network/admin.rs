//! What an administrator asks of a node, over the port for its peers, with the secret of the cluster.

use crate::disk::{Position, Presence};
use crate::network::frames::Seal;
use crate::network::handshake::{cluster_number, Direction, Hello, Nonce, Refusal, Secret, Sums, CHALLENGE, VERDICT};
use crate::node::Handle;
use crate::{Error, Members, NodeId};
use std::io::{self, Read, Write};
use std::net::{TcpStream, ToSocketAddrs};
use std::time::Duration;

/// How long an answer may take.
const PATIENCE: Duration = Duration::from_secs(5);

/// What is asked for.
#[derive(Clone, Copy, PartialEq, Eq, Debug)]
#[non_exhaustive]
pub enum Question {
    /// What the node knows of itself and its cluster.
    Status,
    /// A node becomes a voter.
    Join(NodeId),
    /// A node is no member any more.
    Leave(NodeId),
}

/// Asks one node, over a connection of its own, and returns what it says.
///
/// Refusals:
/// - [`Error::NotLeader`]: another node is to be asked.
/// - [`Error::Refused`]: the text says why.
/// - [`Error::Io`]: the node can't be reached, has another secret, or is of another cluster.
pub fn ask(address: &str, cluster: &str, secret: Option<&Secret>, question: Question) -> Result<String, Error> {
    let text = match question {
        Question::Status => "status".into(),
        Question::Join(id) => format!("join {id}"),
        Question::Leave(id) => format!("leave {id}"),
    };
    let answer = exchange(address, cluster, secret, &text).map_err(Error::Io)?;
    match answer.split_once(' ').unwrap_or((&answer, "")) {
        ("ok", text) => Ok(text.to_string()),
        ("leader", id) => Err(Error::NotLeader(id.parse().ok())),
        (_, text) => Err(Error::Refused(text.to_string())),
    }
}

fn exchange(address: &str, cluster: &str, secret: Option<&Secret>, text: &str) -> io::Result<String> {
    let address = address.to_socket_addrs()?.next().ok_or(io::ErrorKind::NotFound)?;
    let mut stream = TcpStream::connect_timeout(&address, PATIENCE)?;
    stream.set_read_timeout(Some(PATIENCE))?;
    stream.set_write_timeout(Some(PATIENCE))?;
    let mut nonce = [0; 32];
    crate::random_bytes(&mut nonce)?;
    let hello = Hello {
        is_secret: secret.is_some(),
        cluster: cluster_number(cluster),
        from: None,
        to: NodeId(0),
        presence: Presence::default(),
        log: Position::default(),
        nonce,
    };
    let (hello, is_secret) = (hello.to_bytes(), secret.is_some());
    stream.write_all(&hello)?;
    let mut challenge = [0; CHALLENGE];
    stream.read_exact(&mut challenge)?;
    let nonce: Nonce = challenge[..32].try_into().expect("it has 32");
    let none = Secret::new("");
    let sums = Sums {
        secret: secret.unwrap_or(&none),
        hello: &hello,
        nonce: &nonce,
    };
    let refused = |refusal: Refusal| io::Error::new(io::ErrorKind::PermissionDenied, refusal.to_string());
    if sums.known(&challenge).is_none() {
        return Err(refused(Refusal::Secret));
    }
    stream.write_all(&sums.proof(None))?;
    let mut verdict = [0; VERDICT];
    stream.read_exact(&mut verdict)?;
    if let Some(refusal) = Refusal::of_byte(verdict[0]) {
        return Err(refused(refusal));
    }
    if !sums.is_verdict(&verdict) {
        return Err(refused(Refusal::Secret));
    }
    let seal = |direction| Seal::new(is_secret.then(|| sums.key(direction)));
    let (mut there, mut back) = (seal(Direction::There), seal(Direction::Back));
    let mut bytes = Vec::new();
    there.write(text.as_bytes(), &mut bytes);
    stream.write_all(&bytes)?;
    bytes.clear();
    loop {
        let bad = |_| io::Error::from(io::ErrorKind::InvalidData);
        if let Some((answer, _)) = back.read(&bytes, 1 << 16).map_err(bad)? {
            return Ok(String::from_utf8_lossy(answer).into_owned());
        }
        let mut chunk = [0; 4096];
        match stream.read(&mut chunk)? {
            0 => return Err(io::ErrorKind::UnexpectedEof.into()),
            count => bytes.extend_from_slice(&chunk[..count]),
        }
    }
}

/// The answer to a question: `ok TEXT`, `leader ID`, or `error TEXT`. Nodes that aren't known here don't join.
pub(crate) fn answer(question: &str, handle: &Handle, is_known: impl Fn(NodeId) -> bool) -> String {
    match answer_to(question, handle, is_known) {
        Ok(text) => format!("ok {text}"),
        Err(Error::NotLeader(Some(id))) => format!("leader {id}"),
        Err(Error::NotLeader(None)) => "leader -".into(),
        // (who has asked says that it is refused)
        Err(Error::Refused(text)) => format!("error {text}"),
        Err(error) => format!("error {error}"),
    }
}

fn answer_to(question: &str, handle: &Handle, is_known: impl Fn(NodeId) -> bool) -> Result<String, Error> {
    let status = handle.status()?;
    let Members {
        mut voters,
        mut learners,
    } = status.members.clone();
    match question.split_once(' ').map(|(what, id)| (what, id.parse::<NodeId>())) {
        None if question == "status" => return Ok(status.to_string()),
        Some(("join", Ok(id))) if !is_known(id) => {
            return Err(Error::Refused(format!("no --peer says where node {id} is")));
        }
        Some(("join", Ok(id))) => {
            learners.retain(|it| *it != id);
            if !voters.contains(&id) {
                voters.push(id);
            }
        }
        Some(("leave", Ok(id))) if !voters.contains(&id) && !learners.contains(&id) => {
            return Err(Error::Refused(format!("node {id} is no member")));
        }
        Some(("leave", Ok(id))) => {
            voters.retain(|it| *it != id);
            learners.retain(|it| *it != id);
        }
        _ => return Err(Error::Refused("there is no such question".into())),
    }
    voters.sort_unstable();
    handle.set_members(Members { voters, learners })?;
    Ok("it has begun".into())
}
