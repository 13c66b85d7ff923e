//! What a node knows of itself and its cluster.

use crate::NodeId;
use std::collections::BTreeMap;
use std::fmt;

/// What a node is.
#[derive(Clone, Copy, PartialEq, Eq, Debug)]
#[non_exhaustive]
pub enum Role {
    /// It has no vote.
    Learner,
    /// It follows a leader, or waits for one.
    Follower,
    /// It asks for votes.
    Candidate,
    /// It leads.
    Leader,
}

impl fmt::Display for Role {
    fn fmt(&self, f: &mut fmt::Formatter<'_>) -> fmt::Result {
        f.write_str(match self {
            Role::Learner => "learner",
            Role::Follower => "follower",
            Role::Candidate => "candidate",
            Role::Leader => "leader",
        })
    }
}

/// The members of a cluster.
#[derive(Clone, PartialEq, Eq, Debug, Default)]
pub struct Members {
    /// Those who vote.
    pub voters: Vec<NodeId>,
    /// Those who are sent the log, and don't vote.
    pub learners: Vec<NodeId>,
}

/// What a node knows of itself and its cluster: role, leader, term and members are those of the entries that it executed last.
#[derive(Clone, PartialEq, Eq, Debug)]
#[non_exhaustive]
pub struct Status {
    /// The node.
    pub id: NodeId,
    /// What it is.
    pub role: Role,
    /// Who leads, as far as it knows.
    pub leader: Option<NodeId>,
    /// Its term.
    pub term: u64,
    /// The index of the log's last entry, if it is told.
    pub last: Option<u64>,
    /// The index up to which entries are committed, as far as it knows.
    pub committed: Option<u64>,
    /// The index up to which entries were executed.
    pub applied: Option<u64>,
    /// The members, as of the log's last entry that says so.
    pub members: Members,
    /// How many clients are connected.
    pub clients: u64,
    /// How many requests wait for their answers.
    pub requests: u64,
    /// The nodes that this one refuses for what they have lost, and why.
    pub refused: BTreeMap<NodeId, String>,
}

fn list(ids: &[NodeId]) -> String {
    let words: Vec<String> = ids.iter().map(NodeId::to_string).collect();
    words.join(",")
}

fn or_none<T: fmt::Display>(value: Option<T>) -> String {
    value.map_or_else(|| "-".into(), |value| value.to_string())
}

/// Which nodes are refused, and why.
fn refusals(refused: &BTreeMap<NodeId, String>) -> String {
    if refused.is_empty() {
        return "-".into();
    }
    let texts: Vec<String> = refused.iter().map(|(id, why)| format!("node {id}: {why}")).collect();
    format!("{:?}", texts.join("; "))
}

/// One line of names and values.
impl fmt::Display for Status {
    fn fmt(&self, f: &mut fmt::Formatter<'_>) -> fmt::Result {
        write!(
            f,
            "node={} role={} leader={} term={} last={} committed={} applied={} voters={} learners={} clients={} requests={} refused={}",
            self.id,
            self.role,
            or_none(self.leader),
            self.term,
            or_none(self.last),
            or_none(self.committed),
            or_none(self.applied),
            list(&self.members.voters),
            list(&self.members.learners),
            self.clients,
            self.requests,
            refusals(&self.refused)
        )
    }
}
