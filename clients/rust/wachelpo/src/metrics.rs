//! What is counted of a node, in the text form of Prometheus (version 0.0.4), and as a page for people.

use crate::disk::Position;
use crate::{NodeId, Role, Status};
use std::collections::BTreeMap;
use std::fmt::{self, Write};
use std::sync::atomic::{AtomicU64, Ordering};
use std::sync::{Mutex, PoisonError};
use std::time::Duration;

/// A number that is counted up.
#[derive(Default)]
pub(crate) struct Counter(AtomicU64);

impl Counter {
    pub fn add(&self, count: u64) {
        self.0.fetch_add(count, Ordering::Relaxed);
    }

    pub fn set(&self, count: u64) {
        self.0.store(count, Ordering::Relaxed);
    }

    pub fn get(&self) -> u64 {
        self.0.load(Ordering::Relaxed)
    }
}

/// The upper bounds of a histogram, in microseconds.
const BOUNDS: [u64; 12] = [
    50, 100, 250, 500, 1000, 2500, 5000, 10_000, 25_000, 100_000, 500_000, 2_500_000,
];

/// How long things took.
#[derive(Default)]
pub(crate) struct Histogram {
    /// How many took no longer than each bound, and longer than the one before; the last one has all others.
    counts: [Counter; BOUNDS.len() + 1],
    microseconds: Counter,
}

impl Histogram {
    pub fn observe(&self, took: Duration) {
        let took = took.as_micros() as u64;
        let place = BOUNDS.iter().position(|bound| took <= *bound).unwrap_or(BOUNDS.len());
        self.counts[place].add(1);
        self.microseconds.add(took);
    }

    fn count(&self) -> u64 {
        self.counts.iter().map(Counter::get).sum()
    }

    fn write(&self, name: &str, help: &str, out: &mut String) -> fmt::Result {
        writeln!(out, "# HELP {name} {help}\n# TYPE {name} histogram")?;
        let mut sum = 0;
        for (bound, count) in BOUNDS.iter().zip(&self.counts) {
            sum += count.get();
            writeln!(out, "{name}_bucket{{le=\"{}\"}} {sum}", *bound as f64 / 1e6)?;
        }
        let count = self.count();
        writeln!(out, "{name}_bucket{{le=\"+Inf\"}} {count}")?;
        writeln!(
            out,
            "{name}_sum {}\n{name}_count {count}",
            self.microseconds.get() as f64 / 1e6
        )
    }

    /// The bound of the bucket in which this share of all lies.
    fn at_most(&self, share: f64) -> String {
        let wanted = (self.count() as f64 * share).ceil() as u64;
        let mut sum = 0;
        for (bound, count) in BOUNDS.iter().zip(&self.counts) {
            sum += count.get();
            if sum >= wanted {
                return format!("{} ms", *bound as f64 / 1e3);
            }
        }
        format!("above {} ms", BOUNDS[BOUNDS.len() - 1] as f64 / 1e3)
    }
}

/// What is counted of a node.
pub struct Metrics {
    id: NodeId,
    status: Mutex<Option<Status>>,
    pub(crate) flushes: Histogram,
    pub(crate) answers: Histogram,
    pub(crate) log_bytes: Counter,
    /// How far the log is on disk.
    log: Mutex<Position>,
    pub(crate) frames_sent: Counter,
    pub(crate) frames_received: Counter,
    pub(crate) frames_dropped: Counter,
    pub(crate) peer_bytes_sent: Counter,
    pub(crate) peer_bytes_received: Counter,
    pub(crate) client_bytes_sent: Counter,
    pub(crate) client_bytes_received: Counter,
    pub(crate) connections: Counter,
    pub(crate) connections_refused: Counter,
    pub(crate) connections_overrun: Counter,
    /// How many bytes for clients wait.
    pub(crate) client_bytes_waiting: Counter,
    pub(crate) peers: Counter,
    /// The nodes that are refused for what they have lost, and why.
    refused: Mutex<BTreeMap<NodeId, String>>,
}

impl Metrics {
    pub(crate) fn new(id: NodeId) -> Self {
        Metrics {
            id,
            status: Mutex::default(),
            flushes: Histogram::default(),
            answers: Histogram::default(),
            log_bytes: Counter::default(),
            log: Mutex::default(),
            frames_sent: Counter::default(),
            frames_received: Counter::default(),
            frames_dropped: Counter::default(),
            peer_bytes_sent: Counter::default(),
            peer_bytes_received: Counter::default(),
            client_bytes_sent: Counter::default(),
            client_bytes_received: Counter::default(),
            connections: Counter::default(),
            connections_refused: Counter::default(),
            connections_overrun: Counter::default(),
            client_bytes_waiting: Counter::default(),
            peers: Counter::default(),
            refused: Mutex::default(),
        }
    }

    /// Notes what the node says of itself; changes of its role are told.
    pub(crate) fn note(&self, status: Status) {
        let mut last = self.status.lock().unwrap_or_else(PoisonError::into_inner);
        let is_new = last
            .as_ref()
            .is_none_or(|last| (last.role, last.leader, last.term) != (status.role, status.leader, status.term));
        if is_new {
            log::info!("{status}");
        }
        *last = Some(status);
    }

    /// Notes how far the log is on disk.
    pub(crate) fn set_log(&self, position: Position) {
        *self.log.lock().unwrap_or_else(PoisonError::into_inner) = position;
    }

    /// How far the log is on disk.
    pub(crate) fn log(&self) -> Position {
        *self.log.lock().unwrap_or_else(PoisonError::into_inner)
    }

    /// Notes whether another node is refused for what it has lost, and why.
    pub(crate) fn note_peer(&self, id: NodeId, refusal: Option<String>) {
        let mut refused = self.refused.lock().unwrap_or_else(PoisonError::into_inner);
        match refusal {
            Some(why) => refused.insert(id, why),
            None => refused.remove(&id),
        };
    }

    /// The nodes that are refused for what they have lost, and why.
    pub(crate) fn refused(&self) -> BTreeMap<NodeId, String> {
        self.refused.lock().unwrap_or_else(PoisonError::into_inner).clone()
    }

    /// What the node said of itself last, within half a second.
    pub fn status(&self) -> Option<Status> {
        self.status.lock().unwrap_or_else(PoisonError::into_inner).clone()
    }

    fn counters(&self) -> [(&'static str, &'static str, &Counter); 10] {
        [
            (
                "log_bytes_total",
                "Bytes that were written to the log.",
                &self.log_bytes,
            ),
            (
                "frames_sent_total",
                "Frames that were sent to other nodes.",
                &self.frames_sent,
            ),
            ("frames_received_total", "Frames of other nodes.", &self.frames_received),
            (
                "frames_dropped_total",
                "Frames that were dropped: their node wasn't connected, or too much waited.",
                &self.frames_dropped,
            ),
            (
                "peer_sent_bytes_total",
                "Bytes that were sent to other nodes.",
                &self.peer_bytes_sent,
            ),
            (
                "peer_received_bytes_total",
                "Bytes of other nodes.",
                &self.peer_bytes_received,
            ),
            (
                "client_sent_bytes_total",
                "Bytes that were sent to clients.",
                &self.client_bytes_sent,
            ),
            (
                "client_received_bytes_total",
                "Bytes of clients.",
                &self.client_bytes_received,
            ),
            (
                "connections_refused_total",
                "Connections that were refused.",
                &self.connections_refused,
            ),
            (
                "connections_overrun_total",
                "Connections that were closed, since their clients didn't read their answers.",
                &self.connections_overrun,
            ),
        ]
    }

    fn gauges(&self) -> Vec<(&'static str, &'static str, u64)> {
        let log = self.log();
        let mut gauges = vec![
            ("connections", "Clients that are connected.", self.connections.get()),
            (
                "client_waiting_bytes",
                "Bytes for clients that wait until these read.",
                self.client_bytes_waiting.get(),
            ),
            ("log_end_bytes", "Up to which byte the log is on disk.", log.end),
            (
                "log_generation",
                "How often the log was replaced by a new one.",
                log.generation,
            ),
            ("peers", "Nodes that this one is connected to.", self.peers.get()),
            (
                "peers_refused",
                "Nodes that this one refuses for what they have lost.",
                self.refused().len() as u64,
            ),
        ];
        if let Some(status) = self.status() {
            gauges.extend([
                (
                    "role",
                    "0 learner, 1 follower, 2 candidate, 3 leader.",
                    role_number(status.role),
                ),
                (
                    "leader",
                    "The node that leads; 0 if none is known.",
                    status.leader.map_or(0, |id| id.0),
                ),
                ("term", "The term.", status.term),
                (
                    "committed_index",
                    "The index up to which entries are committed.",
                    status.committed.unwrap_or(0),
                ),
                (
                    "applied_index",
                    "The index up to which entries were executed.",
                    status.applied.unwrap_or(0),
                ),
                ("voters", "How many vote.", status.members.voters.len() as u64),
                (
                    "learners",
                    "How many are sent the log, and don't vote.",
                    status.members.learners.len() as u64,
                ),
                (
                    "requests_waiting",
                    "Requests that wait for their answers.",
                    status.requests,
                ),
            ]);
            let last = status
                .last
                .map(|last| ("last_index", "The index of the log's last entry.", last));
            gauges.extend(last);
        }
        gauges
    }

    fn write_text(&self, out: &mut String) -> fmt::Result {
        for (name, help, value) in self.gauges() {
            writeln!(
                out,
                "# HELP wachelpo_{name} {help}\n# TYPE wachelpo_{name} gauge\nwachelpo_{name} {value}"
            )?;
        }
        let refused = self.refused();
        if !refused.is_empty() {
            writeln!(
                out,
                "# HELP wachelpo_peer_refused Why a node is refused.\n# TYPE wachelpo_peer_refused gauge"
            )?;
        }
        for (id, why) in refused {
            writeln!(out, "wachelpo_peer_refused{{node=\"{id}\",why={why:?}}} 1")?;
        }
        for (name, help, counter) in self.counters() {
            let value = counter.get();
            writeln!(
                out,
                "# HELP wachelpo_{name} {help}\n# TYPE wachelpo_{name} counter\nwachelpo_{name} {value}"
            )?;
        }
        self.flushes.write(
            "wachelpo_flush_seconds",
            "How long it took until bytes of the log were on disk.",
            out,
        )?;
        let help = "From a client's bytes to the first ones for it.";
        self.answers.write("wachelpo_answer_seconds", help, out)
    }

    /// All of it, in the text form of Prometheus.
    pub fn to_text(&self) -> String {
        let mut out = String::new();
        self.write_text(&mut out).expect("a string takes all");
        out
    }

    fn write_page(&self, out: &mut String) -> fmt::Result {
        writeln!(
            out,
            "<!DOCTYPE html>\n<html lang=\"en\"><head><meta charset=\"utf-8\"><meta http-equiv=\"refresh\" content=\"2\">\
             <title>wachelpo: node {id}</title><style>{STYLE}</style></head><body>\n<h1>Node {id}</h1>",
            id = self.id
        )?;
        match self.status() {
            None => writeln!(out, "<p>It has just started.</p>")?,
            Some(status) => {
                let leader = status.leader.map_or("none is known".into(), |id| format!("node {id}"));
                writeln!(
                    out,
                    "<p><b>{}</b> in term {}; leader: {leader}</p>",
                    status.role, status.term
                )?;
            }
        }
        for (id, why) in self.refused() {
            writeln!(out, "<p><b>Node {id} is refused</b>: {why}</p>")?;
        }
        writeln!(out, "<table>")?;
        let gauges = self.gauges().into_iter().filter(|(name, ..)| !HEADED.contains(name));
        for (_, help, value) in gauges {
            writeln!(out, "<tr><td>{help}</td><td>{value}</td></tr>")?;
        }
        for (_, help, counter) in self.counters() {
            writeln!(out, "<tr><td>{help}</td><td>{}</td></tr>", counter.get())?;
        }
        let flushes = ("Flushes of the log", &self.flushes);
        for (what, histogram) in [flushes, ("Answers to clients", &self.answers)] {
            let (half, most) = (histogram.at_most(0.5), histogram.at_most(0.99));
            let count = histogram.count();
            writeln!(
                out,
                "<tr><td>{what}: half within {half}, 99 of 100 within {most}</td><td>{count}</td></tr>"
            )?;
        }
        writeln!(out, "</table>\n<p><a href=\"/metrics\">Metrics</a></p></body></html>")
    }

    /// All of it, as a page in HTML that reloads itself.
    pub fn to_page(&self) -> String {
        let mut out = String::new();
        self.write_page(&mut out).expect("a string takes all");
        out
    }
}

/// What the page says above its table.
const HEADED: [&str; 3] = ["role", "leader", "term"];

const STYLE: &str =
    "body{font:16px sans-serif;margin:2em}td{padding:.2em 1em;border-bottom:1px solid #ddd}td+td{text-align:right}";

fn role_number(role: Role) -> u64 {
    match role {
        Role::Learner => 0,
        Role::Follower => 1,
        Role::Candidate => 2,
        Role::Leader => 3,
    }
}

#[cfg(test)]
mod tests {
    use super::*;

    #[test]
    fn who_is_refused_is_shown_until_it_is_admitted() {
        let metrics = Metrics::new(NodeId(1));
        let why = "its log is shorter than it was";
        metrics.note_peer(NodeId(3), Some(why.into()));
        let (text, page) = (metrics.to_text(), metrics.to_page());
        assert!(text.contains("wachelpo_peers_refused 1\n"));
        assert!(text.contains(&format!("wachelpo_peer_refused{{node=\"3\",why=\"{why}\"}} 1\n")));
        assert!(page.contains(&format!("<b>Node 3 is refused</b>: {why}")));
        metrics.note_peer(NodeId(3), None);
        assert!(metrics.to_text().contains("wachelpo_peers_refused 0\n"));
        assert!(!metrics.to_text().contains("wachelpo_peer_refused{"));
    }

    #[test]
    fn a_histogram_counts_all_below_each_bound() {
        let metrics = Metrics::new(NodeId(1));
        for microseconds in [10, 60, 60, 3_000_000] {
            metrics.flushes.observe(Duration::from_micros(microseconds));
        }
        let text = metrics.to_text();
        for line in [
            "wachelpo_flush_seconds_bucket{le=\"0.00005\"} 1",
            "wachelpo_flush_seconds_bucket{le=\"0.0001\"} 3",
            "wachelpo_flush_seconds_bucket{le=\"2.5\"} 3",
            "wachelpo_flush_seconds_bucket{le=\"+Inf\"} 4",
            "wachelpo_flush_seconds_sum 3.00013",
            "wachelpo_flush_seconds_count 4",
        ] {
            assert!(text.lines().any(|it| it == line), "{line}\n{text}");
        }
        assert!(metrics
            .to_page()
            .contains("half within 0.1 ms, 99 of 100 within above 2500 ms"));
    }
}
