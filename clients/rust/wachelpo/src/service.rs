//! The proved service behind its C library: numbers and bytes in, outputs as bytes out.

use crate::settings::Builder;
use crate::status::{Members, Role, Status};
use crate::{ClientId, Error, NodeId};
use std::collections::BTreeMap;
use std::ffi::c_void;
use std::ptr;
use std::time::Duration;

extern "C" {
    fn wachelpo_version() -> u32;
    fn wachelpo_node(node: *mut *mut c_void) -> u32;
    fn wachelpo_call(node: *mut c_void, input: u32, first: u64, second: u64, bytes: *const u8, count: usize) -> u32;
    fn wachelpo_read(node: *mut c_void, room: *mut u8, count: usize) -> usize;
    fn wachelpo_close(node: *mut c_void) -> u32;
}

/// The version of the library that this is written for.
const VERSION: u32 = 5;
/// A buffer above this size is given back after its call.
const KEPT: usize = 4 << 20;

/// What is handed in.
#[derive(Clone, Copy)]
pub(crate) enum Input<'a> {
    Frame {
        from: NodeId,
        bytes: &'a [u8],
    },
    Tick {
        elapsed: Duration,
        random: u64,
        time_of_day: Duration,
    },
    Connect(ClientId),
    Client {
        client: ClientId,
        bytes: &'a [u8],
    },
    Disconnect(ClientId),
    Write,
    Flushed(u64),
    Initialize,
    Members(&'a Members),
    Status,
    BeginLog,
    Idle,
    TakeOver,
    GiveUpLog,
    LogPiece,
}

/// What comes of it.
#[derive(Debug)]
pub(crate) enum Output<'a> {
    Frame {
        to: NodeId,
        bytes: &'a [u8],
    },
    Append {
        end: u64,
        bytes: &'a [u8],
    },
    /// A new log beside the old one: its first bytes come in pieces, and end there.
    NewLog(u64),
    /// The next of them.
    LogPiece(&'a [u8]),
    /// Those of the [`Output::Append`] before it, for the new log, behind all pieces.
    AppendNext(&'a [u8]),
    /// The new log has the old one's place, and ends there.
    TakenOver(u64),
    Client {
        client: ClientId,
        bytes: &'a [u8],
    },
    Close(ClientId),
    Taken(usize),
    Status(Status),
    More,
}

/// Why a call was refused: nothing was done.
#[derive(Debug)]
pub(crate) enum Refusal {
    /// The client isn't connected: its connection is to be closed.
    Connect,
    /// The members aren't changed.
    Members(String),
    /// The frame is none: its connection is to be closed.
    Frame(String),
    /// The frame isn't taken, as if it had been lost.
    Busy,
}

const SETTINGS: u32 = 1;
const OPEN: u32 = 2;

mod kind {
    pub const SEND: u32 = 1;
    pub const APPEND: u32 = 2;
    pub const CLIENT: u32 = 3;
    pub const CLOSE: u32 = 4;
    pub const TAKEN: u32 = 5;
    pub const STATUS: u32 = 6;
    pub const OPENED: u32 = 8;
    pub const NEW_LOG: u32 = 9;
    pub const MORE: u32 = 10;
    pub const APPEND_NEXT: u32 = 11;
    pub const TAKEN_OVER: u32 = 12;
    pub const LOG_PIECE: u32 = 13;
}

mod code {
    pub const OUT_OF_MEMORY: u32 = 1;
    pub const BAD_SETTINGS: u32 = 2;
    pub const NOT_OPENED: u32 = 3;
    pub const CONNECT: u32 = 6;
    pub const MEMBERS: u32 = 7;
    pub const FRAME: u32 = 8;
    pub const BUSY: u32 = 9;
}

/// A node of the C library, with an open service.
pub(crate) struct Service {
    node: *mut c_void,
    /// What the last call put out.
    out: Vec<u8>,
    count: usize,
}

// SAFETY: a node shares nothing with another one, and the library keeps nothing for a thread. A call takes the only reference there is, so
// each happens before the next.
unsafe impl Send for Service {}

impl Drop for Service {
    fn drop(&mut self) {
        // SAFETY: `wachelpo_node` made it; no other call is under way.
        unsafe { wachelpo_close(self.node) };
    }
}

/// What the service's clock counts, as do the spans of its settings. A read waits for a heartbeat of a later moment, so moments are short.
pub(crate) const MOMENT: Duration = Duration::from_micros(100);

/// How many whole moments a span has.
fn moments(span: Duration) -> u64 {
    let count = span.as_nanos() / MOMENT.as_nanos();
    count.try_into().unwrap_or(u64::MAX)
}

fn whole_milliseconds(span: Duration) -> u64 {
    span.as_millis().try_into().unwrap_or(u64::MAX)
}

fn number_at(bytes: &[u8], at: usize) -> u64 {
    u64::from_le_bytes(bytes[at..at + 8].try_into().expect("it has 8"))
}

/// One output: its kind, its number and its body.
struct Frame<'a> {
    kind: u32,
    number: u64,
    body: &'a [u8],
}

/// The output at the front, and what stands behind it.
fn split(bytes: &[u8]) -> Option<(Frame<'_>, &[u8])> {
    let (head, rest) = bytes.split_at_checked(16)?;
    let kind = u32::from_le_bytes(head[..4].try_into().expect("it has 4"));
    let length = u32::from_le_bytes(head[4..8].try_into().expect("it has 4"));
    let (body, rest) = rest.split_at_checked(length as usize)?;
    let number = number_at(head, 8);
    Some((Frame { kind, number, body }, rest))
}

impl Service {
    /// Opens a service on its log, and says where the log ends.
    pub fn open(settings: &Builder, log: &[u8]) -> Result<(Self, u64), Error> {
        let mut node = ptr::null_mut();
        // SAFETY: it takes nothing, or writes where the node is.
        let (version, made) = unsafe { (wachelpo_version(), wachelpo_node(&mut node)) };
        if version != VERSION {
            return Err(Error::Settings(format!(
                "the library is of version {version}, and not {VERSION}"
            )));
        }
        if made != 0 {
            return Err(Error::Stopped("out of memory".into()));
        }
        let mut service = Service {
            node,
            out: vec![0; 1 << 16],
            count: 0,
        };
        let settings = settings_bytes(settings)?;
        service.open_by(SETTINGS, &settings)?;
        service.open_by(OPEN, log)?;
        match split(&service.out[..service.count]) {
            Some((
                Frame {
                    kind: kind::OPENED,
                    number,
                    ..
                },
                _,
            )) if number <= log.len() as u64 => Ok((service, number)),
            _ => Err(Error::Stopped("the library didn't say where the log ends".into())),
        }
    }

    fn open_by(&mut self, input: u32, bytes: &[u8]) -> Result<(), Error> {
        match self.exchange(input, 0, 0, bytes) {
            0 => Ok(()),
            code::BAD_SETTINGS => Err(Error::Settings(self.error())),
            code::NOT_OPENED => Err(Error::DamagedLog(self.error())),
            _ => Err(Error::Stopped(self.error())),
        }
    }

    /// Calls the library, and reads all that it puts out.
    fn exchange(&mut self, input: u32, first: u64, second: u64, bytes: &[u8]) -> u32 {
        // SAFETY: the node is `wachelpo_node`'s, and lent to this call alone; the pointers and lengths are those of slices.
        let code = unsafe { wachelpo_call(self.node, input, first, second, bytes.as_ptr(), bytes.len()) };
        self.count = 0;
        if self.out.len() > KEPT {
            self.out.truncate(KEPT);
            self.out.shrink_to_fit();
        }
        loop {
            let room = &mut self.out[self.count..];
            // SAFETY: as above.
            let count = unsafe { wachelpo_read(self.node, room.as_mut_ptr(), room.len()) };
            let is_full = count == room.len();
            self.count += count;
            if !is_full {
                return code;
            }
            self.out.resize(self.out.len() * 2, 0);
        }
    }

    /// The text of the error that was put out.
    fn error(&self) -> String {
        let error = split(&self.out[..self.count]).map(|(frame, _)| frame.body);
        String::from_utf8_lossy(error.unwrap_or(b"out of memory")).into_owned()
    }

    /// Hands in an input. After an error the service says nothing any more.
    pub fn call(&mut self, input: Input<'_>) -> Result<Result<Outputs<'_>, Refusal>, Error> {
        let code = match input {
            Input::Frame { bytes, .. } => self.exchange(3, 0, 0, bytes),
            Input::Tick {
                elapsed,
                random,
                time_of_day,
            } => {
                let now = whole_milliseconds(time_of_day).to_le_bytes();
                self.exchange(4, moments(elapsed), random, &now)
            }
            Input::Connect(client) => self.exchange(5, client.0, 0, &[]),
            Input::Client { client, bytes } => self.exchange(6, client.0, 0, bytes),
            Input::Disconnect(client) => self.exchange(7, client.0, 0, &[]),
            Input::Write => self.exchange(8, 0, 0, &[]),
            Input::Flushed(end) => self.exchange(9, end, 0, &[]),
            Input::Initialize => self.exchange(10, 0, 0, &[]),
            Input::Members(members) => self.exchange(11, 0, 0, &members_bytes(members)),
            Input::Status => self.exchange(12, 0, 0, &[]),
            Input::BeginLog => self.exchange(13, 0, 0, &[]),
            Input::Idle => self.exchange(14, 0, 0, &[]),
            Input::TakeOver => self.exchange(15, 0, 0, &[]),
            Input::GiveUpLog => self.exchange(16, 0, 0, &[]),
            Input::LogPiece => self.exchange(17, 0, 0, &[]),
        };
        match code {
            0 => Ok(Ok(Outputs(&self.out[..self.count]))),
            code::CONNECT => Ok(Err(Refusal::Connect)),
            code::MEMBERS => Ok(Err(Refusal::Members(self.error()))),
            code::FRAME => Ok(Err(Refusal::Frame(self.error()))),
            code::BUSY => Ok(Err(Refusal::Busy)),
            code::OUT_OF_MEMORY => Err(Error::Stopped("out of memory".into())),
            _ => Err(Error::Stopped(self.error())),
        }
    }
}

/// The outputs of a call, in their order.
pub(crate) struct Outputs<'a>(&'a [u8]);

impl<'a> Iterator for Outputs<'a> {
    type Item = Output<'a>;

    fn next(&mut self) -> Option<Output<'a>> {
        loop {
            let (Frame { kind, number, body }, rest) = split(self.0)?;
            self.0 = rest;
            let client = ClientId(number);
            match kind {
                kind::SEND => {
                    return Some(Output::Frame {
                        to: NodeId(number),
                        bytes: body,
                    })
                }
                kind::APPEND => {
                    return Some(Output::Append {
                        end: number,
                        bytes: body,
                    })
                }
                kind::NEW_LOG => return Some(Output::NewLog(number)),
                kind::LOG_PIECE => return Some(Output::LogPiece(body)),
                kind::APPEND_NEXT => return Some(Output::AppendNext(body)),
                kind::TAKEN_OVER => return Some(Output::TakenOver(number)),
                kind::CLIENT => return Some(Output::Client { client, bytes: body }),
                kind::CLOSE => return Some(Output::Close(client)),
                kind::TAKEN => return Some(Output::Taken(number as usize)),
                kind::MORE => return Some(Output::More),
                kind::STATUS => match status_of(body) {
                    Some(status) => return Some(Output::Status(status)),
                    None => continue,
                },
                _ => {}
            }
        }
    }
}

/// Numbers, and bytes behind their number.
#[derive(Default)]
struct Writer(Vec<u8>);

impl Writer {
    fn number(&mut self, number: u64) {
        self.0.extend_from_slice(&number.to_le_bytes());
    }

    fn moments(&mut self, span: Duration) {
        self.number(moments(span));
    }

    fn size(&mut self, size: usize) {
        self.number(size as u64);
    }

    fn bytes(&mut self, bytes: &[u8]) {
        self.size(bytes.len());
        self.0.extend_from_slice(bytes);
    }

    fn ids<'a>(&mut self, ids: impl ExactSizeIterator<Item = &'a NodeId>) {
        self.size(ids.len());
        for id in ids {
            self.number(id.0);
        }
    }
}

fn members_bytes(members: &Members) -> Vec<u8> {
    let mut writer = Writer::default();
    writer.ids(members.voters.iter());
    writer.ids(members.learners.iter());
    writer.0
}

/// A host and a port.
fn split_address(address: &str) -> Result<(&str, u16), Error> {
    let parts = address.rsplit_once(':').map(|(host, port)| (host, port.parse()));
    match parts {
        Some((host, Ok(port))) => Ok((host.trim_matches(['[', ']']), port)),
        _ => Err(Error::Settings(format!("{address} isn't HOST:PORT"))),
    }
}

/// Refuses settings that the library takes, and with which a cluster would never begin, or never rest.
fn check(settings: &Builder) -> Result<(), Error> {
    let voters = settings.voters.iter().flatten();
    if let Some(id) = voters.into_iter().find(|id| !settings.members.contains_key(id)) {
        return Err(Error::Settings(format!(
            "voter {id} isn't one of those who may be members"
        )));
    }
    if settings.election_timeout < settings.heartbeat * 2 {
        return Err(Error::Settings(format!(
            "the election timeout is shorter than two heartbeats, which are {:?} apart",
            settings.heartbeat
        )));
    }
    Ok(())
}

/// The settings as the library reads them.
fn settings_bytes(settings: &Builder) -> Result<Vec<u8>, Error> {
    check(settings)?;
    let limits = &settings.limits;
    let mut writer = Writer::default();
    writer.number(2); // the form
    writer.number(settings.cluster);
    writer.number(settings.id.0);
    writer.size(settings.members.len());
    for (id, address) in &settings.members {
        let (host, port) = if address.is_empty() {
            ("", 0)
        } else {
            split_address(address)?
        };
        writer.number(id.0);
        writer.bytes(host.as_bytes());
        writer.number(port.into());
    }
    match &settings.voters {
        Some(voters) => writer.ids(voters.iter()),
        None => writer.ids(settings.members.keys()),
    }
    writer.moments(settings.election_timeout);
    writer.moments(settings.election_timeout); // the lease
    writer.size(limits.message_entries);
    writer.number(settings.snapshot_entries);
    writer.number(settings.kept_entries);
    writer.moments(settings.election_timeout); // the jitter
    writer.moments(settings.heartbeat);
    writer.moments(settings.patience);
    writer.moments(settings.request_timeout);
    writer.number(100); // how many entries a new voter's log may lack
    writer.number(settings.log_bytes);
    writer.size(limits.value_bytes);
    writer.size(limits.waiting_bytes);
    writer.size(limits.all_requests);
    writer.size(limits.batch_bytes);
    writer.size(limits.frame_bytes);
    writer.size(limits.unwritten_bytes);
    writer.number(1 << 32); // by how much a term may jump
    writer.size(limits.request_bytes); // words: each has a byte or more
    writer.size(limits.value_bytes);
    writer.size(limits.request_bytes);
    writer.size(limits.requests);
    writer.size(limits.transaction_commands);
    match &settings.password {
        Some(password) => {
            writer.number(1);
            writer.bytes(&password.0);
        }
        None => writer.number(0),
    }
    writer.bytes(settings.info.as_bytes());
    writer.size(limits.clients);
    Ok(writer.0)
}

/// Numbers from the front of bytes.
struct Numbers<'a>(&'a [u8]);

impl Numbers<'_> {
    fn number(&mut self) -> Option<u64> {
        let (number, rest) = self.0.split_at_checked(8)?;
        self.0 = rest;
        Some(number_at(number, 0))
    }

    fn optional(&mut self) -> Option<Option<u64>> {
        let is_there = self.number()? != 0;
        let number = self.number()?;
        Some(is_there.then_some(number))
    }

    fn ids(&mut self) -> Option<Vec<NodeId>> {
        let count = self.number()?;
        (0..count).map(|_| self.number().map(NodeId)).collect()
    }
}

fn status_of(body: &[u8]) -> Option<Status> {
    let mut numbers = Numbers(body);
    Some(Status {
        id: NodeId(numbers.number()?),
        role: match numbers.number()? {
            0 => Role::Learner,
            1 => Role::Follower,
            2 => Role::Candidate,
            3 => Role::Leader,
            _ => return None,
        },
        leader: numbers.optional()?.map(NodeId),
        term: numbers.number()?,
        last: numbers.optional()?,
        committed: numbers.optional()?,
        applied: numbers.optional()?,
        members: Members {
            voters: numbers.ids()?,
            learners: numbers.ids()?,
        },
        clients: numbers.number()?,
        requests: numbers.number()?,
        refused: BTreeMap::new(),
    })
}

#[cfg(test)]
mod tests {
    use super::*;

    #[test]
    fn a_host_and_a_port() {
        assert_eq!(split_address("db1:6379").unwrap(), ("db1", 6379));
        assert_eq!(split_address("[::1]:6379").unwrap(), ("::1", 6379));
        assert!(split_address("db1").is_err() && split_address("db1:x").is_err());
    }

    #[test]
    fn settings_stand_where_the_library_reads_them() {
        let builder = Builder::new(NodeId(1)).snapshot_entries(7).kept_entries(8).log_bytes(9);
        let bytes = settings_bytes(&builder).unwrap();
        let mut numbers = Numbers(&bytes);
        let first = [(); 18].map(|()| numbers.number().unwrap());
        let servers = [2, builder.cluster, 1, 0, 0];
        let engine = [10_000, 10_000, 256, 7, 8];
        let spans = [10_000, 1_000, 10_000, 50_000, 100, 9];
        assert_eq!(first[..5], servers);
        assert_eq!(first[5..10], engine);
        assert_eq!(first[10..16], spans);
        assert_eq!(first[16..], [1 << 20, 16 << 20]);
    }

    #[test]
    fn settings_that_suit_no_cluster_are_refused() {
        let builder = || Builder::new(NodeId(1)).member(NodeId(1), "");
        let refusal = |builder: Builder| settings_bytes(&builder).map(drop).unwrap_err().to_string();
        assert!(refusal(builder().voters([NodeId(1), NodeId(9)])).starts_with("settings: voter 9 "));
        let short = builder().election_timeout(Duration::from_millis(199));
        assert!(refusal(short.clone()).contains("shorter than two heartbeats"));
        settings_bytes(&short.heartbeat(Duration::from_millis(50)).voters([NodeId(1)])).unwrap();
    }

    #[test]
    fn a_new_log_is_put_out_beside_others() {
        let mut bytes = Vec::new();
        for (kind, number, body) in [
            (kind::NEW_LOG, 3, &b""[..]),
            (kind::LOG_PIECE, 0, b"new"),
            (kind::APPEND, 5, b"er"),
            (kind::APPEND_NEXT, 0, b"er"),
            (kind::TAKEN_OVER, 5, b""),
        ] {
            bytes.extend_from_slice(&u32::to_le_bytes(kind));
            bytes.extend_from_slice(&(body.len() as u32).to_le_bytes());
            bytes.extend_from_slice(&u64::to_le_bytes(number));
            bytes.extend_from_slice(body);
        }
        let mut outputs = Outputs(&bytes);
        assert!(matches!(outputs.next(), Some(Output::NewLog(3))));
        assert!(matches!(outputs.next(), Some(Output::LogPiece(b"new"))));
        assert!(matches!(outputs.next(), Some(Output::Append { end: 5, bytes: b"er" })));
        assert!(matches!(outputs.next(), Some(Output::AppendNext(b"er"))));
        assert!(matches!(outputs.next(), Some(Output::TakenOver(5))));
        assert!(outputs.next().is_none());
    }

    #[test]
    fn a_log_of_garbage_is_refused() {
        let settings = Builder::new(NodeId(1)).member(NodeId(1), "127.0.0.1:6379");
        let error = Service::open(&settings, &[7; 100]).map(|_| ()).unwrap_err();
        assert!(matches!(error, Error::DamagedLog(_)), "{error}");
        assert_eq!(Service::open(&settings, &[]).map(|(_, end)| end).unwrap(), 0);
    }
}
