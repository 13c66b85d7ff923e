//! How nodes prove to each other who they are.
//!
//! ```text
//! connects    accepts
//!    hello ------->         who it is and whom it wants, how far its log is on disk, and a nonce
//!    <------- challenge     a nonce, by which start it is known, and the sum by which the other side shows that it has the secret
//!    proof ------->         whether its folder has that start, and the sum by which this side shows it
//!    <-------- verdict      whether it is admitted, and a sum over that
//!    frames ------>         each with a sum over its running number, its length and its bytes
//! ```
//!
//! A sum is HMAC-SHA-256 (RFC 2104, FIPS 180-4) with the shared secret over a word for what it is, the hello and the nonce of the challenge;
//! frames have a key of the connection, which is such a sum. Each frame begins with how often its sender's log was replaced, and up to where
//! the last one is on disk (8 bytes each): all that it has promised stands there. [`verdict`](crate::disk::verdict) says who is admitted.
//! Without a secret it is the same with an empty one, and frames have no sums: then nothing is proved, and a server listens
//! on loopback addresses alone.

use crate::disk::{Heard, Lack, Position, Presence, Start, POSITION};
use crate::NodeId;
use hmac::{Hmac, Mac};
use sha2::{Digest, Sha256};
use std::fmt;

pub(crate) type Sum = [u8; 32];
pub(crate) type Nonce = [u8; 32];

const MAGIC: &[u8; 8] = b"wachelpo";
const VERSION: u64 = 3;
/// How many bytes a hello has, a challenge, a proof and a verdict.
pub(crate) const HELLO: usize = 120;
pub(crate) const CHALLENGE: usize = 96;
pub(crate) const PROOF: usize = 33;
pub(crate) const VERDICT: usize = 33;

/// What the nodes of a cluster share, and nobody else has.
#[derive(Clone)]
pub struct Secret(Vec<u8>);

impl Secret {
    /// A secret of these bytes. They should be at least 32 that nobody can guess.
    pub fn new(bytes: impl Into<Vec<u8>>) -> Self {
        Secret(bytes.into())
    }

    fn mac(&self) -> Hmac<Sha256> {
        Hmac::new_from_slice(&self.0).expect("HMAC takes keys of any length")
    }
}

impl fmt::Debug for Secret {
    fn fmt(&self, f: &mut fmt::Formatter<'_>) -> fmt::Result {
        f.write_str("Secret(..)")
    }
}

/// The number of a cluster's name: the first 8 bytes of its SHA-256.
pub(crate) fn cluster_number(name: &str) -> u64 {
    let sum = Sha256::digest(name.as_bytes());
    u64::from_le_bytes(sum[..8].try_into().expect("it has 32"))
}

/// Who connects, and what for.
#[derive(Clone, Copy, PartialEq, Eq, Debug)]
pub(crate) struct Hello {
    /// Whether frames have sums.
    pub is_secret: bool,
    pub cluster: u64,
    /// None of who asks for a node's status or a change of the members.
    pub from: Option<NodeId>,
    pub to: NodeId,
    pub presence: Presence,
    /// How far its log is on disk.
    pub log: Position,
    pub nonce: Nonce,
}

impl Hello {
    pub fn to_bytes(self) -> [u8; HELLO] {
        let mut bytes = [0; HELLO];
        let Presence { folder, starts, run } = self.presence;
        let from = self.from.map_or(0, |id| id.0);
        let words = [
            VERSION,
            self.is_secret.into(),
            self.cluster,
            from,
            self.to.0,
            folder,
            starts,
            run,
            self.log.generation,
            self.log.end,
        ];
        bytes[..8].copy_from_slice(MAGIC);
        for (place, word) in bytes[8..88].chunks_exact_mut(8).zip(words) {
            place.copy_from_slice(&word.to_le_bytes());
        }
        bytes[88..].copy_from_slice(&self.nonce);
        bytes
    }

    pub fn of_bytes(bytes: &[u8; HELLO]) -> Option<Self> {
        let mut words = bytes[8..88]
            .chunks_exact(8)
            .map(|word| u64::from_le_bytes(word.try_into().expect("it has 8")));
        let mut word = || words.next().expect("there are 10");
        if &bytes[..8] != MAGIC || word() != VERSION {
            return None;
        }
        Some(Hello {
            is_secret: match word() {
                0 => false,
                1 => true,
                _ => return None,
            },
            cluster: word(),
            from: Some(NodeId(word())).filter(|id| id.0 != 0),
            to: NodeId(word()),
            presence: Presence {
                folder: word(),
                starts: word(),
                run: word(),
            },
            log: Position {
                generation: word(),
                end: word(),
            },
            nonce: bytes[88..].try_into().expect("it has 32"),
        })
    }
}

/// What who accepts knows of who connects: its last start, and how far its log was heard to be on disk.
#[derive(Clone, Copy, PartialEq, Eq, Default, Debug)]
pub(crate) struct Known {
    pub start: Start,
    pub log: Position,
}

impl From<Heard> for Known {
    fn from(Heard { presence, log }: Heard) -> Self {
        let start = presence.start();
        Known { start, log }
    }
}

/// Why a node isn't admitted.
#[derive(Clone, Copy, PartialEq, Eq, Debug)]
pub(crate) enum Refusal {
    Cluster,
    Node,
    Secret,
    Folder,
    Log,
    Run,
}

const REFUSALS: [Refusal; 6] = [
    Refusal::Cluster,
    Refusal::Node,
    Refusal::Secret,
    Refusal::Folder,
    Refusal::Log,
    Refusal::Run,
];

impl Refusal {
    /// Whether the node has lost what it promised. Then it doesn't go on.
    pub fn is_loss(self) -> bool {
        matches!(self, Refusal::Folder | Refusal::Log | Refusal::Run)
    }

    pub fn to_byte(self) -> u8 {
        1 + REFUSALS.iter().position(|it| *it == self).expect("all are listed") as u8
    }

    /// What a verdict says.
    pub fn of_byte(byte: u8) -> Option<Self> {
        REFUSALS.get((byte as usize).checked_sub(1)?).copied()
    }
}

impl fmt::Display for Refusal {
    fn fmt(&self, f: &mut fmt::Formatter<'_>) -> fmt::Result {
        f.write_str(match self {
            Refusal::Cluster => "it is of another cluster",
            Refusal::Node => "another node is at this address",
            Refusal::Secret => "its secret is another one, or one side has none",
            Refusal::Folder => "it isn't in the folder that it had, but in a new one: it has lost what it promised",
            Refusal::Run => {
                "its folder lacks the start by which it is known: it is an old copy, or another process runs on a copy"
            }
            Refusal::Log => "its log is shorter than it was: it has lost what it promised",
        })
    }
}

/// The sums of one handshake.
pub(crate) struct Sums<'a> {
    pub secret: &'a Secret,
    pub hello: &'a [u8; HELLO],
    pub nonce: &'a Nonce,
}

impl Sums<'_> {
    fn mac(&self, what: &str) -> Hmac<Sha256> {
        self.secret
            .mac()
            .chain_update(what)
            .chain_update(self.hello)
            .chain_update(self.nonce)
    }

    /// Says what is known of who connects.
    pub fn challenge(&self, known: Known) -> [u8; CHALLENGE] {
        let mut bytes = [0; CHALLENGE];
        bytes[..32].copy_from_slice(self.nonce);
        bytes[32..40].copy_from_slice(&known.start.number.to_le_bytes());
        bytes[40..48].copy_from_slice(&known.start.run.to_le_bytes());
        bytes[48..64].copy_from_slice(&known.log.to_bytes());
        let sum = self.mac("accepts").chain_update(&bytes[32..64]).finalize();
        bytes[64..].copy_from_slice(&sum.into_bytes());
        bytes
    }

    /// What is known, if who accepts has the secret. (Sums are compared in constant time.)
    pub fn known(&self, challenge: &[u8; CHALLENGE]) -> Option<Known> {
        let (known, sum) = challenge[32..].split_at(16 + POSITION);
        self.mac("accepts").chain_update(known).verify_slice(sum).ok()?;
        let (number, rest) = known.split_first_chunk()?;
        let (run, log) = rest.split_first_chunk()?;
        Some(Known {
            start: Start {
                number: u64::from_le_bytes(*number),
                run: u64::from_le_bytes(*run),
            },
            log: Position::of_bytes(log.first_chunk()?),
        })
    }

    /// Says whether the folder of who connects has the start that is known, and else why not.
    pub fn proof(&self, lack: Option<Lack>) -> [u8; PROOF] {
        let mut bytes = [0; PROOF];
        bytes[0] = match lack {
            None => 0,
            Some(Lack::Own) => 1,
            Some(Lack::Others) => 2,
        };
        let sum = self.mac("connects").chain_update(&bytes[..1]).finalize();
        bytes[1..].copy_from_slice(&sum.into_bytes());
        bytes
    }

    /// What who connects has said, if it has the secret.
    pub fn lack(&self, proof: &[u8; PROOF]) -> Option<Option<Lack>> {
        let (said, sum) = proof.split_at(1);
        self.mac("connects").chain_update(said).verify_slice(sum).ok()?;
        match said {
            [0] => Some(None),
            [1] => Some(Some(Lack::Own)),
            [2] => Some(Some(Lack::Others)),
            _ => None,
        }
    }

    /// What is said of a node: none is refused.
    pub fn verdict(&self, refusal: Option<Refusal>) -> [u8; VERDICT] {
        let mut bytes = [0; VERDICT];
        bytes[0] = refusal.map_or(0, Refusal::to_byte);
        let sum = self.mac("verdict").chain_update(&bytes[..1]).finalize();
        bytes[1..].copy_from_slice(&sum.into_bytes());
        bytes
    }

    /// Whether who accepts has said that, and has the secret.
    pub fn is_verdict(&self, verdict: &[u8; VERDICT]) -> bool {
        let (said, sum) = verdict.split_at(1);
        self.mac("verdict").chain_update(said).verify_slice(sum).is_ok()
    }

    /// The key of the frames that go one way.
    pub fn key(&self, direction: Direction) -> Sum {
        let what = match direction {
            Direction::There => "frames there",
            Direction::Back => "frames back",
        };
        self.mac(what).finalize().into_bytes().into()
    }
}

/// Which way frames go, as seen by who connects.
#[derive(Clone, Copy, PartialEq, Eq, Debug)]
pub(crate) enum Direction {
    There,
    Back,
}

#[cfg(test)]
mod tests {
    use super::*;

    fn hello() -> Hello {
        Hello {
            is_secret: true,
            cluster: 77,
            from: Some(NodeId(1)),
            to: NodeId(2),
            presence: Presence {
                folder: 3,
                starts: 4,
                run: 5,
            },
            log: Position { generation: 8, end: 9 },
            nonce: [6; 32],
        }
    }

    #[test]
    fn a_hello_reads_as_it_was_written() {
        let bytes = hello().to_bytes();
        assert_eq!(Hello::of_bytes(&bytes), Some(hello()));
        let nobody = Hello { from: None, ..hello() };
        assert_eq!(Hello::of_bytes(&nobody.to_bytes()), Some(nobody));
        for at in 0..24 {
            let mut other = bytes;
            other[at] ^= 0x10;
            assert_eq!(Hello::of_bytes(&other), None, "{at}");
        }
    }

    #[test]
    fn a_secret_is_proved_both_ways() {
        let (secret, other) = (Secret::new("a secret"), Secret::new("another one"));
        let bytes = hello().to_bytes();
        let sums = |secret| Sums {
            secret,
            hello: &bytes,
            nonce: &[9; 32],
        };
        let known = Known {
            start: Start { number: 6, run: 7 },
            log: Position { generation: 1, end: 2 },
        };
        let challenge = sums(&secret).challenge(known);
        assert_eq!(sums(&secret).known(&challenge), Some(known));
        assert_eq!(sums(&other).known(&challenge), None);
        let mut changed = challenge;
        changed[33] ^= 1;
        assert_eq!(sums(&secret).known(&changed), None);
        for lack in [None, Some(Lack::Own), Some(Lack::Others)] {
            let proof = sums(&secret).proof(lack);
            assert_eq!(
                (sums(&secret).lack(&proof), sums(&other).lack(&proof)),
                (Some(lack), None)
            );
            let mut changed = proof;
            changed[0] ^= 1;
            assert_eq!(sums(&secret).lack(&changed), None);
        }
        // what one side has said is no proof of the other
        let back = [&[0], &challenge[64..]].concat().try_into().unwrap();
        assert_eq!(sums(&secret).lack(&back), None);
        for refusal in [None, Some(Refusal::Log)] {
            let verdict = sums(&secret).verdict(refusal);
            assert_eq!(Refusal::of_byte(verdict[0]), refusal);
            let mut other = verdict;
            other[0] ^= 1;
            assert!(sums(&secret).is_verdict(&verdict) && !sums(&secret).is_verdict(&other));
        }
        assert_ne!(sums(&secret).key(Direction::There), sums(&secret).key(Direction::Back));
    }

    #[test]
    fn a_verdict_says_why() {
        for refusal in REFUSALS {
            assert_eq!(Refusal::of_byte(refusal.to_byte()), Some(refusal));
        }
        assert_eq!((Refusal::of_byte(0), Refusal::of_byte(9)), (None, None));
    }

    // RFC 4231, test case 2.
    #[test]
    fn hmac_of_the_standards_vector() {
        let sum = Secret::new("Jefe")
            .mac()
            .chain_update("what do ya want for nothing?")
            .finalize()
            .into_bytes();
        let expected = [
            0x5b, 0xdc, 0xc1, 0x46, 0xbf, 0x60, 0x75, 0x4e, 0x6a, 0x04, 0x24, 0x26, 0x08, 0x95, 0x75, 0xc7, 0x5a, 0x00,
            0x3f, 0x08, 0x9d, 0x27, 0x39, 0x83, 0x9d, 0xec, 0x58, 0xb9, 0x64, 0xec, 0x38, 0x43,
        ];
        assert_eq!(sum[..], expected);
    }
}
