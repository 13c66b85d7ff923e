//! The handshake, from both sides.

use super::{refused, Asked, Close, Knock, Role, Socket, Sockets, Step, BACKOFF};
use crate::disk::{verdict, Heard, Lack, Note};
use crate::network::frames::Seal;
use crate::network::handshake::{Direction, Hello, Known, Nonce, Refusal, Sums, CHALLENGE, HELLO, PROOF, VERDICT};
use crate::{Error, NodeId};

impl Sockets {
    fn sums<'a>(&'a self, Asked { hello, nonce, .. }: &'a Asked) -> Sums<'a> {
        Sums {
            secret: &self.setup.secret,
            hello,
            nonce,
        }
    }

    /// Somebody says who it is.
    pub(super) fn hello(&mut self, slot: usize, bytes: [u8; HELLO]) -> Result<(), Close> {
        let hello = Hello::of_bytes(&bytes).ok_or_else(|| Close(Some("it speaks another protocol".into())))?;
        let is_known = hello.from.is_none_or(|from| self.links.contains_key(&from));
        let is_for_this = hello.to == self.setup.id || (hello.from.is_none() && hello.to.0 == 0);
        let refusal = if hello.cluster != self.setup.cluster {
            Some(Refusal::Cluster)
        } else if !is_for_this || !is_known {
            Some(Refusal::Node)
        } else {
            (hello.is_secret != self.setup.is_secret).then_some(Refusal::Secret)
        };
        let mut nonce = [0; 32];
        crate::random_bytes(&mut nonce)?;
        let known = hello.from.filter(|_| refusal.is_none());
        let heard = known.and_then(|from| self.desk.notes.heard_of(from));
        let asked = Asked {
            hello: bytes,
            nonce,
            known: heard.map(Known::from).unwrap_or_default(),
        };
        let challenge = self.sums(&asked).challenge(asked.known);
        self.say(slot, &challenge, false);
        match refusal {
            Some(refusal) => self.turn_away(slot, &asked, refusal),
            None => self.set_role(slot, Role::Stranger(Knock::Asked(asked))),
        }
        Ok(())
    }

    fn set_role(&mut self, slot: usize, new: Role) {
        if let Some(Socket { role, .. }) = &mut self.slots[slot] {
            *role = new;
        }
    }

    /// Says why somebody isn't admitted.
    fn turn_away(&mut self, slot: usize, asked: &Asked, refusal: Refusal) {
        self.setup.metrics.connections_refused.add(1);
        if let Some(socket) = &self.slots[slot] {
            log::warn!("peers: {} isn't admitted: {refusal}", socket.whose());
        }
        let verdict = self.sums(asked).verdict(Some(refusal));
        self.say(slot, &verdict, true);
    }

    /// Somebody shows that it has the secret. A start that is new here is admitted once it is noted.
    pub(super) fn proof(&mut self, slot: usize, proof: &[u8; PROOF]) -> Result<(), Close> {
        let Some(Socket {
            role: Role::Stranger(Knock::Asked(asked)),
            ..
        }) = &self.slots[slot]
        else {
            return Ok(());
        };
        let asked = *asked;
        let lack = self.sums(&asked).lack(proof);
        let (Some(said), Some(lack)) = (Hello::of_bytes(&asked.hello), lack) else {
            self.turn_away(slot, &asked, Refusal::Secret);
            return Ok(());
        };
        let Some(from) = said.from else {
            let [there, back] = [Direction::There, Direction::Back].map(|way| self.seal(&asked, way));
            let is_asking = false;
            self.set_role(slot, Role::Admin { there, back, is_asking });
            self.say_admitted(slot, &asked);
            return Ok(());
        };
        let known = self.desk.notes.heard_of(from);
        if known.map(Known::from).unwrap_or_default().start != asked.known.start || self.desk.is_noting(from) {
            // another start has come meanwhile, so this one is to ask again
            return Err(Close(None));
        }
        if lack == Some(Lack::Others) {
            let why = "it was known here by a later start: this folder is an old copy";
            self.setup.inbox.fail(Error::KeptOut(from, why.into()));
            return Err(Close(None));
        }
        let Hello { presence, log, .. } = said;
        let next = Heard { presence, log };
        let verdict = verdict(known, next, lack.is_none());
        let why = verdict.err().map(|refusal| refusal.to_string());
        self.setup.metrics.note_peer(from, why);
        if let Err(refusal) = verdict {
            self.turn_away(slot, &asked, refusal);
        } else if known.is_some_and(|known| known.presence == presence) {
            self.desk.notes.hear(from, log);
            self.admit(slot, asked, from);
        } else {
            // nothing more is heard of the start before
            if let Some(before) = self.peers.get(&from).copied() {
                self.close(before, None);
            }
            self.set_role(slot, Role::Stranger(Knock::Noted(asked)));
            self.want(slot, Note::Heard(from, next));
        }
        Ok(())
    }

    fn seal(&self, asked: &Asked, direction: Direction) -> Seal {
        Seal::new(self.setup.is_secret.then(|| self.sums(asked).key(direction)))
    }

    fn say_admitted(&mut self, slot: usize, asked: &Asked) {
        let admitted = self.sums(asked).verdict(None);
        self.say(slot, &admitted, false);
    }

    /// A node is noted, and admitted.
    pub(super) fn admit(&mut self, slot: usize, asked: Asked, from: NodeId) {
        self.strangers -= 1;
        log::info!("peer {from}: it has connected");
        // the one before may be one that a cut has left
        if let Some(before) = self.peers.insert(from, slot) {
            self.close(before, None);
            self.peers.insert(from, slot);
        }
        let seal = self.seal(&asked, Direction::There);
        self.set_role(slot, Role::Peer { from, seal });
        self.say_admitted(slot, &asked);
    }

    /// The other node shows that it has the secret, and says by which start it knows this one. It is noted first that it is told of this start.
    pub(super) fn challenge(&mut self, slot: usize, challenge: &[u8; CHALLENGE]) -> Result<(), Close> {
        let Some(Socket {
            role: Role::Link {
                to,
                step: Step::Hello(hello),
            },
            ..
        }) = &self.slots[slot]
        else {
            return Ok(());
        };
        let to = *to;
        let nonce: Nonce = challenge[..32].try_into().expect("it has 32");
        let mut asked = Asked {
            hello: *hello,
            nonce,
            known: Known::default(),
        };
        let known = self.sums(&asked).known(challenge);
        asked.known = known.ok_or_else(|| refused(Refusal::Secret))?;
        let notes = &self.desk.notes;
        match notes.told_too(to, asked.known.start, self.presence.start()) {
            Ok(told) if !notes.has_told(to, &told) => {
                let step = Step::Noting(asked);
                self.set_role(slot, Role::Link { to, step });
                self.want(slot, Note::Told(to, told));
            }
            told => self.prove(slot, asked, told.err()),
        }
        Ok(())
    }

    /// Shows the other node that this one has the secret, and says whether it has the start by which it is known.
    pub(super) fn prove(&mut self, slot: usize, asked: Asked, lack: Option<Lack>) {
        let proof = self.sums(&asked).proof(lack);
        if let Some(Socket {
            role: Role::Link { step, .. },
            ..
        }) = &mut self.slots[slot]
        {
            *step = Step::Proof(asked);
        }
        self.say(slot, &proof, false);
    }

    /// The other node admits this one, or not. If it doesn't for what this one has lost, this node ends: what it says counts nowhere, and what
    /// it answers may be old.
    pub(super) fn verdict(&mut self, slot: usize, verdict: &[u8; VERDICT]) -> Result<(), Close> {
        let Some(Socket {
            role: Role::Link {
                to,
                step: Step::Proof(asked),
            },
            ..
        }) = &self.slots[slot]
        else {
            return Ok(());
        };
        let (to, asked) = (*to, *asked);
        let is_proved = self.sums(&asked).is_verdict(verdict);
        if let Some(refusal) = Refusal::of_byte(verdict[0]) {
            if is_proved && refusal.is_loss() {
                self.setup.inbox.fail(Error::KeptOut(to, self.loss(&asked, refusal)));
            }
            return Err(Close(Some(format!("it refuses this node: {refusal}"))));
        }
        if !is_proved {
            return Err(refused(Refusal::Secret));
        }
        let step = Step::Open(self.seal(&asked, Direction::There));
        self.set_role(slot, Role::Link { to, step });
        if let Some(link) = self.links.get_mut(&to) {
            log::info!("peer {to}: connected to {}", link.address);
            link.is_up = true;
            link.backoff = BACKOFF;
            link.told.clear();
        }
        self.count_links();
        Ok(())
    }

    /// What this node has lost.
    fn loss(&self, asked: &Asked, refusal: Refusal) -> String {
        match (refusal, Hello::of_bytes(&asked.hello)) {
            (Refusal::Log, Some(said)) => format!("{refusal}: it is at {}, and was at {}", said.log, asked.known.log),
            _ => refusal.to_string(),
        }
    }

    pub(super) fn count_links(&self) {
        let count = self.links.values().filter(|link| link.is_up).count();
        self.setup.metrics.peers.set(count as u64);
    }
}
