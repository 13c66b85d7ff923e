//! What is said again while a disk is slow.

use crate::batch::{Deliveries, Delivery};
use crate::NodeId;
use std::collections::BTreeMap;
use std::time::Duration;

/// The most bytes of a frame that is repeated, as of a heartbeat or of an answer to one.
const SMALL: usize = 1 << 10;

/// The last small frame to each other node. What a node says waits for what it writes meanwhile, heartbeats too; so while that takes long, it
/// repeats what it has said before, as a network may do at any time. By that others know that it is there: a leader goes on to lead, and hears
/// that it isn't alone.
pub(crate) struct Repeats {
    frames: BTreeMap<NodeId, Vec<u8>>,
    interval: Duration,
    /// For how long. (A disk that hangs is another matter: then somebody else is to lead.)
    longest: Duration,
    repeated: Duration,
}

impl Repeats {
    pub fn new(interval: Duration, longest: Duration) -> Self {
        Repeats {
            frames: BTreeMap::new(),
            interval,
            longest,
            repeated: Duration::ZERO,
        }
    }

    /// A frame goes to another node.
    pub fn said(&mut self, to: NodeId, frame: &[u8]) {
        if frame.len() <= SMALL {
            let last = self.frames.entry(to).or_default();
            last.clear();
            last.extend_from_slice(frame);
        }
    }

    /// Whether they stand for what is said: a write that has begun at that moment takes long, but not too long.
    pub fn stand_for(&self, now: Duration, began: Duration) -> bool {
        let waited = now.saturating_sub(began);
        self.interval <= waited && waited <= self.longest
    }

    /// Repeats each, if it is time for that.
    pub fn repeat(&mut self, now: Duration, began: Duration, deliveries: &mut Deliveries) {
        if now.saturating_sub(self.repeated.max(began)) >= self.interval {
            self.repeated = now;
            for (to, frame) in &self.frames {
                deliveries.push(Delivery::Frame(*to), frame);
            }
        }
    }
}

#[cfg(test)]
mod tests {
    use super::*;

    #[test]
    fn the_last_small_frames_are_repeated_while_a_write_takes_long() {
        let at = Duration::from_millis;
        let mut repeats = Repeats::new(at(100), at(1000));
        repeats.said(NodeId(1), b"old");
        repeats.said(NodeId(1), b"beat");
        repeats.said(NodeId(1), &[7; SMALL + 1]);
        repeats.said(NodeId(2), b"answer");
        let mut repeated = |now| {
            let mut deliveries = Deliveries::new();
            let began = at(5000);
            if repeats.stand_for(at(now), began) {
                repeats.repeat(at(now), began, &mut deliveries);
            }
            let frames: Vec<_> = deliveries.iter().map(|(it, bytes)| (it, bytes.to_vec())).collect();
            frames
        };
        assert_eq!(repeated(5099), []);
        let (first, second) = (Delivery::Frame(NodeId(1)), Delivery::Frame(NodeId(2)));
        let both = [(first, b"beat".to_vec()), (second, b"answer".to_vec())];
        assert_eq!(repeated(5100), both);
        assert_eq!(repeated(5199), []);
        assert_eq!(repeated(6000), both);
        assert_eq!(repeated(6100), []);
    }
}
