//! The hold-back queue. The puts of one replica can only be taken in order of their numbers, so
//! of each replica at most the one with the least number can be ready.

use std::collections::BTreeMap;
use std::rc::Rc;

use crate::bytes::Clock;

/// Which put it is: its replica and its number there.
#[derive(Clone, Copy, Debug, PartialEq, Eq)]
pub struct Identity {
    pub from: usize,
    pub number: u32,
}

pub struct Held {
    pub identity: Identity,
    pub seen: Clock,
    pub key: usize,
    pub bytes: Rc<[u8]>,
}

pub struct HoldBack {
    /// For each replica its waiting puts by number, each with its place in the order of arrival.
    /// None of them is one that the clock has: the one that waits is the only one with its
    /// identity that can ever be taken.
    by_replica: Vec<BTreeMap<u32, (u64, Held)>>,
    length: usize,
    arrivals: u64,
}

impl HoldBack {
    pub fn new(replicas: usize) -> Self {
        HoldBack {
            by_replica: (0..replicas).map(|_| BTreeMap::new()).collect(),
            length: 0,
            arrivals: 0,
        }
    }

    pub fn len(&self) -> usize {
        self.length
    }

    pub fn contains(&self, identity: Identity) -> bool {
        self.by_replica[identity.from].contains_key(&identity.number)
    }

    pub fn join(&mut self, put: Held) {
        let Identity { from, number } = put.identity;
        self.by_replica[from].insert(number, (self.arrivals, put));
        self.arrivals += 1;
        self.length += 1;
    }

    /// Takes out the put that arrived first among those that are ready under the clock.
    pub fn pop_ready(&mut self, clock: &Clock) -> Option<Held> {
        if self.length == 0 {
            return None;
        }
        let ready = self
            .by_replica
            .iter()
            .enumerate()
            .filter_map(|(from, puts)| {
                let (_, (arrival, put)) = puts.first_key_value()?;
                put.seen.at_most(clock).then_some((*arrival, from))
            });
        let (_, from) = ready.min()?;
        let (_, (_, put)) = self.by_replica[from].pop_first()?;
        self.length -= 1;
        Some(put)
    }
}
