//! The twin: a replica as the rules in words describe it, written for a machine with a heap.

use std::collections::VecDeque;
use std::rc::Rc;

use crate::bytes::{self, Clock, Event, MAX_REPLICAS, RawBody, RawClock, RawPut};
use crate::holdback::{Held, HoldBack, Identity};

const MAX_KEYS: usize = 4_096;
const MAX_LOG: usize = 1_024;
const MAX_WAITING: usize = 1_024;
const MAX_VALUE: usize = 64;
const MAX_REPLY: usize = 8;

#[derive(Clone, Copy, Debug, PartialEq, Eq)]
pub struct Limits {
    pub replicas: usize,
    pub keys: usize,
    pub log: usize,
    pub waiting: usize,
}

impl Limits {
    pub fn in_range(&self) -> bool {
        (1..=MAX_REPLICAS).contains(&self.replicas)
            && (1..=MAX_KEYS).contains(&self.keys)
            && (1..=MAX_LOG).contains(&self.log)
            && self.waiting <= MAX_WAITING
    }

    /// The words of memory that a replica with these limits is lent; the limits are in range.
    pub fn words(&self) -> usize {
        32 * (self.keys + self.log + self.waiting) + 512
    }

    /// Whether a replica can be opened with so many words of memory.
    pub fn open(&self, me: usize, words: usize) -> bool {
        self.in_range() && me < self.replicas && words >= self.words()
    }
}

enum Refusal {
    NoEvent(usize),
    OutOfRange,
    NotMadeYet,
    LogFull,
    QueueFull,
}

impl Refusal {
    fn number_and_place(self) -> (u64, usize) {
        match self {
            Refusal::NoEvent(place) => (1, place),
            Refusal::OutOfRange => (2, 0),
            Refusal::NotMadeYet => (3, 0),
            Refusal::LogFull => (4, 0),
            Refusal::QueueFull => (5, 0),
        }
    }
}

/// The put that stands at a key. Of two puts the one with the larger rank is later.
struct Shown {
    rank: (u64, usize),
    bytes: Rc<[u8]>,
}

pub struct Replica {
    limits: Limits,
    me: usize,
    clock: Clock,
    shown: Vec<Option<Shown>>,
    /// The bytes of the latest own puts; their numbers end with the own count.
    log: VecDeque<Rc<[u8]>>,
    /// How many of the own puts each replica is known to have. No answer depends on more of what
    /// is known of it.
    acknowledged: Vec<u32>,
    waiting: HoldBack,
}

impl Replica {
    /// A new replica; the limits are in range and `me` is below their replicas.
    pub fn new(limits: Limits, me: usize) -> Self {
        Replica {
            limits,
            me,
            clock: Clock::default(),
            shown: (0..limits.keys).map(|_| None).collect(),
            log: VecDeque::new(),
            acknowledged: vec![0; limits.replicas],
            waiting: HoldBack::new(limits.replicas),
        }
    }

    pub fn clock(&self) -> &Clock {
        &self.clock
    }

    pub fn log_length(&self) -> usize {
        self.log.len()
    }

    pub fn waiting_length(&self) -> usize {
        self.waiting.len()
    }

    /// Lets an event happen, given by its bytes; `answer` then holds the bytes of the answer.
    pub fn call(&mut self, event: &[u8], answer: &mut Vec<u8>) {
        answer.clear();
        if let Err(refusal) = self.happen(event, answer) {
            let (number, place) = refusal.number_and_place();
            bytes::write_refusal(answer, number, place);
        }
    }

    fn happen(&mut self, event: &[u8], answer: &mut Vec<u8>) -> Result<(), Refusal> {
        match bytes::read_event(event).map_err(Refusal::NoEvent)? {
            Event::Put(body) => self.put(body, answer),
            Event::Get { key } => self.get(key, answer),
            Event::Came(put) => self.came(put, answer),
            Event::Has { replica, clock } => self.has(replica, clock, answer),
            Event::Tell => {
                bytes::write_clock_answer(answer, &self.clock, self.limits.replicas);
                Ok(())
            }
        }
    }

    fn checked_key(&self, key: u64) -> Result<usize, Refusal> {
        below(key, self.limits.keys)
    }

    fn checked_body(&self, body: RawBody) -> Result<usize, Refusal> {
        if body.value.len() > MAX_VALUE {
            return Err(Refusal::OutOfRange);
        }
        self.checked_key(body.key)
    }

    fn checked_clock(&self, clock: RawClock) -> Result<Clock, Refusal> {
        clock
            .checked(self.limits.replicas)
            .ok_or(Refusal::OutOfRange)
    }

    fn put(&mut self, body: RawBody, answer: &mut Vec<u8>) -> Result<(), Refusal> {
        let key = self.checked_body(body)?;
        let identity = next_identity(self.me, &self.clock).ok_or(Refusal::LogFull)?;
        if self.log.len() >= self.limits.log {
            return Err(Refusal::LogFull);
        }
        let seen = self.clock;
        let made = bytes::write_made_put(answer, self.me, &seen, self.limits.replicas, body);
        let put: Rc<[u8]> = Rc::from(&answer[made]);
        self.take(identity, &seen, key, Rc::clone(&put));
        self.log.push_back(put);
        self.acknowledged[self.me] = identity.number;
        self.prune();
        Ok(())
    }

    fn get(&self, key: u64, answer: &mut Vec<u8>) -> Result<(), Refusal> {
        let shown = &self.shown[self.checked_key(key)?];
        let put = shown.iter().map(|shown| &*shown.bytes);
        bytes::write_puts(answer, bytes::VALUE, put);
        Ok(())
    }

    fn came(&mut self, put: RawPut, answer: &mut Vec<u8>) -> Result<(), Refusal> {
        let from = below(put.from, self.limits.replicas)?;
        let seen = self.checked_clock(put.seen)?;
        let identity = next_identity(from, &seen).ok_or(Refusal::OutOfRange)?;
        let key = self.checked_body(put.body)?;
        let has_it = self.clock.0[from] >= identity.number;
        if from == self.me && !has_it {
            return Err(Refusal::NotMadeYet);
        }
        if !has_it && !self.waiting.contains(identity) {
            if seen.at_most(&self.clock) {
                self.take(identity, &seen, key, put.bytes);
                self.take_waiting();
            } else if self.waiting.len() < self.limits.waiting {
                self.waiting.join(Held {
                    identity,
                    seen,
                    key,
                    bytes: Rc::from(put.bytes),
                });
            } else {
                return Err(Refusal::QueueFull);
            }
        }
        bytes::write_puts(answer, bytes::PUTS, std::iter::empty());
        Ok(())
    }

    fn take_waiting(&mut self) {
        while let Some(put) = self.waiting.pop_ready(&self.clock) {
            self.take(put.identity, &put.seen, put.key, put.bytes);
        }
    }

    /// Counts a put, and shows it if it is the latest of its key.
    fn take(&mut self, identity: Identity, seen: &Clock, key: usize, bytes: impl Into<Rc<[u8]>>) {
        self.clock.0[identity.from] = identity.number;
        let rank = (seen.sum(), identity.from);
        let shown = &mut self.shown[key];
        if shown.as_ref().is_none_or(|earlier| earlier.rank < rank) {
            let bytes = bytes.into();
            *shown = Some(Shown { rank, bytes });
        }
    }

    fn has(&mut self, replica: u64, told: RawClock, answer: &mut Vec<u8>) -> Result<(), Refusal> {
        let replica = below(replica, self.limits.replicas)?;
        let told = self.checked_clock(told)?.0[self.me];
        if told > self.clock.0[self.me] {
            return Err(Refusal::NotMadeYet);
        }
        let known_before = told.saturating_sub(self.pruned()) as usize;
        let lacked = self.log.range(known_before..).take(MAX_REPLY);
        bytes::write_puts(answer, bytes::PUTS, lacked.map(|put| &**put));
        let acknowledged = &mut self.acknowledged[replica];
        *acknowledged = told.max(*acknowledged);
        self.prune();
        Ok(())
    }

    /// How many of the own puts have left the log.
    fn pruned(&self) -> u32 {
        self.clock.0[self.me] - self.log.len() as u32
    }

    fn prune(&mut self) {
        let everywhere = self.acknowledged.iter().copied().min().unwrap_or(0);
        let leaving = everywhere.saturating_sub(self.pruned()) as usize;
        self.log.drain(..leaving);
    }
}

fn below(number: u64, bound: usize) -> Result<usize, Refusal> {
    match usize::try_from(number) {
        Ok(number) if number < bound => Ok(number),
        _ => Err(Refusal::OutOfRange),
    }
}

/// The put that comes after `seen` at the replica, if its number is below 2^32.
fn next_identity(from: usize, seen: &Clock) -> Option<Identity> {
    let number = seen.0[from].checked_add(1)?;
    Some(Identity { from, number })
}

#[cfg(test)]
mod tests {
    use super::*;
    use crate::bytes::{came_event, get_event, has_event, put_bytes, put_event, puts_of};

    const NO_PUTS: [u8; 2] = [bytes::PUTS, 0];

    fn replica(replicas: usize, log: usize, waiting: usize, me: usize) -> Replica {
        let limits = Limits {
            replicas,
            keys: 2,
            log,
            waiting,
        };
        Replica::new(limits, me)
    }

    fn answer(replica: &mut Replica, event: &[u8]) -> Vec<u8> {
        let mut answer = Vec::new();
        replica.call(event, &mut answer);
        answer
    }

    fn came(replica: &mut Replica, from: u64, seen: &[u64], value: &[u8]) -> Vec<u8> {
        answer(replica, &came_event(&put_bytes(from, seen, 0, value)))
    }

    fn shown(replica: &mut Replica) -> Vec<Vec<u8>> {
        let answer = answer(replica, &get_event(0));
        puts_of(&answer).map(<[u8]>::to_vec).collect()
    }

    fn refusal(number: u64) -> Vec<u8> {
        let mut answer = Vec::new();
        bytes::write_refusal(&mut answer, number, 0);
        answer
    }

    fn told(counts: &[u64]) -> Vec<u8> {
        let mut clock = Vec::new();
        bytes::write_counts(&mut clock, counts.iter().copied());
        clock
    }

    #[test]
    fn an_accepted_put_stands_at_its_key() {
        let mut one = replica(1, 1, 0, 0);
        for count in 0..3 {
            let made = answer(&mut one, &put_event(0, b"x"));
            let put = put_bytes(0, &[count], 0, b"x");
            assert_eq!(puts_of(&made).collect::<Vec<_>>(), [&put[..]]);
            assert_eq!(shown(&mut one), [put]);
        }
    }

    #[test]
    fn the_later_put_wins_and_ties_go_to_the_larger_replica() {
        let mut two = replica(3, 4, 4, 0);
        came(&mut two, 2, &[0, 0, 0], b"larger");
        came(&mut two, 1, &[0, 0, 0], b"smaller");
        assert_eq!(shown(&mut two), [put_bytes(2, &[0, 0, 0], 0, b"larger")]);
        came(&mut two, 1, &[0, 1, 0], b"later");
        assert_eq!(shown(&mut two), [put_bytes(1, &[0, 1, 0], 0, b"later")]);
    }

    #[test]
    fn a_put_waits_for_what_it_had_seen() {
        let mut two = replica(2, 4, 1, 0);
        assert_eq!(came(&mut two, 1, &[0, 1], b"second"), NO_PUTS);
        assert_eq!(came(&mut two, 1, &[0, 1], b"second"), NO_PUTS);
        assert_eq!(came(&mut two, 1, &[0, 2], b"third"), refusal(5));
        assert!(shown(&mut two).is_empty());
        assert_eq!(came(&mut two, 1, &[0, 0], b"first"), NO_PUTS);
        assert_eq!(shown(&mut two), [put_bytes(1, &[0, 1], 0, b"second")]);
    }

    #[test]
    fn a_waiting_put_keeps_its_number_for_itself() {
        let mut three = replica(3, 4, 4, 0);
        came(&mut three, 1, &[0, 0, 1], b"waits");
        assert_eq!(came(&mut three, 1, &[0, 0, 0], b"same number"), NO_PUTS);
        assert!(shown(&mut three).is_empty());
        came(&mut three, 2, &[0, 0, 0], b"");
        assert_eq!(shown(&mut three), [put_bytes(1, &[0, 0, 1], 0, b"waits")]);
        assert_eq!(three.waiting.len(), 0);
    }

    #[test]
    fn an_own_put_takes_no_waiting_put() {
        let mut two = replica(2, 4, 4, 0);
        came(&mut two, 1, &[1, 0], b"invented");
        answer(&mut two, &put_event(1, b""));
        assert!(shown(&mut two).is_empty());
        assert_eq!(came(&mut two, 1, &[1, 0], b"invented"), NO_PUTS);
        assert!(shown(&mut two).is_empty());
    }

    #[test]
    fn a_full_log_refuses_until_all_have_its_first() {
        let mut one = replica(3, 2, 0, 0);
        answer(&mut one, &put_event(0, b"1"));
        answer(&mut one, &put_event(0, b"2"));
        assert_eq!(answer(&mut one, &put_event(0, b"3")), refusal(4));
        let reply = answer(&mut one, &has_event(1, &told(&[1, 0, 0])));
        assert_eq!(puts_of(&reply).count(), 1);
        assert_eq!(answer(&mut one, &put_event(0, b"3")), refusal(4));
        let reply = answer(&mut one, &has_event(2, &told(&[1, 9, 9])));
        assert_eq!(puts_of(&reply).count(), 1);
        assert_ne!(answer(&mut one, &put_event(0, b"3")), refusal(4));
    }

    #[test]
    fn a_reply_has_at_most_eight_puts_and_the_earliest_first() {
        let mut one = replica(2, 12, 0, 0);
        for _ in 0..12 {
            answer(&mut one, &put_event(0, b""));
        }
        let reply = answer(&mut one, &has_event(1, &told(&[3, 0])));
        let expected: Vec<_> = (3..11).map(|n| put_bytes(0, &[n, 0], 0, b"")).collect();
        assert_eq!(puts_of(&reply).collect::<Vec<_>>(), expected);
        assert_eq!(one.log.len(), 9);
    }

    #[test]
    fn refusals_come_in_their_order() {
        let mut two = replica(2, 1, 0, 0);
        let large = 1 << 32;
        assert_eq!(answer(&mut two, &get_event(2)), refusal(2));
        assert_eq!(answer(&mut two, &put_event(0, &[0; 65])), refusal(2));
        assert_eq!(came(&mut two, 2, &[0, 0], b""), refusal(2));
        assert_eq!(came(&mut two, 1, &[0, 0, 0], b""), refusal(2));
        assert_eq!(came(&mut two, 1, &[large, 0], b""), refusal(2));
        assert_eq!(came(&mut two, 1, &[0, large - 1], b""), refusal(2));
        assert_eq!(came(&mut two, 1, &[large - 1, 0], b""), refusal(5));
        assert_eq!(came(&mut two, 0, &[0, large - 1], b""), refusal(3));
        assert_eq!(answer(&mut two, &has_event(1, &told(&[1, 0]))), refusal(3));
        assert_eq!(answer(&mut two, &has_event(2, &told(&[1, 0]))), refusal(2));
        assert_eq!(answer(&mut two, &[9])[1], 1);
    }
}
