//! A cluster of pairs, which writes down every event that happens in it.

use std::fmt;

use crate::bytes::{self, Clock, REFUSED};
use crate::pair::{Difference, Pair, Setup};
use crate::replica::{Limits, Replica};
use crate::script::Script;

/// What happened, counted, so that one can see that everything was tried.
#[derive(Clone, Copy, Default)]
pub struct Tally {
    pub honest_clusters: u64,
    pub events: u64,
    /// By the number of the refusal; at 0 the events that were not refused.
    pub refused: [u64; 6],
    pub most_rounds: usize,
    pub longest_log: usize,
    pub longest_queue: usize,
}

impl Tally {
    fn measure(&mut self, replica: &Replica) {
        self.longest_log = self.longest_log.max(replica.log_length());
        self.longest_queue = self.longest_queue.max(replica.waiting_length());
    }

    fn count(&mut self, answer: &[u8]) {
        self.events += 1;
        let refusal = if answer[0] == REFUSED { answer[1] } else { 0 };
        self.refused[usize::from(refusal)] += 1;
    }

    pub fn add(&mut self, other: &Tally) {
        self.honest_clusters += other.honest_clusters;
        self.events += other.events;
        for (sum, count) in self.refused.iter_mut().zip(other.refused) {
            *sum += count;
        }
        self.most_rounds = self.most_rounds.max(other.most_rounds);
        self.longest_log = self.longest_log.max(other.longest_log);
        self.longest_queue = self.longest_queue.max(other.longest_queue);
    }
}

impl fmt::Display for Tally {
    fn fmt(&self, f: &mut fmt::Formatter) -> fmt::Result {
        let [accepted, one, two, three, four, five] = self.refused;
        writeln!(f, "{} events, {accepted} not refused", self.events)?;
        writeln!(
            f,
            "refused by 1: {one}, by 2: {two}, by 3: {three}, by 4: {four}, by 5: {five}"
        )?;
        writeln!(
            f,
            "the longest log had {} puts, the longest queue {}",
            self.longest_log, self.longest_queue
        )?;
        write!(
            f,
            "{} clusters with honest messages only, which agreed after at most {} rounds",
            self.honest_clusters, self.most_rounds
        )
    }
}

pub struct Cluster {
    limits: Limits,
    pairs: Vec<Pair>,
    pub script: Script,
    pub tally: Tally,
}

impl Cluster {
    pub fn open(setup: &Setup) -> Result<Self, Difference> {
        let replicas = 0..setup.limits.replicas;
        let pairs = replicas.map(|me| Pair::open(setup, me));
        Ok(Cluster {
            limits: setup.limits,
            pairs: pairs.collect::<Result<_, _>>()?,
            script: Script::default(),
            tally: Tally::default(),
        })
    }

    pub fn limits(&self) -> Limits {
        self.limits
    }

    pub fn clock(&self, replica: usize) -> &Clock {
        self.pairs[replica].twin().clock()
    }

    pub fn agrees(&self) -> bool {
        let mut clocks = self.pairs.iter().map(|pair| pair.twin().clock());
        let first = clocks.next();
        clocks.all(|clock| Some(clock) == first)
    }

    pub fn happen(&mut self, replica: usize, event: &[u8]) -> Result<&[u8], Difference> {
        self.script.push(replica, event);
        let pair = &mut self.pairs[replica];
        self.tally.count(pair.call(event)?);
        self.tally.measure(pair.twin());
        Ok(pair.answer())
    }

    /// An event with less room than the longest answer needs; it is not written down.
    pub fn in_short_room(
        &mut self,
        replica: usize,
        event: &[u8],
        length: usize,
    ) -> Result<(), Difference> {
        self.pairs[replica].call_in_short_room(event, length)
    }

    /// The bytes of the clock that the replica tells.
    pub fn tell(&mut self, replica: usize) -> Result<Vec<u8>, Difference> {
        let answer = self.happen(replica, &bytes::tell_event())?;
        Ok(answer[1..].to_vec())
    }

    /// `replica` hears a clock that `teller` told; the puts that it answers.
    pub fn hear(
        &mut self,
        replica: usize,
        teller: usize,
        clock: &[u8],
    ) -> Result<Vec<Vec<u8>>, Difference> {
        let answer = self.happen(replica, &bytes::has_event(teller as u64, clock))?;
        match answer[0] {
            REFUSED => Ok(Vec::new()),
            _ => Ok(bytes::puts_of(answer).map(<[u8]>::to_vec).collect()),
        }
    }

    pub fn bring(&mut self, replica: usize, puts: &[Vec<u8>]) -> Result<(), Difference> {
        for put in puts {
            self.happen(replica, &bytes::came_event(put))?;
        }
        Ok(())
    }

    pub fn ask(&mut self, asker: usize, asked: usize) -> Result<(), Difference> {
        let clock = self.tell(asker)?;
        let puts = self.hear(asked, asker, &clock)?;
        self.bring(asker, &puts)
    }

    /// What the replica tells and what it shows at every key, one answer after the other.
    pub fn view(&mut self, replica: usize) -> Result<Vec<u8>, Difference> {
        let gets = (0..self.limits.keys as u64).map(bytes::get_event);
        let events = std::iter::once(bytes::tell_event()).chain(gets);
        let mut view = Vec::new();
        let (script, tally) = (&mut self.script, &mut self.tally);
        self.pairs[replica].call_all_reading(events, |event, answer| {
            script.push(replica, event);
            tally.count(answer);
            view.extend_from_slice(answer);
        })?;
        Ok(view)
    }
}
