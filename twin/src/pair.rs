//! A proved replica and its twin side by side: both get every event, and must not differ.

use std::fmt;

use crate::bytes::{CAME, Clock, PUTS};
use crate::proved::{LONGEST_ANSWER, Proved};
use crate::random::Random;
use crate::replica::{Limits, Replica};

#[derive(Debug)]
pub enum Difference {
    Opening {
        limits: Limits,
        me: usize,
        words: usize,
        proved: bool,
    },
    Answer {
        proved: Vec<u8>,
        twin: Vec<u8>,
    },
    MemoryChanged {
        word: usize,
    },
    BeyondTouched,
    RoomBeyondTouched,
    ShortRoomAccepted,
    NoAnswer,
    NotConverged,
}

impl fmt::Display for Difference {
    fn fmt(&self, f: &mut fmt::Formatter) -> fmt::Result {
        match self {
            Difference::Opening {
                limits,
                me,
                words,
                proved,
            } => write!(
                f,
                "opening {limits:?} as {me} in {words} words: proved {proved}, twin {}",
                !proved
            ),
            Difference::Answer { proved, twin } => write!(
                f,
                "the answers differ\n  proved {}\n  twin   {}",
                hex(proved),
                hex(twin)
            ),
            Difference::MemoryChanged { word } => {
                write!(f, "word {word} changed, though nothing may change")
            }
            Difference::BeyondTouched => write!(f, "words beyond the needed ones were touched"),
            Difference::RoomBeyondTouched => write!(f, "bytes beyond the room were touched"),
            Difference::ShortRoomAccepted => write!(f, "an answer was given in too little room"),
            Difference::NoAnswer => write!(f, "no answer was given, though there was room"),
            Difference::NotConverged => write!(f, "the replicas do not agree after the rounds"),
        }
    }
}

pub fn hex(bytes: &[u8]) -> String {
    bytes.iter().map(|byte| format!("{byte:02x}")).collect()
}

const GUARD: [u8; 8] = [0xa5; 8];

/// How all replicas of a cluster are opened.
#[derive(Clone, Copy, Debug)]
pub struct Setup {
    pub limits: Limits,
    /// Words that are lent beyond the needed ones.
    pub extra_words: usize,
    /// What stands in the memory before the opening is drawn from this.
    pub filling: u64,
}

pub struct Pair {
    proved: Proved,
    twin: Replica,
    beyond: Vec<u64>,
    remembered: Vec<u64>,
    remembered_is_current: bool,
    answer: Vec<u8>,
    room: Vec<u8>,
}

impl Pair {
    pub fn open(setup: &Setup, me: usize) -> Result<Pair, Difference> {
        let needed = setup.limits.words();
        let mut random = Random::derived(setup.filling, me as u64);
        let memory: Vec<u64> = (0..needed + setup.extra_words)
            .map(|_| random.next())
            .collect();
        let beyond = memory[needed..].to_vec();
        let mut room = vec![0; LONGEST_ANSWER];
        room.extend_from_slice(&GUARD);
        let pair = Pair {
            proved: opened(setup.limits, me, memory)?,
            twin: Replica::new(setup.limits, me),
            beyond,
            remembered: Vec::new(),
            remembered_is_current: false,
            answer: Vec::new(),
            room,
        };
        pair.beyond_untouched()?;
        Ok(pair)
    }

    /// The answer to the last event.
    pub fn answer(&self) -> &[u8] {
        &self.answer
    }

    pub fn twin(&self) -> &Replica {
        &self.twin
    }

    /// Lets the event happen at both, and compares all that can be seen of it.
    pub fn call(&mut self, event: &[u8]) -> Result<&[u8], Difference> {
        let before = self.held_by_twin();
        self.twin.call(event, &mut self.answer);
        let nothing_new = event.first() == Some(&CAME) && before == self.held_by_twin();
        let may_change = self.answer[0] == PUTS && !nothing_new;
        if !may_change {
            self.remember();
        }
        self.compare_answers(event)?;
        if may_change {
            self.remembered_is_current = false;
        } else {
            self.unchanged()?;
        }
        self.beyond_untouched()?;
        Ok(&self.answer)
    }

    /// A put that came and is new changes one of these.
    fn held_by_twin(&self) -> (Clock, usize) {
        (*self.twin.clock(), self.twin.waiting_length())
    }

    /// For many events in a row that change nothing: the memory is compared once, at the end.
    pub fn call_all_reading(
        &mut self,
        events: impl Iterator<Item = Vec<u8>>,
        mut answered: impl FnMut(&[u8], &[u8]),
    ) -> Result<(), Difference> {
        self.remember();
        for event in events {
            self.twin.call(&event, &mut self.answer);
            answered(&event, &self.answer);
            self.compare_answers(&event)?;
        }
        self.unchanged()
    }

    /// Too little room for an answer: nothing happens.
    pub fn call_in_short_room(&mut self, event: &[u8], length: usize) -> Result<(), Difference> {
        self.remember();
        if self.proved.call(event, &mut self.room[..length]).is_some() {
            return Err(Difference::ShortRoomAccepted);
        }
        self.unchanged()
    }

    fn compare_answers(&mut self, event: &[u8]) -> Result<(), Difference> {
        let (room, guard) = self.room.split_at_mut(LONGEST_ANSWER);
        let proved = self.proved.call(event, room).ok_or(Difference::NoAnswer)?;
        if proved != self.answer {
            return Err(Difference::Answer {
                proved: proved.to_vec(),
                twin: self.answer.clone(),
            });
        }
        if guard != GUARD {
            return Err(Difference::RoomBeyondTouched);
        }
        Ok(())
    }

    fn remember(&mut self) {
        if !self.remembered_is_current {
            self.remembered.clear();
            self.remembered.extend_from_slice(self.proved.memory());
            self.remembered_is_current = true;
        }
    }

    fn unchanged(&self) -> Result<(), Difference> {
        same_words(&self.remembered, self.proved.memory())
    }

    fn beyond_untouched(&self) -> Result<(), Difference> {
        let memory = self.proved.memory();
        if memory[memory.len() - self.beyond.len()..] != self.beyond {
            return Err(Difference::BeyondTouched);
        }
        Ok(())
    }
}

/// Opens a proved replica in the memory, and compares the outcome with the rules.
fn opened(limits: Limits, me: usize, memory: Vec<u64>) -> Result<Proved, Difference> {
    let words = memory.len();
    let mut proved = Proved::over(memory);
    let outcome = proved.open(limits, me);
    if outcome != limits.open(me, words) {
        return Err(Difference::Opening {
            limits,
            me,
            words,
            proved: outcome,
        });
    }
    Ok(proved)
}

/// One opening, in range or not, with any memory: what is refused leaves the memory as it was,
/// and what is not leaves the words beyond the needed ones.
pub fn try_opening(limits: Limits, me: usize, memory: Vec<u64>) -> Result<(), Difference> {
    let before = memory.clone();
    let proved = opened(limits, me, memory)?;
    if !limits.open(me, before.len()) {
        return same_words(&before, proved.memory());
    }
    let needed = limits.words();
    if before[needed..] != proved.memory()[needed..] {
        return Err(Difference::BeyondTouched);
    }
    Ok(())
}

/// Nothing changed, or the first word that did.
pub fn same_words(before: &[u64], after: &[u64]) -> Result<(), Difference> {
    if before == after {
        return Ok(());
    }
    let word = before.iter().zip(after).position(|(old, new)| old != new);
    Err(Difference::MemoryChanged {
        word: word.unwrap_or_default(),
    })
}
