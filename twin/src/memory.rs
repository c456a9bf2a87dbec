//! Lent memory of any size and content: openings, and calls where no replica, or a spoilt one, is.

use crate::bytes::{self, PUTS, REFUSED};
use crate::invent::{self, Target};
use crate::pair::{self, Difference};
use crate::proved::{LONGEST_ANSWER, Proved};
use crate::random::Random;
use crate::replica::Limits;

pub fn try_memories(random: &mut Random) -> Result<(), Difference> {
    for _ in 0..4 {
        try_opening(random)?;
    }
    try_unopened(random)?;
    try_spoilt(random)
}

fn draw_small_limits(random: &mut Random) -> Limits {
    Limits {
        replicas: random.between(1, 16),
        keys: random.between(1, 5),
        log: random.between(1, 5),
        waiting: random.below(5),
    }
}

/// An opening with limits and memory that are just in range, just out of it, or far out.
fn try_opening(random: &mut Random) -> Result<(), Difference> {
    let mut limits = draw_small_limits(random);
    let mut me = match random.percent(10) {
        true => limits.replicas,
        false => random.below(limits.replicas),
    };
    for _ in 0..random.below(3) {
        let limit = match random.below(5) {
            0 => &mut limits.replicas,
            1 => &mut limits.keys,
            2 => &mut limits.log,
            3 => &mut limits.waiting,
            _ => &mut me,
        };
        *limit = draw_odd_limit(random);
    }
    let needed = if limits.in_range() {
        limits.words()
    } else {
        700
    };
    let words = match random.below(6) {
        0 => needed - 1,
        1 => needed - random.between(1, 64),
        2 => random.below(needed),
        3 => random.below(3),
        _ => needed + random.below(40),
    };
    pair::try_opening(limits, me, any_words(random, words))
}

fn draw_odd_limit(random: &mut Random) -> usize {
    let edge = *random.pick(&[0, 1, 15, 16, 17, 1_024, 1_025, 4_096, 4_097]);
    match random.below(8) {
        0 => *random.pick(&[usize::MAX, usize::MAX - 1, 1 << 63, 1 << 59, 1 << 58]),
        1 => edge + (1 << 32),
        _ => edge,
    }
}

fn any_words(random: &mut Random, words: usize) -> Vec<u64> {
    (0..words).map(|_| random.next()).collect()
}

/// A call of memory in which nothing was opened is refused, and leaves the memory as it was.
fn try_unopened(random: &mut Random) -> Result<(), Difference> {
    let words = random.below(700);
    let memory = match random.percent(50) {
        true => vec![0; words],
        false => any_words(random, words),
    };
    let mut proved = Proved::over(memory);
    let answer = call_whatever_it_is(&mut proved, &bytes::tell_event())?;
    match answer[..] {
        [REFUSED, ..] => Ok(()),
        _ => Err(Difference::Answer {
            proved: answer,
            twin: vec![REFUSED],
        }),
    }
}

/// A replica whose memory somebody cut or wrote into answers something to every event, and
/// changes nothing where it refuses, shows a value or tells its clock.
fn try_spoilt(random: &mut Random) -> Result<(), Difference> {
    let limits = draw_small_limits(random);
    let me = random.below(limits.replicas);
    let mut proved = Proved::new(limits, me);
    let mut room = [0; LONGEST_ANSWER];
    for _ in 0..random.below(12) {
        proved.call(&any_event(random, limits, me), &mut room);
    }
    let mut memory = proved.into_memory();
    for _ in 0..random.below(4) {
        spoil(&mut memory, random);
    }
    if random.percent(30) {
        memory.truncate(memory.len() - random.between(1, 64));
    }
    let mut spoilt = Proved::over(memory);
    for _ in 0..12 {
        call_whatever_it_is(&mut spoilt, &any_event(random, limits, me))?;
    }
    Ok(())
}

fn spoil(memory: &mut [u64], random: &mut Random) {
    let near_the_start = random.percent(70);
    let bound = if near_the_start { 64 } else { memory.len() };
    let word = random.below(bound);
    memory[word] = match random.below(4) {
        0 => random.next(),
        1 => random.below(20) as u64,
        2 => memory[word] ^ (1 << random.below(64)),
        _ => random.next() >> random.below(64),
    };
}

fn any_event(random: &mut Random, limits: Limits, me: usize) -> Vec<u8> {
    let target = Target {
        limits,
        me,
        clock: &Default::default(),
    };
    match random.below(5) {
        0 => bytes::put_event(0, &invent::value(random, 2)),
        1 => bytes::get_event(invent::key(random, limits.keys, 2)),
        2 => bytes::came_event(&target.put(random)),
        3 => target.has(random),
        _ => bytes::tell_event(),
    }
}

fn call_whatever_it_is(proved: &mut Proved, event: &[u8]) -> Result<Vec<u8>, Difference> {
    let before = proved.memory().to_vec();
    let mut room = [0; LONGEST_ANSWER];
    let Some(answer @ [tag, ..]) = proved.call(event, &mut room) else {
        return Err(Difference::NoAnswer);
    };
    if *tag != PUTS {
        pair::same_words(&before, proved.memory())?;
    }
    Ok(answer.to_vec())
}
