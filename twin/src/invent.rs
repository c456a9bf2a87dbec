//! Events that nobody honest sends: invented puts and clocks, and damaged bytes.

use crate::bytes::{self, Clock};
use crate::random::Random;
use crate::replica::Limits;

const TWO_TO_32: u64 = 1 << 32;

/// Numbers at which a careless comparison or a narrowing would go wrong.
const EDGES: [u64; 12] = [
    TWO_TO_32 - 3,
    TWO_TO_32 - 2,
    TWO_TO_32 - 1,
    TWO_TO_32,
    TWO_TO_32 + 1,
    1 << 16,
    1 << 31,
    1 << 33,
    (1 << 63) - 1,
    1 << 63,
    u64::MAX - 1,
    u64::MAX,
];

/// Whom the invented events are for, and what they are made from.
pub struct Target<'a> {
    pub limits: Limits,
    pub me: usize,
    pub clock: &'a Clock,
}

impl Target<'_> {
    fn counts(&self) -> Vec<u64> {
        let counts = &self.clock.0[..self.limits.replicas];
        counts.iter().map(|&count| u64::from(count)).collect()
    }

    pub fn put(&self, random: &mut Random) -> Vec<u8> {
        let from = self.replica(random);
        let seen = self.seen(from, random);
        let key = key(random, self.limits.keys, 6);
        let value = value(random, 6);
        bytes::put_bytes(from, &seen, key, &value)
    }

    fn replica(&self, random: &mut Random) -> u64 {
        match random.below(100) {
            0..12 => self.me as u64,
            12..18 => self.limits.replicas as u64 + random.below(2) as u64,
            18..20 => *random.pick(&EDGES),
            20..22 => random.below(self.limits.replicas) as u64 + TWO_TO_32,
            _ => random.below(self.limits.replicas) as u64,
        }
    }

    fn seen(&self, from: u64, random: &mut Random) -> Vec<u64> {
        let mut counts = self.counts();
        let own = usize::try_from(from).ok();
        let own = own.filter(|&own| own < counts.len());
        match random.below(100) {
            0..25 => {}
            25..50 => nudge(&mut counts, random),
            50..62 => move_one(&mut counts, random),
            62..72 => counts.fill_with(|| random.below(4) as u64),
            72..82 => *any(&mut counts, random) = *random.pick(&EDGES[..5]),
            82..88 => *any(&mut counts, random) = *random.pick(&EDGES),
            88..94 => {
                if let Some(own) = own {
                    counts[own] = *random.pick(&EDGES[..5]);
                }
            }
            _ => resize(&mut counts, random),
        }
        counts
    }

    /// The replica and the clock of a `has` that nobody told.
    pub fn has(&self, random: &mut Random) -> Vec<u8> {
        let mut counts = self.counts();
        for count in &mut counts {
            if random.percent(40) {
                *count = random.below(*count as usize + 1) as u64;
            }
        }
        match random.below(100) {
            0..30 => {}
            30..45 => nudge(&mut counts, random),
            45..60 => counts[self.me] += random.below(3) as u64,
            60..75 => *any(&mut counts, random) = *random.pick(&EDGES[..5]),
            75..85 => *any(&mut counts, random) = *random.pick(&EDGES),
            85..92 => counts.fill(TWO_TO_32 - 1),
            _ => resize(&mut counts, random),
        }
        let mut clock = Vec::new();
        bytes::write_counts(&mut clock, counts);
        bytes::has_event(self.replica(random), &clock)
    }
}

fn any<'a>(counts: &'a mut [u64], random: &mut Random) -> &'a mut u64 {
    let index = random.below(counts.len());
    &mut counts[index]
}

fn nudge(counts: &mut [u64], random: &mut Random) {
    for _ in 0..random.between(1, 3) {
        let count = any(counts, random);
        *count = (*count + random.below(4) as u64).saturating_sub(random.below(3) as u64);
    }
}

/// Another clock with the same sum.
fn move_one(counts: &mut [u64], random: &mut Random) {
    let giver = random.below(counts.len());
    if counts[giver] > 0 {
        counts[giver] -= 1;
        *any(counts, random) += 1;
    }
}

fn resize(counts: &mut Vec<u64>, random: &mut Random) {
    let length = match random.below(10) {
        0..4 => counts.len() + 1,
        4..8 => counts.len() - 1,
        8 => random.below(18),
        _ => random.below(300),
    };
    counts.resize(length, 0);
}

/// A key, in `wrong` of a hundred cases out of range.
pub fn key(random: &mut Random, keys: usize, wrong: usize) -> u64 {
    if random.percent(wrong) {
        return match random.below(4) {
            0 => *random.pick(&EDGES),
            1 => random.below(keys) as u64 + TWO_TO_32,
            2 => 4_096,
            _ => (keys + random.below(2)) as u64,
        };
    }
    let few = if random.percent(80) {
        keys.min(3)
    } else {
        keys
    };
    random.below(few) as u64
}

/// A value, in `wrong` of a hundred cases too long.
pub fn value(random: &mut Random, wrong: usize) -> Vec<u8> {
    let length = if random.percent(wrong) {
        *random.pick(&[65, 66, 72, 128, 255, 256, 257, 1_000])
    } else {
        match random.below(10) {
            0 => 64,
            1 => random.between(9, 63),
            _ => random.below(9),
        }
    };
    (0..length).map(|_| random.next() as u8).collect()
}

/// Spoils an event: cuts, changes or lengthens it, or puts something else in its place.
pub fn damage(event: &mut Vec<u8>, random: &mut Random) {
    match random.below(7) {
        0 | 1 => event.truncate(random.below(event.len().max(1))),
        2 => event.extend((0..random.between(1, 9)).map(|at| at as u8 % 3)),
        3 => event.insert(random.below(event.len() + 1), random.below(3) as u8),
        4 => {
            event.clear();
            let length = random.below(40);
            event.extend((0..length).map(|_| random.next() as u8 % 5));
        }
        5 if !event.is_empty() => {
            let at = random.below(event.len());
            event[at] ^= 1 << random.below(8);
        }
        _ if !event.is_empty() => {
            let at = random.below(event.len());
            event[at] = random.below(4) as u8;
        }
        _ => {}
    }
}
