//! How the cost of one event grows with the keys, the log and the waiting puts.

use std::time::Instant;

use crate::bench::{self, Room, Side};
use crate::bytes;
use crate::proved::Proved;
use crate::replica::{Limits, Replica};
use crate::script::Script;
use crate::workloads::Recorder;

const ROUNDS: usize = 4_000;
const REPETITIONS: usize = 31;

/// A round of events at replica 0 is: three told clocks, which let the first put leave the log;
/// then, timed, a put, a get and a ready delivery.
const MAKING_ROOM: usize = 3;
const TIMED: usize = 3;

struct Course {
    limits: Limits,
    before: Script,
    rounds: Script,
}

fn limits(keys: usize, log: usize, waiting: usize) -> Limits {
    Limits {
        replicas: 4,
        keys,
        log,
        waiting,
    }
}

/// Fills all keys, the queue with puts of replica 2 that wait for ever, and the log; then the
/// rounds, in which replica 1's puts come.
fn course(limits: Limits) -> Course {
    let mut recorder = Recorder::new(limits);
    fill_keys(&mut recorder, limits.keys);
    for number in 0..limits.waiting as u64 {
        let put = bytes::put_bytes(2, &[0, 0, number + 1, 0], 0, b"waits");
        recorder.bring(0, &put);
    }
    for _ in 0..limits.log {
        recorder.put_anywhere(0);
    }
    let before = recorder.cut();
    let come = limits.keys as u64;
    for round in 0..ROUNDS as u64 {
        for replica in 1..=MAKING_ROOM as u64 {
            let mut clock = Vec::new();
            bytes::write_counts(&mut clock, [round + 1, 0, 0, 0]);
            recorder.play(0, &bytes::has_event(replica, &clock));
        }
        recorder.put_anywhere(0);
        let key = recorder.any_key();
        recorder.play(0, &bytes::get_event(key));
        let key = recorder.any_key();
        let put = bytes::put_bytes(1, &[0, come + round, 0, 0], key, b"ready when it comes");
        recorder.bring(0, &put);
    }
    Course {
        limits,
        before,
        rounds: recorder.cut(),
    }
}

/// A put of replica 1 comes for every key, in order.
fn fill_keys(recorder: &mut Recorder, keys: usize) {
    for key in 0..keys as u64 {
        recorder.bring(0, &bytes::put_bytes(1, &[0, key, 0, 0], key, b"first"));
    }
}

/// The nanoseconds of each kind of event, without the cost of looking at the clock.
fn measure<S: Side>(course: &Course, room: &mut Room) -> [f64; TIMED] {
    let mut replicas = bench::open_all::<S>(course.limits);
    bench::play(&mut replicas, &course.before, room);
    let mut samples: [Vec<u64>; TIMED] = Default::default();
    for (index, (replica, event)) in course.rounds.iter().enumerate() {
        let start = Instant::now();
        replicas[replica].call(event, room);
        let cost = start.elapsed().as_nanos() as u64;
        let in_round = index % (MAKING_ROOM + TIMED);
        if let Some(timed) = in_round.checked_sub(MAKING_ROOM) {
            samples[timed].push(cost);
        }
    }
    let looking = cost_of_looking();
    samples.map(|samples| middle_mean(samples) - looking)
}

fn cost_of_looking() -> f64 {
    let look = |_| Instant::now().elapsed().as_nanos() as u64;
    middle_mean((0..ROUNDS).map(look).collect())
}

/// The mean of the middle half, which is finer than the steps of the clock.
fn middle_mean(mut samples: Vec<u64>) -> f64 {
    samples.sort_unstable();
    let quarter = samples.len() / 4;
    let middle = &samples[quarter..samples.len() - quarter];
    middle.iter().sum::<u64>() as f64 / middle.len() as f64
}

/// The median of the repetitions, for each kind of event.
fn medians(mut repetitions: Vec<[f64; TIMED]>) -> [f64; TIMED] {
    std::array::from_fn(|timed| {
        repetitions.sort_by(|one, other| one[timed].total_cmp(&other[timed]));
        repetitions[repetitions.len() / 2][timed]
    })
}

fn print_row(varied: &str, limits: Limits) {
    let course = course(limits);
    let mut room = Room::new();
    let (mut proved, mut twin) = (Vec::new(), Vec::new());
    for _ in 0..REPETITIONS {
        proved.push(measure::<Proved>(&course, &mut room));
        twin.push(measure::<Replica>(&course, &mut room));
    }
    let costs = medians(proved).into_iter().zip(medians(twin));
    let columns: String = costs
        .map(|(proved, twin)| format!(" {proved:>8.0} {twin:>8.0}"))
        .collect();
    println!("{varied:<16}{columns}");
}

pub fn run() {
    println!("nanoseconds for one event at a replica whose keys, log and queue are full");
    println!("(4 replicas, 64 keys, log 32, waiting 32 where nothing else is said)");
    println!(
        "{:<16} {:>17} {:>17} {:>17}",
        "", "put", "get", "ready delivery"
    );
    println!(
        "{:<16} {:>8} {:>8} {:>8} {:>8} {:>8} {:>8}",
        "", "proved", "twin", "proved", "twin", "proved", "twin"
    );
    for keys in [1, 64, 4_096] {
        print_row(&format!("keys {keys}"), limits(keys, 32, 32));
    }
    for log in [1, 32, 1_024] {
        print_row(&format!("log {log}"), limits(64, log, 32));
    }
    for waiting in [0, 32, 1_024] {
        print_row(&format!("waiting {waiting}"), limits(64, 32, waiting));
    }
}
