//! How fast the proved replica and the twin are on the same events.

use std::hint::black_box;
use std::time::{Duration, Instant};

use crate::growth;
use crate::proved::{LONGEST_ANSWER, Proved};
use crate::replica::{Limits, Replica};
use crate::script::Script;
use crate::workloads::{self, Workload};

const REPETITIONS: usize = 31;

const NOTES: &str = "\
local: puts and gets, half each, in a cluster of one replica, whose log is always empty
in order: each put comes to all others; told clocks prune the logs after every sixteen turns
reversed: puts of three replicas come to a fourth, each batch from the last to the first
anti-entropy: tell, has and what is answered; a silent replica keeps the log at 1,024
three times each: as in order, but everything comes three times
";

/// One side of the comparison: answers go into a buffer that is used again.
pub trait Side {
    fn open(limits: Limits, me: usize) -> Self;
    fn call(&mut self, event: &[u8], room: &mut Room);
}

pub struct Room {
    fixed: [u8; LONGEST_ANSWER],
    growing: Vec<u8>,
}

impl Room {
    pub fn new() -> Self {
        Room {
            fixed: [0; LONGEST_ANSWER],
            growing: Vec::with_capacity(LONGEST_ANSWER),
        }
    }
}

impl Side for Proved {
    fn open(limits: Limits, me: usize) -> Self {
        Proved::new(limits, me)
    }

    #[inline]
    fn call(&mut self, event: &[u8], room: &mut Room) {
        black_box(Proved::call(self, event, &mut room.fixed));
    }
}

impl Side for Replica {
    fn open(limits: Limits, me: usize) -> Self {
        Replica::new(limits, me)
    }

    #[inline]
    fn call(&mut self, event: &[u8], room: &mut Room) {
        Replica::call(self, event, &mut room.growing);
        black_box(&room.growing);
    }
}

pub fn open_all<S: Side>(limits: Limits) -> Vec<S> {
    (0..limits.replicas).map(|me| S::open(limits, me)).collect()
}

pub fn play<S: Side>(replicas: &mut [S], script: &Script, room: &mut Room) {
    for (replica, event) in script.iter() {
        replicas[replica].call(event, room);
    }
}

fn time<S: Side>(workload: &Workload, room: &mut Room) -> Duration {
    let mut sum = Duration::ZERO;
    for _ in 0..workload.runs {
        let mut replicas = open_all::<S>(workload.limits);
        play(&mut replicas, &workload.before, room);
        let start = Instant::now();
        play(&mut replicas, &workload.timed, room);
        sum += start.elapsed();
    }
    sum
}

/// Events a second: the median of the repetitions, the least and the most.
struct Speed {
    median: f64,
    least: f64,
    most: f64,
}

impl Speed {
    fn of(mut times: Vec<Duration>, events: usize) -> Self {
        times.sort();
        let speed = |time: Duration| events as f64 / time.as_secs_f64();
        Speed {
            median: speed(times[times.len() / 2]),
            least: speed(times[times.len() - 1]),
            most: speed(times[0]),
        }
    }
}

impl std::fmt::Display for Speed {
    fn fmt(&self, f: &mut std::fmt::Formatter) -> std::fmt::Result {
        let thousands = |speed: f64| speed / 1_000.0;
        write!(
            f,
            "{:>8.0} ({:>6.0} to {:>6.0})",
            thousands(self.median),
            thousands(self.least),
            thousands(self.most)
        )
    }
}

fn compare(workload: &Workload) {
    let mut room = Room::new();
    let (mut proved, mut twin) = (Vec::new(), Vec::new());
    for _ in 0..REPETITIONS {
        proved.push(time::<Proved>(workload, &mut room));
        twin.push(time::<Replica>(workload, &mut room));
    }
    let events = workload.timed.len() * workload.runs;
    let (proved, twin) = (Speed::of(proved, events), Speed::of(twin, events));
    println!(
        "{:<34} {proved} {twin} {:>8.2}",
        workload.name,
        proved.median / twin.median
    );
}

pub fn run() {
    println!("thousands of events a second: median (least to most) of {REPETITIONS} repetitions");
    println!(
        "{:<34} {:>27} {:>27} {:>8}",
        "workload", "proved", "twin", "ratio"
    );
    for prepare in workloads::ALL {
        compare(&prepare());
    }
    println!("{NOTES}");
    growth::run();
}
