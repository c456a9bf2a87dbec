//! The event streams of the benchmark. Each is made by running the twin once.

use crate::bytes;
use crate::random::Random;
use crate::replica::{Limits, Replica};
use crate::script::Script;

pub struct Workload {
    pub name: &'static str,
    pub limits: Limits,
    /// What happens before the clock starts.
    pub before: Script,
    pub timed: Script,
    /// How often it is played, from new replicas on, in one repetition.
    pub runs: usize,
}

pub const ALL: [fn() -> Workload; 6] = [
    local,
    || delivered("in order, 16 replicas", 1),
    || reversed("reversed, batches of 32", 32),
    || reversed("reversed, batches of 1,024", 1_024),
    anti_entropy,
    || delivered("three times each, 16 replicas", 3),
];

const SEED: u64 = 7;

/// Twins that write down what happens at them.
pub struct Recorder {
    limits: Limits,
    replicas: Vec<Replica>,
    random: Random,
    answer: Vec<u8>,
    pub script: Script,
}

impl Recorder {
    pub fn new(limits: Limits) -> Self {
        Recorder {
            limits,
            replicas: crate::bench::open_all(limits),
            random: Random::new(SEED),
            answer: Vec::new(),
            script: Script::default(),
        }
    }

    /// Plays an event; none of a workload's is refused.
    pub fn play(&mut self, replica: usize, event: &[u8]) {
        self.script.push(replica, event);
        self.replicas[replica].call(event, &mut self.answer);
        assert_ne!(self.answer[0], bytes::REFUSED, "an event was refused");
    }

    pub fn any_key(&mut self) -> u64 {
        self.random.below(self.limits.keys) as u64
    }

    /// A put with a value of any length; its bytes.
    pub fn put(&mut self, replica: usize, key: u64) -> Vec<u8> {
        let value: Vec<u8> = (0..self.random.below(65)).map(|at| at as u8).collect();
        self.play(replica, &bytes::put_event(key, &value));
        let put = bytes::puts_of(&self.answer).next();
        put.expect("the put that was made").to_vec()
    }

    pub fn put_anywhere(&mut self, replica: usize) -> Vec<u8> {
        let key = self.any_key();
        self.put(replica, key)
    }

    pub fn bring(&mut self, receiver: usize, put: &[u8]) {
        self.play(receiver, &bytes::came_event(put));
    }

    /// `asker` tells its clock, `asked` hears it and answers.
    pub fn hear(&mut self, asked: usize, asker: usize) {
        self.play(asker, &bytes::tell_event());
        let has = bytes::has_event(asker as u64, &self.answer[1..]);
        self.play(asked, &has);
    }

    /// Everybody hears of everybody else, so that the logs are pruned.
    fn hear_all(&mut self) {
        for asked in 0..self.limits.replicas {
            for asker in (0..self.limits.replicas).filter(|&asker| asker != asked) {
                self.hear(asked, asker);
            }
        }
    }

    /// What was recorded so far; the recording begins anew.
    pub fn cut(&mut self) -> Script {
        std::mem::take(&mut self.script)
    }
}

/// Puts and gets at random keys of a cluster of one replica, whose log is always empty.
fn local() -> Workload {
    let limits = Limits {
        replicas: 1,
        keys: 4_096,
        log: 1,
        waiting: 0,
    };
    let mut recorder = Recorder::new(limits);
    for _ in 0..50_000 {
        recorder.put_anywhere(0);
        let key = recorder.any_key();
        recorder.play(0, &bytes::get_event(key));
    }
    Workload {
        name: "local, 4,096 keys",
        limits,
        before: Script::default(),
        timed: recorder.cut(),
        runs: 1,
    }
}

/// Each replica puts in turn, and each put comes to all others in order. After sixteen turns
/// everybody hears of everybody, so that logs stay at 32 puts or fewer.
fn delivered(name: &'static str, times: usize) -> Workload {
    let limits = Limits {
        replicas: 16,
        keys: 256,
        log: 32,
        waiting: 32,
    };
    let mut recorder = Recorder::new(limits);
    for turn in 0..128 {
        for maker in 0..limits.replicas {
            let put = recorder.put_anywhere(maker);
            for receiver in (0..limits.replicas).filter(|&receiver| receiver != maker) {
                for _ in 0..times {
                    recorder.bring(receiver, &put);
                }
            }
        }
        if turn % 16 == 15 {
            recorder.hear_all();
        }
    }
    Workload {
        name,
        limits,
        before: Script::default(),
        timed: recorder.cut(),
        runs: 1,
    }
}

/// Three replicas put in turn and see each other's puts at once. The fourth gets them in batches,
/// each from the last to the first, so that all of a batch but one wait. Only that is timed.
fn reversed(name: &'static str, batch: usize) -> Workload {
    let limits = Limits {
        replicas: 4,
        keys: 256,
        log: 1_024,
        waiting: 1_024,
    };
    let mut recorder = Recorder::new(limits);
    let mut puts = Vec::new();
    for maker in (0..3).cycle().take(3_072) {
        let put = recorder.put_anywhere(maker);
        for receiver in (0..3).filter(|&receiver| receiver != maker) {
            recorder.bring(receiver, &put);
        }
        puts.push(put);
    }
    recorder.cut();
    for batch in puts.chunks(batch) {
        for put in batch.iter().rev() {
            recorder.bring(3, put);
        }
    }
    Workload {
        name,
        limits,
        before: Script::default(),
        timed: recorder.cut(),
        runs: if batch < 100 { 10 } else { 1 },
    }
}

/// Replica 0 has a full log; 1 and 2 ask for all of it, eight puts at a time, and 3 is silent, so
/// that nothing leaves the log. The filling is not timed.
fn anti_entropy() -> Workload {
    let limits = Limits {
        replicas: 4,
        keys: 256,
        log: 1_024,
        waiting: 32,
    };
    let mut recorder = Recorder::new(limits);
    for _ in 0..limits.log {
        recorder.put_anywhere(0);
    }
    let before = recorder.cut();
    for asker in [1, 2] {
        for _ in 0..limits.log / 8 {
            recorder.hear(0, asker);
            let answer = recorder.answer.clone();
            for put in bytes::puts_of(&answer) {
                recorder.bring(asker, put);
            }
        }
    }
    Workload {
        name: "anti-entropy, logs of 1,024",
        limits,
        before,
        timed: recorder.cut(),
        runs: 10,
    }
}
