//! Random clusters of proved replicas and their twins, until they differ.

use std::panic::catch_unwind;
use std::time::{Duration, Instant};

use crate::cluster::{Cluster, Tally};
use crate::life::{self, Life};
use crate::memory;
use crate::pair::{self, Difference, Setup};
use crate::random::Random;
use crate::script::Script;

pub const CLUSTERS: u64 = 2_000;
pub const SEED: u64 = 20_260_729;
const SHRINKING: Duration = Duration::from_secs(20);

struct Failure {
    setup: Setup,
    script: Script,
    difference: Difference,
}

/// Runs the clusters and prints the outcome; whether there was no difference.
pub fn run(clusters: u64, seed: u64) -> bool {
    let mut tally = Tally::default();
    for index in 0..clusters {
        let failure = match catch_unwind(|| run_cluster(seed, index)) {
            Ok(Ok(counted)) => {
                tally.add(&counted);
                continue;
            }
            Ok(Err(failure)) => Some(failure),
            Err(_) => None,
        };
        println!("seed {seed}, cluster {index}");
        match failure {
            Some(failure) => report(&failure),
            None => println!("the program panicked"),
        }
        println!("{index} passed, 1 failed");
        return false;
    }
    println!("seed {seed}: {tally}");
    println!("{clusters} passed, 0 failed");
    true
}

fn run_cluster(seed: u64, index: u64) -> Result<Tally, Box<Failure>> {
    let mut random = Random::derived(seed, index);
    let setup = life::draw_setup(&mut random);
    let failed = |script, difference| {
        Box::new(Failure {
            setup,
            script,
            difference,
        })
    };
    let before_life = |difference| failed(Script::default(), difference);
    memory::try_memories(&mut random).map_err(before_life)?;
    let mut life = Life::new(&setup, random).map_err(before_life)?;
    match life.live() {
        Ok(()) => Ok(life.cluster.tally),
        Err(difference) => Err(failed(life.cluster.script, difference)),
    }
}

/// Plays the script in a new cluster: the first event that shows a difference.
fn replay(setup: &Setup, script: &Script) -> Option<(usize, Difference)> {
    let mut cluster = match Cluster::open(setup) {
        Ok(cluster) => cluster,
        Err(difference) => return Some((0, difference)),
    };
    for (index, (replica, event)) in script.iter().enumerate() {
        if let Err(difference) = cluster.happen(replica, event) {
            return Some((index, difference));
        }
    }
    None
}

/// Drops events as long as the rest still fails, larger pieces first, until no single one can be
/// dropped or the time is up. `fails` says how many events are needed to see it.
fn shrink(script: &Script, fails: impl Fn(&Script) -> Option<usize>) -> Script {
    let mut shortest = match fails(script) {
        Some(length) => script.prefix(length),
        None => return script.clone(),
    };
    let start = Instant::now();
    let mut piece = shortest.len() / 2;
    while piece > 0 {
        let before = shortest.len();
        let mut end = before;
        while end >= piece && start.elapsed() < SHRINKING {
            end -= piece;
            let shorter = shortest.without(end, piece);
            if let Some(length) = fails(&shorter) {
                shortest = shorter.prefix(length);
                end = end.min(length);
            }
        }
        if piece > 1 || shortest.len() == before {
            piece /= 2;
        }
    }
    shortest
}

fn report(failure: &Failure) {
    let Failure {
        setup,
        script,
        difference,
    } = failure;
    let length = |shorter: &Script| replay(setup, shorter).map(|(index, _)| index + 1);
    let shortest = shrink(script, length);
    if shortest.len() > 0 {
        println!("opened with {setup:?}");
    }
    for (replica, event) in shortest.iter() {
        println!("{replica} {}", pair::hex(event));
    }
    match replay(setup, &shortest) {
        Some((_, shown)) => println!("{shown}"),
        None => println!("{difference}"),
    }
}

#[cfg(test)]
mod tests {
    use super::*;

    #[test]
    fn some_clusters_show_no_difference() {
        for index in 0..20 {
            assert!(run_cluster(SEED, index).is_ok());
        }
    }

    #[test]
    fn a_script_shrinks_to_the_events_that_matter() {
        let mut script = Script::default();
        for number in 0..100 {
            script.push(0, &[number]);
        }
        let fails = |script: &Script| {
            let mut needed = [17, 60].into_iter();
            let mut next = needed.next();
            for (index, (_, event)) in script.iter().enumerate() {
                if next == Some(event[0]) {
                    next = needed.next();
                }
                if next.is_none() {
                    return Some(index + 1);
                }
            }
            None
        };
        let shortest = shrink(&script, fails);
        let events: Vec<_> = shortest.iter().map(|(_, event)| event[0]).collect();
        assert_eq!(events, [17, 60]);
    }
}
