//! The proved replica beside an independent twin: differences, and how fast each is.

mod bench;
mod bytes;
mod cluster;
mod diff;
mod growth;
mod holdback;
mod invent;
mod life;
mod memory;
mod pair;
mod proved;
mod random;
mod replica;
mod script;
mod workloads;

use std::process::ExitCode;

const HELP: &str = "\
twin diff [CLUSTERS] [SEED]  random clusters through both replicas, until they differ
twin bench                   how fast each is
twin help                    this text";

fn main() -> ExitCode {
    let arguments: Vec<String> = std::env::args().skip(1).collect();
    let words: Vec<&str> = arguments.iter().map(String::as_str).collect();
    match words[..] {
        ["diff", ref numbers @ ..] if numbers.len() <= 2 => {
            let (Some(clusters), Some(seed)) = (
                number(numbers.first(), diff::CLUSTERS),
                number(numbers.get(1), diff::SEED),
            ) else {
                return wrong();
            };
            ExitCode::from(u8::from(!diff::run(clusters, seed)))
        }
        ["bench"] => {
            bench::run();
            ExitCode::SUCCESS
        }
        ["help"] => {
            println!("{HELP}");
            ExitCode::SUCCESS
        }
        _ => wrong(),
    }
}

fn number(word: Option<&&str>, default: u64) -> Option<u64> {
    word.map_or(Some(default), |word| word.parse().ok())
}

fn wrong() -> ExitCode {
    eprintln!("{HELP}");
    ExitCode::from(2)
}
