//! `second-engine selfcheck ROUNDS SEED`.

use second_engine::selfcheck;
use std::process::ExitCode;

fn main() -> ExitCode {
    let words: Vec<String> = std::env::args().skip(1).collect();
    match &words[..] {
        [word, rounds, seed] if word == "selfcheck" => match (rounds.parse(), seed.parse()) {
            (Ok(rounds), Ok(seed)) => run_selfcheck(rounds, seed),
            _ => usage(),
        },
        _ => usage(),
    }
}

fn usage() -> ExitCode {
    eprintln!("usage: second-engine selfcheck ROUNDS SEED");
    ExitCode::from(2)
}

fn run_selfcheck(rounds: u64, seed: u64) -> ExitCode {
    match selfcheck::run(rounds, seed) {
        Ok(report) => {
            print!("{report}");
            ExitCode::SUCCESS
        }
        Err(message) => {
            eprintln!("{message}");
            ExitCode::FAILURE
        }
    }
}
