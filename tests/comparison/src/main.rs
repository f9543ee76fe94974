//! `comparison [CASES [SEED]]`: the engine and the plain C engine held against
//! the second engine. The last line is `N passed, M failed`.
//!
//! * `sheet_call`: the call that reads a sheet and writes its listing.
//! * `pool_call`: the call that pools two sheets.
//! * `number_calls`: the calls on a pair list, all but the next two.
//! * `shared_call`: the smallest group two entries share.
//! * `weight_call`: the refined weight of a split.
//! * `reader_calls`: the calls on a sheet that write no listing.
//! * `unscored`: pairs never compared, and what follows where they are scored.
//! * `halves`: half points in every share, whole points as before, doubled lists.
//! * `reading`: sheets of every form through all calls on a sheet, damaged in every
//!   place in turn (`damage`).

mod bench;
mod calls;
mod damage;
mod engines;
mod halves;
mod lent;
mod lists;
mod number_calls;
mod parts;
mod pool_call;
mod reader_calls;
mod reading;
mod shared_call;
mod sheet_call;
mod unscored;
mod weight_call;

use parts::Parts;
use std::process::ExitCode;

const CASES: usize = 15_000;
const SEED: u64 = 1;

fn main() -> ExitCode {
    let (cases, seed) = match numbers() {
        Some(numbers) => numbers,
        None => {
            eprintln!("usage: comparison [CASES [SEED]]");
            return ExitCode::from(2);
        }
    };
    println!("{cases} generated calls, seed {seed}");
    let mut parts = Parts::default();
    sheet_call::run(cases, seed, &mut parts);
    pool_call::run(cases, seed, &mut parts);
    number_calls::run(cases, seed, &mut parts);
    shared_call::run(cases / 75, seed, &mut parts);
    weight_call::run(cases, seed, &mut parts);
    reader_calls::run(cases / 5, seed, &mut parts);
    unscored::run(cases / 30, seed, &mut parts);
    halves::run(cases / 40, seed, &mut parts);
    reading::run((cases / 15_000).max(1), seed, &mut parts);
    parts.end()
}

fn numbers() -> Option<(usize, u64)> {
    let words: Vec<String> = std::env::args().skip(1).collect();
    match &words[..] {
        [] => Some((CASES, SEED)),
        [cases] => Some((cases.parse().ok()?, SEED)),
        [cases, seed] => Some((cases.parse().ok()?, seed.parse().ok()?)),
        _ => None,
    }
}
