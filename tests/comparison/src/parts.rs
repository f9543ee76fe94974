//! The parts of a run, each passed or failed.

use second_engine::compare::Tally;
use second_engine::generate::Random;
use std::process::ExitCode;

/// A call that the second engine knows too.
pub struct Call {
    pub name: &'static str,
    /// The refusals that it can give.
    pub refusals: &'static [usize],
    /// Makes a call, checks it, and gives its answer.
    pub generated: fn(&mut Random) -> Result<i64, String>,
}

/// Says how many of these were met; none is wrong.
pub fn met(what: &str, count: usize) -> Result<(), String> {
    println!("{what}: {count}");
    match count {
        0 => Err("none was met".into()),
        _ => Ok(()),
    }
}

#[derive(Default)]
pub struct Parts {
    passed: u32,
    failed: u32,
}

impl Parts {
    /// Counts a part; a failed one says what is wrong.
    pub fn add(&mut self, part: &str, outcome: Result<(), String>) {
        match outcome {
            Ok(()) => {
                println!("passed: {part}");
                self.passed += 1;
            }
            Err(message) => {
                println!("failed: {part}: {message}");
                self.failed += 1;
            }
        }
    }

    /// So many generated calls; the first that fails ends them.
    pub fn add_generated(&mut self, call: &Call, cases: usize, seed: u64) {
        let mut random = Random::new(seed);
        let mut tally = Tally::default();
        let outcome = (0..cases).try_for_each(|_| {
            tally.count((call.generated)(&mut random)?);
            Ok(())
        });
        let ended = outcome.is_ok();
        self.add(&format!("{}, generated calls", call.name), outcome);
        if ended {
            self.add_refusals(call.name, &tally, call.refusals);
        }
    }

    /// How often each refusal was met; none may be missing.
    pub fn add_refusals(&mut self, name: &str, tally: &Tally, refusals: &[usize]) {
        let met: Vec<String> = refusals
            .iter()
            .map(|&number| format!("refused {number}: {}", tally.refusals[number]))
            .collect();
        let outcome = match tally.missed(refusals) {
            missed if !missed.is_empty() => Err(format!("never met: {missed:?}")),
            _ if tally.listings == 0 => Err("no call was answered".into()),
            _ => Ok(()),
        };
        println!("{name}, answered: {}; {}", tally.listings, met.join(", "));
        self.add(&format!("{name}, every refusal is met"), outcome);
    }

    pub fn end(self) -> ExitCode {
        println!("{} passed, {} failed", self.passed, self.failed);
        match self.failed {
            0 => ExitCode::SUCCESS,
            _ => ExitCode::FAILURE,
        }
    }
}
