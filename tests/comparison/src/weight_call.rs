//! The refined weight of a split by each engine: generated calls, lists made
//! wrong, every side of a few entries, all small lists, every number of entries,
//! lists of every length, every choice of refusals at once, weights known without
//! an engine; and what is said of the weights of a list.

use crate::engines::{Engine, Outcomes};
use crate::lists::{self, marked, pair_count, small, List};
use crate::parts::{met, Parts};
use second_engine::engine::{SPLITS, UNSCORED};
use second_engine::generate::{self, Random, Table, FAR, MARK};
use second_engine::reordering::parse_listing;
use second_engine::weighing::{
    self, check_list, check_order, is_weighed, Case, Expected, Found, Met, OF_A_WEIGHT,
};

pub fn run(cases: usize, seed: u64, parts: &mut Parts) {
    generated_calls(cases, seed, parts);
    let mut random = Random::new(!seed);
    flawed_lists(&mut random, cases / 5, parts);
    every_choice(&mut random, parts);
    every_side(&mut random, parts);
    small_lists(parts);
    every_size(&mut random, parts);
    every_length(parts);
    known_weights(parts);
    weights_of_lists(&mut random, cases / 20, parts);
}

/// The calls of a part, checked by each engine and counted.
#[derive(Default)]
struct Calls {
    outcomes: Outcomes,
    met: Met,
}

impl Calls {
    fn check(&mut self, expected: &Expected) {
        self.met.count(expected);
        self.outcomes.each(|engine| engine.check_weight(expected));
    }

    fn weigh(&mut self, List { n, pairs }: &List, side: u32) {
        let (n, pairs) = (*n, pairs.clone());
        self.check(&Expected::of(Case { n, pairs, side }));
    }

    /// What the weights are refused for, if there is anything, must be met.
    fn add_to(self, parts: &mut Parts, what: &str, refusals: &[usize]) {
        self.outcomes.add_to(parts, what);
        if !refusals.is_empty() {
            parts.add_refusals(what, &self.met.tally, refusals);
        }
    }
}

/// One call by each engine.
pub fn check(list: &List, side: u32) -> Result<(), String> {
    let mut calls = Calls::default();
    calls.weigh(list, side);
    calls.outcomes.all()
}

/// All of the first n entries.
fn whole(n: usize) -> u32 {
    match n {
        0 => 0,
        _ => u32::MAX >> (32 - n.min(32)),
    }
}

/// Weights below 0, 0 and above, and such as count a score more than once.
fn generated_calls(cases: usize, seed: u64, parts: &mut Parts) {
    let mut calls = Calls::default();
    for case in weighing::cases(seed).take(cases) {
        calls.check(&Expected::of(case));
    }
    let Met { signs, equal, .. } = calls.met;
    println!("weights below 0, 0, and above: {signs:?}");
    let outcome = match signs.contains(&0) {
        true => Err("none of a sort was met".into()),
        false => Ok(()),
    };
    parts.add("weight, every sort is met", outcome);
    let outcome = met("weights that count a score more than once", equal as usize);
    parts.add("weight, equal scores are met", outcome);
    calls.add_to(parts, "weight, generated calls", &OF_A_WEIGHT);
}

/// Lists made wrong in one place or a few, or of a wrong length, with any side.
fn flawed_lists(random: &mut Random, lists: usize, parts: &mut Parts) {
    let mut calls = Calls::default();
    for _ in 0..lists {
        let list = lists::distances(random);
        let side = weighing::any_side(random, list.n, &[]);
        let flawed = lists::flawed(random, list);
        calls.weigh(&flawed, side);
        let side = weighing::wrong_side(random, flawed.n);
        calls.weigh(&flawed, side);
    }
    calls.add_to(parts, "weight, lists made wrong", &OF_A_WEIGHT);
}

/// Every choice of refusals: the first of them is given.
fn every_choice(random: &mut Random, parts: &mut Parts) {
    let mut calls = Calls::default();
    let mut made = Ok(());
    for choice in 1..1 << OF_A_WEIGHT.len() {
        for _ in 0..30 {
            let (case, number) = weighing::flawed(random, Some(choice));
            let expected = Expected::of(case);
            if expected.number != number {
                made = Err(format!("second engine, wanted {number}: {expected:?}"));
            }
            calls.check(&expected);
        }
    }
    parts.add("weight, second engine, every choice of refusals", made);
    // Beside these, a call that is not refused.
    calls.weigh(&List::of(&row(4)), 0b0011);
    calls.add_to(parts, "weight, every choice of refusals", &OF_A_WEIGHT);
}

/// Every set of up to 12 entries, and sets with members beyond them.
fn every_side(random: &mut Random, parts: &mut Parts) {
    let mut calls = Calls::default();
    for n in 1..=12 {
        for _ in 0..if n < 9 { 8 } else { 1 } {
            let list = List::of(&generate::distances(random, n));
            for side in 0..=whole(n) {
                calls.weigh(&list, side);
            }
            for beyond in n..32 {
                let side = weighing::any_set(random, n);
                calls.weigh(&list, side | 1 << beyond);
                calls.weigh(&list, 1 << beyond);
            }
        }
    }
    calls.add_to(parts, "weight, every side of a few entries", &[19]);
}

/// Every list of so few entries and values, each with every set of five entries,
/// so that some have members beyond.
fn small_lists(parts: &mut Parts) {
    let mut calls = Calls::default();
    let distances = small(4, false, 0..=3).chain(small(5, false, 0..=1));
    let with_own = small(3, true, marked(-1..=1)).chain(small(4, true, [0, 1]));
    let unscored = small(4, false, [0, 2, MARK]).chain(small(2, true, marked(-1..=1)));
    for list in distances.chain(with_own).chain(unscored) {
        for side in 0..32 {
            calls.weigh(&list, side);
        }
    }
    calls.add_to(parts, "weight, all small lists", &[16, 12, 19]);
}

/// Entries in a row, 5 apart, each hanging from it by 3.
fn row(n: usize) -> Table {
    let distance = |a: usize, b: usize| {
        if a == b {
            0
        } else {
            6 + 5 * a.abs_diff(b) as i64
        }
    };
    Table {
        names: (0..n).map(|a| format!("E{a}")).collect(),
        values: (0..n)
            .map(|a| (0..n).map(|b| distance(a, b)).collect())
            .collect(),
    }
}

/// Each number of entries from 0 to 40, with lists of their own, of one entry less
/// and of one more.
fn every_size(random: &mut Random, parts: &mut Parts) {
    let mut calls = Calls::default();
    for n in 0..=40 {
        let half = whole(n / 2);
        let sides = [0, 1, 0b11, half, 0x5555_5555 & whole(n), 0xf000_0000];
        let others = sides.map(|side| whole(n) & !side);
        let scattered: Vec<i32> = (0..pair_count(n)).map(|_| random.of(&[0, 1, 5])).collect();
        let mut distances = scattered.clone();
        (0..n).for_each(|a| distances[lists::own(a)] = 0);
        for pairs in [List::of(&row(n)).pairs, distances, scattered] {
            for entries in [n.wrapping_sub(1), n, n + 1] {
                let list = List {
                    n: entries,
                    pairs: pairs.clone(),
                };
                for side in sides.into_iter().chain(others) {
                    calls.weigh(&list, side);
                }
            }
        }
    }
    calls.add_to(parts, "weight, every number of entries", &[6, 10, 12, 19]);
}

/// Lists from 0 values on, to a few more than any number of entries has; of zeros
/// and of marks.
fn every_length(parts: &mut Parts) {
    let mut calls = Calls::default();
    for n in [0, 1, 2, 3, 4, 5, 13, 31, 32, 33] {
        for length in 0..=pair_count(33) + 2 {
            for value in [0, UNSCORED] {
                let pairs = vec![value; length];
                let list = List { n, pairs };
                for side in [0b0011, 0b0111, 0, u32::MAX] {
                    calls.weigh(&list, side);
                }
            }
        }
    }
    calls.add_to(parts, "weight, lists of every length", &[6, 10, 16, 19]);
}

/// Weights found by hand, from either side.
fn known_weights(parts: &mut Parts) {
    let mut calls = Calls::default();
    let mut second = Ok(());
    let mut check = |table: &Table, side: u32, weight: i64| {
        for side in [side, whole(table.entries()) & !side] {
            let expected = Expected {
                scores: vec![weight],
                number: 0,
                case: Case::of(table, side),
            };
            if Expected::of(expected.case.clone()).weight() != weight {
                second = Err(format!("wanted {weight}: {expected:?}"));
            }
            calls.check(&expected);
        }
    };
    // d(0,1) = d(2,3) = 2, other distances 4: one quartet each.
    let copies = table(4, &[2, 4, 4, 4, 4, 2]);
    check(&copies, 0b1100, 8 - 4);
    check(&copies, 0b0101, 4 - 8);
    check(&copies, 0b1001, 4 - 8);
    // In half points 2 and a half, 2 and 4 are 5, 4 and 8.
    let halves = table(4, &[5, 8, 8, 8, 8, 4]);
    check(&halves, 0b1100, 16 - 9);
    check(&halves, 0b0101, 9 - 16);
    // 01|23 has 10 - 4, 01|24 has 11 - 5, 01|34 has 12 - 3.
    let equal = table(5, &[1, 5, 5, 6, 5, 3, 7, 6, 4, 2]);
    check(&equal, 0b00011, 6 + 6);
    // 01|24 has 11 - 4.
    let different = table(5, &[1, 5, 5, 6, 5, 3, 7, 6, 3, 2]);
    check(&different, 0b00011, 6 + 7);
    // Entry 0 twice against 2 and 3 would have 1.
    let twice = table(4, &[1, 1, 9, 1, 9, 1]);
    check(&twice, 0b0011, 10 - 2);
    for n in 4..=32 {
        // A cut through a row: the entries k - 1 and k with any others make
        // (k - 1)(n - k - 1) quartets of 10, n - 3 or more.
        for k in 2..=n - 2 {
            check(&row(n), whole(k), 10 * (n as i64 - 3));
        }
        let odd = 0xaaaa_aaaa & whole(n);
        for (across, within) in [(FAR, 0), (0, FAR), (FAR - 1, 0), (1, 0), (7, 7)] {
            let mut table = row(n);
            for a in 0..n {
                for b in 0..a {
                    table.set(a, b, if (a + b) % 2 == 1 { across } else { within });
                }
            }
            check(&table, odd, 2 * (across - within) * (n as i64 - 3));
        }
    }
    parts.add("weight, second engine, known weights", second);
    calls.add_to(parts, "weight, known weights", &[]);
}

/// The distances of two different entries, row by row.
fn table(n: usize, distances: &[i64]) -> Table {
    let mut table = row(n);
    let mut distances = distances.iter();
    for a in 0..n {
        for b in 0..a {
            table.set(a, b, *distances.next().expect("a distance for each two"));
        }
    }
    table
}

/// What is said of the weights of a list, by each engine's own listing and
/// weights; the second engine has no part in it.
fn weights_of_lists(random: &mut Random, lists: usize, parts: &mut Parts) {
    let mut outcomes = Outcomes::default();
    let mut found = Found::default();
    let mut orders = 0;
    for _ in 0..lists {
        let n = weighing::entries(random);
        let table = generate::distances(random, n);
        let (p, seed) = (generate::order(random, n), random.below(usize::MAX));
        outcomes.each(|engine| {
            let weigh = |pairs: &[i32], side| weigh(engine, n, pairs, side);
            let (pairs, lines) = (table.pairs(), lines(engine, &table)?);
            let sides = weighing::splits(&mut Random::new(seed as u64), n, &lines);
            let said = check_list(|side| weigh(&pairs, side), n, &lines, &sides);
            found.add(said.map_err(|message| format!("{message}; {table:?}"))?);
            for side in sides.into_iter().filter(|&side| is_weighed(n, side)) {
                check_order(weigh, &table, &p, side)
                    .map_err(|message| format!("{message}; {table:?}"))?;
                orders += 1;
            }
            Ok(())
        });
    }
    outcomes.add_to(parts, "weight, what is said of lists");
    println!("{found:?}; sides in another order: {orders}");
    let outcome = match found.has_all() && orders > 0 {
        true => Ok(()),
        false => Err("none of a sort was met".into()),
    };
    parts.add("weight, what is said of lists is met", outcome);
}

/// The weight, of a call that is not refused.
fn weigh(engine: &Engine, n: usize, pairs: &[i32], side: u32) -> Result<i64, String> {
    match engine.weigh(n, pairs, side)? {
        (0, weight) => Ok(weight),
        (number, _) => Err(format!("{side:x} is refused with {number}; {pairs:?}")),
    }
}

/// The listed splits and their indices.
fn lines(engine: &Engine, table: &Table) -> Result<Vec<(u32, i64)>, String> {
    let mut out = vec![0; 4096];
    let answer = engine.listing(SPLITS, &table.sheet(), &mut out);
    out.truncate(usize::try_from(answer).unwrap_or(0));
    parse_listing(&String::from_utf8_lossy(&out))
        .ok_or_else(|| format!("no listing, answer {answer}; {table:?}"))
}
