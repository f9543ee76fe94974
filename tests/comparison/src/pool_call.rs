//! The pool of two sheets by each engine: generated calls, sheets that a point makes
//! wrong, every order of the second's names, names of all few choices, all small
//! sheets, sums of all lengths and at the ends of the range, buffers of every
//! length; and the groups of pools.

use crate::engines::Outcomes;
use crate::parts::{met, Parts};
use crate::sheet_call::small_table;
use second_engine::generate::{self, Random, Table, FAR, MARK};
use second_engine::pooling::{
    self, check_groups, Case, Expected, Met, MOST_BYTES, OF_A_POOL, OF_A_SHEET,
};

pub fn run(cases: usize, seed: u64, parts: &mut Parts) {
    generated_calls(cases, seed, parts);
    let mut random = Random::new(!seed);
    wrong_points(&mut random, cases / 50, parts);
    every_order(&mut random, parts);
    few_names(parts);
    small_sheets(parts);
    every_sum(parts);
    every_room(parts);
    groups(&mut random, cases / 5, parts);
}

/// The calls of a part, checked by each engine and counted.
#[derive(Default)]
pub struct Calls {
    pub outcomes: Outcomes,
    pub met: Met,
}

impl Calls {
    pub fn check(&mut self, expected: &Expected) {
        self.met.count(expected);
        self.outcomes.each(|engine| engine.check_pool(expected));
    }

    fn pool(&mut self, first: &Table, second: &Table) -> Expected {
        let expected = whole(first, second);
        self.check(&expected);
        expected
    }

    /// What the pools are refused for, if there is anything, must be met.
    fn add_to(self, parts: &mut Parts, what: &str, refusals: &[usize]) {
        self.outcomes.add_to(parts, what);
        if !refusals.is_empty() {
            parts.add_refusals(what, &self.met.pool, refusals);
        }
    }
}

/// Two sheets into a buffer that always serves.
fn whole(first: &Table, second: &Table) -> Expected {
    Expected::of(Case {
        first: first.sheet(),
        second: second.sheet(),
        room: MOST_BYTES,
    })
}

fn generated_calls(cases: usize, seed: u64, parts: &mut Parts) {
    let mut calls = Calls::default();
    for case in pooling::cases(seed).take(cases) {
        calls.check(&Expected::of(case));
    }
    let Met {
        first,
        second,
        both,
        ..
    } = &calls.met;
    parts.add_refusals("pool, the first sheet", first, &OF_A_SHEET);
    parts.add_refusals("pool, the second sheet", second, &OF_A_SHEET);
    let outcome = met("pools of two refused sheets, of different numbers", *both);
    parts.add("pool, both sheets refused", outcome);
    calls.add_to(parts, "pool, generated calls", &OF_A_POOL);
}

/// The refusals of a sheet that a point can bring about.
const BY_POINTS: [usize; 5] = [4, 7, 8, 9, 11];

/// A sheet that a point makes wrong, as the first and as the second.
fn wrong_points(random: &mut Random, cases: usize, parts: &mut Parts) {
    let mut calls = Calls::default();
    for number in BY_POINTS {
        for _ in 0..cases {
            let n = generate::entries(random);
            let [good, partner] = pooling::tables(random, n);
            let bad = generate::pointed(random, number).sheet;
            for (first, second) in [
                (bad.clone(), good.sheet()),
                (good.sheet(), bad),
                (good.sheet(), partner.sheet()),
            ] {
                let room = MOST_BYTES;
                calls.check(&Expected::of(Case {
                    first,
                    second,
                    room,
                }));
            }
        }
    }
    let Met { first, second, .. } = &calls.met;
    parts.add_refusals("pool, points on the first sheet", first, &BY_POINTS);
    parts.add_refusals("pool, points on the second sheet", second, &BY_POINTS);
    calls.add_to(parts, "pool, sheets that a point makes wrong", &[]);
}

/// The second sheet in every order gives the same bytes.
fn every_order(random: &mut Random, parts: &mut Parts) {
    let mut calls = Calls::default();
    let mut same = Ok(());
    for n in 1..=5 {
        for _ in 0..5 {
            let [first, second] = pooling::tables(random, n);
            let pool = calls.pool(&first, &second);
            for order in orders(n) {
                let Expected {
                    answer,
                    pool: bytes,
                    ..
                } = calls.pool(&first, &second.reordered(&order));
                if (answer, &bytes) != (pool.answer, &pool.pool) {
                    same = Err(format!("{order:?} of {second:?} changes the pool"));
                }
            }
        }
    }
    parts.add("pool, every order gives the same", same);
    calls.add_to(parts, "pool, every order of the second", &[]);
}

/// The numbers 0 to n - 1 in every order.
fn orders(n: usize) -> Vec<Vec<usize>> {
    if n == 0 {
        return vec![Vec::new()];
    }
    let mut orders = Vec::new();
    for order in self::orders(n - 1) {
        for place in 0..n {
            let mut longer = order.clone();
            longer.insert(place, n - 1);
            orders.push(longer);
        }
    }
    orders
}

/// Up to three of these names on either sheet, also twice: one starts another, or
/// is as long.
fn few_names(parts: &mut Parts) {
    const NAMES: [&str; 4] = ["A", "AA", "AB", "B"];
    let tables: Vec<Table> = (1..=3)
        .flat_map(|n| (0..NAMES.len().pow(n)).map(move |number| (n as usize, number)))
        .map(|(n, number)| {
            let mut table = small_table(n, true, &[number as i64], 0);
            for (place, name) in table.names.iter_mut().enumerate() {
                *name = NAMES[number >> (2 * place) & 3].into();
            }
            table
        })
        .collect();
    let mut calls = Calls::default();
    for first in &tables {
        for second in &tables {
            calls.pool(first, second);
        }
    }
    parts.add_refusals("pool, names twice on the first", &calls.met.first, &[5]);
    parts.add_refusals("pool, names twice on the second", &calls.met.second, &[5]);
    calls.add_to(parts, "pool, names of all few choices", &[17]);
}

/// Two entries in both orders, with every choice of these values.
fn small_sheets(parts: &mut Parts) {
    const VALUES: [i64; 5] = [-2, -1, 0, 1, MARK];
    let sheets = VALUES.len().pow(3);
    let mut calls = Calls::default();
    for number in 0..sheets * sheets {
        let [first, second] =
            [number / sheets, number % sheets].map(|number| small_table(2, true, &VALUES, number));
        calls.pool(&first, &second);
        calls.pool(&first, &second.reordered(&[1, 0]));
    }
    calls.add_to(parts, "pool, all small sheets", &[]);
}

/// One entry: sums of each number of digits, whole and with a half, and at the ends
/// of the range and half a point or more beyond, of several pairs of scores; and
/// the mark on either sheet.
fn every_sum(parts: &mut Parts) {
    let powers = (0..=6).map(|digits| 2 * 10i64.pow(digits));
    let near = powers.flat_map(|power| (power - 3..=power + 3).collect::<Vec<_>>());
    let sums = near.chain([2 * FAR]).flat_map(|sum| [sum, -sum]);
    let one = |value| small_table(1, true, &[value], 0);
    let mut calls = Calls::default();
    for sum in sums {
        for added in [0, 1, -1, 7, FAR / 2, -FAR / 2, FAR, -FAR, MARK] {
            let score = if added == MARK { sum } else { sum - added };
            if (-FAR..=FAR).contains(&score) {
                calls.pool(&one(score), &one(added));
                calls.pool(&one(added), &one(score));
            }
        }
    }
    calls.add_to(parts, "pool, sums of one entry", &[18]);
}

/// Buffers from 0 bytes to a few more than the pool has; of the longest pool those
/// around its length.
fn every_room(parts: &mut Parts) {
    let mut random = Random::new(1);
    let mut calls = Calls::default();
    let mut check = |[first, second]: &[Table; 2], rooms: &[usize]| {
        for &room in rooms {
            calls.check(&Expected::of(Case {
                first: first.sheet(),
                second: second.sheet(),
                room,
            }));
        }
    };
    for n in [1, 2, 3, 5] {
        let all: Vec<usize> = (0..=n * (9 + 10 * n) + 2).collect();
        check(&pooling::tables(&mut random, n), &all);
    }
    let mut widest = small_table(32, true, &[2 - FAR], 0);
    for (entry, name) in widest.names.iter_mut().enumerate() {
        *name = format!("ENTRY{entry:03}");
    }
    let mut added = widest.clone();
    // Minus half a point.
    added.values = vec![vec![-1; 32]; 32];
    let order = generate::order(&mut random, 32);
    let near = [0, 1, 9_504, 10_527, 10_528, 10_529, 12_288, 20_000];
    let tables = [widest, added.reordered(&order)];
    let longest = whole(&tables[0], &tables[1]).answer;
    check(&tables, &near);
    calls.add_to(parts, "pool, buffers of every length", &[14]);
    let outcome = match longest {
        10_528 => Ok(()),
        other => Err(format!("{other} bytes")),
    };
    parts.add("pool, the longest has 10,528 bytes", outcome);
}

/// What is strong in both sheets, by each engine's own listings and pools.
fn groups(random: &mut Random, sheets: usize, parts: &mut Parts) {
    let mut outcomes = Outcomes::default();
    let mut count = 0;
    for _ in 0..sheets {
        let n = generate::entries(random);
        let [first, second] = pooling::tables(random, n);
        let order = generate::order(random, n);
        let expected = whole(&first, &second.reordered(&order));
        if expected.answer < 0 {
            continue;
        }
        let Case { first, second, .. } = &expected.case;
        outcomes.each(|engine| {
            count += check_groups(
                |k, s, o| engine.listing(k, s, o),
                |f, s, o| engine.pool(f, s, o),
                [first, second],
            )?;
            Ok(())
        });
    }
    outcomes.add_to(parts, "pool, its groups");
    let outcome = met("groups strong in both sheets", count);
    parts.add("pool, groups strong in both are met", outcome);
}
