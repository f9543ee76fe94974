//! The sheet call of each engine: generated calls, every share of unscored pairs,
//! all small sheets, the bench, reorderings.

use crate::bench;
use crate::engines::Outcomes;
use crate::lists::marked;
use crate::parts::Parts;
use second_engine::compare::{check, Case, Expected, Tally, SHEET_REFUSALS};
use second_engine::generate::{self, Random, Table, MARK, SHARES};
use second_engine::{engine, reordering};

pub fn run(cases: usize, seed: u64, parts: &mut Parts) {
    let tally = generated_calls(cases, seed, parts);
    parts.add_refusals("sheet call", &tally, &SHEET_REFUSALS);
    unscored_sheets(cases / 10, seed, parts);
    small_sheets(parts);
    sheets_of_texts(parts);
    bench_cases(parts);
    reorderings((cases + 9) / 10, seed, parts);
}

fn generated_calls(cases: usize, seed: u64, parts: &mut Parts) -> Tally {
    let mut tally = Tally::default();
    let mut outcomes = Outcomes::default();
    for case in generate::cases(seed).take(cases) {
        let expected = Expected::of(case);
        tally.count(expected.answer);
        outcomes.each(|engine| engine.check_listing(&expected));
    }
    outcomes.add_to(parts, "generated calls");
    tally
}

/// Each share of unscored pairs, on sheets with groups and on sheets without.
fn unscored_sheets(sheets: usize, seed: u64, parts: &mut Parts) {
    let mut random = Random::new(!seed);
    let mut outcomes = Outcomes::default();
    let mut met = Ok(());
    for share in SHARES {
        let (mut with, mut without, mut lines) = (0, 0, 0);
        for _ in 0..sheets {
            let n = generate::entries(&mut random);
            let mut table = generate::scores(&mut random, n);
            table.unscore(&mut random, share);
            for kind in 1..=3 {
                let expected = Expected::of(Case {
                    kind,
                    sheet: table.sheet(),
                    room: 4096,
                });
                outcomes.each(|engine| engine.check_listing(&expected));
                match (kind, line_count(&expected.listing)) {
                    (1, 0) => without += 1,
                    (1, count) => (with, lines) = (with + 1, lines + count),
                    _ => {}
                }
            }
        }
        println!("{share}: {with} sheets with {lines} groups, {without} without");
        if with == 0 || without == 0 {
            met = Err(format!("{share}: one of these was never met"));
        }
    }
    outcomes.add_to(parts, "every share of unscored pairs");
    parts.add("sheet call, each share with groups and without", met);
}

/// How many lines a listing has after the first; 0 if there is none.
pub fn line_count(listing: &[u8]) -> usize {
    let lines = listing.iter().filter(|&&byte| byte == b'\n').count();
    lines.saturating_sub(1)
}

/// Every sheet of so few entries and values, ties and all orders with them.
fn small_sheets(parts: &mut Parts) {
    let mut outcomes = Outcomes::default();
    let mut sheets = 0;
    for (kind, n, own, values) in [
        (1, 3, true, marked(-1..=3).collect()),
        (1, 4, true, (0..=2).collect()),
        (1, 4, true, vec![0, 1, MARK]),
        (2, 3, true, marked(0..=1).collect()),
        (2, 4, false, (-2..=2).collect()),
        (2, 5, false, (0..=2).collect()),
        (3, 3, true, marked(-1..=1).collect()),
        (3, 4, false, (0..=4).collect()),
        (3, 5, false, (0..=2).collect()),
    ] {
        let values: Vec<i64> = values;
        let pairs = if own {
            n * (n + 1) / 2
        } else {
            n * (n - 1) / 2
        };
        for number in 0..values.len().pow(pairs as u32) {
            let expected = Expected::of(Case {
                kind,
                sheet: small_table(n, own, &values, number).sheet(),
                room: 128,
            });
            outcomes.each(|engine| engine.check_listing(&expected));
            sheets += 1;
        }
    }
    println!("small sheets: {sheets}");
    outcomes.add_to(parts, "all small sheets");
}

/// Every sheet of small_texts.
fn sheets_of_texts(parts: &mut Parts) {
    let mut outcomes = Outcomes::default();
    for sheet in small_texts() {
        for kind in 1..=3 {
            let expected = Expected::of(Case {
                kind,
                sheet: sheet.clone(),
                room: 128,
            });
            outcomes.each(|engine| engine.check_listing(&expected));
        }
    }
    outcomes.add_to(parts, "sheets of all few texts");
}

/// Sheets of one entry and of two with every choice of these texts for values.
pub fn small_texts() -> impl Iterator<Item = Vec<u8>> {
    const TEXTS: [&str; 15] = [
        "0",
        "1",
        "0.5",
        "-0.5",
        ".5",
        "1000000.5",
        "-",
        "-1",
        "--",
        "-0",
        "",
        "- ",
        " -",
        "-2147483648",
        "1000001",
    ];
    let text = |number: usize, place| TEXTS[number / TEXTS.len().pow(place) % TEXTS.len()];
    let one = (0..TEXTS.len()).map(move |number| format!("A\n{}\n", text(number, 0)));
    let two = (0..TEXTS.len().pow(4)).map(move |number| {
        let [a, b, c, d] = [0, 1, 2, 3].map(|place| text(number, place));
        format!("A B\n{a} {b}\n{c} {d}\n")
    });
    one.chain(two).map(String::into_bytes)
}

/// The digits of the number choose a value, in half points, for each pair, own ones
/// or not.
pub fn small_table(n: usize, own: bool, values: &[i64], mut number: usize) -> Table {
    let mut table = Table {
        names: (0..n).map(|a| format!("E{a}")).collect(),
        values: vec![vec![0; n]; n],
    };
    for a in 0..n {
        for b in 0..=a {
            if own || a != b {
                table.set(a, b, values[number % values.len()]);
                number /= values.len();
            }
        }
    }
    table
}

fn bench_cases(parts: &mut Parts) {
    let mut outcomes = Outcomes::default();
    for expected in bench::calls() {
        outcomes.each(|other| {
            check("second engine", engine::listing, &expected)?;
            other.check_listing(&expected)
        });
    }
    outcomes.add_to(parts, "bench cases");
}

/// Each sheet turned round, with its first entry elsewhere, and in any order.
fn reorderings(sheets: usize, seed: u64, parts: &mut Parts) {
    let mut random = Random::new(!seed);
    let mut outcomes = Outcomes::default();
    let mut lines = 0;
    for _ in 0..sheets {
        let n = generate::entries(&mut random).max(2);
        let (kind, table) = generate::good(&mut random, n);
        let expected = Expected::of(Case {
            kind,
            sheet: table.sheet(),
            room: 4096,
        });
        lines += line_count(&expected.listing);
        let mut first_elsewhere: Vec<usize> = (0..n).collect();
        first_elsewhere.swap(0, 1 + random.below(n - 1));
        let orders = [
            (0..n).rev().collect(),
            first_elsewhere,
            generate::order(&mut random, n),
            generate::order(&mut random, n),
        ];
        outcomes.each(|engine| {
            engine.check_listing(&expected)?;
            for p in &orders {
                reordering::check(|k, s, o| engine.listing(k, s, o), kind, &table, p)?;
            }
            Ok(())
        });
    }
    println!("reordered sheets: {sheets}, their lines: {lines}, 4 orders each");
    outcomes.add_to(parts, "reorderings");
}
