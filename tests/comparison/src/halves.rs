//! Half points (request 2.6): each share of them through the sheet call of each
//! engine; sheets that a point makes wrong; sheets without a point as they were
//! answered before; and the library's own groups and weights of doubled lists.

use crate::engines::Outcomes;
use crate::lists::List;
use crate::number_calls::found;
use crate::parts::{met, Parts};
use second_engine::compare::{Case, Expected, Tally, SHEET_REFUSALS};
use second_engine::generate::{self, Halves, Random, Table, BY_POINTS, HALVES, SHARES};
use second_engine::halves::{check_doubled, doubled, halved, sort};
use second_engine::reordering::parse_listing;
use second_engine::weighing;

pub fn run(sheets: usize, seed: u64, parts: &mut Parts) {
    let mut random = Random::new(seed);
    every_share(&mut random, sheets, parts);
    wrong_points(&mut random, sheets, parts);
    as_before(&mut random, sheets, parts);
    let outcome = doubled_lists(&mut random, sheets);
    parts.add("lists doubled, their groups", outcome);
    doubled_weights(&mut random, sheets, parts);
}

/// Each share of halves, under each kind: lines of half a point, of whole points
/// and others, where they can be.
fn every_share(random: &mut Random, sheets: usize, parts: &mut Parts) {
    let mut outcomes = Outcomes::default();
    let mut outcome = Ok(());
    for halves in HALVES {
        for kind in 1..=3 {
            let mut lines = [0; 3];
            for _ in 0..sheets {
                let table = sheet_of(random, kind, halves);
                let expected = Expected::of(Case {
                    kind,
                    sheet: table.sheet(),
                    room: 4096,
                });
                outcomes.each(|engine| engine.check_listing(&expected));
                for (_, index) in read_back(&expected) {
                    lines[sort(index)] += 1;
                }
            }
            println!("{halves}, kind {kind}: lines of half a point, whole, others: {lines:?}");
            // Two scores with a half differ by whole points; own distances are 0.
            let wanted = match halves {
                Halves::None => [false, true, false],
                Halves::All if kind < 3 => [false, true, false],
                _ => [true; 3],
            };
            if lines.map(|count| count > 0) != wanted {
                outcome = Err(format!("{halves}, kind {kind}: {lines:?}"));
            }
        }
    }
    outcomes.add_to(parts, "every share of half points");
    parts.add("half points, lines of each sort where they can be", outcome);
}

/// A sheet that the kind accepts, with unscored pairs under kind 1 now and then.
fn sheet_of(random: &mut Random, kind: i32, halves: Halves) -> Table {
    let n = generate::entries(random);
    if kind == 3 {
        return generate::distances_with(random, n, halves);
    }
    let mut table = generate::scores_with(random, n, halves);
    if kind == 1 && random.one_in(4) {
        let share = random.of(&SHARES);
        table.unscore(random, share);
    }
    table
}

fn read_back(expected: &Expected) -> Vec<(u32, i64)> {
    parse_listing(&String::from_utf8_lossy(&expected.listing)).expect("the sheet is listed")
}

/// Each refusal that a point can bring about, and sheets with points that are
/// answered, with a buffer that just serves.
fn wrong_points(random: &mut Random, sheets: usize, parts: &mut Parts) {
    let mut outcomes = Outcomes::default();
    let mut tally = Tally::default();
    let mut made = Ok(());
    for number in BY_POINTS {
        for _ in 0..sheets {
            let mut expected = Expected::of(generate::pointed(random, number));
            if expected.answer != -(number as i64) {
                made = Err(format!("second engine, wanted {number}: {expected:?}"));
            }
            tally.count(expected.answer);
            outcomes.each(|engine| engine.check_listing(&expected));
            if number == 14 {
                expected.case.room = 4096;
                let room = Expected::of(expected.case.clone()).listing.len();
                let expected = Expected::of(Case {
                    room,
                    ..expected.case
                });
                tally.count(expected.answer);
                outcomes.each(|engine| engine.check_listing(&expected));
            }
        }
    }
    parts.add("half points, second engine, refused for a point", made);
    outcomes.add_to(parts, "sheets that a point makes wrong");
    parts.add_refusals("sheets with points", &tally, &BY_POINTS);
}

/// Sheets without a point, good ones and any others: by each engine, against the
/// sheet call as it was.
fn as_before(random: &mut Random, sheets: usize, parts: &mut Parts) {
    let mut outcomes = Outcomes::default();
    let mut tally = Tally::default();
    for _ in 0..sheets {
        let (kind, other) = (random.of(&[1, 2, 3]), random.of(&[1, 2, 3]));
        let [good, any] = [kind, other].map(|of| Case {
            kind,
            sheet: sheet_of(random, of, Halves::None).sheet(),
            room: 4096,
        });
        let others = [generate::case(random), generate::flawed(random).0];
        for case in others.into_iter().chain([good, any]) {
            if !case.sheet.contains(&b'.') {
                tally.count(Expected::of(case.clone()).answer);
                outcomes.each(|engine| engine.check_whole(&case).map(|_| ()));
            }
        }
    }
    outcomes.add_to(parts, "sheets without a point, as before");
    parts.add_refusals("sheets without a point", &tally, &SHEET_REFUSALS);
}

/// The library's groups of a list and of its double.
fn doubled_lists(random: &mut Random, lists: usize) -> Result<(), String> {
    let mut groups = [0; 4];
    for _ in 0..lists {
        for kind in 1..=3 {
            let halves = random.of(&HALVES);
            let table = halved(&sheet_of(random, kind, halves));
            let List { n, pairs } = List::of(&table);
            let found = |pairs: &[i32]| {
                let pairs = pairs.to_vec();
                found(kind, &List { n, pairs }).ok_or_else(|| "refused".to_string())
            };
            groups[kind as usize] += check_doubled(found, &pairs)
                .map_err(|message| format!("kind {kind}: {message}"))?;
        }
    }
    println!("groups of doubled lists, by kind: {:?}", &groups[1..]);
    match groups[1..].contains(&0) {
        true => Err("none of a kind was met".into()),
        false => Ok(()),
    }
}

/// Each engine's weights of a list of distances and of its double.
fn doubled_weights(random: &mut Random, lists: usize, parts: &mut Parts) {
    let mut outcomes = Outcomes::default();
    let mut weights = 0;
    for _ in 0..lists {
        let n = weighing::entries(random);
        let table = halved(&generate::distances(random, n));
        let pairs = table.pairs();
        let twice = doubled(&pairs);
        let side = weighing::any_side(random, n, &weighing::listed(n, &pairs));
        outcomes.each(|engine| {
            let (once, again) = (
                engine.weigh(n, &pairs, side)?,
                engine.weigh(n, &twice, side)?,
            );
            weights += usize::from(again.0 == 0 && again.1 != 0);
            match again == (once.0, 2 * once.1) {
                true => Ok(()),
                false => Err(format!(
                    "{side:x} has {once:?}, doubled {again:?}; {pairs:?}"
                )),
            }
        });
    }
    outcomes.add_to(parts, "lists doubled, weights");
    let outcome = met("weights of doubled lists", weights);
    parts.add("lists doubled, weights are met", outcome);
}
