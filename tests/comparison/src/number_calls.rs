//! The calls on a pair list: numbers, linkage, anchored scores and the way back,
//! the score of two entries. Generated calls, all small lists, slices of every
//! length, reorderings, the bench.

use crate::bench;
use crate::calls::{self, MOST_PAIRS};
use crate::lent::{Lent, FLIPS};
use crate::lists::{self, call_on, marked, own, pair_count, small, List};
use crate::parts::{Call, Parts};
use second_engine::compare::Tally;
use second_engine::engine::{self, Method, UNSCORED};
use second_engine::generate::{self, Random, Table, MARK};
use second_engine::reordering::{image, parse_listing};

const CALLS: [Call; 5] = [
    Call {
        name: "numbers",
        refusals: &[1, 6, 10, 11, 16, 12, 13],
        generated: numbers,
    },
    Call {
        name: "single linkage",
        refusals: &[6, 10, 11, 16, 15],
        generated: |random| linkage(random, Method::Single),
    },
    Call {
        name: "average linkage",
        refusals: &[6, 10, 11, 16, 15],
        generated: |random| linkage(random, Method::Average),
    },
    Call {
        name: "anchored scores",
        refusals: &[6, 10, 11, 16, 12, 15],
        generated: anchored_scores,
    },
    Call {
        name: "way back",
        refusals: &[6, 10, 15],
        generated: way_back,
    },
];

pub fn run(cases: usize, seed: u64, parts: &mut Parts) {
    for call in CALLS {
        parts.add_generated(&call, cases, seed);
    }
    let mut random = Random::new(!seed);
    scores(&mut random, cases, parts);
    parts.add("all small lists", small_lists());
    parts.add("score, every size", scores_of_every_size());
    parts.add("slices of every length", every_length());
    parts.add("way back of anchored", there_and_back(&mut random, cases));
    parts.add("lists reordered", reorderings(&mut random, cases / 10));
    parts.add("numbers, bench cases", bench_cases());
}

// ----------------------------------------------------------- Each call once

/// A count, or minus the number of a refusal.
fn number(answer: Result<usize, engine::Refusal>) -> i64 {
    answer.map_or_else(|number| -number, |count| count as i64)
}

pub fn check_numbers(kind: i32, list: &List, rooms: (usize, usize)) -> Result<i64, String> {
    let List { n, pairs } = list;
    let (mut sets, mut indices) = (vec![0; rooms.0], vec![0; rooms.1]);
    let wanted = number(engine::numbers(kind, *n, pairs, &mut sets, &mut indices));
    if wanted < 0 {
        sets.clear();
        indices.clear();
    }
    let check = |flip| {
        let mut lent = (Lent::new(rooms.0, flip), Lent::new(rooms.1, flip));
        call_on(list, wanted, |pairs| {
            calls::numbers(kind, *n, pairs, lent.0.slice(), lent.1.slice())
        })?;
        lent.0.check(&sets)?;
        lent.1.check(&indices)
    };
    FLIPS
        .into_iter()
        .try_for_each(check)
        .map_err(|message| format!("{message}; kind {kind}, {rooms:?} slots, {list:?}"))?;
    Ok(wanted)
}

fn linkage_call(method: Method) -> fn(usize, &[i32], &mut [u32]) -> i64 {
    match method {
        Method::Single => calls::single_linkage,
        Method::Average => calls::average_linkage,
    }
}

/// Any tree is taken that the list allows.
pub fn check_linkage(method: Method, list: &List, room: usize) -> Result<i64, String> {
    let List { n, pairs } = list;
    let wanted = number(engine::linkage_refusal(*n, pairs, room).map(|()| n - 1));
    let mut tree = None;
    let mut check = |flip| {
        let mut lent = Lent::new(room, flip);
        let call = linkage_call(method);
        call_on(list, wanted, |pairs| call(*n, pairs, lent.slice()))?;
        let merged = lent.slice()[..wanted.max(0) as usize].to_vec();
        lent.check(&merged)?;
        if wanted >= 0 && tree.as_ref() != Some(&merged) {
            if !engine::is_tree(method, *n, pairs, &merged) {
                return Err(format!("no tree: {merged:x?}"));
            }
            tree = Some(merged);
        }
        Ok(())
    };
    FLIPS
        .into_iter()
        .try_for_each(&mut check)
        .map_err(|message| format!("{message}; {method:?}, {room} slots, {list:?}"))?;
    Ok(wanted)
}

type Anchored = fn(usize, &[i32], usize, &mut [i32]) -> Result<usize, engine::Refusal>;
type AnchoredCall = fn(usize, usize, &[i32], &mut [i32]) -> i64;

/// The anchored scores or the way back, whose slots have the same form.
pub fn check_anchored(
    (engine, call): (Anchored, AnchoredCall),
    list: &List,
    anchor: usize,
    room: usize,
) -> Result<i64, String> {
    let List { n, pairs } = list;
    let mut result = vec![0; room];
    let wanted = number(engine(*n, pairs, anchor, &mut result));
    result.truncate(wanted.max(0) as usize);
    let check = |flip| {
        let mut lent = Lent::new(room, flip);
        call_on(list, wanted, |pairs| call(*n, anchor, pairs, lent.slice()))?;
        lent.check(&result)
    };
    FLIPS
        .into_iter()
        .try_for_each(check)
        .map_err(|message| format!("{message}; anchor {anchor}, {room} slots, {list:?}"))?;
    Ok(wanted)
}

pub const ANCHORED: (Anchored, AnchoredCall) = (engine::anchored, calls::anchored_scores);
pub const BACK: (Anchored, AnchoredCall) = (engine::way_back, calls::distances_back);

/// The answer as the other calls give it: 0, or minus the refusal's number. A
/// refused call leaves the slot as it was.
fn check_score(list: &List, a: usize, b: usize) -> Result<i64, String> {
    let (answer, written) = match engine::score(list.n, &list.pairs, a, b) {
        Ok(score) => (0, vec![score]),
        Err(number) => (number, Vec::new()),
    };
    let check = |flip| {
        let mut lent = Lent::new(1, flip);
        call_on(list, answer, |pairs| {
            calls::score(list.n, pairs, a, b, lent.slice()).into()
        })?;
        lent.check(&written)
    };
    FLIPS
        .into_iter()
        .try_for_each(check)
        .map_err(|message| format!("{message}; entries {a} and {b}, {list:?}"))?;
    Ok(-answer)
}

// ---------------------------------------------------------- Generated calls

fn numbers(random: &mut Random) -> Result<i64, String> {
    let kind = match random.below(16) {
        0 => random.of(&lists::NO_KINDS),
        _ => random.of(&[1, 2, 3]),
    };
    let distances = kind == 3 && !random.one_in(8);
    let list = lists::any(
        random,
        if distances {
            lists::distances
        } else {
            lists::scores
        },
    );
    let needed = 2 * list.n.min(40);
    let rooms = (lists::room(random, needed), lists::room(random, needed));
    check_numbers(kind, &list, rooms)
}

fn linkage(random: &mut Random, method: Method) -> Result<i64, String> {
    let list = lists::any(random, lists::scores);
    let room = lists::room(random, list.n.clamp(1, 40) - 1);
    check_linkage(method, &list, room)
}

fn anchored_scores(random: &mut Random) -> Result<i64, String> {
    let list = lists::any(random, lists::distances);
    let anchor = lists::entry(random, list.n);
    let room = lists::room(random, pair_count(list.n));
    check_anchored(ANCHORED, &list, anchor, room)
}

fn way_back(random: &mut Random) -> Result<i64, String> {
    let (list, mut anchor) = lists::anchored(random);
    let list = lists::any(random, |_| list.clone());
    if random.one_in(4) {
        anchor = lists::entry(random, list.n);
    }
    let room = lists::room(random, pair_count(list.n));
    check_anchored(BACK, &list, anchor, room)
}

/// Unscored pairs, scores below 0, 0 and above, and every refusal.
fn scores(random: &mut Random, calls: usize, parts: &mut Parts) {
    let mut tally = Tally::default();
    let mut signs = [0; 4];
    let outcome = (0..calls).try_for_each(|_| {
        let list = lists::any(random, lists::scores);
        let (a, b) = (lists::entry(random, list.n), lists::entry(random, list.n));
        tally.count(check_score(&list, a, b)?);
        match engine::score(list.n, &list.pairs, a, b) {
            Ok(MARK) => signs[0] += 1,
            Ok(score) => signs[(score.signum() + 2) as usize] += 1,
            Err(_) => {}
        }
        Ok(())
    });
    let ended = outcome.is_ok();
    parts.add("score, generated calls", outcome);
    if ended {
        println!("unscored pairs, scores below 0, 0, and above: {signs:?}");
        let outcome = match signs.contains(&0) {
            true => Err("none of a sort was met".into()),
            false => Ok(()),
        };
        parts.add("score, every sort is met", outcome);
        parts.add_refusals("score", &tally, &[6, 10, 15]);
    }
}

// ---------------------------------------------------------- All small lists

/// Every list of so few entries and values, ties and all orders with them.
fn small_lists() -> Result<(), String> {
    for kind in 1..=3 {
        let lists = small(3, true, marked(-1..=2)).chain(small(4, false, marked(0..=2)));
        for list in lists {
            check_numbers(kind, &list, (2 * list.n, 2 * list.n))?;
        }
    }
    for list in small(4, true, [0, 1, MARK]) {
        check_numbers(1, &list, (2 * list.n, 2 * list.n))?;
    }
    for method in [Method::Single, Method::Average] {
        let lists = small(4, false, 0..=3).chain(small(4, false, -2..=0));
        let lists = lists.chain(small(5, false, 0..=1));
        for list in lists.chain(small(3, true, [0, 1, MARK])) {
            check_linkage(method, &list, list.n - 1)?;
        }
    }
    for (call, values) in [(ANCHORED, -1..=2), (BACK, -1..=3)] {
        let marked = small(2, true, marked(-5..=7)).chain(small(3, true, [0, 2, MARK]));
        for list in small(3, true, values).chain(marked) {
            for anchor in 0..=list.n {
                check_anchored(call, &list, anchor, list.pairs.len())?;
            }
        }
    }
    for list in small(3, true, [0, MARK]).chain(small(1, true, marked(-2..=2))) {
        every_score(&list)?;
    }
    Ok(())
}

/// The scores of all entries, of numbers beyond them, and of numbers whose low
/// bits alone would be entries.
fn every_score(list: &List) -> Result<(), String> {
    let numbers = (0..=list.n + 2).chain(lists::FAR_ENTRIES);
    for a in numbers.clone() {
        for b in numbers.clone() {
            check_score(list, a, b)?;
        }
    }
    Ok(())
}

/// Each n, every value another, each sign and both ends of an i32 among them.
fn scores_of_every_size() -> Result<(), String> {
    for n in 0..=34 {
        let mut pairs: Vec<i32> = (0..pair_count(n) as i32)
            .map(|place| {
                (place + 1)
                    * if place % 2 == 0 {
                        3_000_017
                    } else {
                        -2_000_003
                    }
            })
            .collect();
        if n > 2 {
            (pairs[1], pairs[own(n - 1)]) = (i32::MIN, i32::MAX);
        }
        every_score(&List { n, pairs })?;
    }
    Ok(())
}

// --------------------------------------------------- Slices of every length

/// Result slices from 0 on, and lists from 0 on, to a few slots more than serve;
/// lists of zeros and of marks.
fn every_length() -> Result<(), String> {
    for n in [0, 1, 2, 3, 4, 5, 13, 31, 32, 33] {
        for value in [0, UNSCORED] {
            lengths(n, value)?;
        }
    }
    Ok(())
}

fn lengths(n: usize, value: i32) -> Result<(), String> {
    let list = List {
        n,
        pairs: vec![value; pair_count(n)],
    };
    let (most, few) = (2 * n + 3, n + 2);
    for kind in 1..=3 {
        for room in 0..=most {
            check_numbers(kind, &list, (room, most))?;
            check_numbers(kind, &list, (most, room))?;
        }
    }
    for room in 0..=few {
        check_linkage(Method::Single, &list, room)?;
        check_linkage(Method::Average, &list, room)?;
    }
    for length in 0..=pair_count(33) + 2 {
        for anchor in [0, n.saturating_sub(1), n] {
            check_anchored(ANCHORED, &list, anchor, length)?;
            check_anchored(BACK, &list, anchor, length)?;
        }
        let other = List {
            n,
            pairs: vec![value; length],
        };
        if length != list.pairs.len() {
            check_numbers(1, &other, (most, most))?;
            check_linkage(Method::Single, &other, few)?;
            check_linkage(Method::Average, &other, few)?;
            check_anchored(ANCHORED, &other, 0, MOST_PAIRS)?;
            check_anchored(BACK, &other, 0, MOST_PAIRS)?;
            for entry in [0, n.saturating_sub(1), n, usize::MAX] {
                check_score(&other, entry, 0)?;
                check_score(&other, 0, entry)?;
            }
        }
    }
    Ok(())
}

// ------------------------------------------------------------ Two calls each

/// The distances once more, at every anchor.
fn there_and_back(random: &mut Random, lists: usize) -> Result<(), String> {
    for _ in 0..lists {
        let list = lists::distances(random);
        for anchor in 0..list.n {
            let back = back_again(&list, anchor);
            if back.as_ref() != Some(&list.pairs) {
                return Err(format!("{back:?}; anchor {anchor}, {list:?}"));
            }
        }
    }
    Ok(())
}

fn back_again(list: &List, anchor: usize) -> Option<Vec<i32>> {
    let scores = anchored(list, anchor)?;
    let mut back = vec![0; scores.len()];
    let count = calls::distances_back(list.n, anchor, &scores, &mut back);
    (count == back.len() as i64).then_some(back)
}

fn anchored(list: &List, anchor: usize) -> Option<Vec<i32>> {
    let mut scores = vec![0; list.pairs.len()];
    let count = calls::anchored_scores(list.n, anchor, &list.pairs, &mut scores);
    (count == scores.len() as i64).then_some(scores)
}

/// What the calls say of a list is what they say of it in another order.
fn reorderings(random: &mut Random, lists: usize) -> Result<(), String> {
    for _ in 0..lists {
        let n = generate::entries(random);
        let (kind, table) = generate::good(random, n);
        for p in [(0..n).rev().collect(), generate::order(random, n)] {
            reordered(kind, &table, &p)
                .map_err(|message| format!("{message}; kind {kind}, {p:?}, {table:?}"))?;
        }
    }
    Ok(())
}

fn reordered(kind: i32, table: &Table, p: &[usize]) -> Result<(), String> {
    let (old, new) = (List::of(table), List::of(&table.reordered(p)));
    let mut images = found(kind, &old).ok_or("refused")?;
    for group in &mut images {
        group.0 = image(kind, p, group.0);
    }
    images.sort_unstable_by_key(|&(set, _)| (set.count_ones(), set));
    if found(kind, &new) != Some(images) {
        return Err("other groups".into());
    }
    for method in [Method::Single, Method::Average] {
        if engine::unscored(&old.pairs) > 0 {
            break;
        }
        let merged = merged(method, &old)?;
        let images: Vec<u32> = merged.iter().map(|&set| image(1, p, set)).collect();
        if !engine::is_tree(method, new.n, &new.pairs, &images) {
            return Err(format!("{method:?}: no tree of the other"));
        }
    }
    for a in 0..old.n {
        for b in 0..old.n {
            let there = score(&new, p[a], p[b]);
            if there.is_none() || score(&old, a, b) != there {
                return Err(format!("another score of {a} and {b}"));
            }
        }
        if kind == 3 && !same_anchored(&old, &new, a, p) {
            return Err(format!("other scores anchored at {a}"));
        }
    }
    Ok(())
}

fn score(list: &List, a: usize, b: usize) -> Option<i64> {
    let mut score = [0];
    let answer = calls::score(list.n, &list.pairs, a, b, &mut score);
    (answer == 0).then_some(score[0])
}

fn same_anchored(old: &List, new: &List, anchor: usize, p: &[usize]) -> bool {
    let (here, there) = match (anchored(old, anchor), anchored(new, p[anchor])) {
        (Some(here), Some(there)) => (here, there),
        _ => return false,
    };
    let at = |scores: &[i32], a, b| engine::score(old.n, scores, a, b);
    (0..old.n).all(|a| (0..=a).all(|b| at(&here, a, b) == at(&there, p[a], p[b])))
}

/// The merged blocks, as a linkage call writes them.
pub fn merged(method: Method, list: &List) -> Result<Vec<u32>, String> {
    let mut merged = vec![0; list.n - 1];
    match linkage_call(method)(list.n, &list.pairs, &mut merged) {
        0.. => Ok(merged),
        minus => Err(format!("{method:?}: refused {}", -minus)),
    }
}

/// The groups and their indices, as the numbers call writes them.
pub fn found(kind: i32, list: &List) -> Option<Vec<(u32, i64)>> {
    let (mut sets, mut indices) = (vec![0; 2 * list.n], vec![0; 2 * list.n]);
    let count = calls::numbers(kind, list.n, &list.pairs, &mut sets, &mut indices);
    let groups = sets.into_iter().zip(indices);
    Some(groups.take(usize::try_from(count).ok()?).collect())
}

/// The sheets of the bench, read; what stands in the listing is what the
/// numbers call writes, and a value that is refused there is refused here.
fn bench_cases() -> Result<(), String> {
    for (kind, sheet, answer) in bench::cases() {
        let mut pairs = vec![0; MOST_PAIRS];
        let read = calls::pair_list(sheet.as_bytes(), &mut pairs);
        let n = usize::try_from(read).unwrap_or(0);
        pairs.truncate(pair_count(n));
        let list = List { n, pairs };
        let same = match &answer {
            Ok(lines) => {
                let wanted = parse_listing(&format!("set size index\n{lines}"));
                wanted.is_some() && found(kind, &list) == wanted
            }
            Err(number @ (11 | 16 | 12)) => {
                let (mut sets, mut indices) = (vec![0; 2 * n], vec![0; 2 * n]);
                -number == calls::numbers(kind, n, &list.pairs, &mut sets, &mut indices)
            }
            Err(number) => -number == read,
        };
        if !same {
            return Err(format!("kind {kind}, wanted {answer:?}; sheet:\n{sheet}"));
        }
    }
    Ok(())
}
