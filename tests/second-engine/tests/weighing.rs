//! The comparison of weights accepts an engine that is right and rejects ones
//! that are not.

use second_engine::engine::{numbers, GREATEST, SPLITS, UNSCORED};
use second_engine::generate::{distances, entries, order, Random};
use second_engine::refined::weight;
use second_engine::weighing::{
    any_side, cases, check_list, check_order, compare, flawed, is_compatible, is_weighed, listed,
    splits, Expected, Found, Given, OF_A_WEIGHT,
};

const CASES: usize = 2_000;

fn right(n: usize, pairs: &[i32], side: u32) -> Given {
    match weight(n, pairs, side) {
        Ok(weight) => Ok((0, weight)),
        Err(number) => Ok((number, 0)),
    }
}

#[test]
fn a_right_engine_passes() {
    let met = compare("itself", right, cases(11).take(CASES)).unwrap();
    assert!(met.tally.listings > 500, "{met:?}");
    assert!(met.signs.iter().all(|&count| count > 30), "{met:?}");
    assert!(met.equal > 100, "{met:?}");
    for number in OF_A_WEIGHT {
        assert!(met.tally.refusals[number] >= 10, "{number}: {met:?}");
    }
}

fn rejected(name: &str, other: impl Fn(usize, &[i32], u32) -> Given) {
    let answer = compare(name, other, cases(11).take(CASES));
    assert!(answer.is_err(), "{name} passes");
}

// ------------------------------------------------------- Another reading

type Summed = fn(usize, Vec<i64>) -> i64;

/// How the weight is found: which entries make a quartet, which of the two sums
/// across is taken, which of the scores are summed.
struct Reading {
    /// Whether two entries, in this order, are a pair.
    pair: fn(usize, usize) -> bool,
    across: fn(i64, i64) -> i64,
    summed: Summed,
}

const RIGHT: Reading = Reading {
    pair: |a, b| a < b,
    across: |one, other| one.min(other),
    summed: |n, scores| smallest(scores, n - 3),
};

fn smallest(mut scores: Vec<i64>, count: usize) -> i64 {
    scores.sort_unstable();
    scores.iter().take(count).sum()
}

/// An engine that refuses as it should, but weighs by this reading.
fn by(reading: Reading) -> impl Fn(usize, &[i32], u32) -> Given {
    move |n, pairs, side| {
        let (number, _) = right(n, pairs, side)?;
        if number != 0 {
            return Ok((number, 0));
        }
        let d = |a: usize, b: usize| {
            let (row, column) = (a.max(b), a.min(b));
            i64::from(pairs[row * (row + 1) / 2 + column])
        };
        let two = |on: u32| {
            let all = (0..n).flat_map(|a| (0..n).map(move |b| (a, b)));
            all.filter(|&(a, b)| (reading.pair)(a, b))
                .filter(|(a, b)| side >> a & 1 == on && side >> b & 1 == on)
                .collect::<Vec<_>>()
        };
        let mut scores = Vec::new();
        for (a, a2) in two(1) {
            for (b, b2) in two(0) {
                let across = (reading.across)(d(a, b) + d(a2, b2), d(a, b2) + d(a2, b));
                scores.push(across - d(a, a2) - d(b, b2));
            }
        }
        Ok((0, (reading.summed)(n, scores)))
    }
}

#[test]
fn the_reading_alone_is_right() {
    compare("by quartets", by(RIGHT), cases(11).take(CASES)).unwrap();
}

#[test]
fn other_readings_do_not_pass() {
    let other = |name, reading| rejected(name, by(reading));
    other(
        "equal members",
        Reading {
            pair: |a, b| a <= b,
            ..RIGHT
        },
    );
    other(
        "each quartet four times",
        Reading {
            pair: |a, b| a != b,
            ..RIGHT
        },
    );
    other(
        "the larger sum",
        Reading {
            across: |one, other| one.max(other),
            ..RIGHT
        },
    );
    other(
        "one of the sums",
        Reading {
            across: |one, _| one,
            ..RIGHT
        },
    );
    let summed: [(&str, Summed); 7] = [
        ("n - 2 scores", |n, scores| smallest(scores, n - 2)),
        ("n - 4 scores", |n, scores| smallest(scores, n - 4)),
        ("the least score", |_, scores| smallest(scores, 1)),
        ("the least n - 3 times", |n, scores| {
            smallest(scores, 1) * (n as i64 - 3)
        }),
        ("different scores only", |n, mut scores| {
            scores.sort_unstable();
            scores.dedup();
            smallest(scores, n - 3)
        }),
        ("the first scores", |n, scores| {
            scores.iter().take(n - 3).sum()
        }),
        ("the greatest scores", |n, mut scores| {
            scores.sort_unstable_by_key(|score| -score);
            scores.iter().take(n - 3).sum()
        }),
    ];
    for (name, summed) in summed {
        other(name, Reading { summed, ..RIGHT });
    }
}

// ---------------------------------------------------------- Other answers

/// An engine that is right, but for what it makes of its answers.
fn answered(change: impl Fn(i64, i64) -> (i64, i64)) -> impl Fn(usize, &[i32], u32) -> Given {
    move |n, pairs, side| right(n, pairs, side).map(|(number, weight)| change(number, weight))
}

#[test]
fn other_answers_do_not_pass() {
    rejected("refuses all", |_, _, _| Ok((19, 0)));
    rejected("weighs nothing", answered(|number, _| (number, 0)));
    let clipped = answered(|number, weight| (number, weight.max(0)));
    rejected("no weight below 0", clipped);
    let minus = answered(|number, weight| (-number, weight));
    rejected("minus the number", minus);
    let refused = answered(|number, weight| match (number, weight) {
        (0, weight) if weight <= 0 => (19, 0),
        given => given,
    });
    rejected("19 for weights of 0 or less", refused);
    let left = answered(|number, weight| {
        if number == 0 {
            (0, weight)
        } else {
            (number, -1)
        }
    });
    rejected("a weight beside a refusal", left);
    rejected("something else was written", |_, _, _| Err("slot 1".into()));
}

/// An engine that is right but for one of its checks, which it leaves out or makes
/// in another place.
#[test]
fn other_checks_do_not_pass() {
    let members = |n: usize, side: u32| (0..n.min(32)).filter(|a| side >> a & 1 == 1).count();
    rejected("19 of the side handed in only", |n, pairs, side| {
        let (number, weight) = right(n, pairs, side)?;
        let many = number == 19 && members(n, side) >= 2 && u64::from(side) >> n == 0;
        Ok(if many { (0, 0) } else { (number, weight) })
    });
    rejected("members beyond are not seen", |n, pairs, side| {
        right(n, pairs, side & ((1u64 << n.min(32)) - 1) as u32)
    });
    rejected("12 before 16", |n, pairs, side| {
        let scored: Vec<i32> = pairs
            .iter()
            .map(|&value| if value == UNSCORED { 0 } else { value })
            .collect();
        match (right(n, pairs, side)?.0, right(n, &scored, side)?.0) {
            (16, 12) => Ok((12, 0)),
            _ => right(n, pairs, side),
        }
    });
    rejected("16 before 11", |n, pairs, side| {
        match right(n, pairs, side)?.0 {
            11 if pairs.contains(&UNSCORED) => Ok((16, 0)),
            _ => right(n, pairs, side),
        }
    });
    rejected("the mark as a distance", |n, pairs, side| {
        match right(n, pairs, side)?.0 {
            16 => Ok((12, 0)),
            _ => right(n, pairs, side),
        }
    });
    for late in [6, 10, 11, 12, 16] {
        rejected("19 first", move |n, pairs, side| {
            let number = right(n, pairs, side)?.0;
            let wrong = n <= 32 && !is_weighed(n, side);
            match number == late && wrong {
                true => Ok((19, 0)),
                false => right(n, pairs, side),
            }
        });
    }
    rejected("own distances are not looked at", |n, pairs, side| {
        let own = |place: &usize| (0..40).any(|a| a * (a + 3) / 2 == *place);
        let mut other = pairs.to_vec();
        (0..pairs.len())
            .filter(own)
            .filter(|&place| (-GREATEST..=GREATEST).contains(&pairs[place]))
            .for_each(|place| other[place] = 0);
        right(n, &other, side)
    });
}

// ------------------------------------------------------------ The refusals

/// Every choice of refusals at once; the first of them is answered, as those who
/// made the call say.
#[test]
fn calls_that_are_made_to_be_refused() {
    let mut random = Random::new(5);
    for choice in 1..1 << OF_A_WEIGHT.len() {
        for _ in 0..20 {
            let (case, number) = flawed(&mut random, Some(choice));
            let expected = Expected::of(case.clone());
            assert_eq!(expected.number, number, "{choice:b}: {case:?}");
            assert_eq!(expected.weight(), 0);
        }
    }
}

// --------------------------------------------- What is said of the weights

#[test]
fn splits_that_cross() {
    // Of four entries any two splits of two and two.
    assert!(!is_compatible(4, 0b0011, 0b0101));
    assert!(!is_compatible(4, 0b0011, 0b0110));
    assert!(is_compatible(4, 0b0011, 0b1100));
    assert!(is_compatible(6, 0b000011, 0b000111));
    assert!(is_compatible(6, 0b000011, 0b011100));
    assert!(is_compatible(6, 0b110011, 0b001111));
    assert!(!is_compatible(6, 0b000111, 0b001110));
    assert!(is_weighed(4, 0b0011) && is_weighed(32, 0xffff_fffc));
    assert!(!is_weighed(4, 0b0111) && !is_weighed(4, 0b10011) && !is_weighed(3, 0b011));
}

fn lines(n: usize, pairs: &[i32]) -> Vec<(u32, i64)> {
    let (mut sets, mut indices) = (vec![0; 2 * n], vec![0; 2 * n]);
    let count = numbers(SPLITS, n, pairs, &mut sets, &mut indices).unwrap();
    sets.into_iter().zip(indices).take(count).collect()
}

/// An engine's weights, of which only the answer counts.
fn run(lists: usize, other: impl Fn(usize, &[i32], u32) -> Given) -> Result<Found, String> {
    let mut random = Random::new(7);
    let mut found = Found::default();
    for _ in 0..lists {
        let n = entries(&mut random).min(10);
        let table = distances(&mut random, n);
        let pairs = table.pairs();
        let weigh = |pairs: &[i32], side| match other(n, pairs, side)? {
            (0, weight) => Ok(weight),
            (number, _) => Err(format!("refused {number}")),
        };
        let lines = lines(n, &pairs);
        let sides = splits(&mut random, n, &lines);
        found.add(check_list(|side| weigh(&pairs, side), n, &lines, &sides)?);
        let side = any_side(&mut random, n, &listed(n, &pairs));
        if is_weighed(n, side) {
            check_order(weigh, &table, &order(&mut random, n), side)?;
        }
    }
    Ok(found)
}

#[test]
fn what_is_said_of_weights_is_seen() {
    let found = run(300, right).unwrap();
    assert!(found.has_all(), "{found:?}");
    for (name, change) in [
        (
            "all are positive",
            (|_, weight: i64| weight.abs() + 1) as fn(u32, i64) -> i64,
        ),
        ("none is positive", |_, weight| weight.min(0)),
        ("less than its index", |_, weight| weight - 1),
        ("one side more than the other", |side, weight| {
            weight + i64::from(side & 1)
        }),
    ] {
        let other = |n: usize, pairs: &[i32], side| {
            right(n, pairs, side).map(|(number, weight)| (number, change(side, weight)))
        };
        assert!(run(300, other).is_err(), "{name} passes");
    }
    let larger = by(Reading {
        across: |one, other| one.max(other),
        ..RIGHT
    });
    assert!(run(300, larger).is_err(), "the larger sum passes");
    let fewer = by(Reading {
        summed: |n, scores| smallest(scores, n - 4),
        ..RIGHT
    });
    assert!(run(300, fewer).is_err(), "n - 4 scores pass");
    // What depends on the order of the entries.
    let first = by(Reading {
        across: |one, _| one,
        ..RIGHT
    });
    assert!(run(300, first).is_err(), "one of the sums passes");
}
