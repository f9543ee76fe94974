//! The comparison of pools accepts an engine that is right and rejects ones that
//! are not.

use second_engine::engine::{listing, read};
use second_engine::generate::{Random, Table, FAR, MARK};
use second_engine::pool::{pool, refusal};
use second_engine::pooling::{
    cases, check_groups, compare, tables, MOST_BYTES, OF_A_POOL, OF_A_SHEET,
};

const CASES: usize = 3_000;

#[test]
fn a_right_engine_passes() {
    let met = compare("itself", pool, cases(11).take(CASES)).unwrap();
    assert!(met.pool.listings > 500, "{met:?}");
    assert!(met.both > 100, "{met:?}");
    for number in OF_A_SHEET {
        assert!(met.first.refusals[number] >= 10, "{number}: {met:?}");
        assert!(met.second.refusals[number] >= 10, "{number}: {met:?}");
    }
    for number in OF_A_POOL {
        assert!(met.pool.refusals[number] >= 10, "{number}: {met:?}");
    }
}

fn rejected(name: &str, other: impl Fn(&[u8], &[u8], &mut [u8]) -> i64) {
    assert!(
        compare(name, other, cases(11).take(CASES)).is_err(),
        "{name} passes"
    );
}

/// The names and the values of a sheet that is read.
fn parts(sheet: &[u8]) -> Table {
    let mut pairs = [0; 528];
    let n = read(sheet, &mut pairs).unwrap();
    let text = std::str::from_utf8(sheet).unwrap();
    let line = text.lines().next().unwrap();
    let at = |a: usize, b: usize| pairs[a.max(b) * (a.max(b) + 1) / 2 + a.min(b)].into();
    Table {
        names: line.split(' ').map(String::from).collect(),
        values: (0..n).map(|a| (0..n).map(|b| at(a, b)).collect()).collect(),
    }
}

/// The value of a pair in the pool, by its two values and whether it is an own pair.
type Sum = fn(i64, i64, bool) -> i64;

/// An engine that is right, but that pools by these sums; the second sheet's
/// values go by their names or by their places.
fn with_sums(by_name: bool, sum: Sum) -> impl Fn(&[u8], &[u8], &mut [u8]) -> i64 {
    move |first, second, out| match pool(first, second, &mut vec![0; out.len()]) {
        0.. => {
            let (mut one, other) = (parts(first), parts(second));
            let find = |name| other.names.iter().position(|x| x == name).unwrap();
            let place: Vec<usize> = match by_name {
                true => one.names.iter().map(find).collect(),
                false => (0..one.entries()).collect(),
            };
            for a in 0..one.entries() {
                for b in 0..=a {
                    let added = other.values[place[a]][place[b]];
                    one.set(a, b, sum(one.values[a][b], added, a == b));
                }
            }
            let sheet = one.sheet();
            match out.get_mut(..sheet.len()) {
                Some(room) => room.copy_from_slice(&sheet),
                None => return -14,
            }
            sheet.len() as i64
        }
        minus => minus,
    }
}

/// The sum, or the mark where either is.
fn right(score: i64, added: i64, _: bool) -> i64 {
    match (score, added) {
        (MARK, _) | (_, MARK) => MARK,
        _ => score + added,
    }
}

#[test]
fn right_sums_pass() {
    compare("right", with_sums(true, right), cases(11).take(CASES)).unwrap();
}

#[test]
fn wrong_sums_do_not() {
    rejected("by their places", with_sums(false, right));
    let wrong: [(&str, Sum); 8] = [
        (
            "halves are cut off the sum",
            |score, added, own| match right(score, added, own) {
                MARK => MARK,
                sum => sum / 2 * 2,
            },
        ),
        ("halves are cut off each", |score, added, own| {
            match right(score, added, own) {
                MARK => MARK,
                _ => score / 2 * 2 + added / 2 * 2,
            }
        }),
        (
            "the half of the first alone",
            |score, added, own| match right(score, added, own) {
                MARK => MARK,
                _ => score + added / 2 * 2,
            },
        ),
        ("the larger", |score, added, own| {
            match right(score, added, own) {
                MARK => MARK,
                _ => score.max(added),
            }
        }),
        (
            "a mark and a score make the score",
            |score, added, own| match (score, added) {
                (MARK, score) | (score, MARK) => score,
                _ => right(score, added, own),
            },
        ),
        (
            "a mark on the second is 0",
            |score, added, own| match added {
                MARK => score,
                _ => right(score, added, own),
            },
        ),
        (
            "a mark on the first is 0",
            |score, added, own| match score {
                MARK => added,
                _ => right(score, added, own),
            },
        ),
        (
            "own scores are not added",
            |score, added, own| match right(score, added, own) {
                sum if sum != MARK && own => score,
                sum => sum,
            },
        ),
    ];
    for (name, sum) in wrong {
        rejected(name, with_sums(true, sum));
    }
}

/// The pool with its text changed.
fn written_otherwise(
    first: &[u8],
    second: &[u8],
    out: &mut [u8],
    change: impl Fn(String) -> String,
) -> i64 {
    let mut bytes = vec![0; MOST_BYTES];
    let length = match usize::try_from(pool(first, second, &mut bytes)) {
        Ok(length) => length,
        Err(_) => return pool(first, second, out),
    };
    let text = change(String::from_utf8_lossy(&bytes[..length]).into());
    match out.get_mut(..text.len()) {
        Some(room) => room.copy_from_slice(text.as_bytes()),
        None => return -14,
    }
    text.len() as i64
}

fn doubled_text(cell: &str) -> String {
    match cell.parse::<f64>() {
        Ok(points) => (2.0 * points).to_string(),
        Err(_) => cell.into(),
    }
}

#[test]
fn wrong_bytes_do_not_pass() {
    rejected("refuses all", |_, _, _| -2);
    rejected("the names of the second", |first, second, out| {
        pool(second, first, out)
    });
    rejected("a line feed less", |first, second, out| {
        pool(first, second, out) - 1
    });
    rejected("a half as 0.50", |first, second, out| {
        written_otherwise(first, second, out, |text| text.replace(".5", ".50"))
    });
    rejected("no 0 before the point", |first, second, out| {
        written_otherwise(first, second, out, |text| {
            text.replace(" 0.5", " .5").replace("-0.5", "-.5")
        })
    });
    rejected("in half points", |first, second, out| {
        written_otherwise(first, second, out, |text| {
            let (line_1, values) = text.split_once('\n').unwrap();
            let doubled = values.lines().map(|line| {
                let cells = line.split(' ').map(doubled_text);
                cells.collect::<Vec<_>>().join(" ") + "\n"
            });
            format!("{line_1}\n{}", doubled.collect::<String>())
        })
    });
    rejected("the first's length", |first, second, out| {
        match pool(first, second, out) {
            0.. => first.len() as i64,
            minus => minus,
        }
    });
    rejected("buffer untouched", |first, second, out| {
        pool(first, second, &mut vec![0; out.len()])
    });
    rejected("a byte behind the pool", |first, second, out| {
        let length = pool(first, second, out);
        if let Some(byte) = usize::try_from(length).ok().and_then(|at| out.get_mut(at)) {
            *byte = 0;
        }
        length
    });
    rejected("writes before 14", |first, second, out| {
        let answer = pool(first, second, out);
        if answer == -14 && !out.is_empty() {
            out[0] = first[0];
        }
        answer
    });
}

/// Sets of names that differ, as far as line 1 tells.
fn other_names(first: &[u8], second: &[u8]) -> bool {
    let [mut one, mut other] = [first, second].map(|sheet| {
        let line: &[u8] = sheet.split(|&byte| byte == b'\n').next().unwrap_or(&[]);
        line.split(|&byte| byte == b' ').collect::<Vec<_>>()
    });
    one.sort();
    other.sort();
    one != other
}

#[test]
fn refusals_in_another_order_do_not_pass() {
    rejected(
        "the second is judged first",
        |first, second, out| match pool(second, first, &mut vec![0; out.len()]) {
            number @ -11..=-1 => number,
            _ => pool(first, second, out),
        },
    );
    rejected(
        "17 before the second is judged",
        |first, second, out| match pool(first, second, out) {
            -11..=-1 if refusal(first) == 0 && other_names(first, second) => -17,
            answer => answer,
        },
    );
    rejected(
        "the second's 11 after 17",
        |first, second, out| match pool(first, second, out) {
            -11 if refusal(first) == 0 && other_names(first, second) => -17,
            answer => answer,
        },
    );
    rejected("no 11 of the second", |first, second, out| {
        match pool(first, second, out) {
            -11 if refusal(first) == 0 => -18,
            answer => answer,
        }
    });
    for later in [17, 18] {
        rejected("14 before this number", |first, second, out| {
            match pool(first, second, out) {
                number if number == -later && out.len() < first.len() => -14,
                answer => answer,
            }
        });
    }
    rejected("18 from a mark", |first, second, out| {
        match pool(first, second, out) {
            0.. if [first, second].iter().any(|sheet| marked(sheet)) => -18,
            answer => answer,
        }
    });
    rejected("no 18", |first, second, out| {
        match pool(first, second, out) {
            -18 => -14,
            answer => answer,
        }
    });
    rejected("no 18 for half a point", |first, second, out| {
        match pool(first, second, out) {
            -18 if greatest_sum(first, second) == FAR + 1 => -14,
            answer => answer,
        }
    });
    rejected(
        "18 at the end of the range",
        |first, second, out| match pool(first, second, out) {
            0.. if greatest_sum(first, second) == FAR => -18,
            answer => answer,
        },
    );
    rejected(
        "18 half a point before it",
        |first, second, out| match pool(first, second, out) {
            0.. if greatest_sum(first, second) == FAR - 1 => -18,
            answer => answer,
        },
    );
    rejected("fewer names are enough", |first, second, out| {
        match pool(first, second, out) {
            -17 if parts(first).names.len() < parts(second).names.len() => -14,
            answer => answer,
        }
    });
}

/// The greatest sum of two scores, without its sign.
fn greatest_sum(first: &[u8], second: &[u8]) -> i64 {
    let (one, other) = (parts(first), parts(second));
    let place = |name| other.names.iter().position(|x| x == name).unwrap();
    let places: Vec<usize> = one.names.iter().map(place).collect();
    let sums = (0..one.entries()).flat_map(|a| {
        let (one, other, places) = (&one, &other, &places);
        (0..=a).map(move |b| right(one.values[a][b], other.values[places[a]][places[b]], a == b))
    });
    let scored = sums.filter(|&sum| sum != MARK).map(i64::abs);
    scored.max().unwrap_or(0)
}

fn marked(sheet: &[u8]) -> bool {
    parts(sheet).values.concat().contains(&MARK)
}

// ---------------------------------------------------------------- The groups

type Pool = dyn Fn(&[u8], &[u8], &mut [u8]) -> i64;

#[test]
fn pools_that_lose_a_group_are_seen() {
    let mut random = Random::new(3);
    let pairs: Vec<[Vec<u8>; 2]> = (0..200)
        .map(|_| tables(&mut random, 5).map(|table| table.sheet()))
        .filter(|[first, second]| pool(first, second, &mut [0; MOST_BYTES]) >= 0)
        .collect();
    let passes = |other: &Pool| {
        let mut each = pairs.iter();
        each.all(|[first, second]| check_groups(listing, other, [first, second]).is_ok())
    };
    assert!(passes(&pool));
    // The first sheet for the pool, and its names with the second's scores.
    assert!(!passes(&|first, _, out| pool(first, &zero(first), out)));
    assert!(!passes(&with_sums(false, |_, added, _| added)));
}

/// The sheet with 0 for every value, marks too.
fn zero(sheet: &[u8]) -> Vec<u8> {
    let mut table = parts(sheet);
    table
        .values
        .iter_mut()
        .flatten()
        .for_each(|value| *value = 0);
    table.sheet()
}
