//! The comparison accepts an engine that is right and rejects ones that are not.

use second_engine::compare::{check, compare, Case, Expected, SHEET_REFUSALS};
use second_engine::engine::{in_points, listing, read, GREATEST, UNSCORED};
use second_engine::generate::{cases, pointed, Random, BY_POINTS, MALFORMED_HALVES};
use second_engine::halves::check_whole;
use std::sync::Mutex;

const CASES: usize = 3_000;

type Kept = Mutex<Option<&'static [Expected]>>;

/// What is kept, found the first time.
fn once(kept: &Kept, find: impl FnOnce() -> Vec<Expected>) -> &'static [Expected] {
    let mut kept = kept.lock().unwrap();
    *kept.get_or_insert_with(|| Box::leak(find().into_boxed_slice()))
}

/// The calls and their answers, found once.
fn expected() -> &'static [Expected] {
    static ALL: Kept = Mutex::new(None);
    once(&ALL, || cases(11).take(CASES).map(Expected::of).collect())
}

fn passes(calls: &[Expected], other: impl Fn(i32, &[u8], &mut [u8]) -> i64) -> bool {
    let mut calls = calls.iter();
    calls.all(|expected| check("other", &other, expected).is_ok())
}

fn rejected(name: &str, other: impl Fn(i32, &[u8], &mut [u8]) -> i64) {
    assert!(!passes(expected(), other), "{name} passes");
}

#[test]
fn a_right_engine_passes() {
    let tally = compare("itself", listing, cases(11).take(CASES)).unwrap();
    assert_eq!(tally.calls(), CASES as u64);
    assert!(tally.listings > 300);
    for number in SHEET_REFUSALS {
        assert!(tally.refusals[number] >= 10, "{number}: {tally:?}");
    }
}

#[test]
fn wrong_engines_do_not() {
    rejected("refuses all", |_, _, _| -1);
    rejected("no group", |kind, sheet, out| {
        match listing(kind, sheet, &mut vec![0; out.len()]) {
            length if length > 0 => {
                out[..15].copy_from_slice(b"set size index\n");
                15
            }
            minus => minus,
        }
    });
    rejected("buffer untouched", |kind, sheet, out| {
        listing(kind, sheet, &mut vec![0; out.len()])
    });
    rejected("zero after the listing", |kind, sheet, out| {
        let length = listing(kind, sheet, out);
        if length > 0 && out.len() > length as usize {
            out[length as usize] = 0;
        }
        length
    });
    rejected("writes before 14", |kind, sheet, out| {
        let answer = listing(kind, sheet, out);
        if answer == -14 && !out.is_empty() {
            out[0] = b's';
        }
        answer
    });
    rejected("last line feed missing", |kind, sheet, out| {
        listing(kind, sheet, out) - 1
    });
    rejected("8 before 7", |kind, sheet, out| {
        match listing(kind, sheet, out) {
            -7 => -8,
            answer => answer,
        }
    });
    rejected("kind 3 as kind 1", |kind, sheet, out| {
        listing(if kind == 3 { 1 } else { kind }, sheet, out)
    });
}

/// Whatever byte stood there before, one of any value is seen.
#[test]
fn a_byte_after_the_listing_does_not_pass() {
    let case = Case {
        kind: 3,
        sheet: b"A B\n0 5\n5 0\n".to_vec(),
        room: 40,
    };
    for byte in 0..=255 {
        let other = |kind, sheet: &[u8], out: &mut [u8]| {
            let length = listing(kind, sheet, out);
            out[length as usize] = byte;
            length
        };
        let error = compare("other", other, [case.clone()]).unwrap_err();
        assert!(error.contains("byte 29 of the buffer"), "{error}");
    }
}

/// One byte before the buffer or after it; the guard bytes lie there.
#[test]
fn writing_outside_the_buffer_does_not_pass() {
    for (name, before) in [("before", true), ("after", false)] {
        rejected(name, |kind, sheet, out| {
            let length = listing(kind, sheet, out);
            // Within the same allocation, as the guard bytes are.
            unsafe {
                let first = std::ptr::read_volatile(&out.as_mut_ptr());
                let outside = if before {
                    first.sub(1)
                } else {
                    first.add(out.len())
                };
                outside.write(0);
            }
            length
        });
    }
}

// ----------------------------------------------------------- Unscored pairs

/// The sheet with another text in place of one that stands as a value.
fn replaced(sheet: &[u8], old: &str, new: &str) -> Vec<u8> {
    let mut text = String::from_utf8_lossy(sheet).into_owned();
    for (before, after) in [(' ', ' '), (' ', '\n'), ('\n', ' '), ('\n', '\n')] {
        let old = format!("{before}{old}{after}");
        while text.contains(&old) {
            text = text.replace(&old, &format!("{before}{new}{after}"));
        }
    }
    text.into_bytes()
}

/// The pair list of a sheet that is read and has unscored pairs.
fn unscored_list(sheet: &[u8]) -> Option<(usize, Vec<i32>)> {
    let mut pairs = vec![0; 528];
    let n = read(sheet, &mut pairs).ok()?;
    pairs.truncate(n * (n + 1) / 2);
    pairs.contains(&UNSCORED).then_some((n, pairs))
}

/// A term of a strong index: whether it is of one member twice, the pair within
/// and the pair across. None leaves it out.
type Term = fn(bool, i32, i32) -> Option<i64>;

fn difference(mark_within: i32, mark_across: i32, within: i32, across: i32) -> Option<i64> {
    let or = |pair, score| if pair == UNSCORED { score } else { pair };
    Some(i64::from(or(within, mark_within)) - i64::from(or(across, mark_across)))
}

fn strong_listing(n: usize, pairs: &[i32], term: Term) -> Vec<u8> {
    let at = |a: usize, b: usize| pairs[a.max(b) * (a.max(b) + 1) / 2 + a.min(b)];
    let index = |set: u32| {
        let (inside, outside): (Vec<usize>, Vec<usize>) = (0..n).partition(|a| set >> a & 1 == 1);
        let each = |a: usize, b: usize| outside.iter().map(move |&x| (a, b, x));
        let terms = inside
            .iter()
            .flat_map(|&a| inside.iter().flat_map(move |&b| each(a, b)))
            .filter_map(|(a, b, x)| term(a == b, at(a, b), at(a, x)));
        terms.min().unwrap_or(0)
    };
    let mut sets: Vec<u32> = (1..(1 << n) - 1).filter(|&set| index(set) >= 1).collect();
    sets.sort_unstable_by_key(|set| (set.count_ones(), *set));
    let line = |set: u32| {
        let (size, points) = (set.count_ones(), in_points(index(set)));
        format!("{set:08x} {size} {points}\n")
    };
    let lines: String = sets.into_iter().map(line).collect();
    format!("set size index\n{lines}").into_bytes()
}

/// An engine that is right, but that has these terms where kind 1 lists a sheet of
/// few entries with unscored pairs.
fn with_terms(term: Term) -> impl Fn(i32, &[u8], &mut [u8]) -> i64 {
    move |kind, sheet, out| match unscored_list(sheet) {
        Some((n, pairs)) if kind == 1 && n <= 9 && listing(1, sheet, &mut [0; 4096]) >= 0 => {
            let text = strong_listing(n, &pairs, term);
            match out.get_mut(..text.len()) {
                Some(room) => room.copy_from_slice(&text),
                None => return -14,
            }
            text.len() as i64
        }
        _ => listing(kind, sheet, out),
    }
}

/// The lowest score within and the greatest across.
#[test]
fn right_terms_pass() {
    let right = with_terms(|_, within, across| difference(-GREATEST, GREATEST, within, across));
    assert!(passes(expected(), right));
}

#[test]
fn wrong_terms_do_not() {
    let wrong: [(&str, Term); 9] = [
        ("the mark read as 0", |_, w, x| difference(0, 0, w, x)),
        ("the most over all fillings", |_, w, x| {
            difference(GREATEST, -GREATEST, w, x)
        }),
        ("the mark as the least score", |_, w, x| {
            difference(-GREATEST, -GREATEST, w, x)
        }),
        ("the mark as the greatest score", |_, w, x| {
            difference(GREATEST, GREATEST, w, x)
        }),
        ("the mark as its number", |_, w, x| {
            difference(UNSCORED, UNSCORED, w, x)
        }),
        ("unscored pairs left out", |_, w, x| {
            difference(0, 0, w, x).filter(|_| w != UNSCORED && x != UNSCORED)
        }),
        ("unscored pairs within left out", |_, w, x| {
            difference(0, GREATEST, w, x).filter(|_| w != UNSCORED)
        }),
        ("unscored pairs across left out", |_, w, x| {
            difference(-GREATEST, 0, w, x).filter(|_| x != UNSCORED)
        }),
        ("unscored own pairs left out", |own, w, x| {
            difference(-GREATEST, GREATEST, w, x).filter(|_| !own || w != UNSCORED)
        }),
    ];
    for (name, term) in wrong {
        rejected(name, with_terms(term));
    }
}

#[test]
fn marks_read_otherwise_do_not_pass() {
    rejected(
        "a lone minus is ill-formed",
        |kind, sheet, out| match unscored_list(sheet) {
            Some(_) if (1..=3).contains(&kind) => -8,
            _ => listing(kind, sheet, out),
        },
    );
    for text in ["-2147483648", "--", "-0"] {
        rejected(text, |kind, sheet, out| {
            listing(kind, &replaced(sheet, text, "-"), out)
        });
    }
    rejected(
        "one mirrored mark is enough",
        |kind, sheet, out| match listing(kind, sheet, out) {
            -9 => listing(kind, &mirrored(sheet), out),
            answer => answer,
        },
    );
    rejected(
        "a mark and a score may differ",
        |kind, sheet, out| match listing(kind, sheet, out) {
            -9 if replaced(sheet, "-", "0") != sheet => -16,
            answer => answer,
        },
    );
}

/// A well-formed sheet with the mark in both cells where it is in one.
fn mirrored(sheet: &[u8]) -> Vec<u8> {
    let text = std::str::from_utf8(sheet).unwrap();
    let mut lines: Vec<Vec<&str>> = text.lines().map(|line| line.split(' ').collect()).collect();
    let values = &mut lines[1..];
    let places = (0..values.len()).flat_map(|a| (0..a).map(move |b| (a, b)));
    for (a, b) in places {
        if values[a][b] == "-" || values[b][a] == "-" {
            (values[a][b], values[b][a]) = ("-", "-");
        }
    }
    let lines: Vec<String> = lines.iter().map(|line| line.join(" ") + "\n").collect();
    lines.concat().into_bytes()
}

#[test]
fn refusal_16_elsewhere_does_not_pass() {
    let as_zero =
        |kind, sheet: &[u8], out: &mut [u8]| listing(kind, &replaced(sheet, "-", "0"), out);
    rejected("16 for kind 1", |kind, sheet, out| {
        match listing(kind, sheet, out) {
            -14 | 0.. if kind == 1 && unscored_list(sheet).is_some() => -16,
            answer => answer,
        }
    });
    for open in [2, 3] {
        rejected("no 16 for this kind", |kind, sheet, out| {
            match listing(kind, sheet, out) {
                -16 if kind == open => as_zero(kind, sheet, out),
                answer => answer,
            }
        });
    }
    for later in [-12, -14] {
        rejected("16 after this number", |kind, sheet, out| {
            match listing(kind, sheet, out) {
                -16 if as_zero(kind, sheet, &mut vec![0; out.len()]) == later => later,
                answer => answer,
            }
        });
    }
    rejected("16 before 11", |kind, sheet, out| {
        match listing(kind, sheet, out) {
            -11 if kind > 1 && unscored_list(sheet).is_some() => -16,
            answer => answer,
        }
    });
}

// -------------------------------------------------------------- Half points

/// Calls that a point alone makes wrong.
fn pointed_calls() -> &'static [Expected] {
    static ALL: Kept = Mutex::new(None);
    once(&ALL, || {
        let mut random = Random::new(11);
        let numbers = BY_POINTS.iter().cycle().take(CASES / 2);
        let calls = numbers.map(|&number| pointed(&mut random, number));
        calls.map(Expected::of).collect()
    })
}

fn rejected_for_points(name: &str, other: impl Fn(i32, &[u8], &mut [u8]) -> i64) {
    assert!(!passes(pointed_calls(), other), "{name} passes");
}

/// The text without the bytes of halves.
fn without_halves(sheet: &[u8]) -> Vec<u8> {
    let text = String::from_utf8_lossy(sheet);
    text.replace(".5", "").into_bytes()
}

#[test]
fn every_refusal_by_a_point() {
    assert!(passes(pointed_calls(), listing));
    for number in BY_POINTS {
        let with = |call: &&Expected| call.answer == -(number as i64);
        assert!(pointed_calls().iter().filter(with).count() > 200);
    }
}

#[test]
fn values_with_a_point_read_otherwise_do_not_pass() {
    rejected("3 for a point", |kind, sheet, out| {
        match listing(kind, sheet, out) {
            -1 => -1,
            -2 => -2,
            _ if sheet.contains(&b'.') => -3,
            answer => answer,
        }
    });
    rejected("halves are cut off", |kind, sheet, out| {
        listing(kind, &without_halves(sheet), out)
    });
    for (text, taken) in [
        ("0.5", "0"),
        ("0.5", "1"),
        ("-0.5", "0.5"),
        ("-0.5", "0"),
        ("-0.5", "-0"),
        ("1000000.5", "1000000"),
        ("-1000000.5", "-1000000"),
        ("9999999.5", "99999999"),
    ] {
        rejected_for_points(text, |kind, sheet, out| {
            listing(kind, &replaced(sheet, text, taken), out)
        });
    }
    for text in MALFORMED_HALVES {
        rejected_for_points(text, |kind, sheet, out| {
            listing(kind, &replaced(sheet, text, "0.5"), out)
        });
    }
}

#[test]
fn refusals_by_a_point_elsewhere_do_not_pass() {
    rejected_for_points("3 for a point in line 1", |kind, sheet, out| match listing(
        kind, sheet, out,
    ) {
        -4 => -3,
        answer => answer,
    });
    for (number, name) in [
        (-7, "points behind the last line are passed over"),
        (-8, "an ill-formed half is taken"),
        (-9, "half a point does not differ"),
        (-11, "half a point beyond the range"),
        (-12, "half a point is no distance's flaw"),
    ] {
        rejected_for_points(name, |kind, sheet, out| match listing(kind, sheet, out) {
            given if given == number => listing(kind, b"A\n0\n", out),
            answer => answer,
        });
    }
    rejected_for_points(
        "the room without halves serves",
        |kind, sheet, out| match listing(kind, sheet, out) {
            -14 => listing(kind, &without_halves(sheet), out),
            answer => answer,
        },
    );
}

/// The listing with each index written in another way, or its line left out.
fn rewritten(change: fn(&str) -> Option<String>) -> impl Fn(i32, &[u8], &mut [u8]) -> i64 {
    move |kind, sheet, out| {
        let mut right = [0; 4096];
        let length = match usize::try_from(listing(kind, sheet, &mut right)) {
            Ok(length) => length,
            Err(_) => return listing(kind, sheet, out),
        };
        let text = String::from_utf8_lossy(&right[..length]);
        let (first, lines) = text.split_once('\n').unwrap();
        let mut other = format!("{first}\n");
        for line in lines.lines() {
            let (start, index) = line.rsplit_once(' ').unwrap();
            if let Some(index) = change(index) {
                other += &format!("{start} {index}\n");
            }
        }
        match out.get_mut(..other.len()) {
            Some(room) => room.copy_from_slice(other.as_bytes()),
            None => return -14,
        }
        other.len() as i64
    }
}

/// An index as half points.
fn halves(index: &str) -> i64 {
    match index.strip_suffix(".5") {
        Some(points) => 2 * points.parse::<i64>().unwrap() + 1,
        None => 2 * index.parse::<i64>().unwrap(),
    }
}

type Change = fn(&str) -> Option<String>;

#[test]
fn indices_written_otherwise_do_not_pass() {
    let right = rewritten(|index| Some(in_points(halves(index))));
    assert!(passes(expected(), right));
    let wrong: [(&str, Change); 7] = [
        ("in half points", |index| Some(halves(index).to_string())),
        ("cut to points", |index| {
            Some((halves(index) / 2).to_string())
        }),
        ("rounded up", |index| {
            Some(((halves(index) + 1) / 2).to_string())
        }),
        ("one digit behind the point in any case", |index| {
            Some(format!("{}.{}", halves(index) / 2, halves(index) % 2 * 5))
        }),
        ("no 0 before the point", |index| {
            Some(index.strip_prefix('0').unwrap_or(index).into())
        }),
        ("with a comma", |index| Some(index.replace('.', ","))),
        ("from a whole point on", |index| {
            (halves(index) > 1).then(|| index.into())
        }),
    ];
    for (name, change) in wrong {
        rejected(name, rewritten(change));
    }
}

/// By the listing before there were half points, not by this engine's.
#[test]
fn whole_points_in_another_form_are_seen() {
    let as_before = |change: Change| {
        let all = expected().iter().map(|expected| &expected.case);
        let mut whole = all.filter(|case| !case.sheet.contains(&b'.'));
        whole.all(|case| check_whole("other", rewritten(change), case.clone()).is_ok())
    };
    assert!(as_before(|index| Some(index.into())));
    assert!(!as_before(|index| Some(format!("{index}.0"))));
    assert!(!as_before(|index| Some(halves(index).to_string())));
    assert!(!as_before(|index| (index != "1").then(|| index.into())));
}
