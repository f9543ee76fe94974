//! Request 2.6: half points on the sheet, in the pair list and in what is written.

use second_engine::engine::{
    anchored, in_points, is_tree, listing, numbers, read, score, smallest_shared, way_back, Method,
    GREATEST, UNSCORED,
};
use second_engine::generate::{
    cases, distances_with, entries, scores_with, Halves, Random, Table, BY_POINTS, HALVES,
    MALFORMED_HALVES,
};
use second_engine::halves::{check_doubled, check_whole, doubled, halved, sort};
use second_engine::refined::weight;
use second_engine::unscored::Groups;
use second_engine::whole;
use std::collections::BTreeMap;

/// The listing's lines after the first, or `refused N`.
fn answer(kind: i32, sheet: &str) -> String {
    let mut out = [0; 4096];
    match listing(kind, sheet.as_bytes(), &mut out) {
        length if length >= 0 => {
            let text = std::str::from_utf8(&out[..length as usize]).unwrap();
            text.strip_prefix("set size index\n").unwrap().to_string()
        }
        minus => format!("refused {}", -minus),
    }
}

/// What a text is read as where it is the only value, or the refusal's number.
fn value(text: &str) -> Result<i32, i64> {
    let mut slot = [99];
    let read = read(format!("A\n{text}\n").as_bytes(), &mut slot);
    read.map(|_| slot[0])
}

// ------------------------------------------------------------------- Values

#[test]
fn values_in_half_points() {
    for (text, halves) in [
        ("0", 0),
        ("0.5", 1),
        ("-0.5", -1),
        ("1", 2),
        ("-1", -2),
        ("7.5", 15),
        ("-7.5", -15),
        ("9", 18),
        ("10.5", 21),
        ("999999.5", 1_999_999),
        ("1000000", 2_000_000),
        ("-1000000.5", -2_000_001),
        ("9999999", 19_999_998),
        ("9999999.5", 19_999_999),
        ("-9999999.5", -19_999_999),
    ] {
        assert_eq!(value(text), Ok(halves), "{text}");
        assert_eq!(in_points(halves.into()), text);
    }
    assert_eq!(value("-"), Ok(UNSCORED));
}

#[test]
fn ill_formed_values() {
    let requested = [
        ".5",
        "-.5",
        "5.",
        "5.0",
        "00.5",
        "-0",
        "0.50",
        "12345678.5",
        "5.5.5",
    ];
    for text in requested.iter().chain(&MALFORMED_HALVES) {
        assert_eq!(value(text), Err(8), "{text}");
        for kind in 1..=3 {
            for sheet in [
                format!("A B\n{text} 0\n0 0\n"),
                format!("A B\n0 {text}\n{text} 0\n"),
                format!("A B\n0 0\n0 {text}\n"),
            ] {
                assert_eq!(answer(kind, &sheet), "refused 8", "{sheet:?}");
            }
        }
    }
}

/// Every text of up to five of these bytes is a value exactly if some number of
/// half points is written so, and it is read as that number.
#[test]
fn every_text_of_few_bytes() {
    let written: BTreeMap<String, i32> = (-2 * 77_777..=2 * 77_777)
        .map(|halves: i32| (in_points(halves.into()), halves))
        .collect();
    let mut texts = vec![String::new()];
    let (mut values, mut others) = (0, 0);
    for _ in 0..5 {
        texts = texts
            .iter()
            .flat_map(|text| "-.057".chars().map(move |byte| format!("{text}{byte}")))
            .collect();
        for text in texts.iter().filter(|text| *text != "-") {
            let wanted = written.get(text).copied().ok_or(8);
            assert_eq!(value(text), wanted, "{text}");
            *(if wanted.is_ok() {
                &mut values
            } else {
                &mut others
            }) += 1;
        }
    }
    assert!(values > 200 && others > 3_000, "{values} and {others}");
}

/// Of the bytes behind a value, those that check 3 allows are refused later.
#[test]
fn bytes_that_a_sheet_may_have() {
    for byte in 0..=255u8 {
        let sheet = [b'A', b'\n', b'0', byte, b'\n'];
        let allowed = b"ABCDEFGHIJKLMNOPQRSTUVWXYZ0123456789-. \n".contains(&byte);
        let wanted = match byte {
            b'\n' => 7,
            _ if allowed => 8,
            _ => 3,
        };
        assert_eq!(read(&sheet, &mut [0]), Err(wanted), "{byte}");
    }
}

#[test]
fn points_elsewhere() {
    for line in ["A.", ".A", "A.B", ".", "A .", ". A", "A.5", "A B.5"] {
        assert_eq!(
            answer(1, &format!("{line}\n0 0\n0 0\n")),
            "refused 4",
            "{line}"
        );
    }
    assert_eq!(answer(1, "."), "refused 4");
    assert_eq!(answer(1, "A\n0.5\n."), "refused 7");
    assert_eq!(answer(1, "A\n0.5"), "refused 7");
    assert_eq!(answer(1, "A\n0\n.5\n"), "refused 7");
    // Half a point on one side only.
    for (one, other) in [("0.5", "0"), ("0.5", "-0.5"), ("7.5", "7"), ("8", "7.5")] {
        let sheet = format!("A B\n0 {one}\n{other} 0\n");
        assert_eq!(answer(1, &sheet), "refused 9", "{sheet}");
    }
}

#[test]
fn the_range_is_the_same_in_points() {
    for sign in ["", "-"] {
        for (size, wanted) in [
            ("999999.5", ""),
            ("1000000", ""),
            ("1000000.5", "refused 11"),
            ("1000001", "refused 11"),
            ("9999999.5", "refused 11"),
        ] {
            assert_eq!(
                answer(1, &format!("A\n{sign}{size}\n")),
                wanted,
                "{sign}{size}"
            );
        }
    }
    assert_eq!(answer(3, "A B\n0 -0.5\n-0.5 0\n"), "refused 12");
    assert_eq!(answer(3, "A B\n0 1\n1 0.5\n"), "refused 12");
    assert_eq!(answer(2, "A B\n0.5 -\n- 0.5\n"), "refused 16");
    // As long as a sheet of well-formed values can be, and far out of range.
    let names: Vec<String> = (0..32).map(|entry| format!("ENTRY{entry:03}")).collect();
    let row = vec!["-9999999.5"; 32].join(" ") + "\n";
    let sheet = names.join(" ") + "\n" + &row.repeat(32);
    assert_eq!(sheet.len(), 11_552);
    assert_eq!(answer(1, &sheet), "refused 11");
    let mut slots = [0; 528];
    assert_eq!(read(sheet.as_bytes(), &mut slots), Ok(32));
    assert_eq!(slots, [-19_999_999; 528]);
}

// ------------------------------------------------------- What is written

/// The worked example with half points.
const HALF: &str = "A B C D\n9 8.5 6 2\n8.5 9 5.5 3\n6 5.5 9 -0.5\n2 3 -0.5 9\n";
const HALF_PAIRS: [i32; 10] = [18, 17, 18, 12, 11, 18, 4, 6, -1, 18];

/// A and B have 9 - 8.5; the two together 8.5 - 6, and with C 5.5 - 3.
#[test]
fn indices_in_points() {
    assert_eq!(
        answer(1, HALF),
        "00000001 1 0.5\n00000002 1 0.5\n00000004 1 3\n00000008 1 6\n\
         00000003 2 2.5\n00000007 3 2.5\n"
    );
    // Of A and B 8.5 - 6; of A, B and C 5.5 - 3, and 6 - 2.
    assert_eq!(answer(2, HALF), "00000003 2 2.5\n00000007 3 6.5\n");
    let mut slots = [99; 10];
    assert_eq!(read(HALF.as_bytes(), &mut slots), Ok(4));
    assert_eq!(slots, HALF_PAIRS);
    let (mut sets, mut indices) = ([99; 8], [99; 8]);
    assert_eq!(numbers(1, 4, &HALF_PAIRS, &mut sets, &mut indices), Ok(6));
    assert_eq!(sets, [1, 2, 4, 8, 3, 7, 0, 0]);
    assert_eq!(indices, [1, 1, 6, 12, 5, 5, 0, 0]);
}

/// Half a point is enough for a line, and nothing less.
#[test]
fn listed_from_half_a_point() {
    let one = |own: &str| answer(1, &format!("A B\n{own} 5\n5 5\n"));
    assert_eq!(one("5.5"), "00000001 1 0.5\n");
    assert_eq!(one("5"), "");
    assert_eq!(one("4.5"), "");
    let clean = |score: &str| answer(2, &format!("A B C\n0 {score} 1\n{score} 0 1\n1 1 0\n"));
    assert_eq!(clean("1.5"), "00000003 2 0.5\n");
    assert_eq!(clean("1"), "");
    assert_eq!(clean("0.5"), "");
    // d(A,B) + d(A,C) - d(B,C), and the same of B and of C.
    let split = |far: &str| answer(3, &format!("A B C\n0 1 1\n1 0 {far}\n1 {far} 0\n"));
    assert_eq!(
        split("1.5"),
        "00000002 1 1.5\n00000004 1 1.5\n00000006 2 0.5\n"
    );
    assert_eq!(split("2"), "00000002 1 2\n00000004 1 2\n");
    assert_eq!(answer(3, "A B\n0 0.5\n0.5 0\n"), "00000002 1 1\n");
}

/// The greatest indices there are, and those half a point below.
#[test]
fn the_greatest_indices() {
    assert_eq!(
        answer(1, "A B\n1000000 -999999.5\n-999999.5 1000000\n"),
        "00000001 1 1999999.5\n00000002 1 1999999.5\n"
    );
    // 31 alike, and one apart from them: 30 smallest weights of 2,000,000 each.
    let clean = |score: &str| {
        let cell = |a: usize, b: usize| match (a, b) {
            (31, _) | (_, 31) => "-1000000",
            (1, 0) | (0, 1) => score,
            _ => "1000000",
        };
        let row = |a| (0..32).map(|b| cell(a, b)).collect::<Vec<_>>().join(" ") + "\n";
        let names: Vec<String> = (0..32).map(|entry| format!("E{entry}")).collect();
        let rows: String = (0..32).map(row).collect();
        answer(2, &format!("{}\n{rows}", names.join(" ")))
    };
    assert_eq!(clean("1000000"), "7fffffff 31 60000000\n");
    assert_eq!(clean("999999.5"), "7fffffff 31 59999999.5\n");
}

#[test]
fn numbers_are_written_in_points() {
    for (halves, text) in [
        (0, "0"),
        (1, "0.5"),
        (-1, "-0.5"),
        (2, "1"),
        (3, "1.5"),
        (4, "2"),
        (-26, "-13"),
        (27, "13.5"),
        (120_000_000, "60000000"),
        (-120_000_001, "-60000000.5"),
    ] {
        assert_eq!(in_points(halves), text);
    }
}

// ----------------------------------------------------------- The other calls

#[test]
fn the_calls_on_a_pair_list() {
    let far = [0, GREATEST, 0];
    assert_eq!(score(4, &HALF_PAIRS, 2, 3), Ok(-1));
    assert_eq!(score(4, &HALF_PAIRS, 0, 1), Ok(17));
    assert_eq!(smallest_shared(1, 4, &HALF_PAIRS, 0, 0), Ok((1, 1)));
    assert_eq!(smallest_shared(1, 2, &[11, 10, 10], 0, 0), Ok((1, 1)));
    assert_eq!(smallest_shared(1, 2, &[10, 10, 10], 0, 0), Ok((3, 0)));
    assert!(is_tree(Method::Single, 4, &HALF_PAIRS, &[3, 7, 15]));
    let mut scores = [99; 3];
    assert_eq!(anchored(2, &far, 1, &mut scores), Ok(3));
    assert_eq!(scores, [2 * GREATEST, 0, 0]);
    let mut back = [99; 3];
    assert_eq!(way_back(2, &scores, 1, &mut back), Ok(3));
    assert_eq!(back, far);
    // One half point: the anchored score is doubled, so it is even.
    assert_eq!(way_back(2, &[2, 0, 0], 1, &mut back), Ok(3));
    assert_eq!(back, [0, 1, 0]);
    assert_eq!(way_back(2, &[1, 0, 0], 1, &mut back), Err(15));
    assert_eq!(
        way_back(2, &[2 * GREATEST + 2, 0, 0], 1, &mut back),
        Err(15)
    );
    // d(0,1) = 2.5, d(2,3) = 2, other distances 4: 8 - 4.5 and 4.5 - 8.
    let copies = [0, 5, 0, 8, 8, 0, 8, 8, 4, 0];
    assert_eq!(weight(4, &copies, 0b1100), Ok(7));
    assert_eq!(weight(4, &copies, 0b0101), Ok(-7));
    for halves in [GREATEST + 1, -GREATEST - 1] {
        let mut list = copies;
        list[1] = halves;
        assert_eq!(weight(4, &list, 0b1100), Err(11));
        assert_eq!(numbers(1, 4, &list, &mut [0; 8], &mut [0; 8]), Err(11));
    }
}

/// A filling may go to both ends: 1,000,000 points, and no half point more.
#[test]
fn unscored_pairs_range_over_as_many_points() {
    let sheet = "A B C\n1000000 - 0.5\n- 9 0.5\n0.5 0.5 1\n";
    assert_eq!(answer(1, sheet), "00000004 1 0.5\n");
}

// ------------------------------------------------------------ Whole points

#[test]
fn sheets_without_a_point_are_answered_as_before() {
    let (mut listings, mut refusals) = (0, 0);
    let cases = cases(5).filter(|case| !case.sheet.contains(&b'.'));
    for case in cases.take(1_000) {
        match check_whole("this engine", listing, case).unwrap() {
            0.. => listings += 1,
            _ => refusals += 1,
        }
    }
    assert!(listings > 100 && refusals > 100, "{listings}, {refusals}");
}

#[test]
fn before_there_were_half_points() {
    let before = |sheet: &str| whole::listing(1, sheet.as_bytes(), &mut [0; 99]);
    assert_eq!(before("A\n0.5\n"), -3);
    assert_eq!(before("A\n1000001\n"), -11);
    assert_eq!(before("A\n1000000\n"), 15);
    assert_eq!(before("A\n-0\n"), -8);
    assert_eq!(before("A\n12345678\n"), -8);
    assert_eq!(before("A\n-2147483648\n"), -8);
    assert_eq!(before("A B\n9 -\n- 9\n"), 15);
    assert_eq!(before("A B\n1 0\n0 0\n"), 28);
}

#[test]
fn doubles_and_halves() {
    let table = |values: Vec<Vec<i64>>| Table {
        names: vec!["A".into(), "B".into()],
        values,
    };
    let mark = i64::from(UNSCORED);
    let half = halved(&table(vec![vec![9, mark], vec![mark, -4]]));
    assert_eq!(half.values, [[4, mark], [mark, -2]]);
    assert_eq!(half.pairs(), [4, UNSCORED, -2]);
    assert_eq!(doubled(&half.pairs()), [8, UNSCORED, -4]);
    assert_eq!([1, 2, 3, 4, 5].map(sort), [0, 1, 2, 1, 2]);
}

fn found(pairs: &[i32]) -> Groups {
    let (mut sets, mut indices) = ([0; 8], [0; 8]);
    let count = numbers(1, 4, pairs, &mut sets, &mut indices)
        .map_err(|number| format!("refused {number}"))?;
    Ok(sets.into_iter().zip(indices).take(count).collect())
}

#[test]
fn groups_of_a_doubled_list() {
    assert_eq!(check_doubled(found, &HALF_PAIRS), Ok(6));
    let mut apart = HALF_PAIRS;
    apart[8] = UNSCORED;
    assert_eq!(check_doubled(found, &apart), Ok(3));
    // From a whole point on; an index cut to whole points; the mark doubled.
    let whole = |pairs: &[i32]| {
        Ok(found(pairs)?
            .into_iter()
            .filter(|line| line.1 > 1)
            .collect())
    };
    assert!(check_doubled(whole, &HALF_PAIRS).is_err());
    let cut = |pairs: &[i32]| Ok(found(pairs)?.into_iter().map(|x| (x.0, x.1 & !1)).collect());
    assert!(check_doubled(cut, &HALF_PAIRS).is_err());
    let refused = |_: &[i32]| Err("refused".to_string());
    assert!(check_doubled(refused, &HALF_PAIRS).is_err());
}

// -------------------------------------------------------------- From a seed

fn has_half(value: &i64) -> bool {
    value % 2 != 0
}

/// None, some or all values end in `.5`, and what is in range stays so.
#[test]
fn shares_of_half_points() {
    let mut random = Random::new(9);
    for halves in HALVES {
        let mut shares = [0; 3];
        for _ in 0..300 {
            let n = entries(&mut random);
            let (scores, distances) = (
                scores_with(&mut random, n, halves),
                distances_with(&mut random, n, halves),
            );
            assert!(!answer(3, &text(&distances)).starts_with('r'));
            assert!(!answer(1, &text(&scores)).starts_with('r'));
            let other = |table: &Table, a: usize| table.values[a][..a].to_vec();
            let values: Vec<i64> = (0..n).flat_map(|a| other(&distances, a)).collect();
            let with = values.iter().filter(|value| has_half(value)).count();
            let share = match (with, values.len() - with) {
                (0, _) => 0,
                (_, 0) => 2,
                _ => 1,
            };
            shares[share] += usize::from(values.len() > 3);
            if halves == Halves::None {
                assert!(!scores.values.concat().iter().any(has_half));
            }
        }
        match halves {
            Halves::None => assert_eq!(shares[1..], [0, 0]),
            Halves::Some => assert!(shares[1] > 100, "{shares:?}"),
            Halves::All => assert_eq!(shares[..2], [0, 0]),
        }
        assert!(shares.iter().sum::<usize>() > 150, "{shares:?}");
    }
}

fn text(table: &Table) -> String {
    String::from_utf8(table.sheet()).unwrap()
}

#[test]
fn sheets_that_a_point_makes_wrong() {
    let mut random = Random::new(2);
    for number in BY_POINTS {
        for _ in 0..50 {
            let case = second_engine::generate::pointed(&mut random, number);
            let answer = listing(case.kind, &case.sheet, &mut vec![0; case.room]);
            assert_eq!(answer, -(number as i64), "{case:?}");
        }
    }
}
