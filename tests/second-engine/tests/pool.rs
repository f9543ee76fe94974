//! Request 2.4: the pool of two sheets.

use second_engine::engine::listing;
use second_engine::pool::pool;
use second_engine::pooling::{check_groups, MOST_BYTES};

/// The pool, or `refused N`; no byte behind it is touched.
fn answer(first: &str, second: &str, room: usize) -> String {
    let mut out = vec![7; room];
    let answer = pool(first.as_bytes(), second.as_bytes(), &mut out);
    let length = usize::try_from(answer).unwrap_or(0);
    assert!(out[length..].iter().all(|&byte| byte == 7));
    out.truncate(length);
    match answer {
        0.. => String::from_utf8(out).unwrap(),
        minus => format!("refused {}", -minus),
    }
}

fn pooled(first: &str, second: &str) -> String {
    answer(first, second, MOST_BYTES)
}

const BOOKS: &str = "A B C D\n9 7 2 1\n7 8 3 1\n2 3 9 4\n1 1 4 6\n";
const STONES: &str = "C A D B\n8 2 - 1\n2 9 3 6\n- 3 7 2\n1 6 2 9\n";
const POOL: &str = "A B C D\n18 13 4 4\n13 17 4 3\n4 4 17 -\n4 3 - 13\n";

#[test]
fn the_names_stand_in_the_first_sheets_order() {
    assert_eq!(pooled(BOOKS, STONES), POOL);
    assert_eq!(
        pooled(STONES, BOOKS),
        "C A D B\n17 4 - 4\n4 18 4 13\n- 4 13 3\n4 13 3 17\n"
    );
}

/// A name that starts another is not taken for it.
#[test]
fn names_within_names() {
    assert_eq!(
        pooled(
            "A AA AB\n1 2 3\n2 4 5\n3 5 6\n",
            "AB AA A\n60 50 30\n50 40 20\n30 20 10\n"
        ),
        "A AA AB\n11 22 33\n22 44 55\n33 55 66\n"
    );
}

#[test]
fn a_pair_unscored_in_either_is_unscored() {
    for (one, other, both) in [
        ("-", "-", "-"),
        ("-", "0", "-"),
        ("1000000", "-", "-"),
        ("-", "-1000000", "-"),
        ("0", "0", "0"),
    ] {
        let sheet = |value: &str| format!("A B\n{value} {value}\n{value} {value}\n");
        assert_eq!(pooled(&sheet(one), &sheet(other)), sheet(both));
    }
}

#[test]
fn sums_up_to_the_ends_of_the_range() {
    let one = |value: i64| format!("A\n{value}\n");
    for sign in [1, -1] {
        for (a, b) in [(1_000_000, 0), (999_999, 1), (500_000, 500_000)] {
            let end = one(sign * 1_000_000);
            assert_eq!(pooled(&one(sign * a), &one(sign * b)), end);
            let beyond = pooled(&one(sign * a), &one(sign * (b + 1)));
            assert_eq!(beyond, "refused 18");
        }
    }
    assert_eq!(pooled(&one(5), &one(-5)), one(0));
    assert_eq!(pooled(&one(5), &one(-6)), one(-1));
}

/// Halves make whole points, and whole points and a half a half.
#[test]
fn sums_of_half_points() {
    let one = |value: &str| format!("A\n{value}\n");
    for (a, b, sum) in [
        ("0.5", "0.5", "1"),
        ("0.5", "-0.5", "0"),
        ("0.5", "-1", "-0.5"),
        ("7", "6.5", "13.5"),
        ("-7.5", "-6", "-13.5"),
        ("-", "0.5", "-"),
        ("999999.5", "0.5", "1000000"),
        ("-1000000", "0.5", "-999999.5"),
    ] {
        assert_eq!(pooled(&one(a), &one(b)), one(sum), "{a} and {b}");
        assert_eq!(pooled(&one(b), &one(a)), one(sum), "{b} and {a}");
    }
    for (a, b) in [
        ("1000000", "0.5"),
        ("-999999.5", "-1"),
        ("999999.5", "999999.5"),
    ] {
        assert_eq!(pooled(&one(a), &one(b)), "refused 18", "{a} and {b}");
        assert_eq!(pooled(&one(b), &one(a)), "refused 18", "{b} and {a}");
    }
    assert_eq!(pooled(&one("1000000.5"), &one("-1")), "refused 11");
    assert_eq!(pooled(&one("-1"), &one("1000000.5")), "refused 11");
    assert_eq!(pooled(&one("5.0"), &one("5")), "refused 8");
}

/// 32 names of 8 bytes, and values of 9.
#[test]
fn the_longest_pool() {
    let sheet = |value: &str| {
        let names: Vec<String> = (0..32).map(|entry| format!("ENTRY{entry:03}")).collect();
        let row = vec![value; 32].join(" ") + "\n";
        names.join(" ") + "\n" + &row.repeat(32)
    };
    let longest = sheet("-999999.5");
    assert_eq!((longest.len(), MOST_BYTES), (10_528, 10_528));
    assert_eq!(pooled(&sheet("-500000"), &sheet("-499999.5")), longest);
    let short = answer(&sheet("-999999"), &sheet("-0.5"), MOST_BYTES - 1);
    assert_eq!(short, "refused 14");
}

#[test]
fn other_names() {
    let two = "A B\n0 0\n0 0\n";
    for other in ["A\n0\n", "A C\n0 0\n0 0\n", "A B1\n0 0\n0 0\n", BOOKS] {
        assert_eq!(pooled(two, other), "refused 17");
        assert_eq!(pooled(other, two), "refused 17");
    }
}

/// The first sheet is judged whole before the second; 17, 18, 14 come after both.
#[test]
fn refusals_in_order() {
    let crowd: Vec<String> = (0..33).map(|entry| format!("E{entry}")).collect();
    let crowd = crowd.join(" ") + "\n";
    let bad = [
        ("", 2),
        ("a", 3),
        ("A", 4),
        ("A A\n", 5),
        (&crowd, 6),
        ("A\n0", 7),
        ("A\n-0\n", 8),
        ("A B\n0 1\n2 0\n", 9),
        ("A\n1000001\n", 11),
    ];
    for (sheet, number) in bad {
        let refused = format!("refused {number}");
        // Other names, a sum out of range and no buffer beside it.
        assert_eq!(answer(sheet, "Z\n1000000\n", 0), refused);
        assert_eq!(answer("Z\n1000000\n", sheet, 0), refused);
        for (other, _) in bad {
            assert_eq!(answer(sheet, other, 0), refused);
        }
    }
    assert_eq!(answer("A\n1000000\n", "B\n1000000\n", 0), "refused 17");
    assert_eq!(answer("A\n1000000\n", "A\n1000000\n", 0), "refused 18");
    for room in 0..POOL.len() {
        assert_eq!(answer(BOOKS, STONES, room), "refused 14");
    }
    assert_eq!(answer(BOOKS, STONES, POOL.len()), POOL);
}

/// A and B have 4 on one sheet, 3 on the other, and 9 in the pool; either alone is
/// strong in both too.
#[test]
fn groups_of_a_pool() {
    let sheets = [BOOKS, STONES].map(str::as_bytes);
    assert_eq!(check_groups(listing, pool, sheets), Ok(3));
}
