//! Request 2.2: pairs that were never compared, on the sheet and in the list.

use second_engine::engine::{
    anchored, linkage_refusal, listing, name, numbers, read, score, smallest_shared, way_back,
    GREATEST, UNSCORED,
};
use std::ops::Range;

/// The listing's lines after the first, or `refused N`.
fn answer(kind: i32, sheet: &str) -> String {
    let mut out = [0; 4096];
    match listing(kind, sheet.as_bytes(), &mut out) {
        length if length >= 0 => {
            let text = std::str::from_utf8(&out[..length as usize]).unwrap();
            text.strip_prefix("set size index\n").unwrap().to_string()
        }
        minus => format!("refused {}", -minus),
    }
}

/// The worked example of document 01, C and D never compared.
const APART: &str = "A B C D\n9 8 6 2\n8 9 5 3\n6 5 9 -\n2 3 - 9\n";
const APART_PAIRS: [i32; 10] = [18, 16, 18, 12, 10, 18, 4, 6, UNSCORED, 18];

/// s(C,D) may be 1,000,000, far above what C and D have with anyone else.
#[test]
fn two_entries_never_compared() {
    assert_eq!(
        answer(1, APART),
        "00000001 1 1\n00000002 1 1\n00000003 2 2\n"
    );
    for kind in [2, 3] {
        assert_eq!(answer(kind, APART), "refused 16");
    }
}

#[test]
fn own_pairs_may_be_unscored() {
    // 9 - 1 of B; A's own score may be below 1.
    assert_eq!(answer(1, "A B\n- 1\n1 9\n"), "00000002 1 8\n");
    // A and B stand out of C by 5 - 2, whatever C has with itself.
    assert_eq!(
        answer(1, "A B C\n9 5 2\n5 9 2\n2 2 -\n"),
        "00000001 1 4\n00000002 1 4\n00000003 2 3\n"
    );
    for kind in [2, 3] {
        assert_eq!(answer(kind, "A\n-\n"), "refused 16");
        assert_eq!(answer(kind, "A B\n0 1\n1 -\n"), "refused 16");
    }
}

#[test]
fn all_pairs_unscored() {
    assert_eq!(answer(1, "A\n-\n"), "");
    assert_eq!(answer(1, "A B\n- -\n- -\n"), "");
}

/// The own score is the greatest there is, and the unscored pair may have it too.
#[test]
fn the_ends_of_the_range_do_not_help() {
    assert_eq!(answer(1, "A B\n1000000 -\n- 1000000\n"), "");
    let low = "A B C\n9 - -1000000\n- 9 -1000000\n-1000000 -1000000 0\n";
    assert_eq!(answer(1, low), "00000004 1 1000000\n");
    // Half a point less is no help either.
    let low = "A B C\n9 - -999999.5\n- 9 -1000000\n-999999.5 -1000000 0\n";
    assert_eq!(answer(1, low), "00000004 1 999999.5\n");
}

#[test]
fn both_mirrored_cells_have_the_mark() {
    for kind in 1..=3 {
        assert_eq!(answer(kind, "A B\n0 -\n1 0\n"), "refused 9");
        assert_eq!(answer(kind, "A B\n0 1\n- 0\n"), "refused 9");
        assert_eq!(answer(kind, "A B\n- 0\n- -\n"), "refused 9");
    }
}

#[test]
fn ill_formed_marks() {
    for value in ["--", "---", "-0", "- ", " -", "-A", "A-", "0-", "- -", ""] {
        for sheet in [
            format!("A B\n0 {value}\n{value} 0\n"),
            format!("A B\n{value} 0\n0 {value}\n"),
        ] {
            assert_eq!(answer(1, &sheet), "refused 8", "{sheet:?}");
        }
    }
    for number in ["-2147483648", "2147483648", "-214748364"] {
        assert_eq!(answer(1, &format!("A\n{number}\n")), "refused 8");
    }
    // Ill-formed comes before a mark on one side.
    assert_eq!(answer(1, "A B\n0 -\n1 --\n"), "refused 8");
}

#[test]
fn refusals_around_16() {
    for (kind, sheet, number) in [
        (2, "A B\n1000001 -\n- 0\n", 11),
        (3, "A B\n1000001 -\n- -1\n", 11),
        (1, "A B\n0 -\n- -1000001\n", 11),
        (3, "A B\n0 -\n- 7\n", 16),
        (3, "A B C\n0 - -1\n- 0 2\n-1 2 0\n", 16),
        (2, "A B\n-1 -\n- 7\n", 16),
    ] {
        assert_eq!(answer(kind, sheet), format!("refused {number}"), "{sheet}");
    }
    // 16 before 14, and 14 where kind 1 needs more bytes.
    for (kind, wanted) in [(1, -14), (2, -16), (3, -16)] {
        assert_eq!(listing(kind, b"A\n-\n", &mut [0; 14]), wanted);
    }
}

#[test]
fn the_mark_in_the_pair_list() {
    let mut slots = [99; 11];
    assert_eq!(read(APART.as_bytes(), &mut slots), Ok(4));
    assert_eq!(slots[..10], APART_PAIRS);
    assert_eq!(slots[10], 99);
    assert_eq!(name(APART.as_bytes(), 3), (6, &b"D"[..]));
    assert_eq!(score(4, &APART_PAIRS, 2, 3), Ok(-2_147_483_648));
    assert_eq!(score(4, &APART_PAIRS, 3, 3), Ok(18));
}

#[test]
fn numbers_and_what_two_entries_share() {
    let (mut sets, mut indices) = ([99; 8], [99; 8]);
    assert_eq!(numbers(1, 4, &APART_PAIRS, &mut sets, &mut indices), Ok(3));
    assert_eq!(sets, [1, 2, 3, 0, 0, 0, 0, 0]);
    assert_eq!(indices, [2, 2, 4, 0, 0, 0, 0, 0]);
    let share = |kind, a, b| smallest_shared(kind, 4, &APART_PAIRS, a, b);
    assert_eq!(share(1, 0, 1), Ok((0b0011, 3)));
    assert_eq!(share(1, 1, 1), Ok((0b0010, 2)));
    assert_eq!(share(1, 0, 2), Ok((0b1111, 0)));
    assert_eq!(share(1, 3, 3), Ok((0b1111, 0)));
    assert_eq!(share(1, 0, 4), Err(15));
    assert_eq!(share(2, 0, 4), Err(16));
    assert_eq!(share(3, 0, 4), Err(1));
}

/// Lists of two entries: out of range, unscored, no distances.
#[test]
fn the_place_of_16_in_each_call() {
    let (far, low) = (GREATEST + 1, UNSCORED + 1);
    let mut slots = [7; 3];
    for (pairs, number) in [
        ([UNSCORED, far, 0], 11),
        ([low, UNSCORED, -1], 11),
        ([UNSCORED, -1, 5], 16),
        ([0, UNSCORED, 0], 16),
        ([0, 1, UNSCORED], 16),
    ] {
        for kind in [2, 3] {
            assert_eq!(numbers(kind, 2, &pairs, &mut [], &mut []), Err(number));
        }
        assert_eq!(linkage_refusal(2, &pairs, 0), Err(number));
        assert_eq!(anchored(2, &pairs, 2, &mut []), Err(number));
        assert_eq!(way_back(2, &pairs, 0, &mut slots), Err(15));
        let strong = if number == 16 { 13 } else { number };
        assert_eq!(numbers(1, 2, &pairs, &mut [], &mut []), Err(strong));
    }
    assert_eq!(slots, [7; 3]);
    // One entry has no link, and still 16.
    assert_eq!(linkage_refusal(1, &[UNSCORED], 0), Err(16));
    assert_eq!(numbers(2, 2, &[UNSCORED; 2], &mut [], &mut []), Err(10));
}

/// A list of entries that join one by one, the pairs of a few unscored: more than
/// all fillings can be tried for, and more entries than all sets can be.
#[test]
fn many_unscored_pairs() {
    let n = 32;
    let listed = |unscored: Range<usize>| {
        let value = |a: usize, b: usize| match (unscored.contains(&a), a == b) {
            (true, _) => UNSCORED,
            (false, true) => GREATEST,
            (false, false) => 100 * (n - a) as i32,
        };
        let pairs: Vec<i32> = (0..n)
            .flat_map(|a| (0..=a).map(move |b| (a, b)))
            .map(|(a, b)| value(a, b))
            .collect();
        let (mut sets, mut indices) = ([0; 64], [0; 64]);
        let count = numbers(1, n, &pairs, &mut sets, &mut indices).unwrap();
        sets[..count].to_vec()
    };
    // Own pairs, and the first so many entries.
    assert_eq!(listed(0..0).len(), 62);
    // Row 31 has a pair with everyone.
    assert_eq!(listed(31..32), []);
    // Row 0 is its own pair alone: no group holds entry 0, so singles are left.
    let singles: Vec<u32> = (1..n).map(|a| 1 << a).collect();
    assert_eq!(listed(0..1), singles);
    // Rows 0 to 4 are the pairs of the first five.
    assert_eq!(listed(0..5), singles[4..]);
}
