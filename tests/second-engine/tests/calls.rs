//! The calls that write no listing: names, numbers, the smallest group two
//! entries share, linkage, anchored scores, the score of two entries.

use second_engine::engine::{
    anchored, is_tree, linkage, linkage_refusal, name, numbers, read, score, smallest_among,
    smallest_shared, way_back, Method,
};

#[test]
fn names_are_parts_of_the_sheet() {
    let sheet = b"AB C3 D\n0 1 2\n1 0 3\n2 3 0\n";
    for (entry, (start, end)) in [(0, 2), (3, 5), (6, 7)].into_iter().enumerate() {
        let (found, part) = name(sheet, entry);
        assert_eq!(found, start);
        assert!(std::ptr::eq(part, &sheet[start..end]));
    }
    let none: (usize, &[u8]) = (0, b"");
    assert_eq!(name(sheet, 3), none);
    assert_eq!(name(sheet, usize::MAX), none);
    assert_eq!(name(b"", 0), none);
    assert_eq!(name(b"A B\n0 1\n2 0\n", 0), none);
    assert_eq!(name(b"A B\n0 1\n2 0\n", 1), none);
    // Checks 11 and 12 are none of its business.
    assert_eq!(name(b"A\n9999999\n", 0), (0, &b"A"[..]));
    assert_eq!(name(b"A\n-1\n", 0), (0, &b"A"[..]));
}

/// Each name's bytes stand in an earlier name too.
#[test]
fn names_within_names() {
    let sheet = b"AAB AB B\n0 0 0\n0 0 0\n0 0 0\n";
    assert_eq!(name(sheet, 0), (0, &b"AAB"[..]));
    assert_eq!(name(sheet, 1), (4, &b"AB"[..]));
    assert_eq!(name(sheet, 2), (7, &b"B"[..]));
}

#[test]
fn a_pair_list_is_read() {
    let mut slots = [99; 4];
    assert_eq!(read(b"A B\n1 2\n2 3\n", &mut slots), Ok(2));
    assert_eq!(slots, [2, 4, 6, 99]);
    assert_eq!(read(b"A B\n1 2\n4 3\n", &mut slots), Err(9));
    assert_eq!(slots, [2, 4, 6, 99]);
}

#[test]
fn scores_of_two_entries() {
    assert_eq!(score(2, &[1, 2, 3], 0, 1), Ok(2));
    assert_eq!(score(2, &[1, 2, 3], 1, 0), Ok(2));
    assert_eq!(score(2, &[1, 2, 3], 1, 1), Ok(3));
    assert_eq!(score(2, &[1, i32::MIN, 3], 0, 1), Ok(i32::MIN.into()));
    assert_eq!(score(1, &[i32::MAX], 0, 0), Ok(i32::MAX.into()));
}

#[test]
fn scores_refuse_in_order() {
    assert_eq!(score(0, &[], 0, 0), Err(6));
    assert_eq!(score(33, &[7; 561], 0, 0), Err(6));
    assert_eq!(score(usize::MAX, &[], 0, 0), Err(6));
    assert_eq!(score(2, &[1, 2, 3, 4], 2, 2), Err(10));
    assert_eq!(score(2, &[], 0, 0), Err(10));
    assert_eq!(score(2, &[1, 2, 3], 0, 2), Err(15));
    assert_eq!(score(2, &[1, 2, 3], 2, 0), Err(15));
    assert_eq!(score(2, &[1, 2, 3], usize::MAX, 1 << 32), Err(15));
}

#[test]
fn numbers_refuse_in_order() {
    let call = |kind, n, pairs: &[i32], slots: (usize, usize)| {
        let (mut sets, mut indices) = (vec![99; slots.0], vec![99; slots.1]);
        let answer = numbers(kind, n, pairs, &mut sets, &mut indices);
        if answer.is_err() {
            assert!(sets.iter().all(|&set| set == 99));
            assert!(indices.iter().all(|&index| index == 99));
        }
        answer
    };
    let far = [0, 2_000_001, 0];
    assert_eq!(call(0, 0, &[], (0, 0)), Err(1));
    assert_eq!(call(1, 0, &[], (0, 0)), Err(6));
    assert_eq!(call(1, 33, &[0; 561], (66, 66)), Err(6));
    assert_eq!(call(1, usize::MAX, &[], (0, 0)), Err(6));
    assert_eq!(call(1, 2, &[2_000_001; 4], (0, 0)), Err(10));
    assert_eq!(call(1, 2, &[0; 2], (4, 4)), Err(10));
    assert_eq!(call(3, 2, &far, (0, 0)), Err(11));
    assert_eq!(call(1, 2, &[0, 0, -2_000_001], (0, 0)), Err(11));
    assert_eq!(call(1, 2, &[2_000_000, -2_000_000, 0], (4, 4)), Ok(2));
    assert_eq!(call(3, 2, &[0, -1, 0], (0, 0)), Err(12));
    assert_eq!(call(3, 2, &[0, 1, 1], (0, 0)), Err(12));
    assert_eq!(call(1, 2, &[0, -1, 0], (3, 4)), Err(13));
    assert_eq!(call(1, 2, &[0, -1, 0], (4, 3)), Err(13));
    assert_eq!(call(1, 2, &[0, -1, 0], (4, 4)), Ok(2));
    assert_eq!(call(3, 2, &[0, 1, 0], (4, 4)), Ok(1));
    assert_eq!(call(2, 32, &[0; 528], (64, 64)), Ok(0));
}

/// The pair list of the worked example: its strong groups are 1, 2, 4, 8, 3, 7,
/// its clean groups 3, 7.
const FOUR: [i32; 10] = [9, 8, 9, 6, 5, 9, 2, 3, 1, 9];

#[test]
fn the_smallest_group_two_entries_share() {
    let all = |kind| {
        let share = |a, b| smallest_shared(kind, 4, &FOUR, a, b).unwrap();
        [0, 1, 2, 3].map(|a| [0, 1, 2, 3].map(|b| share(a, b)))
    };
    let (ab, abc, none) = ((0b0011, 5), (0b0111, 6), (0b1111, 0));
    let strong = [
        [(0b0001, 1), ab, abc, none],
        [ab, (0b0010, 2), abc, none],
        [abc, abc, (0b0100, 3), none],
        [none, none, none, (0b1000, 4)],
    ];
    assert_eq!(all(1), strong);
    // No clean group is a single.
    let (ab, abc) = ((0b0011, 1), (0b0111, 2));
    let clean = [
        [ab, ab, abc, none],
        [ab, ab, abc, none],
        [abc, abc, abc, none],
        [none, none, none, none],
    ];
    assert_eq!(all(2), clean);
}

/// With s(B,C) = 2 the set {A,B,C} is clean, but not strong.
#[test]
fn entries_that_share_a_group_of_one_kind() {
    let mut lower = FOUR;
    lower[4] = 2;
    assert_eq!(smallest_shared(1, 4, &lower, 0, 2), Ok((0b1111, 0)));
    assert_eq!(smallest_shared(2, 4, &lower, 0, 2), Ok((0b0111, 2)));
}

/// s(0,1) = s(2,3) = 5, own scores 1, others 0: each group holds one of 0 and 2.
#[test]
fn entries_of_two_groups() {
    let pairs = [1, 5, 1, 0, 0, 1, 0, 0, 5, 1];
    for kind in [1, 2] {
        let share = |a, b| smallest_shared(kind, 4, &pairs, a, b);
        assert_eq!(share(0, 2), Ok((0b1111, 0)));
        assert_eq!(share(3, 1), Ok((0b1111, 0)));
        assert_eq!(share(1, 0), Ok((0b0011, 1)));
        assert_eq!(share(2, 3), Ok((0b1100, 2)));
        assert_eq!(share(3, 3), Ok((0b1100, 2)));
    }
}

#[test]
fn entries_without_a_group() {
    for kind in [1, 2] {
        assert_eq!(smallest_shared(kind, 1, &[7], 0, 0), Ok((1, 0)));
        let (n, pairs) = (32, [0; 528]);
        assert_eq!(smallest_shared(kind, n, &pairs, 31, 0), Ok((u32::MAX, 0)));
        assert_eq!(smallest_shared(kind, n, &pairs, 5, 5), Ok((u32::MAX, 0)));
    }
}

/// All lines are read, so the order in which they stand does not matter.
#[test]
fn the_smallest_need_not_be_the_first() {
    let sets = [0b1111, 0b0011, 0b0111, 0b0001];
    assert_eq!(smallest_among(5, &sets, 0, 1), Ok((0b0011, 2)));
    assert_eq!(smallest_among(5, &sets, 2, 0), Ok((0b0111, 3)));
    assert_eq!(smallest_among(5, &sets, 3, 3), Ok((0b1111, 1)));
    assert_eq!(smallest_among(5, &sets, 0, 0), Ok((0b0001, 4)));
    assert_eq!(smallest_among(5, &sets, 0, 4), Ok((0b11111, 0)));
}

#[test]
fn smallest_shared_refuses_in_order() {
    let far = [0, 2_000_001, 0];
    for kind in [0, 3, 4, -1, i32::MIN, i32::MAX] {
        assert_eq!(smallest_shared(kind, 0, &[], 0, 0), Err(1));
        assert_eq!(smallest_shared(kind, 2, &far, 2, 2), Err(1));
        assert_eq!(smallest_shared(kind, 2, &[0; 3], 0, 1), Err(1));
    }
    for kind in [1, 2] {
        let call = |n, pairs: &[i32], a, b| smallest_shared(kind, n, pairs, a, b);
        assert_eq!(call(0, &[], 0, 0), Err(6));
        assert_eq!(call(33, &[0; 561], 0, 0), Err(6));
        assert_eq!(call(usize::MAX, &[], 0, 0), Err(6));
        assert_eq!(call(2, &[2_000_001; 4], 2, 2), Err(10));
        assert_eq!(call(2, &[], 0, 0), Err(10));
        assert_eq!(call(2, &far, 2, 2), Err(11));
        assert_eq!(call(2, &[0, 0, -2_000_001], 0, 0), Err(11));
        assert_eq!(call(2, &[0; 3], 0, 2), Err(15));
        assert_eq!(call(2, &[0; 3], 2, 0), Err(15));
        assert_eq!(call(2, &[0; 3], usize::MAX, 1 << 32), Err(15));
        // What check 12 asks of distances is not asked of scores.
        assert_eq!(call(2, &[1, -1, -2_000_000], 0, 1), Ok((0b11, 0)));
    }
}

/// Four entries in a row: s(0,1) = 9, s(1,2) = 8, s(2,3) = 9, others 0.
const ROW: [i32; 10] = [0, 9, 0, 0, 8, 0, 0, 0, 9, 0];

#[test]
fn single_linkage_trees() {
    let is = |merged: &[u32]| is_tree(Method::Single, 4, &ROW, merged);
    assert!(is(&[0b0011, 0b1100, 0b1111]));
    assert!(is(&[0b1100, 0b0011, 0b1111]));
    assert!(!is(&[0b0110, 0b0111, 0b1111]), "8 before 9");
    assert!(!is(&[0b0011, 0b0111, 0b1111]), "8 before 9");
    assert!(!is(&[0b0011, 0b1100]), "two blocks are left");
    assert!(!is(&[0b0011, 0b1100, 0b1111, 0b1111]), "one merge too many");
    assert!(!is(&[0b0011, 0b0011, 0b1111]), "not a merge");
    assert!(!is(&[0b0011, 0b1111, 0b1111]), "three blocks at once");
    assert!(!is(&[0b0011, 0b11100, 0b11111]), "no entry 4");
    assert!(is_tree(Method::Single, 1, &[-7], &[]));
    assert!(!is_tree(Method::Single, 1, &[-7], &[1]));
}

#[test]
fn average_linkage_trees() {
    // Links of {0,1}: with 2, 7/2; of {2,3}: 3/1. Whole numbers would tie.
    let pairs = [0, 9, 0, 4, 3, 0, 0, 0, 3, 0];
    let is = |merged: &[u32]| is_tree(Method::Average, 4, &pairs, merged);
    assert!(is(&[0b0011, 0b0111, 0b1111]));
    assert!(!is(&[0b0011, 1 << 2 | 1 << 3, 0b1111]));
    // 6/2 and 3/1 tie: both go.
    let pairs = [0, 9, 0, 4, 2, 0, 0, 0, 3, 0];
    let is = |merged: &[u32]| is_tree(Method::Average, 4, &pairs, merged);
    assert!(is(&[0b0011, 0b0111, 0b1111]));
    assert!(is(&[0b0011, 0b1100, 0b1111]));
    // -3/2 is below -1, and above -2.
    let pairs = [0, 9, 0, -1, -2, 0, -9, -9, -1, 0];
    let is = |merged: &[u32]| is_tree(Method::Average, 4, &pairs, merged);
    assert!(!is(&[0b0011, 0b0111, 0b1111]));
    assert!(is(&[0b0011, 0b1100, 0b1111]));
    let pairs = [0, 9, 0, -1, -2, 0, -9, -9, -2, 0];
    let is = |merged: &[u32]| is_tree(Method::Average, 4, &pairs, merged);
    assert!(is(&[0b0011, 0b0111, 0b1111]));
    assert!(!is(&[0b0011, 0b1100, 0b1111]));
}

#[test]
fn averages_closer_than_a_float() {
    // 32 entries: 0 to 15 merge first, then 16 to 30. Their links with 31 are
    // 31,999,999/16 and 29,999,999/15, and the first is greater by 1/240.
    let n = 32;
    let mut pairs = vec![0; n * (n + 1) / 2];
    let mut set = |a: usize, b: usize, value| pairs[a * (a + 1) / 2 + b] = value;
    for a in 1..16 {
        (0..a).for_each(|b| set(a, b, 2_000_000));
    }
    for a in 17..31 {
        (16..a).for_each(|b| set(a, b, 2_000_000));
    }
    (0..31).for_each(|b| set(31, b, 2_000_000));
    set(31, 0, 1_999_999);
    set(31, 16, 1_999_999);
    let start: Vec<u32> = (2..=16)
        .map(|k| (1 << k) - 1)
        .chain((2..=15).map(|k| ((1 << k) - 1) << 16))
        .collect();
    let after = |block: u32| {
        let mut merged = start.clone();
        merged.extend([block, u32::MAX]);
        // 31 joins before the last two blocks, whose link is 0.
        is_tree(Method::Average, n, &pairs, &merged)
    };
    // 1,999,999 + 15/16 and 1,999,999 + 14/15.
    assert!(after(1 << 31 | 0xffff));
    assert!(!after(1 << 31 | 0x7fff_0000));
}

#[test]
fn own_scores_play_no_part_in_linkage() {
    let mut pairs = ROW;
    for own in [0, 2, 5, 9] {
        pairs[own] = 2_000_000;
    }
    for method in [Method::Single, Method::Average] {
        assert!(is_tree(method, 4, &pairs, &[0b0011, 0b1100, 0b1111]));
    }
}

#[test]
fn linkage_writes_a_tree() {
    for method in [Method::Single, Method::Average] {
        for first in [0, 1] {
            let mut merged = [77; 5];
            let answer = linkage(method, 4, &ROW, &mut merged, |ties| first % ties);
            assert_eq!(answer, Ok(3));
            assert!(is_tree(method, 4, &ROW, &merged[..3]));
            assert_eq!(merged[3..], [77, 77]);
        }
    }
}

#[test]
fn linkage_refuses_in_order() {
    assert_eq!(linkage_refusal(0, &[], 0), Err(6));
    assert_eq!(linkage_refusal(33, &[0; 561], 32), Err(6));
    assert_eq!(linkage_refusal(2, &[2_000_001; 2], 0), Err(10));
    assert_eq!(linkage_refusal(2, &[2_000_001, 0, 0], 0), Err(11));
    assert_eq!(linkage_refusal(2, &[2_000_000, 0, -2_000_000], 1), Ok(()));
    assert_eq!(linkage_refusal(2, &[0; 3], 0), Err(15));
    assert_eq!(linkage_refusal(2, &[0; 3], 1), Ok(()));
    assert_eq!(linkage_refusal(1, &[0], 0), Ok(()));
    let mut merged = [77; 2];
    assert_eq!(
        linkage(Method::Single, 4, &ROW, &mut merged, |_| 0),
        Err(15)
    );
    assert_eq!(merged, [77; 2]);
}

/// d(0,1) = 5, d(0,2) = 3, d(1,2) = 4.
const THREE: [i32; 6] = [0, 5, 0, 3, 4, 0];

#[test]
fn anchored_scores() {
    let mut scores = [77; 7];
    assert_eq!(anchored(3, &THREE, 0, &mut scores), Ok(6));
    assert_eq!(scores, [0, 0, 10, 0, 4, 6, 77]);
    assert_eq!(anchored(3, &THREE, 2, &mut scores), Ok(6));
    assert_eq!(scores, [6, 2, 8, 0, 0, 0, 77]);
}

#[test]
fn anchored_scores_refuse_in_order() {
    let call = |n, pairs: &[i32], anchor, slots| {
        let mut scores = vec![77; slots];
        let answer = anchored(n, pairs, anchor, &mut scores);
        assert!(answer.is_ok() || scores.iter().all(|&score| score == 77));
        answer
    };
    assert_eq!(call(0, &[], 0, 0), Err(6));
    assert_eq!(call(33, &[0; 561], 0, 561), Err(6));
    assert_eq!(call(3, &THREE[..5], 3, 0), Err(10));
    assert_eq!(call(2, &[1, -2_000_001, 0], 2, 0), Err(11));
    assert_eq!(call(2, &[0, -1, 0], 2, 0), Err(12));
    assert_eq!(call(2, &[0, 1, -1], 2, 0), Err(12));
    assert_eq!(call(2, &[1, 1, 0], 2, 0), Err(12));
    assert_eq!(call(3, &THREE, 3, 6), Err(15));
    assert_eq!(call(3, &THREE, 0, 5), Err(15));
    assert_eq!(call(3, &THREE, 0, 6), Ok(6));
}

#[test]
fn the_way_back() {
    let call = |n, scores: &[i32], anchor, slots| {
        let mut distances = vec![77; slots];
        let answer = way_back(n, scores, anchor, &mut distances);
        assert!(answer.is_ok() || distances.iter().all(|&d| d == 77));
        (answer, distances)
    };
    let refusal = |scores: &[i32]| call(3, scores, 0, 6).0;
    let (answer, distances) = call(3, &[0, 0, 10, 0, 4, 6], 0, 7);
    assert_eq!(answer, Ok(6));
    assert_eq!(distances, [0, 5, 0, 3, 4, 0, 77]);

    assert_eq!(call(0, &[], 0, 0).0, Err(6));
    assert_eq!(call(33, &[0; 561], 0, 561).0, Err(6));
    assert_eq!(call(3, &[0; 5], 3, 0).0, Err(10));
    assert_eq!(call(3, &[0; 6], 3, 6).0, Err(15));
    assert_eq!(call(3, &[0; 6], 0, 5).0, Err(15));

    assert_eq!(refusal(&[0, 0, 11, 0, 4, 6]), Err(15), "odd own score");
    assert_eq!(refusal(&[2, 0, 10, 0, 4, 6]), Err(15), "own score of 0");
    assert_eq!(refusal(&[0, 2, 10, 0, 4, 6]), Err(15), "score with 0");
    assert_eq!(refusal(&[0, 0, -2, 0, -1, 0]), Err(15), "d(0,1) = -1");
    assert_eq!(refusal(&[0, 0, 10, 0, 9, 6]), Err(15), "d(1,2) = -1");
    assert_eq!(refusal(&[0, 0, 10, 0, 8, 6]), Ok(6), "d(1,2) = 0");
    let most = 4_000_000;
    assert_eq!(refusal(&[0, 0, most, 0, 2_000_000, most]), Ok(6));
    assert_eq!(refusal(&[0, 0, most, 0, 1_999_999, most]), Err(15));
    assert_eq!(refusal(&[0, 0, most + 2, 0, most, most]), Err(15));
    assert_eq!(refusal(&[0, 0, 0, 0, -2_000_000, 0]), Ok(6));
    assert_eq!(refusal(&[0, 0, 0, 0, -2_000_001, 0]), Err(15));
    let (far, low) = (i32::MAX - 1, i32::MIN);
    assert_eq!(refusal(&[0, 0, far, 0, far, far]), Err(15));
    assert_eq!(refusal(&[0, 0, far, 0, low, far]), Err(15));
    assert_eq!(refusal(&[low, low, low, low, low, low]), Err(15));
}
