//! Request 2.5: the refined weight of a split.

use second_engine::refined::{smallest_scores, weight};

const MARK: i32 = i32::MIN;

/// d(0,1) = d(2,3) = 2, other distances 4.
const COPIES: [i32; 10] = [0, 2, 0, 4, 4, 0, 4, 4, 2, 0];

/// The distances of a list, own ones 0.
fn list(n: usize, distance: impl Fn(usize, usize) -> i32) -> Vec<i32> {
    let value = |a, b| if a == b { 0 } else { distance(a, b) };
    (0..n)
        .flat_map(|a| (0..=a).map(move |b| (a, b)))
        .map(|(a, b)| value(a, b))
        .collect()
}

#[test]
fn one_quartet() {
    for side in [0b1100, 0b0011] {
        assert_eq!(weight(4, &COPIES, side), Ok(4 + 4 - 2 - 2));
    }
    // Of the two sums across, 2 + 2 is the smaller.
    for side in [0b0101, 0b1010, 0b0110, 0b1001] {
        assert_eq!(weight(4, &COPIES, side), Ok(2 + 2 - 4 - 4));
    }
}

/// 01|23 has 10 - 4, 01|24 has 11 - 5, 01|34 has 12 - 3: the two smallest are
/// equal, and both are counted.
#[test]
fn equal_scores_are_counted_each() {
    let pairs = [0, 1, 0, 5, 5, 0, 6, 5, 3, 0, 7, 6, 4, 2, 0];
    for side in [0b00011, 0b11100] {
        assert_eq!(smallest_scores(5, &pairs, side), Ok(vec![6, 6]));
        assert_eq!(weight(5, &pairs, side), Ok(12));
    }
}

/// Entry 0 twice against 2 and 3 would have 1 + 1 - 1.
#[test]
fn no_entry_stands_twice_in_a_quartet() {
    let pairs = [0, 1, 0, 1, 9, 0, 1, 9, 1, 0];
    assert_eq!(weight(4, &pairs, 0b0011), Ok(1 + 9 - 1 - 1));
    assert_eq!(weight(4, &pairs, 0b1100), Ok(1 + 9 - 1 - 1));
}

/// Entries in a row, 1 apart, each hanging from it by 1: 012|345 is cut at one
/// edge. Of its 9 quartets the four with 2 and 3 have 2, the others more.
#[test]
fn the_smallest_of_many() {
    let pairs = list(6, |a, b| 2 + a.abs_diff(b) as i32);
    assert_eq!(smallest_scores(6, &pairs, 0b000111), Ok(vec![2, 2, 2]));
    assert_eq!(weight(6, &pairs, 0b111000), Ok(6));
    // Every second entry: 04|15 has 6 - 12, 04|13 and 24|15 have 6 - 10.
    let alternate = smallest_scores(6, &pairs, 0b010101);
    assert_eq!(alternate, Ok(vec![-6, -4, -4]));
}

#[test]
fn the_ends_of_the_range() {
    let (n, odd) = (32, 0xaaaa_aaaa);
    let across = |a: usize, b: usize| a % 2 != b % 2;
    let far = list(n, |a, b| if across(a, b) { 2_000_000 } else { 0 });
    let near = list(n, |a, b| if across(a, b) { 0 } else { 2_000_000 });
    let alike = list(n, |_, _| 2_000_000);
    for side in [odd, !odd] {
        assert_eq!(weight(n, &far, side), Ok(29 * 4_000_000));
        assert_eq!(weight(n, &near, side), Ok(-29 * 4_000_000));
        assert_eq!(weight(n, &alike, side), Ok(0));
    }
}

/// Fewer than two on the side, or on the other; with fewer than four entries
/// there is no other way.
#[test]
fn sides_with_fewer_than_two() {
    for n in 1..=32usize {
        let (pairs, all) = (list(n, |_, _| 7), u32::MAX >> (32 - n));
        assert_eq!(weight(n, &pairs, 0), Err(19));
        assert_eq!(weight(n, &pairs, all), Err(19));
        for entry in 0..n {
            assert_eq!(weight(n, &pairs, 1 << entry), Err(19));
            assert_eq!(weight(n, &pairs, all & !(1 << entry)), Err(19));
        }
        for side in 0..16 {
            let two = n >= 4 && side & all == side && (2..=n - 2).contains(&members(side));
            assert_eq!(weight(n, &pairs, side).is_ok(), two, "{side:x} of {n}");
        }
    }
}

fn members(side: u32) -> usize {
    side.count_ones() as usize
}

#[test]
fn members_beyond_the_entries() {
    for n in 4..32 {
        let pairs = list(n, |_, _| 7);
        assert_eq!(weight(n, &pairs, 0b11), Ok(0));
        for beyond in n..32 {
            assert_eq!(weight(n, &pairs, 0b11 | 1 << beyond), Err(19));
            assert_eq!(weight(n, &pairs, 1 << beyond), Err(19));
        }
    }
}

#[test]
fn refusals_in_order() {
    let wrong = 0b11111;
    let mut pairs = COPIES.to_vec();
    assert_eq!(weight(4, &pairs, wrong), Err(19));
    pairs[3] = -1;
    assert_eq!(weight(4, &pairs, wrong), Err(12));
    assert_eq!(weight(4, &pairs, 0b0011), Err(12));
    pairs[3] = 4;
    pairs[9] = 1;
    assert_eq!(weight(4, &pairs, 0b0011), Err(12));
    pairs[0] = MARK;
    assert_eq!(weight(4, &pairs, wrong), Err(16));
    pairs[1] = 2_000_001;
    assert_eq!(weight(4, &pairs, wrong), Err(11));
    pairs[1] = MARK + 1;
    assert_eq!(weight(4, &pairs, 0b0011), Err(11));
    assert_eq!(weight(4, &pairs[..9], wrong), Err(10));
    assert_eq!(weight(5, &pairs, wrong), Err(10));
    for n in [0, 33, 1 << 32 | 4, usize::MAX] {
        assert_eq!(weight(n, &pairs[..9], wrong), Err(6));
    }
    assert_eq!(weight(33, &[0; 561], 0b0011), Err(6));
    assert_eq!(weight(4, &[MARK; 10], 0b0011), Err(16));
}
