//! Request 2.5: the refined weight of a split, found by all choices of four
//! entries.

use crate::engine::{
    check_entries, check_length, check_values, refuse_if, Refusal, Scores, SPLITS,
};

/// The refined weight of the split of a side and the other entries: the sum of
/// the n - 3 smallest doubled scores of its quartets.
pub fn weight(n: usize, pairs: &[i32], side: u32) -> Result<i64, Refusal> {
    Ok(smallest_scores(n, pairs, side)?.iter().sum())
}

/// The doubled scores that are summed, rising, equal ones each.
pub fn smallest_scores(n: usize, pairs: &[i32], side: u32) -> Result<Vec<i64>, Refusal> {
    check_entries(n)?;
    check_length(n, pairs)?;
    check_values(SPLITS, n, pairs)?;
    refuse_if(!has_two_sides(n, side), 19)?;
    let mut scores = doubled_scores(n, pairs, side);
    scores.sort_unstable();
    scores.truncate(n - 3);
    Ok(scores)
}

/// Whether every member is an entry, and there are two entries or more on the
/// side and as many on the other.
fn has_two_sides(n: usize, side: u32) -> bool {
    let (members, others): (Vec<usize>, Vec<usize>) =
        (0..32).partition(|&entry| is_member(side, entry));
    members.iter().all(|&entry| entry < n)
        && members.len() >= 2
        && others.iter().filter(|&&entry| entry < n).count() >= 2
}

fn is_member(side: u32, entry: usize) -> bool {
    side >> entry & 1 == 1
}

/// The doubled scores of all quartets, in any order.
fn doubled_scores(n: usize, pairs: &[i32], side: u32) -> Vec<i64> {
    let d = Scores::new(n, pairs);
    let mut scores = Vec::new();
    for w in 0..n {
        for x in 0..w {
            for y in 0..x {
                scores.extend((0..y).filter_map(|z| doubled_score(d, side, [w, x, y, z])));
            }
        }
    }
    scores
}

/// The doubled score of four entries, if they are a quartet: two of them on each
/// side. There are three ways to pair them; one stays within the sides, and the
/// others go across.
fn doubled_score(d: Scores, side: u32, [w, x, y, z]: [usize; 4]) -> Option<i64> {
    let ways = [[w, x, y, z], [w, y, x, z], [w, z, x, y]];
    let within = ways.iter().position(|way| {
        let [a, b, c, d] = way.map(|entry| is_member(side, entry));
        a == b && c == d && a != c
    })?;
    let sums = ways.map(|[a, b, c, e]| d.at(a, b) + d.at(c, e));
    let across = (0..3).filter(|&way| way != within).map(|way| sums[way]);
    Some(across.min()? - sums[within])
}
