//! Pair lists from a seed, good and flawed, all small ones, and what is handed
//! over with them.

use crate::sheet_call::small_table;
use second_engine::compare::equal;
use second_engine::engine::{self, GREATEST, UNSCORED};
use second_engine::generate::{self, Random, Share, Table, MARK, SHARES};
use std::ops::RangeInclusive;

/// A list of values, in half points, said to be the pair list of n entries.
#[derive(Clone, Debug, PartialEq, Eq)]
pub struct List {
    pub n: usize,
    pub pairs: Vec<i32>,
}

impl List {
    pub fn of(table: &Table) -> Self {
        List {
            n: table.entries(),
            pairs: table.pairs(),
        }
    }

    /// Leaves that share of the pairs unscored.
    pub fn unscore(&mut self, random: &mut Random, share: Share) {
        for (a, b) in generate::unscored(random, self.n, share) {
            self.pairs[pair_count(a.max(b)) + a.min(b)] = UNSCORED;
        }
    }
}

/// Calls on a copy of the list: the answer is the one wanted, the list stays.
pub fn call_on(list: &List, wanted: i64, call: impl FnOnce(&[i32]) -> i64) -> Result<(), String> {
    let pairs = list.pairs.clone();
    let given = call(&pairs);
    if given != wanted {
        return Err(format!("answers {given}, wanted {wanted}"));
    }
    if !equal(&pairs, &list.pairs) {
        return Err("the list itself was changed".into());
    }
    Ok(())
}

/// Every list of so few entries and values, own values 0 or not.
pub fn small(
    n: usize,
    own: bool,
    values: impl IntoIterator<Item = i64>,
) -> impl Iterator<Item = List> {
    let values: Vec<i64> = values.into_iter().collect();
    let pairs = pair_count(if own { n } else { n - 1 });
    (0..values.len().pow(pairs as u32))
        .map(move |number| List::of(&small_table(n, own, &values, number)))
}

/// These values, and the mark.
pub fn marked(values: RangeInclusive<i64>) -> impl Iterator<Item = i64> {
    values.chain([MARK])
}

/// The pairs of n entries, or of so few that a list of them can be made.
pub fn pair_count(n: usize) -> usize {
    let n = n.min(40);
    n * (n + 1) / 2
}

/// Where the own pair of an entry stands.
pub fn own(entry: usize) -> usize {
    pair_count(entry) + entry
}

/// In range: trees and near-trees, tied values, the ends of the range; now and
/// then with unscored pairs.
pub fn scores(random: &mut Random) -> List {
    let n = generate::entries(random);
    scores_of(random, n)
}

/// Of so many entries.
pub fn scores_of(random: &mut Random, n: usize) -> List {
    let mut list = List::of(&generate::scores(random, n));
    if random.one_in(8) {
        let ends = [-GREATEST, 1 - GREATEST, -1, 0, 1, GREATEST - 1, GREATEST];
        list.pairs.fill_with(|| random.of(&ends));
    }
    if random.one_in(3) {
        let share = random.of(&SHARES);
        list.unscore(random, share);
    }
    list
}

/// Distances, as check 12 wants them.
pub fn distances(random: &mut Random) -> List {
    let n = generate::entries(random);
    List::of(&generate::distances(random, n))
}

/// A good list now and then made wrong.
pub fn any(random: &mut Random, good: impl Fn(&mut Random) -> List) -> List {
    let list = good(random);
    match random.one_in(3) {
        true => flawed(random, list),
        false => list,
    }
}

/// A list made wrong in one place or a few; now and then it is another good one.
pub fn flawed(random: &mut Random, mut list: List) -> List {
    for _ in 0..random.of(&[1, 1, 1, 2, 3]) {
        flaw(random, &mut list);
    }
    list
}

fn flaw(random: &mut Random, list: &mut List) {
    let near = [GREATEST + 1, -GREATEST - 1, GREATEST + 2];
    let far = [&near[..], &[i32::MAX, UNSCORED + 1, 2 * GREATEST]].concat();
    let few = [-GREATEST, -1, 1, 2, GREATEST];
    let n = list.n;
    match random.below(9) {
        0 => {
            // The list of another number of entries, or the number alone.
            list.n = random.of(&[0, 0, 33, 33, 40, n + 1, n.wrapping_sub(1)]);
            if random.one_in(2) {
                list.pairs.resize(pair_count(list.n), 0);
            }
        }
        // Numbers whose low bits alone would pass.
        1 => list.n = n.wrapping_add(random.of(&[1 << 8, 1 << 16, 1 << 32, 1 << 63])),
        2 => list.n = random.of(&[64, 528, 1 << 31, 1 << 32, 1 << 63, usize::MAX]),
        3 => {
            let length = list.pairs.len();
            let near = [0, 1, n, length.wrapping_sub(1), length + 1, 2 * length, 528];
            list.pairs.resize(random.of(&near).min(1_000), 0);
        }
        4 | 5 => put(random, list, &far),
        6 => put(random, list, &[UNSCORED]),
        _ => put(random, list, &few),
    }
}

/// One value anywhere, at either end, or of an own pair.
fn put(random: &mut Random, list: &mut List, values: &[i32]) {
    let length = list.pairs.len();
    if length > 0 {
        let entry = random.below(list.n.clamp(1, 32));
        let any = random.below(length);
        let place = random.of(&[0, length - 1, any, any, own(entry).min(length - 1)]);
        list.pairs[place] = random.of(values);
    }
}

/// Anchored scores of distances, or nearly so, and their anchor.
pub fn anchored(random: &mut Random) -> (List, usize) {
    let mut list = distances(random);
    let x = random.below(list.n);
    let pairs = list.pairs.clone();
    engine::anchored(list.n, &pairs, x, &mut list.pairs).expect("these are distances");
    match random.below(8) {
        0 | 1 => put(random, &mut list, &[1, -1, 2, 0]),
        2 | 3 => {
            // One distance more or less, half of one, or an anchor's score.
            let a = random.below(list.n);
            let any = random.below(list.pairs.len());
            let place = random.of(&[own(a), own(a), any, pair_count(x)]);
            list.pairs[place] += random.of(&[-2, -1, 1, 2]);
        }
        4 => put(random, &mut list, &[i32::MAX, i32::MIN, i32::MAX - 1]),
        _ => {}
    }
    (list, x)
}

/// An entry of the list, and now and then none of it.
pub fn entry(random: &mut Random, n: usize) -> usize {
    match random.below(8) {
        0 => random.of(&[n, n.wrapping_add(1), 32, 33, 1 << 32, usize::MAX]),
        _ => random.below(n.clamp(1, 40)),
    }
}

/// Numbers that are no entries of any list, or whose low bits alone would be.
pub const FAR_ENTRIES: [usize; 10] = [
    32,
    33,
    1 << 8,
    1 << 16,
    1 << 31,
    1 << 32,
    1 << 63,
    usize::MAX - 1,
    usize::MAX,
    usize::MAX / 2,
];

/// Numbers that are no kinds, or whose low bits alone would be.
pub const NO_KINDS: [i32; 7] = [0, 4, -1, i32::MIN, i32::MAX, 1 << 8 | 1, 1 << 16 | 3];

/// Slots around as many as are needed.
pub fn room(random: &mut Random, needed: usize) -> usize {
    let near = [0, 1, needed.saturating_sub(1), needed, needed + 1];
    match random.below(4) {
        0 => random.of(&near),
        1 => random.below(2 * needed + 3),
        _ => needed + random.below(20),
    }
}
