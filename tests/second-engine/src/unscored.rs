//! What request 2.2 says of a list with unscored pairs and the lists that come
//! of it by scoring them, held against an engine's own answers.

use crate::engine::UNSCORED;
use crate::generate::{self, Random};

/// The strong groups of a pair list and their indices.
pub type Groups = Result<Vec<(u32, i64)>, String>;

/// Scores the unscored pairs one by one, in any order: no step removes a group or
/// lowers its index. Answers how many groups were kept, over all steps.
pub fn check_scoring(
    found: impl Fn(&[i32]) -> Groups,
    random: &mut Random,
    pairs: &[i32],
) -> Result<usize, String> {
    let mut pairs = pairs.to_vec();
    let mut left: Vec<usize> = (0..pairs.len())
        .filter(|&place| pairs[place] == UNSCORED)
        .collect();
    let mut kept = 0;
    let mut groups = found(&pairs)?;
    while !left.is_empty() {
        let place = left.swap_remove(random.below(left.len()));
        let before = pairs.clone();
        pairs[place] = generate::score(random);
        let now = found(&pairs)?;
        let stays = |&(set, index): &(u32, i64)| now.iter().any(|x| x.0 == set && x.1 >= index);
        if let Some((set, index)) = groups.iter().find(|group| !stays(group)) {
            return Err(format!(
                "{set:x} of index {index} is lost by place {place} scored {}; {before:?}",
                pairs[place]
            ));
        }
        kept += groups.len();
        groups = now;
    }
    Ok(kept)
}

/// Every group of two entries or more is a block of the tree of any filling.
/// Answers how many there are.
pub fn check_tree(
    found: impl Fn(&[i32]) -> Groups,
    merged: impl Fn(&[i32]) -> Result<Vec<u32>, String>,
    random: &mut Random,
    pairs: &[i32],
) -> Result<usize, String> {
    let filling = generate::filling(random, pairs);
    let blocks = merged(&filling)?;
    let mut groups = found(pairs)?;
    groups.retain(|(set, _)| set.count_ones() > 1);
    match groups.iter().find(|(set, _)| !blocks.contains(set)) {
        Some((set, _)) => Err(format!(
            "{set:x} is no block of {blocks:x?}, the tree of {filling:?}; {pairs:?}"
        )),
        None => Ok(groups.len()),
    }
}

#[cfg(test)]
mod tests {
    use super::*;
    use crate::engine::{linkage, numbers, Method, GREATEST, STRONG};

    const N: usize = 4;

    fn found(pairs: &[i32]) -> Groups {
        let (mut sets, mut indices) = ([0; 2 * N], [0; 2 * N]);
        let count = numbers(STRONG, N, pairs, &mut sets, &mut indices)
            .map_err(|number| format!("refused {number}"))?;
        Ok(sets.into_iter().zip(indices).take(count).collect())
    }

    /// An engine that takes the mark as a score.
    fn as_score(pairs: &[i32], score: i32) -> Groups {
        let scored = |&pair: &i32| if pair == UNSCORED { score } else { pair };
        found(&pairs.iter().map(scored).collect::<Vec<_>>())
    }

    fn merged(pairs: &[i32]) -> Result<Vec<u32>, String> {
        let mut blocks = vec![0; N - 1];
        linkage(Method::Single, N, pairs, &mut blocks, |_| 0)
            .map_err(|number| format!("refused {number}"))?;
        Ok(blocks)
    }

    /// The worked example, C and D never compared.
    const APART: [i32; 10] = [9, 8, 9, 6, 5, 9, 2, 3, UNSCORED, 9];

    #[test]
    fn what_is_right_passes() {
        let mut random = Random::new(1);
        for _ in 0..100 {
            assert_eq!(check_scoring(found, &mut random, &APART), Ok(3));
            assert_eq!(check_tree(found, merged, &mut random, &APART), Ok(1));
        }
    }

    /// With s(C,D) far above, {A,B,C} is no group and no block.
    #[test]
    fn a_mark_that_is_taken_as_a_score_is_seen() {
        for score in [0, -GREATEST] {
            let wrong = |pairs: &[i32]| as_score(pairs, score);
            let mut random = Random::new(1);
            assert!((0..100).any(|_| check_scoring(wrong, &mut random, &APART).is_err()));
            assert!((0..100).any(|_| check_tree(wrong, merged, &mut random, &APART).is_err()));
        }
    }

    #[test]
    fn an_index_that_falls_is_seen() {
        let wrong = |pairs: &[i32]| {
            let groups = found(pairs)?;
            let more = i64::from(pairs == APART);
            Ok(groups.into_iter().map(|x| (x.0, x.1 + more)).collect())
        };
        assert!(check_scoring(wrong, &mut Random::new(1), &APART).is_err());
    }
}
