//! Pairs that were never compared (request 2.2): each share of them through every
//! call on a pair list; the library's own groups before and after a pair more is
//! scored; and its trees of fillings.

use crate::lists::{self, List};
use crate::number_calls::{
    check_anchored, check_linkage, check_numbers, found, merged, ANCHORED, BACK,
};
use crate::parts::{met, Parts};
use crate::shared_call::Met;
use crate::weight_call;
use second_engine::engine::{Method, STRONG};
use second_engine::generate::{self, Random, Share, SHARES};
use second_engine::unscored::{check_scoring, check_tree, Groups};
use second_engine::weighing;

pub fn run(lists: usize, seed: u64, parts: &mut Parts) {
    let mut random = Random::new(seed);
    for share in SHARES {
        let outcome = every_call(&mut random, share, lists);
        parts.add(&format!("calls on a list, {share}"), outcome);
    }
    let outcome = scored_later(&mut random, lists);
    parts.add("a pair more scored, no group is lost", outcome);
    let outcome = trees(&mut random, lists);
    parts.add("groups are blocks of the trees of fillings", outcome);
}

fn list_of(random: &mut Random, share: Share) -> List {
    let n = generate::entries(random);
    let mut list = List::of(&generate::scores(random, n));
    list.unscore(random, share);
    list
}

/// Lists with groups and lists without are met.
fn every_call(random: &mut Random, share: Share, lists: usize) -> Result<(), String> {
    let mut groups = [0; 2];
    for _ in 0..lists {
        let list = list_of(random, share);
        let n = list.n;
        for kind in 1..=3 {
            let count = check_numbers(kind, &list, (2 * n, 2 * n))?;
            if kind == STRONG {
                groups[usize::from(count > 0)] += 1;
            }
        }
        check_linkage(Method::Single, &list, n - 1)?;
        check_linkage(Method::Average, &list, n - 1)?;
        let anchor = lists::entry(random, n);
        check_anchored(ANCHORED, &list, anchor, list.pairs.len())?;
        check_anchored(BACK, &list, anchor, list.pairs.len())?;
        for side in [0, 0b11, weighing::any_set(random, n)] {
            weight_call::check(&list, side)?;
        }
        if n <= 5 {
            Met::default().check_all(&list)?;
        }
    }
    println!("{share}, lists without groups and with: {groups:?}");
    match groups.contains(&0) {
        true => Err("one of these was never met".into()),
        false => Ok(()),
    }
}

fn strong(n: usize, pairs: &[i32]) -> Groups {
    let pairs = pairs.to_vec();
    found(STRONG, &List { n, pairs }).ok_or_else(|| "refused".into())
}

fn scored_later(random: &mut Random, lists: usize) -> Result<(), String> {
    let mut kept = 0;
    for _ in 0..lists {
        let share = random.of(&SHARES);
        let List { n, pairs } = list_of(random, share);
        kept += check_scoring(|pairs| strong(n, pairs), random, &pairs)?;
    }
    met("groups kept where a pair more is scored", kept)
}

fn trees(random: &mut Random, lists: usize) -> Result<(), String> {
    let mut blocks = 0;
    for _ in 0..lists {
        let share = random.of(&SHARES);
        let List { n, pairs } = list_of(random, share);
        let tree = |pairs: &[i32]| {
            let pairs = pairs.to_vec();
            merged(Method::Single, &List { n, pairs })
        };
        for _ in 0..4 {
            blocks += check_tree(|pairs| strong(n, pairs), tree, random, &pairs)?;
        }
    }
    met("groups found as blocks of fillings' trees", blocks)
}
