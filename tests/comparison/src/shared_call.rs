//! The smallest group two entries share. Every pair of entries of generated
//! lists, of all small lists, of lists with as many groups as can be and of the
//! bench; lists of every length; reorderings.

use crate::bench;
use crate::calls::{self, MOST_PAIRS};
use crate::lent::{Lent, FLIPS};
use crate::lists::{self, call_on, marked, pair_count, small, List};
use crate::parts::Parts;
use second_engine::compare::Tally;
use second_engine::engine::{self, Refusal, CLEAN, GREATEST, SPLITS, STRONG};
use second_engine::generate::{self, Random, Table, MARK, SHARES};
use second_engine::reordering::{image, parse_listing};

const KINDS: [i32; 2] = [STRONG, CLEAN];
/// Beside those that are no kinds at all: splits, and numbers whose low bits
/// alone would be kind 2.
const NOT_HERE: [i32; 3] = [SPLITS, 1 << 8 | CLEAN, 1 << 16 | CLEAN];

pub fn run(lists: usize, seed: u64, parts: &mut Parts) {
    let mut random = Random::new(seed);
    let mut met = Met::default();
    let outcome = generated_lists(&mut random, lists, &mut met);
    let ended = outcome.is_ok();
    parts.add("smallest shared, generated lists", outcome);
    if ended {
        met.every_answer_is_met(lists, parts);
    }
    parts.add("smallest shared, all small lists", small_lists());
    parts.add("smallest shared, as many groups as can be", most_groups());
    parts.add("smallest shared, lists of every length", every_length());
    let outcome = reorderings(&mut random, lists / 2);
    parts.add("smallest shared, lists reordered", outcome);
    parts.add("smallest shared, bench cases", bench_cases());
}

/// The groups in written order, or the refusal that asks nothing of the entries.
type Groups = Result<Vec<u32>, Refusal>;

/// What was asked.
#[derive(Default)]
pub struct Met {
    tally: Tally,
    /// Pairs of entries that none, one and several groups hold: by kind, and by
    /// whether they are different entries.
    holding: [[[u64; 3]; 2]; 2],
}

impl Met {
    /// The line and the set; a refused call writes the set 0.
    fn check(
        &mut self,
        kind: i32,
        list: &List,
        groups: &Groups,
        (a, b): (usize, usize),
    ) -> Result<(), String> {
        let wanted = match groups {
            Ok(groups) => engine::smallest_among(list.n, groups, a, b),
            Err(number) => Err(*number),
        };
        let (answer, set) = match wanted {
            Ok((set, line)) => (line as i64, set),
            Err(number) => (-number, 0),
        };
        let check = |flip| {
            let mut lent = Lent::new(1, flip);
            call_on(list, answer, |pairs| {
                calls::smallest_shared(kind, list.n, pairs, a, b, lent.slice())
            })?;
            lent.check(&[set])
        };
        FLIPS
            .into_iter()
            .try_for_each(check)
            .map_err(|message| format!("{message}; kind {kind}, entries {a} and {b}, {list:?}"))?;
        self.tally.count(answer);
        if let (Ok(groups), 0..) = (groups, answer) {
            let both = groups.iter().filter(|&set| set >> a & set >> b & 1 == 1);
            let number = both.count().min(2);
            self.holding[kind as usize - 1][usize::from(a != b)][number] += 1;
        }
        Ok(())
    }

    /// Both kinds on every pair of entries and on numbers that are no entries,
    /// other kinds on some.
    pub fn check_all(&mut self, list: &List) -> Result<(), String> {
        for kind in KINDS {
            let groups = engine::shared_groups(kind, list.n, &list.pairs);
            self.check_pairs(kind, list, &groups)?;
            self.check_no_entries(kind, list, &groups)?;
        }
        for kind in lists::NO_KINDS.into_iter().chain(NOT_HERE) {
            let groups = engine::shared_groups(kind, list.n, &list.pairs);
            for pair in [(0, 0), (0, last(list)), (last(list), 0), (0, list.n)] {
                self.check(kind, list, &groups, pair)?;
            }
        }
        Ok(())
    }

    /// Every pair of entries, in both orders, each with itself too; of too many
    /// entries the first few.
    fn check_pairs(&mut self, kind: i32, list: &List, groups: &Groups) -> Result<(), String> {
        let entries = if list.n <= 32 { list.n } else { 4 };
        for a in 0..entries {
            for b in 0..entries {
                self.check(kind, list, groups, (a, b))?;
            }
        }
        Ok(())
    }

    /// A number that is no entry in either place, and in both.
    fn check_no_entries(&mut self, kind: i32, list: &List, groups: &Groups) -> Result<(), String> {
        let next = [list.n, list.n.wrapping_add(1)];
        for far in next.into_iter().chain(lists::FAR_ENTRIES) {
            for entry in [0, last(list), far] {
                self.check(kind, list, groups, (far, entry))?;
                self.check(kind, list, groups, (entry, far))?;
            }
        }
        Ok(())
    }

    /// Entries that no group holds, that one does and that several do; every
    /// refusal.
    fn every_answer_is_met(&self, lists: usize, parts: &mut Parts) {
        println!("smallest shared: {lists} lists, each also flawed twice, every pair of entries");
        for (kind, [same, different]) in KINDS.iter().zip(&self.holding) {
            println!("kind {kind}, entries that no group, one, several hold:");
            println!("different ones: {different:?}, one twice: {same:?}");
        }
        let outcome = match self.holding.iter().flatten().flatten().any(|&n| n == 0) {
            true => Err("one of these was never met".into()),
            false => Ok(()),
        };
        parts.add("smallest shared, line 0 and others are met", outcome);
        parts.add_refusals("smallest shared", &self.tally, &[1, 6, 10, 11, 16, 15]);
    }
}

/// The last entry, or 0.
fn last(list: &List) -> usize {
    list.n.clamp(1, 32) - 1
}

/// A number of entries; large ones, of many pairs, are rarer than elsewhere.
fn entries(random: &mut Random) -> usize {
    match generate::entries(random) {
        13.. if !random.one_in(3) => 1 + random.below(12),
        n => n,
    }
}

/// Each list as it is, and flawed twice.
fn generated_lists(random: &mut Random, lists: usize, met: &mut Met) -> Result<(), String> {
    for _ in 0..lists {
        let n = entries(random);
        let list = lists::scores_of(random, n);
        met.check_all(&list)?;
        for _ in 0..2 {
            met.check_all(&lists::flawed(random, list.clone()))?;
        }
    }
    Ok(())
}

/// Every list of so few entries and values, ties and all orders with them.
fn small_lists() -> Result<(), String> {
    let mut met = Met::default();
    let with_own = small(3, true, marked(-1..=2)).chain(small(4, true, 0..=1));
    let without = small(4, false, 0..=3).chain(small(5, false, 0..=1));
    let unscored = small(4, false, marked(0..=2)).chain(small(5, false, [0, MARK]));
    for list in with_own.chain(without).chain(unscored) {
        for kind in KINDS {
            let groups = engine::shared_groups(kind, list.n, &list.pairs);
            met.check_pairs(kind, &list, &groups)?;
        }
    }
    Ok(())
}

/// Entries join one by one, by steps of half a point, of a point, or of more.
fn most_groups() -> Result<(), String> {
    let mut met = Met::default();
    for n in (0..=13).chain(32..=34) {
        for step in [1, 2, 99] {
            let score = |a, b| match a == b {
                true => GREATEST,
                false => step * (n - a) as i32,
            };
            let pairs = (0..n).flat_map(|a| (0..=a).map(move |b| score(a, b)));
            met.check_all(&List {
                n,
                pairs: pairs.collect(),
            })?;
        }
    }
    Ok(())
}

/// Lists from 0 values on, to a few more than any number of entries has.
fn every_length() -> Result<(), String> {
    let mut met = Met::default();
    for n in [0, 1, 2, 3, 4, 5, 13, 31, 32, 33] {
        for length in 0..=pair_count(33) + 2 {
            let pairs = vec![0; length];
            let list = List { n, pairs };
            for kind in KINDS {
                let groups = engine::shared_groups(kind, n, &list.pairs);
                for entry in [0, last(&list), n, usize::MAX] {
                    met.check(kind, &list, &groups, (entry, 0))?;
                    met.check(kind, &list, &groups, (0, entry))?;
                }
            }
        }
    }
    Ok(())
}

/// What two entries share is what they share in another order, of strong groups
/// also with unscored pairs.
fn reorderings(random: &mut Random, lists: usize) -> Result<(), String> {
    for _ in 0..lists {
        let n = entries(random);
        let table = generate::scores(random, n);
        let mut unscored = table.clone();
        let share = random.of(&SHARES);
        unscored.unscore(random, share);
        for p in [(0..n).rev().collect(), generate::order(random, n)] {
            for (kind, table) in [(STRONG, &table), (CLEAN, &table), (STRONG, &unscored)] {
                reordered(kind, table, &p)
                    .map_err(|message| format!("{message}; kind {kind}, {p:?}, {table:?}"))?;
            }
        }
    }
    Ok(())
}

/// The set goes over to its image, and line 0 to line 0.
fn reordered(kind: i32, table: &Table, p: &[usize]) -> Result<(), String> {
    let (old, new) = (List::of(table), List::of(&table.reordered(p)));
    for a in 0..old.n {
        for b in 0..old.n {
            let (line, set) = share(kind, &old, a, b)?;
            let (new_line, new_set) = share(kind, &new, p[a], p[b])?;
            if new_set != image(kind, p, set) || (line == 0) != (new_line == 0) {
                return Err(format!("{a} and {b} share another group"));
            }
        }
    }
    Ok(())
}

fn share(kind: i32, list: &List, a: usize, b: usize) -> Result<(i64, u32), String> {
    let mut set = [0];
    match calls::smallest_shared(kind, list.n, &list.pairs, a, b, &mut set) {
        line @ 0.. => Ok((line, set[0])),
        minus => Err(format!("refused {}", -minus)),
    }
}

/// The sheets of the bench that are read: what is searched are the lines that
/// stand there.
fn bench_cases() -> Result<(), String> {
    let mut met = Met::default();
    for (kind, sheet, answer) in bench::cases() {
        let mut pairs = vec![0; MOST_PAIRS];
        let n = match usize::try_from(calls::pair_list(sheet.as_bytes(), &mut pairs)) {
            Ok(n) => n,
            Err(_) => continue,
        };
        pairs.truncate(pair_count(n));
        let groups = match answer {
            _ if kind == SPLITS => Err(1),
            Err(number) => Err(number),
            Ok(lines) => {
                let lines = parse_listing(&format!("set size index\n{lines}"));
                let lines = lines.ok_or("no listing")?;
                Ok(lines.into_iter().map(|(set, _)| set).collect())
            }
        };
        met.check_pairs(kind, &List { n, pairs }, &groups)?;
    }
    match met.tally.missed(&[1, 11, 16]) {
        missed if missed.is_empty() && met.tally.listings > 0 => Ok(()),
        missed => Err(format!("never met: {missed:?}")),
    }
}
