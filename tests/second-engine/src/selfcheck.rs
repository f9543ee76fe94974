//! This engine against itself: the two ways of finding sets, reorderings, the
//! theorems of 003 that lead to the same listing by another route, what two
//! entries share, unscored pairs by every filling, pools entry by entry, weights
//! by every choice of quartets, sheets of whole points as they were listed before
//! there were half points, doubled lists, and refusals against sheets and lists
//! made to meet them.

use crate::compare::{Case, Tally, SHEET_REFUSALS};
use crate::engine::{self, Bounds, Method, Scores, Way, GREATEST, STRONG, UNSCORED};
use crate::generate::{self, Halves, Random, Table, BY_POINTS, FARTHEST, MARK, SHARES};
use crate::halves::{check_doubled, check_whole, doubled, halved, sort};
use crate::pool::pool;
use crate::pooling::{self, check_groups, MOST_BYTES};
use crate::refined::weight;
use crate::reordering::{self, read_listing, show, whole};
use crate::unscored::{check_scoring, check_tree};
use crate::weighing::{self, check_list, check_order, is_weighed, Found};
use std::fmt;

/// What a run went through.
#[derive(Clone, Debug, Default)]
pub struct Report {
    /// Listings found both ways, and their lines, by kind.
    pub both_ways: [u64; 4],
    pub both_ways_lines: [u64; 4],
    /// Listings of 13 to 32 entries checked by another route, and their lines.
    pub large: [u64; 4],
    pub large_lines: [u64; 4],
    /// Clean groups met that no strong listing has.
    pub clean_not_strong: u64,
    /// Pairs of entries that share a group, and pairs that share none, by kind.
    pub shared: [u64; 4],
    pub not_shared: [u64; 4],
    /// Sets of lists with unscored pairs whose least index was found by every
    /// filling; how many of them are listed.
    pub filled: u64,
    pub filled_listed: u64,
    /// Lists with unscored pairs checked by another route, and their lines.
    pub unscored: u64,
    pub unscored_lines: u64,
    /// Groups kept where a pair more was scored, and blocks of fillings' trees.
    pub kept: u64,
    pub blocks: u64,
    /// Pools of two sheets, those refused for a sum, and the groups strong in both.
    pub pools: u64,
    pub sums_refused: u64,
    pub strong_in_both: u64,
    /// Weights by every choice of quartets, below 0, 0, and above; weights of more
    /// entries, by the smallest one by one; what was found in all these lists.
    pub chosen: [u64; 3],
    pub one_by_one: u64,
    pub weights: Found,
    /// Sheets without a point, by what they were answered before there were half
    /// points; groups of doubled lists, by kind, and weights of such lists.
    pub whole: Tally,
    pub doubled: [u64; 4],
    pub doubled_weights: u64,
    /// Lines by their index: half a point, whole points, any other.
    pub lines: [u64; 3],
    /// Sheets that a point alone makes wrong.
    pub pointed: Tally,
    pub reorderings: u64,
    pub tally: Tally,
}

impl fmt::Display for Report {
    fn fmt(&self, f: &mut fmt::Formatter) -> fmt::Result {
        for kind in 1..4 {
            writeln!(
                f,
                "kind {kind}: {} listings both ways, {} lines; {} of 13 to 32 entries by another route, {} lines",
                self.both_ways[kind],
                self.both_ways_lines[kind],
                self.large[kind],
                self.large_lines[kind],
            )?;
        }
        for kind in 1..3 {
            writeln!(
                f,
                "kind {kind}: {} pairs of entries share a group, {} share none",
                self.shared[kind], self.not_shared[kind],
            )?;
        }
        writeln!(f, "clean groups not strong: {}", self.clean_not_strong)?;
        writeln!(
            f,
            "unscored pairs: {} sets by every filling, {} of them listed; {} lists by another route, {} lines; {} groups kept by a pair more, {} blocks",
            self.filled,
            self.filled_listed,
            self.unscored,
            self.unscored_lines,
            self.kept,
            self.blocks,
        )?;
        writeln!(
            f,
            "pools: {}, refused for a sum: {}; groups strong in both sheets: {}",
            self.pools, self.sums_refused, self.strong_in_both,
        )?;
        writeln!(
            f,
            "weights by every choice, below 0, 0, above: {:?}; one by one: {}; {:?}",
            self.chosen, self.one_by_one, self.weights,
        )?;
        writeln!(
            f,
            "sheets without a point as before: {} listings, refused: {:?}; groups of doubled lists: {:?}, their weights: {}",
            self.whole.listings,
            SHEET_REFUSALS.map(|number| (number, self.whole.refusals[number])),
            &self.doubled[1..],
            self.doubled_weights,
        )?;
        writeln!(
            f,
            "lines of half a point, of whole points, others: {:?}; refused for a point: {:?}",
            self.lines,
            BY_POINTS.map(|number| (number, self.pointed.refusals[number])),
        )?;
        writeln!(f, "reorderings: {}", self.reorderings)?;
        writeln!(
            f,
            "calls: {}, listings: {}",
            self.tally.calls(),
            self.tally.listings
        )?;
        for number in SHEET_REFUSALS {
            writeln!(f, "refused {number}: {}", self.tally.refusals[number])?;
        }
        Ok(())
    }
}

/// So many rounds; the first disagreement ends the run.
pub fn run(rounds: u64, seed: u64) -> Result<Report, String> {
    let mut random = Random::new(seed);
    let mut report = Report::default();
    for _ in 0..rounds {
        round(&mut random, &mut report)?;
    }
    let missed = [
        report.tally.missed(&SHEET_REFUSALS),
        report.pointed.missed(&BY_POINTS),
    ];
    match missed.concat() {
        missed if missed.is_empty() => Ok(report),
        missed => Err(format!("{report}refusals never met: {missed:?}")),
    }
}

/// Calls, good and bad, and a few sheets of each sort.
pub fn round(random: &mut Random, report: &mut Report) -> Result<(), String> {
    for _ in 0..40 {
        let case = generate::case(random);
        let mut room = vec![0; case.room];
        let answer = engine::listing(case.kind, &case.sheet, &mut room);
        report.tally.count(answer);
        let (case, wanted) = generate::flawed(random);
        let mut room = vec![0; case.room];
        let answer = engine::listing(case.kind, &case.sheet, &mut room);
        report.tally.count(answer);
        demand(answer == wanted, || {
            format!("answer {answer}, wanted {wanted}: {case:?}")
        })?;
    }
    for _ in 0..8 {
        let most = if random.one_in(200) { 14 } else { 12 };
        let n = 1 + random.below(most);
        for (kind, table) in tables(random, n) {
            both_ways(kind, &table, report)?;
        }
    }
    for _ in 0..16 {
        every_filling(random, report)?;
    }
    for _ in 0..8 {
        some_fillings(random, report)?;
        scored_later(random, report)?;
        pooled(random, report)?;
    }
    // With draws that all others make too, whatever the weights need.
    let mut own = random.clone();
    for _ in 0..8 {
        every_choice(&mut own, report)?;
        weighed(&mut own, report)?;
    }
    let mut own = random.clone();
    for _ in 0..4 {
        as_before(&mut own, report)?;
        twice(&mut own, report)?;
        read_back(&mut own)?;
        refused_for_a_point(&mut own, report)?;
    }
    let n = 1 + random.below(32);
    let mut unscored = generate::scores(random, n);
    let share = random.of(&SHARES);
    unscored.unscore(random, share);
    for (kind, table) in tables(random, n).into_iter().chain([(1, unscored)]) {
        another_route(random, kind, &table, report)?;
        shared(kind, &table, report)?;
        let p = generate::order(random, n);
        reordering::check(engine::listing, kind, &table, &p)?;
        report.reorderings += 1;
    }
    Ok(())
}

fn tables(random: &mut Random, n: usize) -> [(i32, Table); 3] {
    let scores = generate::scores(random, n);
    let distances = generate::distances(random, n);
    [(1, scores.clone()), (2, scores), (3, distances)]
}

fn demand(holds: bool, message: impl FnOnce() -> String) -> Result<(), String> {
    if holds {
        Ok(())
    } else {
        Err(message())
    }
}

/// Every set against the candidates.
fn both_ways(kind: i32, table: &Table, report: &mut Report) -> Result<(), String> {
    let (n, pairs) = (table.entries(), table.pairs());
    let s = Scores::new(n, &pairs);
    let every = engine::listed(kind, s, Way::EverySet);
    let candidates = engine::listed(kind, s, Way::Candidates);
    demand(every == candidates, || {
        format!(
            "every set: {every:x?}, candidates: {candidates:x?}; {}",
            show(kind, table)
        )
    })?;
    demand(every.len() <= most_lines(kind, n), || {
        format!("{} lines; {}", every.len(), show(kind, table))
    })?;
    if kind == 2 {
        let strong = engine::listed(1, s, Way::EverySet);
        let is_strong = |set| strong.iter().any(|line| line.0 == set);
        report.clean_not_strong += every.iter().filter(|line| !is_strong(line.0)).count() as u64;
    }
    report.both_ways[kind as usize] += 1;
    report.both_ways_lines[kind as usize] += every.len() as u64;
    Ok(())
}

fn most_lines(kind: i32, n: usize) -> usize {
    match kind {
        1 => 2 * n - 2,
        2 => n.saturating_sub(2),
        _ => (2 * n).saturating_sub(3),
    }
}

/// The listing against one that is found through a linkage tree.
fn another_route(
    random: &mut Random,
    kind: i32,
    table: &Table,
    report: &mut Report,
) -> Result<(), String> {
    let wanted = match kind {
        1 => through_linkage(random, kind, Method::Single, table)?,
        2 => through_linkage(random, kind, Method::Average, table)?,
        _ => through_anchors(random, table)?,
    };
    let found = read_listing(engine::listing, kind, table)?;
    demand(found == wanted, || {
        format!("{found:x?}, wanted {wanted:x?}; {}", show(kind, table))
    })?;
    for &(_, index) in &found {
        report.lines[sort(index)] += 1;
    }
    if engine::unscored(&table.pairs()) > 0 {
        report.unscored += 1;
        report.unscored_lines += found.len() as u64;
    } else if table.entries() > 12 {
        report.large[kind as usize] += 1;
        report.large_lines[kind as usize] += found.len() as u64;
    }
    Ok(())
}

/// The smallest group that two entries share, of every two: what all groups that
/// hold both have in common, and the first of them in the listing.
fn shared(kind: i32, table: &Table, report: &mut Report) -> Result<(), String> {
    let (n, pairs) = (table.entries(), table.pairs());
    if kind == 3 {
        let found = engine::smallest_shared(kind, n, &pairs, 0, n - 1);
        return demand(found == Err(1), || {
            format!("{found:x?}, wanted 1; {}", show(kind, table))
        });
    }
    let lines = read_listing(engine::listing, kind, table)?;
    let groups = engine::shared_groups(kind, n, &pairs)
        .map_err(|number| format!("refused {number}; {}", show(kind, table)))?;
    for a in 0..n {
        for b in 0..n {
            let holds_both = |set: u32| set >> a & set >> b & 1 == 1;
            let both = lines.iter().filter(|line| holds_both(line.0));
            let common = both.fold(whole(n), |common, line| common & line.0);
            let first = lines.iter().position(|line| holds_both(line.0));
            let line = first.map_or(0, |place| place + 1);
            let found = engine::smallest_among(n, &groups, a, b);
            demand(found == Ok((common, line)), || {
                format!(
                    "{a} and {b} share {found:x?}, wanted {common:x} on line {line}; {}",
                    show(kind, table)
                )
            })?;
            match line {
                0 => report.not_shared[kind as usize] += 1,
                _ => report.shared[kind as usize] += 1,
            }
        }
    }
    Ok(())
}

/// Every strong group is a block of every single linkage tree, every clean
/// group one of every average linkage tree (003, theorems 2.3 and 2.4). With
/// unscored pairs the tree is one of any filling, and of its blocks those are
/// groups that no unscored pair touches: such a pair of a member would, with the
/// worst score, leave a term of 0 or less; and where there is none, no filling
/// changes a term.
fn through_linkage(
    random: &mut Random,
    kind: i32,
    method: Method,
    table: &Table,
) -> Result<Vec<(u32, i64)>, String> {
    let (n, pairs) = (table.entries(), table.pairs());
    let filling = generate::filling(random, &pairs);
    let (s, touched) = (Scores::new(n, &filling), touched(n, &pairs));
    let mut blocks = blocks(random, method, n, &filling)?;
    blocks.retain(|block| block & touched == 0);
    let indices = blocks
        .into_iter()
        .filter_map(|block| Some((block, engine::index(kind, s, whole(n), block)?)));
    Ok(indices.filter(|&(_, index)| index >= 1).collect())
}

/// The entries that have an unscored pair, with another entry or with themselves.
fn touched(n: usize, pairs: &[i32]) -> u32 {
    let entries = (0..n).flat_map(|a| (0..=a).map(move |b| 1 << a | 1 << b));
    let unscored = entries
        .zip(pairs)
        .filter(|(_, &pair)| pair == UNSCORED)
        .map(|(both, _): (u32, _)| both);
    unscored.fold(0, |touched, both| touched | both)
}

/// A side without the first entry is a strong group under the scores anchored
/// there, and the index of the split is the least strong index over all anchors
/// on the other side (003, theorem 3.3).
fn through_anchors(random: &mut Random, table: &Table) -> Result<Vec<(u32, i64)>, String> {
    let (n, distances) = (table.entries(), table.pairs());
    let anchored: Vec<Vec<i32>> = (0..n)
        .map(|anchor| anchored(&distances, n, anchor))
        .collect::<Result<_, _>>()?;
    let least = |side: u32| {
        let beyond = (0..n).filter(|anchor| side >> anchor & 1 == 0);
        beyond
            .map(|x| engine::strong_index(Scores::new(n, &anchored[x]), whole(n), side))
            .min()
    };
    let mut sides = blocks(random, Method::Single, n, &anchored[0])?;
    sides.retain(|side| side & 1 == 0);
    let indices = sides
        .into_iter()
        .filter_map(|side| Some((side, least(side)?)));
    Ok(indices.filter(|&(_, index)| index >= 1).collect())
}

/// Every set of a small list: its least index over all fillings, or over fillings
/// of a few scores if the range is wide, is that over the ends of the range and
/// the one found at once. Then the groups, by each way of listing them.
fn every_filling(random: &mut Random, report: &mut Report) -> Result<(), String> {
    let (n, greatest) = (2 + random.below(4), random.of(&[1, 2, GREATEST]));
    let (ends, few) = ([-greatest, greatest], [-greatest, -1, 0, 7, greatest]);
    let scores: Vec<i32> = match greatest {
        GREATEST => few.to_vec(),
        narrow => (-narrow..=narrow).collect(),
    };
    let mut pairs: Vec<i32> = (0..n * (n + 1) / 2).map(|_| random.of(&scores)).collect();
    if random.one_in(2) {
        // Own scores high, so that some sets are listed.
        (0..n).for_each(|a| pairs[a * (a + 3) / 2] = greatest);
    }
    // In the first places only, so that not every entry has an unscored pair.
    let last = random.below(pairs.len());
    for _ in 0..=random.below(4) {
        pairs[random.below(last + 1)] = UNSCORED;
    }
    let bounds = Bounds::new(n, &pairs, greatest);
    let mut lines = Vec::new();
    for set in 1..whole(n) {
        let least = |scores: &[i32]| {
            let fillings = engine::fillings(&pairs, scores);
            fillings
                .map(|filling| engine::strong_index(Scores::new(n, &filling), whole(n), set))
                .min()
        };
        let index = bounds.strong_index(set);
        let found = [least(&scores), least(&ends), Some(index)];
        demand(found == [Some(index); 3], || {
            format!("{set:x} has {found:?}; {pairs:?}, range {greatest}")
        })?;
        report.filled += 1;
        if index >= 1 {
            lines.push((set, index));
            report.filled_listed += 1;
        }
    }
    lines.sort_unstable_by_key(|&(set, _)| (set.count_ones(), set));
    let ways = [
        engine::listed_in_all(n, &pairs, &scores),
        engine::listed_in_all(n, &pairs, &ends),
        bounds.listed(),
    ];
    demand(ways.iter().all(|way| *way == lines), || {
        format!("{ways:x?}, wanted {lines:x?}; {pairs:?}, range {greatest}")
    })
}

/// A larger list with a few unscored pairs: its groups by the fillings of the
/// ends of the range, and at once.
fn some_fillings(random: &mut Random, report: &mut Report) -> Result<(), String> {
    let n = 1 + random.below(16);
    let mut table = generate::scores(random, n);
    for _ in 0..=random.below(5) {
        table.set(random.below(n), random.below(n), generate::MARK);
    }
    let pairs = table.pairs();
    let all = engine::listed_in_all(n, &pairs, &[-GREATEST, GREATEST]);
    let at_once = Bounds::new(n, &pairs, GREATEST).listed();
    demand(all == at_once, || {
        format!(
            "every filling: {all:x?}, at once: {at_once:x?}; {}",
            show(1, &table)
        )
    })?;
    report.unscored += 1;
    report.unscored_lines += all.len() as u64;
    Ok(())
}

/// Scoring a pair more removes no group, and each group is a block of the trees
/// of fillings.
fn scored_later(random: &mut Random, report: &mut Report) -> Result<(), String> {
    let n = 1 + random.below(8);
    let mut table = generate::scores(random, n);
    let share = random.of(&SHARES);
    table.unscore(random, share);
    let found = |pairs: &[i32]| {
        let (mut sets, mut indices) = (vec![0; 2 * n], vec![0; 2 * n]);
        let count = engine::numbers(STRONG, n, pairs, &mut sets, &mut indices)
            .map_err(|number| format!("refused {number}; {pairs:?}"))?;
        Ok(sets.into_iter().zip(indices).take(count).collect())
    };
    let seed = random.below(usize::MAX) as u64;
    let merged = |pairs: &[i32]| blocks(&mut Random::new(seed), Method::Single, n, pairs);
    report.kept += check_scoring(found, random, &table.pairs())? as u64;
    report.blocks += check_tree(found, merged, random, &table.pairs())? as u64;
    Ok(())
}

/// A pool against the sums of two tables whose entries stand in one order; and its
/// groups.
fn pooled(random: &mut Random, report: &mut Report) -> Result<(), String> {
    let n = 1 + random.below(12);
    let [first, second] = pooling::tables(random, n);
    let order = generate::order(random, n);
    let sheets = [first.sheet(), second.reordered(&order).sheet()];
    let [one, other] = [&sheets[0][..], &sheets[1][..]];
    let mut found = vec![0; MOST_BYTES];
    let answer = pool(one, other, &mut found);
    found.truncate(usize::try_from(answer).unwrap_or(0));
    let wanted = match summed(&first, &second) {
        Some(sum) => sum.sheet(),
        None => Vec::new(),
    };
    let refused = wanted.is_empty();
    demand(found == wanted && refused == (answer == -18), || {
        format!("answer {answer}; {}{}", show(1, &first), show(1, &second))
    })?;
    if refused {
        report.sums_refused += 1;
        return Ok(());
    }
    report.pools += 1;
    report.strong_in_both += check_groups(engine::listing, pool, [one, other])? as u64;
    Ok(())
}

/// The sums, entry by entry; none if one is out of range.
fn summed(first: &Table, second: &Table) -> Option<Table> {
    let mut sum = first.clone();
    let cells = sum.values.iter_mut().flatten();
    for (cell, &added) in cells.zip(second.values.iter().flatten()) {
        *cell = match (*cell, added) {
            (MARK, _) | (_, MARK) => MARK,
            (score, added) => score + added,
        };
        if *cell != MARK && cell.abs() > GREATEST.into() {
            return None;
        }
    }
    Some(sum)
}

/// The scores of the quartets of a side, each by two entries of the side and two
/// of the other.
fn quartet_scores(n: usize, pairs: &[i32], side: u32) -> Vec<i64> {
    let d = |a: usize, b: usize| i64::from(pairs[a.max(b) * (a.max(b) + 1) / 2 + a.min(b)]);
    let two = |on| {
        let entries: Vec<usize> = (0..n).filter(|a| side >> a & 1 == on).collect();
        let all = entries
            .iter()
            .flat_map(|&a| entries.iter().map(move |&b| (a, b)));
        all.filter(|(a, b)| a < b).collect::<Vec<_>>()
    };
    let others = two(0);
    let scores = two(1).into_iter().flat_map(|(a, a2)| {
        others.iter().map(move |&(b, b2)| {
            let across = (d(a, b) + d(a2, b2)).min(d(a, b2) + d(a2, b));
            across - (d(a, a2) + d(b, b2))
        })
    });
    scores.collect()
}

/// The least sum of so many different ones of these, over every choice.
fn least_sum(scores: &[i64], count: usize) -> Option<i64> {
    if count == 0 {
        return Some(0);
    }
    let choices = (0..scores.len()).filter_map(|first| {
        let rest = least_sum(&scores[first + 1..], count - 1)?;
        Some(scores[first] + rest)
    });
    choices.min()
}

/// Every side of a small list: its weight is the least sum of n - 3 different
/// quartets.
fn every_choice(random: &mut Random, report: &mut Report) -> Result<(), String> {
    let n = 1 + random.below(6);
    let table = generate::distances(random, n);
    let pairs = table.pairs();
    for side in 0..=whole(n) {
        let wanted = match is_weighed(n, side) {
            true => least_sum(&quartet_scores(n, &pairs, side), n - 3).ok_or(0),
            false => Err(19),
        };
        let found = weight(n, &pairs, side);
        demand(found == wanted, || {
            format!(
                "{side:x} has {found:?}, wanted {wanted:?}; {}",
                show(3, &table)
            )
        })?;
        if let Ok(weight) = found {
            report.chosen[(weight.signum() + 1) as usize] += 1;
        }
    }
    Ok(())
}

/// A side of a list of any size: the smallest scores are taken one by one. Then
/// what is said of the weights of the list and of another order; and a call that
/// is to be refused.
fn weighed(random: &mut Random, report: &mut Report) -> Result<(), String> {
    let n = generate::entries(random);
    let table = generate::distances(random, n);
    let pairs = table.pairs();
    let weigh = |pairs: &[i32], side| {
        weight(n, pairs, side).map_err(|number| format!("{side:x} is refused with {number}"))
    };
    let side = weighing::any_side(random, n, &weighing::listed(n, &pairs));
    if is_weighed(n, side) {
        let mut scores = quartet_scores(n, &pairs, side);
        let mut sum = 0;
        for _ in 0..n - 3 {
            let least = (0..scores.len()).min_by_key(|&place| scores[place]);
            sum += scores.swap_remove(least.expect("n - 3 quartets or more"));
        }
        let found = weight(n, &pairs, side);
        demand(found == Ok(sum), || {
            format!("{side:x} has {found:?}, wanted {sum}; {}", show(3, &table))
        })?;
        report.one_by_one += 1;
        let p = generate::order(random, n);
        check_order(weigh, &table, &p, side)?;
    }
    if n <= 16 {
        let lines = read_listing(engine::listing, 3, &table)?;
        let sides = weighing::splits(random, n, &lines);
        let found = check_list(|side| weigh(&pairs, side), n, &lines, &sides)
            .map_err(|message| format!("{message}; {}", show(3, &table)))?;
        report.weights.add(found);
    }
    let (case, number) = weighing::flawed(random, None);
    let found = weight(case.n, &case.pairs, case.side);
    demand(found == Err(number), || {
        format!("{found:?}, wanted {number}: {case:?}")
    })
}

/// Good sheets of whole points, and any other without a point.
fn as_before(random: &mut Random, report: &mut Report) -> Result<(), String> {
    let n = generate::entries(random);
    let mut scores = generate::scores_with(random, n, Halves::None);
    if random.one_in(2) {
        let share = random.of(&SHARES);
        scores.unscore(random, share);
    }
    let distances = generate::distances_with(random, n, Halves::None);
    let good = [(1, &scores), (2, &scores), (3, &distances)].map(|(kind, table)| Case {
        kind,
        sheet: table.sheet(),
        room: 4096,
    });
    let any = [(); 3].map(|()| generate::case(random));
    let flawed = [(); 3].map(|()| generate::flawed(random).0);
    for case in good.into_iter().chain(any).chain(flawed) {
        if !case.sheet.contains(&b'.') {
            let answer = check_whole("this engine", engine::listing, case)?;
            report.whole.count(answer);
        }
    }
    Ok(())
}

/// A list and its double: the same groups, with twice the indices; and twice the
/// weight of a split.
fn twice(random: &mut Random, report: &mut Report) -> Result<(), String> {
    let n = generate::entries(random);
    let mut unscored = generate::scores(random, n);
    let share = random.of(&SHARES);
    unscored.unscore(random, share);
    let tables = tables(random, n);
    let distances = halved(&tables[2].1).pairs();
    for (kind, table) in tables.into_iter().chain([(1, unscored)]) {
        let found = |pairs: &[i32]| {
            let (mut sets, mut indices) = (vec![0; 2 * n], vec![0; 2 * n]);
            let count = engine::numbers(kind, n, pairs, &mut sets, &mut indices)
                .map_err(|number| format!("refused {number}; {pairs:?}"))?;
            Ok(sets.into_iter().zip(indices).take(count).collect())
        };
        let groups = check_doubled(found, &halved(&table).pairs())
            .map_err(|message| format!("kind {kind}: {message}"))?;
        report.doubled[kind as usize] += groups as u64;
    }
    let side = weighing::any_side(random, n, &weighing::listed(n, &distances));
    let [once, again] = [&distances, &doubled(&distances)].map(|list| weight(n, list, side));
    demand(once.map(|weight| 2 * weight) == again, || {
        format!("{side:x} has {once:?}, doubled {again:?}; {distances:?}")
    })?;
    report.doubled_weights += u64::from(again.is_ok());
    Ok(())
}

/// Any value, written and read back.
fn read_back(random: &mut Random) -> Result<(), String> {
    let value = match random.one_in(4) {
        true => random.between(-30, 30),
        false => random.between(-FARTHEST, FARTHEST),
    };
    let text = engine::in_points(value);
    let mut slot = [0];
    let read = engine::read(format!("A\n{text}\n").as_bytes(), &mut slot);
    demand(read == Ok(1) && i64::from(slot[0]) == value, || {
        format!("{value} is written {text} and read as {slot:?}, {read:?}")
    })
}

/// A sheet that is good but for a point.
fn refused_for_a_point(random: &mut Random, report: &mut Report) -> Result<(), String> {
    let number = random.of(&BY_POINTS);
    let case = generate::pointed(random, number);
    let answer = engine::listing(case.kind, &case.sheet, &mut vec![0; case.room]);
    report.pointed.count(answer);
    demand(answer == -(number as i64), || {
        format!("answer {answer}, wanted -{number}: {case:?}")
    })
}

/// The blocks of a tree, ties broken at random, by size, then by set.
fn blocks(
    random: &mut Random,
    method: Method,
    n: usize,
    pairs: &[i32],
) -> Result<Vec<u32>, String> {
    let merged = engine::tree(method, Scores::new(n, pairs), |ties| random.below(ties));
    demand(engine::is_tree(method, n, pairs, &merged), || {
        format!("{method:?}, not a tree: {merged:x?} of {pairs:?}")
    })?;
    let mut blocks: Vec<u32> = (0..n).map(|a| 1 << a).chain(merged).collect();
    blocks.sort_unstable_by_key(|block| (block.count_ones(), *block));
    Ok(blocks)
}

/// The anchored scores, once the way back has led to the distances again.
fn anchored(distances: &[i32], n: usize, anchor: usize) -> Result<Vec<i32>, String> {
    let mut scores = vec![0; distances.len()];
    let mut back = vec![0; distances.len()];
    engine::anchored(n, distances, anchor, &mut scores)
        .and_then(|_| engine::way_back(n, &scores, anchor, &mut back))
        .map_err(|number| format!("anchored scores or way back refused {number}"))?;
    demand(back == distances, || {
        format!("way back from {anchor}: {back:?}, wanted {distances:?}")
    })?;
    Ok(scores)
}

#[cfg(test)]
mod tests {
    use super::*;

    fn many_both_ways(seed: u64, sheets: usize, sizes: std::ops::RangeInclusive<usize>) -> Report {
        let mut random = Random::new(seed);
        let mut report = Report::default();
        for _ in 0..sheets {
            let n = random.between(*sizes.start() as i64, *sizes.end() as i64) as usize;
            for (kind, table) in tables(&mut random, n) {
                both_ways(kind, &table, &mut report).unwrap();
            }
        }
        report
    }

    #[test]
    fn both_ways_agree() {
        let report = many_both_ways(1, 6_000, 1..=9);
        for kind in 1..4 {
            assert!(report.both_ways_lines[kind] > 5_000, "{report}");
        }
        assert!(report.clean_not_strong > 1_000, "{report}");
    }

    #[test]
    fn both_ways_agree_at_12_and_beyond() {
        let report = many_both_ways(2, 250, 10..=12);
        assert!(report.clean_not_strong > 50, "{report}");
        many_both_ways(3, 12, 13..=14);
    }

    #[test]
    fn rounds_hold() {
        let mut random = Random::new(4);
        let mut report = Report::default();
        for _ in 0..60 {
            round(&mut random, &mut report).unwrap();
        }
        assert_eq!(report.tally.missed(&SHEET_REFUSALS), [], "{report}");
        for kind in 1..4 {
            assert!(report.large_lines[kind] > 300, "{report}");
        }
        for kind in 1..3 {
            assert!(report.shared[kind] > 1_000, "{report}");
            assert!(report.not_shared[kind] > 1_000, "{report}");
        }
        let unscored = [report.filled_listed, report.unscored_lines, report.kept];
        assert!(unscored.iter().all(|&count| count > 250), "{report}");
        assert!(report.blocks > 50, "{report}");
        assert!(report.pools > 250, "{report}");
        assert!(report.sums_refused > 5, "{report}");
        assert!(report.strong_in_both > 250, "{report}");
        assert!(report.chosen.iter().all(|&count| count > 50), "{report}");
        assert!(report.one_by_one > 200, "{report}");
        assert!(report.weights.has_all(), "{report}");
        assert!(report.whole.listings > 500, "{report}");
        assert!(report.whole.missed(&SHEET_REFUSALS).is_empty(), "{report}");
        assert!(
            report.doubled[1..].iter().all(|&count| count > 500),
            "{report}"
        );
        assert!(report.doubled_weights > 100, "{report}");
        assert!(report.lines.iter().all(|&count| count > 50), "{report}");
        assert!(report.pointed.missed(&BY_POINTS).is_empty(), "{report}");
        for number in SHEET_REFUSALS {
            assert!(report.tally.refusals[number] > 100, "{report}");
        }
    }
}
