//! Refined weights of splits (request 2.5): calls from a seed, another engine's
//! answers against these, and what is said of the weights of a list.

use crate::compare::Tally;
use crate::engine::{self, Scores, Way, SPLITS, UNSCORED};
use crate::generate::{self, Random, Table, FAR};
use crate::refined::smallest_scores;
use crate::reordering::{image, whole};

/// One call: a list of values, said to be the pair list of n entries, and a side.
#[derive(Clone, Debug, PartialEq, Eq)]
pub struct Case {
    pub n: usize,
    pub pairs: Vec<i32>,
    pub side: u32,
}

impl Case {
    pub fn of(table: &Table, side: u32) -> Self {
        Case {
            n: table.entries(),
            pairs: table.pairs(),
            side,
        }
    }
}

/// A call, the number it must answer, 0 if it is not refused, and the scores
/// whose sum is the weight: none if it is refused.
#[derive(Clone, Debug, PartialEq, Eq)]
pub struct Expected {
    pub case: Case,
    pub number: i64,
    pub scores: Vec<i64>,
}

impl Expected {
    /// As this engine answers.
    pub fn of(case: Case) -> Self {
        let (number, scores) = match smallest_scores(case.n, &case.pairs, case.side) {
            Ok(scores) => (0, scores),
            Err(number) => (number, Vec::new()),
        };
        Expected {
            case,
            number,
            scores,
        }
    }

    pub fn weight(&self) -> i64 {
        self.scores.iter().sum()
    }
}

/// What a call gave: 0 or the refusal's number, and the weight; or what is wrong
/// beside these.
pub type Given = Result<(i64, i64), String>;

/// Calls `other`: the number and the weight are as they must be.
pub fn check(
    name: &str,
    other: impl Fn(usize, &[i32], u32) -> Given,
    expected: &Expected,
) -> Result<(), String> {
    let Case { n, pairs, side } = &expected.case;
    let wanted = (expected.number, expected.weight());
    match other(*n, pairs, *side) {
        Ok(given) if given == wanted => Ok(()),
        Ok((number, weight)) => Err(format!(
            "answers {number} and the weight {weight}, wanted {} and {}",
            wanted.0, wanted.1
        )),
        Err(message) => Err(message),
    }
    .map_err(|message| format!("{name} {message}: side {side:x} of {n} entries; list: {pairs:?}"))
}

/// Calls `other` on each case and compares; the first difference ends the run.
pub fn compare(
    name: &str,
    other: impl Fn(usize, &[i32], u32) -> Given,
    cases: impl IntoIterator<Item = Case>,
) -> Result<Met, String> {
    let mut met = Met::default();
    for case in cases {
        let expected = Expected::of(case);
        met.count(&expected);
        check(name, &other, &expected)?;
    }
    Ok(met)
}

/// What was asked.
#[derive(Clone, Debug, Default, PartialEq, Eq)]
pub struct Met {
    pub tally: Tally,
    /// Weights below 0, 0, and above.
    pub signs: [u64; 3],
    /// Weights in which a score is counted more than once.
    pub equal: u64,
}

/// The refusals of a weight, in the order of the checks.
pub const OF_A_WEIGHT: [usize; 6] = [6, 10, 11, 16, 12, 19];

impl Met {
    pub fn count(&mut self, expected: &Expected) {
        self.tally.count(-expected.number);
        if expected.number == 0 {
            self.signs[(expected.weight().signum() + 1) as usize] += 1;
            let twice = expected.scores.windows(2).any(|two| two[0] == two[1]);
            self.equal += u64::from(twice);
        }
    }
}

// ------------------------------------------------------------- From a seed

/// The sides without the first entry of the listed splits that have a weight.
pub fn listed(n: usize, pairs: &[i32]) -> Vec<u32> {
    let lines = engine::listed(SPLITS, Scores::new(n, pairs), Way::Candidates);
    let sides = lines.into_iter().map(|(side, _)| side);
    sides.filter(|&side| is_weighed(n, side)).collect()
}

/// Any entries of n.
pub fn any_set(random: &mut Random, n: usize) -> u32 {
    random.between(0, i64::from(u32::MAX)) as u32 & whole(n)
}

/// A set of exactly so many entries of n.
fn set_of(random: &mut Random, n: usize, members: usize) -> u32 {
    let order = generate::order(random, n);
    order[..members]
        .iter()
        .fold(0, |set, &entry| set | 1 << entry)
}

/// A side, or the other.
fn either(random: &mut Random, n: usize, side: u32) -> u32 {
    match random.one_in(2) {
        true => side,
        false => whole(n) & !side,
    }
}

/// A side with fewer than two entries, or the other of it; or one with a member
/// numbered n or more.
pub fn wrong_side(random: &mut Random, n: usize) -> u32 {
    match n {
        0 => any_set(random, 32),
        1..=31 if random.one_in(2) => {
            let beyond = any_set(random, 32) & !whole(n) | 1 << (n + random.below(32 - n));
            let within = any_set(random, n);
            beyond | within
        }
        1..=32 => {
            let members = random.below(2);
            let few = set_of(random, n, members);
            either(random, n, few)
        }
        _ => any_set(random, 32),
    }
}

/// A side of a list with these listed splits, mostly with two entries or more on
/// each side: of a listed split, of one with an entry moved over, of any two
/// entries, any one.
pub fn any_side(random: &mut Random, n: usize, listed: &[u32]) -> u32 {
    let side = match random.below(8) {
        0..=2 if !listed.is_empty() => random.of(listed),
        3 if !listed.is_empty() => random.of(listed) ^ 1 << random.below(n),
        4 => set_of(random, n, 2.min(n)),
        5 if random.one_in(2) => return wrong_side(random, n),
        _ => any_set(random, n),
    };
    either(random, n, side)
}

/// A number of entries, fewer than four now and then only.
pub fn entries(random: &mut Random) -> usize {
    match generate::entries(random) {
        1..=3 if !random.one_in(8) => 4 + random.below(9),
        n => n,
    }
}

/// The calls of a seed, without end: a list with a few sides, and calls to be
/// refused.
pub fn cases(seed: u64) -> impl Iterator<Item = Case> {
    let mut random = Random::new(seed);
    std::iter::repeat_with(move || {
        let random = &mut random;
        let n = entries(random);
        let table = generate::distances(random, n);
        let listed = listed(n, &table.pairs());
        let mut cases: Vec<Case> = (0..6)
            .map(|_| Case::of(&table, any_side(random, n, &listed)))
            .collect();
        cases.extend((0..2).map(|_| flawed(random, None).0));
        cases
    })
    .flatten()
}

/// A call made to meet chosen lines of the table, one or more, each at a place of
/// its own; and the number it must answer, that of the first. Bit k of the choice
/// stands for the k-th number of `OF_A_WEIGHT`; without a choice it is any.
pub fn flawed(random: &mut Random, choice: Option<usize>) -> (Case, i64) {
    let choice = choice.unwrap_or_else(|| {
        let number = random.of(&[1, 1, 1, 2, 3, 6]);
        (0..number).fold(0, |choice, _| choice | 1 << random.below(OF_A_WEIGHT.len()))
    });
    let chosen = |number| {
        let place = OF_A_WEIGHT.iter().position(|&other| other == number);
        matches!(place, Some(place) if choice >> place & 1 == 1)
    };
    let n = match chosen(6) {
        true => random.of(&[0, 33, 33, 34, 40, (1 << 32) + 6, usize::MAX]),
        false => 4 + random.below(29),
    };
    // A list of n entries; of a few where n is none or far too many.
    let entries = if (4..=40).contains(&n) { n } else { 6 };
    let mut table = generate::scattered(random, entries, true);
    (0..entries).for_each(|a| table.set(a, a, 0));
    if chosen(11) {
        let (most, least) = (i32::MAX.into(), i64::from(UNSCORED) + 1);
        let far = random.of(&[FAR + 1, -FAR - 1, FAR + 2, most, least]);
        table.set(1, 0, far);
    }
    if chosen(16) {
        let (a, b) = random.of(&[(0, 0), (2, 0), (2, 1)]);
        table.set(a, b, UNSCORED.into());
    }
    if chosen(12) {
        match random.one_in(2) {
            true => table.set(2, 2, random.of(&[1, -1, 2, FAR])),
            false => table.set(3, 0, random.of(&[-1, -2, -FAR])),
        }
    }
    let mut pairs = table.pairs();
    if chosen(10) {
        let length = pairs.len();
        pairs.resize(random.of(&[length - 1, length + 1, 2 * length]), 0);
    }
    let side = match chosen(19) {
        true => wrong_side(random, n),
        false => {
            let members = 2 + random.below(entries.min(32) - 3);
            set_of(random, entries.min(32), members)
        }
    };
    let first = OF_A_WEIGHT.into_iter().find(|&number| chosen(number));
    let number = first.expect("one is chosen") as i64;
    (Case { n, pairs, side }, number)
}

// ------------------------------------------------- What is said of the weights

/// What was found in lists whose weights are as they must be.
#[derive(Clone, Copy, Debug, Default, PartialEq, Eq)]
pub struct Found {
    /// Splits of positive weight, and those of them that are not listed.
    pub positive: u64,
    pub unlisted: u64,
    /// Two splits of positive weight.
    pub two: u64,
    /// Splits that cross one of positive weight.
    pub crossing: u64,
    /// Listed splits with two entries or more on each side.
    pub lines: u64,
}

impl Found {
    pub fn add(&mut self, other: Found) {
        self.positive += other.positive;
        self.unlisted += other.unlisted;
        self.two += other.two;
        self.crossing += other.crossing;
        self.lines += other.lines;
    }

    /// Whether there is one of each.
    pub fn has_all(&self) -> bool {
        let Found {
            positive,
            unlisted,
            two,
            crossing,
            lines,
        } = self;
        ![positive, unlisted, two, crossing, lines].contains(&&0)
    }
}

/// Some side of one split lies within a side of the other.
pub fn is_compatible(n: usize, side: u32, other: u32) -> bool {
    let beyond = |set: u32| whole(n) & !set;
    [side, beyond(side)].iter().any(|&one| {
        [other, beyond(other)]
            .iter()
            .any(|&around| one & !around == 0)
    })
}

/// Whether a set and the other entries are two or more each.
pub fn is_weighed(n: usize, side: u32) -> bool {
    let members = (side & whole(n)).count_ones() as usize;
    side & !whole(n) == 0 && members >= 2 && n - members >= 2
}

/// What is said of the weights of a list, by an engine's own weights and lines,
/// of these splits and the listed ones: either side has the same weight; two of
/// positive weight never cross; a line has n - 3 times its index or more.
pub fn check_list(
    weigh: impl Fn(u32) -> Result<i64, String>,
    n: usize,
    lines: &[(u32, i64)],
    sides: &[u32],
) -> Result<Found, String> {
    let mut found = Found::default();
    let first = |side: u32| match side & 1 {
        1 => whole(n) & !side,
        _ => side,
    };
    let listed = lines.iter().map(|line| line.0);
    let mut splits: Vec<u32> = sides
        .iter()
        .map(|&side| first(side))
        .chain(listed)
        .collect();
    splits.sort_unstable();
    splits.dedup();
    splits.retain(|&side| is_weighed(n, side));

    let mut weights = Vec::new();
    for &side in &splits {
        let both = [weigh(side)?, weigh(whole(n) & !side)?];
        if both[0] != both[1] {
            return Err(format!("the sides of {side:x} have the weights {both:?}"));
        }
        weights.push((side, both[0]));
    }
    for &(side, index) in lines.iter().filter(|line| is_weighed(n, line.0)) {
        let weight = weigh(side)?;
        if weight < 1 || weight < (n as i64 - 3) * index {
            return Err(format!(
                "{side:x} has the index {index}, and the weight {weight}"
            ));
        }
        found.lines += 1;
    }
    for &(side, _) in weights.iter().filter(|&&(_, weight)| weight > 0) {
        found.positive += 1;
        found.unlisted += u64::from(lines.iter().all(|line| line.0 != side));
        for &(other, weight) in weights.iter().filter(|&&(other, _)| other != side) {
            let compatible = is_compatible(n, side, other);
            if weight > 0 && !compatible {
                return Err(format!(
                    "{side:x} and {other:x} cross, both of positive weight"
                ));
            }
            found.two += u64::from(weight > 0);
            found.crossing += u64::from(!compatible);
        }
    }
    Ok(found)
}

/// A reordering keeps the weight: that of a side is that of its image.
pub fn check_order(
    weigh: impl Fn(&[i32], u32) -> Result<i64, String>,
    table: &Table,
    p: &[usize],
    side: u32,
) -> Result<(), String> {
    let weight = weigh(&table.pairs(), side)?;
    let moved = weigh(&table.reordered(p).pairs(), image(engine::STRONG, p, side))?;
    match moved == weight {
        true => Ok(()),
        false => Err(format!(
            "{side:x} has {weight}, and {moved} in the order {p:?}"
        )),
    }
}

/// Splits of a list, each by a side, among them all that are likely to have a
/// positive weight: every one of a few entries; else the listed ones, those with
/// an entry or two moved over, and some others.
pub fn splits(random: &mut Random, n: usize, lines: &[(u32, i64)]) -> Vec<u32> {
    if n <= 7 {
        return (0..=whole(n)).collect();
    }
    let mut sides: Vec<u32> = lines.iter().map(|line| line.0).collect();
    for &(side, _) in lines {
        sides.extend([(); 2].map(|()| side ^ 1 << random.below(n)));
        sides.push(side ^ 1 << random.below(n) ^ 1 << random.below(n));
    }
    for _ in 0..8 {
        sides.push(set_of(random, n, 2));
        sides.push(any_set(random, n));
    }
    sides
}
