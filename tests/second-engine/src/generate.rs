//! Sheets from a seed: good ones of many shapes, damaged ones, and calls made
//! of them.

use crate::compare::{Case, SHEET_REFUSALS};
use crate::engine::{self, in_points, GREATEST, POINT, UNSCORED};
use std::fmt;
use std::ops::RangeInclusive;

/// splitmix64.
#[derive(Clone, Debug)]
pub struct Random(u64);

impl Random {
    pub fn new(seed: u64) -> Self {
        Random(seed)
    }

    fn draw(&mut self) -> u64 {
        self.0 = self.0.wrapping_add(0x9e37_79b9_7f4a_7c15);
        let mut z = self.0;
        z = (z ^ (z >> 30)).wrapping_mul(0xbf58_476d_1ce4_e5b9);
        z = (z ^ (z >> 27)).wrapping_mul(0x94d0_49bb_1331_11eb);
        z ^ (z >> 31)
    }

    /// 0 to `count` - 1.
    pub fn below(&mut self, count: usize) -> usize {
        (self.draw() % count as u64) as usize
    }

    pub fn between(&mut self, least: i64, most: i64) -> i64 {
        least + (self.draw() % (most - least + 1) as u64) as i64
    }

    pub fn one_in(&mut self, count: usize) -> bool {
        self.below(count) == 0
    }

    pub fn of<T: Clone>(&mut self, choices: &[T]) -> T {
        choices[self.below(choices.len())].clone()
    }
}

/// A sheet before it is written: names, and values that mirror each other, in half
/// points.
#[derive(Clone, Debug)]
pub struct Table {
    pub names: Vec<String>,
    pub values: Vec<Vec<i64>>,
}

/// The value of an unscored pair.
pub const MARK: i64 = UNSCORED as i64;

/// The greatest value, and the greatest that is well formed: 1,000,000 points, and
/// 9,999,999 and a half.
pub const FAR: i64 = GREATEST as i64;
pub const FARTHEST: i64 = 19_999_999;

impl Table {
    pub fn entries(&self) -> usize {
        self.names.len()
    }

    /// Sets the pair a, b on both sides.
    pub fn set(&mut self, a: usize, b: usize, value: i64) {
        self.values[a][b] = value;
        self.values[b][a] = value;
    }

    pub fn sheet(&self) -> Vec<u8> {
        written(&self.names, &self.cells())
    }

    /// Each value as it is written.
    pub fn cells(&self) -> Vec<Vec<String>> {
        let cell = |&value: &i64| match value {
            MARK => "-".to_string(),
            score => in_points(score),
        };
        let line = |values: &Vec<i64>| values.iter().map(cell).collect();
        self.values.iter().map(line).collect()
    }

    pub fn pairs(&self) -> Vec<i32> {
        let rows = self.values.iter().enumerate();
        rows.flat_map(|(a, row)| row[..=a].iter().map(|&value| value as i32))
            .collect()
    }

    /// Without one of its entries.
    pub fn without(&self, entry: usize) -> Table {
        let mut new = self.clone();
        new.names.remove(entry);
        new.values.remove(entry);
        for row in &mut new.values {
            row.remove(entry);
        }
        new
    }

    /// Entry i becomes p(i).
    pub fn reordered(&self, p: &[usize]) -> Table {
        let mut new = self.clone();
        for i in 0..self.entries() {
            new.names[p[i]] = self.names[i].clone();
            for j in 0..self.entries() {
                new.values[p[i]][p[j]] = self.values[i][j];
            }
        }
        new
    }
}

/// Lines with single spaces between and a line feed after each.
pub fn written(names: &[String], cells: &[Vec<String>]) -> Vec<u8> {
    let mut text = names.join(" ") + "\n";
    for line in cells {
        text += &(line.join(" ") + "\n");
    }
    text.into_bytes()
}

/// The numbers 0 to n - 1 anew, each once.
pub fn order(random: &mut Random, n: usize) -> Vec<usize> {
    let mut order: Vec<usize> = (0..n).collect();
    for i in (1..n).rev() {
        order.swap(i, random.below(i + 1));
    }
    order
}

fn names(random: &mut Random, n: usize) -> Vec<String> {
    let letters: Vec<char> = ('A'..='Z').collect();
    let signs: Vec<char> = ('A'..='Z').chain('0'..='9').collect();
    let longest = random.of(&[2, 3, 8, 8]);
    let mut names: Vec<String> = Vec::new();
    while names.len() < n {
        let mut name = String::from(random.of(&letters));
        for _ in 0..random.below(longest) {
            name.push(random.of(&signs));
        }
        if !names.contains(&name) {
            names.push(name);
        }
    }
    names
}

fn table(random: &mut Random, n: usize, mut value: impl FnMut(usize, usize) -> i64) -> Table {
    let mut table = Table {
        names: names(random, n),
        values: vec![vec![0; n]; n],
    };
    for a in 0..n {
        for b in 0..=a {
            table.set(a, b, value(a, b));
        }
    }
    table
}

/// The blocks of a random tree on n entries, single ones included, each with a
/// length of 0 or more.
fn blocks(random: &mut Random, n: usize) -> Vec<(u32, i64)> {
    let longest = random.of(&[1, 2, 5, 40, 1_000, 15_000]);
    let shortest = random.between(0, 1);
    let chain = random.one_in(3);
    let mut left: Vec<u32> = order(random, n).iter().map(|&a| 1 << a).collect();
    let mut blocks = Vec::new();
    for &block in &left {
        blocks.push((block, random.between(shortest, longest)));
    }
    while left.len() > 1 {
        // A chain lets the newest block grow by one entry.
        let newest = left.len() - 1;
        let first = left.swap_remove(if chain {
            newest
        } else {
            random.below(newest + 1)
        });
        let second = left.swap_remove(random.below(newest));
        left.push(first | second);
        blocks.push((first | second, random.between(shortest, longest)));
    }
    blocks
}

/// Similarities: the lengths of the blocks that hold both entries.
fn tree_scores(random: &mut Random, n: usize) -> Table {
    let blocks = blocks(random, n);
    let base = random.of(&[0, 0, 3, -7, -500_000]);
    table(random, n, |a, b| {
        let both = |set: u32| set >> a & 1 == 1 && set >> b & 1 == 1;
        base + blocks
            .iter()
            .filter(|x| both(x.0))
            .map(|x| x.1)
            .sum::<i64>()
    })
}

/// Distances: the lengths of the blocks that hold just one of the entries.
fn tree_distances(random: &mut Random, n: usize) -> Table {
    let blocks = blocks(random, n);
    table(random, n, |a, b| {
        let one = |set: u32| set >> a & 1 != set >> b & 1;
        blocks.iter().filter(|x| one(x.0)).map(|x| x.1).sum()
    })
}

/// Changes every value a little, or a few of them.
fn add_noise(random: &mut Random, table: &mut Table, range: RangeInclusive<i64>, own: bool) {
    let n = table.entries();
    let most = random.of(&[1, 1, 2, 5, 300, 20_000]);
    let everywhere = random.one_in(2);
    for a in 0..n {
        for b in 0..=a {
            if (own || a != b) && (everywhere || random.one_in(n * n)) {
                let value = table.values[a][b] + random.between(-most, most);
                table.set(a, b, value.clamp(*range.start(), *range.end()));
            }
        }
    }
}

/// How many of a sheet's values end in `.5`.
#[derive(Clone, Copy, Debug, PartialEq, Eq)]
pub enum Halves {
    None,
    Some,
    All,
}

impl fmt::Display for Halves {
    fn fmt(&self, f: &mut fmt::Formatter) -> fmt::Result {
        f.write_str(match self {
            Halves::None => "no value with half a point",
            Halves::Some => "some values with half a point",
            Halves::All => "every value with half a point",
        })
    }
}

pub const HALVES: [Halves; 3] = [Halves::None, Halves::Some, Halves::All];

/// A table of points as one of half points, of which as many end in `.5`. Own
/// distances stay 0.
fn in_halves(random: &mut Random, mut table: Table, halves: Halves, distances: bool) -> Table {
    // Small numbers may be taken as half points: then an index is one as well.
    if halves == Halves::Some && random.one_in(2) {
        return table;
    }
    let n = table.entries();
    let one_in = match halves {
        Halves::None => 0,
        Halves::Some => random.of(&[2, 5, n * n]),
        Halves::All => 1,
    };
    let least = if distances { 0 } else { -FAR };
    let steps = random.of(&[&[1][..], &[1, -1]]);
    for a in 0..n {
        for b in 0..=a {
            let mut value = table.values[a][b] * i64::from(POINT);
            let moved = one_in > 0 && random.one_in(one_in) && (a != b || !distances);
            if moved {
                let step = random.of(steps);
                value += match (least..=FAR).contains(&(value + step)) {
                    true => step,
                    false => -step,
                };
            }
            table.set(a, b, value);
        }
    }
    table
}

/// Values of few kinds, so that many tie; negative ones; the whole range; the
/// ends of the range.
pub(crate) fn scattered(random: &mut Random, n: usize, distances: bool) -> Table {
    let points = scattered_points(random, n, distances);
    let halves = random.of(&HALVES);
    in_halves(random, points, halves, distances)
}

fn scattered_points(random: &mut Random, n: usize, distances: bool) -> Table {
    let ranges = [(0, 1), (0, 3), (0, 9), (5, 5), (0, 1_000_000)];
    let signed = [(-3, 3), (-9, -1), (-1_000_000, 1_000_000), (-40, 0)];
    let (least, most) = if distances || random.one_in(2) {
        random.of(&ranges)
    } else {
        random.of(&signed)
    };
    let ends = random.one_in(5);
    let mut source = Random::new(random.draw());
    let value = |_, _| match ends {
        true => source.of(&[
            least,
            most,
            if distances { 0 } else { -1_000_000 },
            1_000_000,
        ]),
        false => source.between(least, most),
    };
    table(random, n, value)
}

/// A sheet that every kind but perhaps 3 accepts.
pub fn scores(random: &mut Random, n: usize) -> Table {
    let halves = random.of(&HALVES);
    scores_with(random, n, halves)
}

pub fn scores_with(random: &mut Random, n: usize, halves: Halves) -> Table {
    let mut table = match random.below(8) {
        0 | 1 => scattered_points(random, n, false),
        2 => return distances_with(random, n, halves),
        _ => tree_scores(random, n),
    };
    if random.one_in(2) {
        add_noise(random, &mut table, -1_000_000..=1_000_000, true);
    }
    match random.below(6) {
        // Own scores above all, all alike, or low.
        0 => (0..n).for_each(|a| table.set(a, a, 1_000_000)),
        1 => (0..n).for_each(|a| table.set(a, a, 0)),
        2 => {
            let a = random.below(n);
            let low = random.between(-10, 10);
            table.set(a, a, low);
        }
        _ => {}
    }
    in_halves(random, table, halves, false)
}

/// A sheet that kind 3 accepts: no negative value, own values 0.
pub fn distances(random: &mut Random, n: usize) -> Table {
    let halves = random.of(&HALVES);
    distances_with(random, n, halves)
}

pub fn distances_with(random: &mut Random, n: usize, halves: Halves) -> Table {
    let mut table = match random.below(6) {
        0 | 1 => scattered_points(random, n, true),
        _ => tree_distances(random, n),
    };
    (0..n).for_each(|a| table.set(a, a, 0));
    if random.one_in(2) {
        add_noise(random, &mut table, 0..=1_000_000, false);
    }
    in_halves(random, table, halves, true)
}

/// A second sheet of the same entries, in the same order: scored on its own, or
/// much as the first is. Mostly no sum of two scores is out of range, and some are
/// at its ends.
pub fn partner(random: &mut Random, first: &Table) -> Table {
    let n = first.entries();
    let mut second = match random.below(4) {
        0 => distances(random, n),
        1 => scores(random, n),
        _ => {
            let mut alike = first.clone();
            add_noise(random, &mut alike, -FAR..=FAR, true);
            alike
        }
    };
    second.names = first.names.clone();
    if random.one_in(6) {
        return second;
    }
    for a in 0..n {
        for b in 0..=a {
            let score = first.values[a][b];
            let sum = score + second.values[a][b];
            second.set(a, b, sum.clamp(-FAR, FAR) - score);
        }
    }
    second
}

/// How large a share of the pairs is unscored.
#[derive(Clone, Copy, Debug, PartialEq, Eq)]
pub enum Share {
    OnePair,
    OneIn(usize),
}

impl fmt::Display for Share {
    fn fmt(&self, f: &mut fmt::Formatter) -> fmt::Result {
        match self {
            Share::OnePair => write!(f, "one pair unscored"),
            Share::OneIn(count) => write!(f, "1 in {count} pairs unscored"),
        }
    }
}

/// From a single pair to all.
pub const SHARES: [Share; 4] = [
    Share::OnePair,
    Share::OneIn(8),
    Share::OneIn(2),
    Share::OneIn(1),
];

/// Pairs to leave unscored, one or more, own pairs too: that share of the pairs
/// of some entries, or of all.
pub fn unscored(random: &mut Random, n: usize, share: Share) -> Vec<(usize, usize)> {
    let some = match random.one_in(3) {
        true => n,
        false => 1 + random.below(n),
    };
    let among = &order(random, n)[..some];
    let mut pairs = vec![(random.of(among), random.of(among))];
    if let Share::OneIn(count) = share {
        let every = among
            .iter()
            .flat_map(|&a| among.iter().map(move |&b| (a, b)));
        pairs.extend(every.filter(|(a, b)| b <= a && random.one_in(count)));
    }
    pairs
}

impl Table {
    /// Leaves that share of the pairs unscored.
    pub fn unscore(&mut self, random: &mut Random, share: Share) {
        for (a, b) in unscored(random, self.entries(), share) {
            self.set(a, b, MARK);
        }
    }
}

/// Any score, the ends of the range among them.
pub fn score(random: &mut Random) -> i32 {
    match random.below(3) {
        0 => random.of(&[-GREATEST, GREATEST]),
        1 => random.between(-9, 9) as i32,
        _ => random.between(-FAR, FAR) as i32,
    }
}

/// The list with any score for each unscored pair.
pub fn filling(random: &mut Random, pairs: &[i32]) -> Vec<i32> {
    let mut filled = |&pair: &i32| match pair {
        UNSCORED => score(random),
        scored => scored,
    };
    pairs.iter().map(&mut filled).collect()
}

/// A number of entries, small ones more often.
pub fn entries(random: &mut Random) -> usize {
    match random.below(8) {
        0 => random.of(&[1, 2]),
        1 => random.of(&[12, 13, 31, 32, 32]),
        2 | 3 => 1 + random.below(32),
        _ => 1 + random.below(9),
    }
}

/// A sheet and a kind that accepts it; of kind 1 with unscored pairs too.
pub fn good(random: &mut Random, n: usize) -> (i32, Table) {
    let kind = random.of(&[1, 2, 3]);
    let mut table = match kind {
        3 => distances(random, n),
        _ => scores(random, n),
    };
    if kind == 1 && random.one_in(2) {
        let share = random.of(&SHARES);
        table.unscore(random, share);
    }
    (kind, table)
}

/// Buffer lengths around the length of what is written.
pub(crate) fn room(random: &mut Random, length: usize) -> usize {
    let near = [
        0,
        1,
        14,
        15,
        16,
        length.saturating_sub(1),
        length,
        length + 1,
        length + 7,
    ];
    match random.below(4) {
        0 => random.of(&near),
        1 => random.below(2 * length + 40),
        _ => length + random.below(100),
    }
}

/// The length of the listing, or a usual one where there is none.
fn length(kind: i32, sheet: &[u8]) -> usize {
    let answer = engine::listing(kind, sheet, &mut [0; 4096]);
    usize::try_from(answer).unwrap_or(100)
}

fn call(random: &mut Random, kind: i32, sheet: Vec<u8>) -> Case {
    let room = room(random, length(kind, &sheet));
    Case { kind, sheet, room }
}

/// Any call, good or bad.
pub fn case(random: &mut Random) -> Case {
    let n = entries(random);
    match random.below(10) {
        0 => {
            let (_, table) = good(random, n);
            let kind = random.of(&[0, 4, -1, i32::MIN, i32::MAX]);
            call(random, kind, table.sheet())
        }
        1 if random.one_in(3) => {
            let number = random.of(&BY_POINTS);
            pointed(random, number)
        }
        1 => flawed(random).0,
        2 => {
            // Scores or distances under any kind, unscored pairs and values out
            // of range now and then.
            let mut table = match random.one_in(3) {
                true => distances(random, n),
                false => scores(random, n),
            };
            if random.one_in(2) {
                let share = random.of(&SHARES);
                table.unscore(random, share);
            }
            if random.one_in(2) {
                let near = random.of(&[FAR - 1, FAR, FAR + 1, FAR + 2, FARTHEST - 1, FARTHEST]);
                let far = near * random.of(&[1, -1]);
                table.set(random.below(n), random.below(n), far);
            }
            let kind = random.of(&[1, 2, 3]);
            call(random, kind, table.sheet())
        }
        3..=5 => {
            let (kind, table) = good(random, n);
            let sheet = damaged(random, &table);
            call(random, kind, sheet)
        }
        _ => {
            let (kind, mut table) = good(random, n);
            if random.one_in(4) {
                table = table.reordered(&order(random, n));
            }
            call(random, kind, table.sheet())
        }
    }
}

/// The calls of a seed, without end.
pub fn cases(seed: u64) -> impl Iterator<Item = Case> {
    let mut random = Random::new(seed);
    std::iter::repeat_with(move || case(&mut random))
}

/// A sheet damaged in one place or a few, by its bytes or by its parts.
pub fn damaged(random: &mut Random, table: &Table) -> Vec<u8> {
    if random.one_in(2) {
        let mut sheet = damaged_part(random, table);
        if random.one_in(4) {
            damage_bytes(random, &mut sheet);
        }
        return sheet;
    }
    let mut sheet = table.sheet();
    for _ in 0..random.of(&[1, 1, 1, 2, 5]) {
        damage_bytes(random, &mut sheet);
    }
    sheet
}

/// Bytes changed, put in, dropped, doubled, swapped, cut.
fn damage_bytes(random: &mut Random, sheet: &mut Vec<u8>) {
    if sheet.is_empty() {
        return sheet.push(b'\n');
    }
    let at = random.below(sheet.len());
    let byte = match random.below(4) {
        0 => random.draw() as u8,
        _ => random.of(b"A09- \n\n1Z.5"),
    };
    match random.below(8) {
        0 | 1 => sheet[at] = byte,
        2 => sheet.insert(at, byte),
        3 => drop(sheet.remove(at)),
        4 => sheet.insert(at, sheet[at]),
        5 => sheet.swap(at, random.below(at + 1)),
        6 => sheet.truncate(at),
        _ => {
            let end = at + random.below(sheet.len() - at);
            let part = sheet[at..end].to_vec();
            match random.one_in(2) {
                true => drop(sheet.drain(at..end)),
                false => drop(sheet.splice(at..at, part)),
            }
        }
    }
}

/// Texts that are no values, each for its point.
pub const MALFORMED_HALVES: [&str; 27] = [
    ".5",
    "-.5",
    "5.",
    "-5.",
    "5.0",
    "0.0",
    "-0.0",
    "00.5",
    "-00.5",
    "07.5",
    "0.50",
    "0.05",
    "0.55",
    "1.4",
    "1.6",
    "-1.25",
    "12345678.5",
    "-12345678.5",
    "5.5.5",
    "5..5",
    "5.-5",
    "5-.5",
    "5.5-",
    "--0.5",
    "-.",
    ".",
    "1.A",
];

/// One part of the sheet made wrong: a name, a value, a line, its length.
fn damaged_part(random: &mut Random, table: &Table) -> Vec<u8> {
    let n = table.entries();
    let (mut names, mut cells) = (table.names.clone(), table.cells());
    let (a, b) = (random.below(n), random.below(n));
    let bad_names = [
        "ABCDEFGHI",
        "A12345678",
        "",
        "1A",
        "A-",
        "-",
        "0",
        "ab",
        "Ab",
        "A\u{e4}",
        "A\tB",
        "A B",
        " A",
        "A ",
        "A.",
        ".A",
        "A.5",
        ".5",
        ".",
    ];
    let bad_values = [
        "-0",
        "007",
        "00",
        "-01",
        "12345678",
        "-12345678",
        "00000001",
        "-2147483648",
        "2147483648",
        "--",
        "- ",
        " -",
        "- -",
        "-A",
        "",
        "1-",
        "--1",
        "1 ",
        " 1",
        "1  2",
        "A",
        "1A",
        "+1",
        "1,5",
        "1 2",
        "1\n2",
    ];
    let far_values = [
        "9999999",
        "-9999999",
        "1000001",
        "-1000001",
        "1000000",
        "9999999.5",
        "-9999999.5",
        "1000000.5",
        "-1000000.5",
        "999999.5",
    ];
    match random.below(20) {
        0 | 1 => names[a] = random.of(&bad_names).into(),
        2 => names[a] = names[b].clone(),
        3 | 4 => cells[a][b] = random.of(&bad_values).into(),
        5 => {
            cells[a][b] = random.of(&far_values).into();
            cells[b][a] = cells[a][b].clone();
        }
        6 => cells[a][b] = in_points(random.between(-18, 18)),
        7 => cells[a].insert(b, "5".into()),
        8 => drop(cells[a].remove(b)),
        9 => drop(cells.remove(a)),
        10 => cells.insert(a, cells[b].clone()),
        11 => names.push(format!("Q{}", random.below(1000))),
        12 => {
            let mut sheet = table.sheet();
            sheet.pop();
            return sheet;
        }
        13 => return random.of(&[vec![], vec![b'\n'], b"A".to_vec(), b"A\n".to_vec()]),
        14 => {
            // The greatest length and one more.
            let mut sheet = random.of(&[table.sheet(), vec![]]);
            let fill = random.of(b"\n A0-x");
            sheet.resize(random.of(&[12_288, 12_289]), fill);
            return sheet;
        }
        // A mark on one side of the sheet only, unless it is of an own pair.
        15 => cells[a][b] = "-".into(),
        16 => {
            cells[a][b] = "-".into();
            cells[b][a] = "-".into();
        }
        17 => {
            let apart = ["5 .5", "5. 5", " 0.5", "0.5 "];
            cells[a][b] = match random.one_in(4) {
                true => random.of(&apart).into(),
                false => random.of(&MALFORMED_HALVES).into(),
            };
        }
        // Half a point on one side of the sheet only, unless it is of an own pair.
        18 => {
            let step = random.of(&[1, -1]);
            if table.values[a][b] != MARK {
                cells[a][b] = in_points(table.values[a][b] + step);
            }
        }
        _ => return crowd(random).sheet(),
    }
    written(&names, &cells)
}

/// 32 entries or 33.
fn crowd(random: &mut Random) -> Table {
    let n = random.of(&[32, 33]);
    scattered(random, n, true)
}

/// A good call made to meet chosen lines of the table, each at a place of its
/// own, and the answer it must get: minus the number of the first.
pub fn flawed(random: &mut Random) -> (Case, i64) {
    let mut chosen = [false; 17];
    for _ in 0..random.of(&[1, 1, 2, 3, 6]) {
        chosen[random.of(&SHEET_REFUSALS)] = true;
    }
    let n = if chosen[6] { 33 } else { 4 + random.below(29) };
    let mut table = scattered(random, n, true);
    (0..n).for_each(|a| table.set(a, a, 0));

    if chosen[11] {
        let far = random.of(&[FAR + 1, FAR + 2, FARTHEST, -FAR - 1, -FAR - 2]);
        table.set(1, 1, far);
    }
    if chosen[12] {
        match random.one_in(2) {
            true => table.set(2, 2, random.of(&[1, 2, -1, -2, FAR])),
            false => table.set(3, 2, random.of(&[-1, -2, -FAR])),
        }
    }
    if chosen[16] {
        table.set(3, random.of(&[0, 1, 3]), MARK);
    }
    let (mut names, mut cells) = (table.names.clone(), table.cells());
    if chosen[4] {
        names[0] = random
            .of(&["ABCDEFGHI", "1", "-", "", "A-B", "0A", "A ", "A.5", "."])
            .into();
    }
    if chosen[5] {
        names[2] = names[1].clone();
    }
    if chosen[8] {
        let whole = [
            "-0",
            "007",
            "00000000",
            "",
            "--",
            "-2147483648",
            "0 0",
            "A",
            "- ",
        ];
        cells[0][0] = match random.one_in(2) {
            true => random.of(&whole).into(),
            false => random.of(&MALFORMED_HALVES).into(),
        };
    }
    if chosen[9] {
        let other = table.values[0][1] + random.of(&[1, -1, 2, -2]);
        cells[1][0] = random.of(&[in_points(other), "-".into()]);
    }
    let mut sheet = written(&names, &cells);
    if chosen[7] {
        match random.below(4) {
            0 => drop(sheet.pop()),
            1 => sheet.push(b'\n'),
            2 => *sheet.last_mut().expect("a written sheet has bytes") = b' ',
            _ => sheet.extend_from_slice(b"0\n"),
        }
    }
    if chosen[3] {
        let at = random.below(sheet.len() + 1);
        sheet.insert(
            at,
            random.of(&[
                b'a', b'z', 0, b'\r', b'\t', 255, b'+', b',', b'@', b'[', b'/', b':',
            ]),
        );
    }
    if chosen[2] {
        let bytes = random.of(&[0, 12_289, 20_000]);
        sheet.resize(bytes, b'0');
    }
    let kind = match chosen[1] {
        true => random.of(&[0, 4, -1, i32::MIN, i32::MAX]),
        false if chosen[16] => random.of(&[2, 3]),
        false => 3,
    };
    let room = match chosen[14] {
        true => random.below(15),
        false => 4096,
    };
    let first = SHEET_REFUSALS
        .into_iter()
        .find(|&number| chosen[number])
        .expect("one is chosen");
    (Case { kind, sheet, room }, -(first as i64))
}

/// The refusals of the sheet call that a point can bring about, in the order of its
/// checks.
pub const BY_POINTS: [usize; 7] = [4, 7, 8, 9, 11, 12, 14];

/// A call on distances with half points that is good but for one point, of the
/// sheet or of its listing: it must get minus this number, which is one of
/// `BY_POINTS`.
pub fn pointed(random: &mut Random, number: usize) -> Case {
    let n = entries(random).max(2);
    let halves = random.of(&[Halves::Some, Halves::All]);
    let mut table = distances_with(random, n, halves);
    let (a, b) = (random.below(n), random.below(n));
    let other = (a + 1 + random.below(n - 1)) % n;
    let kind = match number {
        12 | 14 => 3,
        _ => random.of(&[1, 2, 3]),
    };
    match number {
        11 => {
            let far = random.of(&[FAR + 1, FAR + 3, FARTHEST]);
            table.set(a, b, far * random.of(&[1, -1]));
        }
        12 if random.one_in(2) => table.set(a, a, random.of(&[1, -1])),
        12 => table.set(a, other, -1),
        _ => {}
    }
    let mut cells = table.cells();
    match number {
        8 => cells[a][b] = random.of(&MALFORMED_HALVES).into(),
        9 => cells[a][other] = in_points(table.values[a][other] + random.of(&[1, -1])),
        _ => {}
    }
    let mut sheet = written(&table.names, &cells);
    match number {
        4 => {
            let line_1 = table.names.join(" ").len();
            sheet.insert(random.below(line_1 + 1), b'.');
        }
        7 => sheet.extend(random.of(&[&b"."[..], b".5", b"0.5"])),
        _ => {}
    }
    let mut listing = [0; 4096];
    let length = usize::try_from(engine::listing(kind, &sheet, &mut listing)).unwrap_or(100);
    let halves = listing[..length]
        .iter()
        .filter(|&&byte| byte == b'.')
        .count();
    match number {
        // The room that the listing would need without its halves.
        14 if halves > 0 => Case {
            kind,
            sheet,
            room: length - 2 * halves,
        },
        14 => pointed(random, number),
        _ => Case {
            kind,
            sheet,
            room: length + random.below(100),
        },
    }
}
