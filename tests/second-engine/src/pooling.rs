//! Pools of two sheets (request 2.4): calls from a seed, another engine's answers
//! and bytes against these, and what is said of the groups of a pool.

use crate::compare::{check_written, on_copy, Tally};
use crate::engine::{CLEAN, SPLITS, STRONG};
use crate::generate::{self, Random, Table, FAR, SHARES};
use crate::pool::{pool, refusal};
use crate::reordering::read_lines;
use std::collections::{BTreeMap, BTreeSet};

/// One call: two sheets, and the length of the buffer lent.
#[derive(Clone, Debug, PartialEq, Eq)]
pub struct Case {
    pub first: Vec<u8>,
    pub second: Vec<u8>,
    pub room: usize,
}

/// A call, the answer it must get and the bytes it must write.
#[derive(Clone, Debug, PartialEq, Eq)]
pub struct Expected {
    pub case: Case,
    pub answer: i64,
    pub pool: Vec<u8>,
}

impl Expected {
    /// As this engine answers.
    pub fn of(case: Case) -> Self {
        let mut written = vec![0; case.room];
        let answer = pool(&case.first, &case.second, &mut written);
        written.truncate(usize::try_from(answer).unwrap_or(0));
        Expected {
            case,
            answer,
            pool: written,
        }
    }

    /// A pool that was written, asked for with a buffer of another length.
    pub fn in_room(&self, room: usize) -> Self {
        let serves = room >= self.pool.len();
        Expected {
            case: Case {
                room,
                ..self.case.clone()
            },
            answer: if serves { self.answer } else { -14 },
            pool: if serves { self.pool.clone() } else { vec![] },
        }
    }
}

/// Calls `other`: the answer, the buffer's bytes and both sheets are as they must
/// be.
pub fn check(
    name: &str,
    other: impl Fn(&[u8], &[u8], &mut [u8]) -> i64,
    expected: &Expected,
) -> Result<(), String> {
    let Case {
        first,
        second,
        room,
    } = &expected.case;
    let call = |out: &mut [u8]| {
        on_copy(first, |first| {
            on_copy(second, |second| other(first, second, out))
        })?
    };
    check_written(*room, expected.answer, &expected.pool, call).map_err(|message| {
        let (first, second) = (first.escape_ascii(), second.escape_ascii());
        format!("{name} {message}: buffer of {room} bytes; first: {first}; second: {second}")
    })
}

/// Calls `other` on each case and compares; the first difference ends the run.
pub fn compare(
    name: &str,
    other: impl Fn(&[u8], &[u8], &mut [u8]) -> i64,
    cases: impl IntoIterator<Item = Case>,
) -> Result<Met, String> {
    let mut met = Met::default();
    for case in cases {
        let expected = Expected::of(case);
        met.count(&expected);
        check(name, &other, &expected)?;
    }
    Ok(met)
}

/// What the first sheet, then the second, then the pool was refused for.
#[derive(Clone, Debug, Default, PartialEq, Eq)]
pub struct Met {
    pub first: Tally,
    pub second: Tally,
    pub pool: Tally,
    /// Calls of which both sheets are refused, with different numbers.
    pub both: usize,
}

/// The refusals of a sheet, and those of a pool, in the order of the checks.
pub const OF_A_SHEET: [usize; 9] = [2, 3, 4, 5, 6, 7, 8, 9, 11];
pub const OF_A_POOL: [usize; 3] = [17, 18, 14];

impl Met {
    pub fn count(&mut self, expected: &Expected) {
        let [first, second] = [&expected.case.first, &expected.case.second].map(|s| refusal(s));
        self.both += usize::from(first != 0 && second != 0 && first != second);
        self.first.count(-first);
        if first == 0 {
            self.second.count(-second);
        }
        if first == 0 && second == 0 {
            self.pool.count(expected.answer);
        }
    }
}

// ------------------------------------------------------------- From a seed

/// Two sheets of the same entries in the same order, with unscored pairs on
/// either now and then.
pub fn tables(random: &mut Random, n: usize) -> [Table; 2] {
    let first = match random.one_in(4) {
        true => generate::distances(random, n),
        false => generate::scores(random, n),
    };
    let second = generate::partner(random, &first);
    let mut tables = [first, second];
    for table in &mut tables {
        if random.one_in(3) {
            let share = random.of(&SHARES);
            table.unscore(random, share);
        }
    }
    tables
}

/// One sum at an end of the range or half a point from it, beyond by half a point
/// or a point, or far beyond.
fn set_sum(random: &mut Random, [first, second]: &mut [Table; 2]) {
    let n = first.entries();
    let (a, b) = (random.below(n), random.below(n));
    let sum = random.of(&[FAR - 1, FAR, FAR + 1, FAR + 2, 2 * FAR]) * random.of(&[1, -1]);
    let score = random.between((sum - FAR).max(-FAR), (sum + FAR).min(FAR));
    first.set(a, b, score);
    second.set(a, b, sum - score);
}

/// On either sheet a name that is not on the other, one that is there twice, or
/// an entry less.
fn change_names(random: &mut Random, tables: &mut [Table; 2]) {
    let table = &mut tables[random.below(2)];
    let (a, b) = (random.below(table.entries()), random.below(table.entries()));
    let name = table.names[a].clone();
    match random.below(6) {
        0 => table.names[a] = "A".into(),
        1 => table.names[a] = name[..name.len() - 1].into(),
        2 => table.names[a] = name + "A",
        3 => table.names[a] = table.names[b].clone(),
        4 => table.names[a] = "A1234567".into(),
        _ if table.entries() > 1 => *table = table.without(a),
        _ => {}
    }
}

/// A good sheet, or a damaged one.
fn sheet(random: &mut Random, table: &Table, damaged: bool) -> Vec<u8> {
    match damaged {
        true if random.one_in(3) => generate::flawed(random).0.sheet,
        true => generate::damaged(random, table),
        false => table.sheet(),
    }
}

/// Any call, good or bad.
pub fn case(random: &mut Random) -> Case {
    let n = generate::entries(random);
    let mut tables = tables(random, n);
    match random.below(8) {
        0 => set_sum(random, &mut tables),
        1 => change_names(random, &mut tables),
        _ => {}
    }
    let [first, mut second] = tables;
    if !random.one_in(4) {
        let order = generate::order(random, second.entries());
        second = second.reordered(&order);
    }
    let [bad, worse] = match random.below(6) {
        0 => [true, false],
        1 => [false, true],
        2 => [true, true],
        _ => [false, false],
    };
    let (first, second) = (sheet(random, &first, bad), sheet(random, &second, worse));
    let answer = pool(&first, &second, &mut [0; MOST_BYTES]);
    let room = generate::room(random, usize::try_from(answer).unwrap_or(100));
    Case {
        first,
        second,
        room,
    }
}

/// Room that always serves: 32 names of 8 bytes and 32 times 32 values of 9, such as
/// `-999999.5`, a byte behind each.
pub const MOST_BYTES: usize = 32 * 9 + 32 * 32 * 10;

/// The calls of a seed, without end.
pub fn cases(seed: u64) -> impl Iterator<Item = Case> {
    let mut random = Random::new(seed);
    std::iter::repeat_with(move || case(&mut random))
}

// --------------------------------------------------------------- Its groups

/// The groups of a sheet and their indices, each by the names of its entries; a
/// split by those of either side.
type Groups = BTreeMap<BTreeSet<String>, i64>;

fn groups(
    listing: impl Fn(i32, &[u8], &mut [u8]) -> i64,
    kind: i32,
    sheet: &[u8],
) -> Result<Groups, String> {
    let text = String::from_utf8_lossy(sheet);
    let names: Vec<&str> = text.lines().next().unwrap_or("").split(' ').collect();
    let among = |set: u32| {
        let members = (0..names.len()).filter(|entry| set >> entry & 1 == 1);
        members.map(|entry| names[entry].to_string()).collect()
    };
    let mut groups = Groups::new();
    for (set, index) in read_lines(listing, kind, sheet)? {
        groups.insert(among(set), index);
        if kind == SPLITS {
            groups.insert(among(!set), index);
        }
    }
    Ok(groups)
}

/// What is strong in both sheets is strong in the pool, with an index of at least
/// the two added; and the other way round the pool has the same groups of each
/// kind, or none for any. Answers how many groups are strong in both.
pub fn check_groups(
    listing: impl Fn(i32, &[u8], &mut [u8]) -> i64,
    pool: impl Fn(&[u8], &[u8], &mut [u8]) -> i64,
    [first, second]: [&[u8]; 2],
) -> Result<usize, String> {
    let pooled = |first: &[u8], second: &[u8]| {
        let mut bytes = vec![0; MOST_BYTES];
        let answer = pool(first, second, &mut bytes);
        bytes.truncate(usize::try_from(answer).map_err(|_| format!("answer {answer}"))?);
        Ok::<_, String>(bytes)
    };
    let (sheet, turned) = (pooled(first, second)?, pooled(second, first)?);
    let strong = |sheet: &[u8]| groups(&listing, STRONG, sheet);
    let (found, others, pool) = (strong(first)?, strong(second)?, strong(&sheet)?);
    let mut count = 0;
    for (names, index) in &found {
        let other = match others.get(names) {
            Some(other) => other,
            None => continue,
        };
        match pool.get(names) {
            Some(sum) if *sum >= index + other => count += 1,
            less => return Err(format!("{names:?} has {index}, {other} and {less:?}")),
        }
    }
    for kind in [STRONG, CLEAN, SPLITS] {
        let [here, there] = [&sheet, &turned].map(|sheet| groups(&listing, kind, sheet).ok());
        if here != there {
            return Err(format!("kind {kind}: {here:?}; turned: {there:?}"));
        }
    }
    Ok(count)
}
