//! The calls on a sheet that write no listing: the pair list, of values of all few
//! bytes and of all lengths too, and the name of an entry.

use crate::calls::{self, MOST_PAIRS};
use crate::lent::{Lent, FLIPS};
use crate::parts::{met, Call, Parts};
use crate::sheet_call::small_texts;
use second_engine::compare::{on_copy, Tally};
use second_engine::engine::{self, UNSCORED};
use second_engine::generate::{self, Random, Table};

/// Checks 2 to 9.
pub const REFUSALS: &[usize] = &[2, 3, 4, 5, 6, 7, 8, 9];

const READER: Call = Call {
    name: "reader",
    refusals: REFUSALS,
    generated: |random| match random.below(3) {
        0 => check_reader(&generate::flawed(random).0.sheet),
        _ => check_reader(&generate::case(random).sheet),
    },
};

pub fn run(cases: usize, seed: u64, parts: &mut Parts) {
    parts.add_generated(&READER, cases, seed);
    parts.add("reader, sheets of all few texts", sheets_of_texts());
    parts.add("reader, values of all few bytes", values_of_few_bytes());
    parts.add("reader, values of every length", values_of_every_length());
    let mut random = Random::new(!seed);
    let mut names = Names::default();
    let outcome = names.generated(&mut random, cases);
    let ended = outcome.is_ok();
    parts.add("names", outcome);
    if ended {
        names.every_answer_is_met(parts);
    }
    let mut names = Names::default();
    parts.add("names within names", names.within_names(&mut random, cases));
}

// ------------------------------------------------------------ The pair list

pub fn check_reader(sheet: &[u8]) -> Result<i64, String> {
    let mut pairs = vec![0; MOST_PAIRS];
    let read = engine::read(sheet, &mut pairs);
    pairs.truncate(read.map_or(0, |n| n * (n + 1) / 2));
    let wanted = read.map_or_else(|number| -number, |n| n as i64);
    let check = |flip| {
        let mut lent = Lent::new(MOST_PAIRS, flip);
        let given = on_copy(sheet, |sheet| calls::pair_list(sheet, lent.slice()))?;
        if given != wanted {
            return Err(format!("answers {given}, wanted {wanted}"));
        }
        lent.check(&pairs)
    };
    FLIPS
        .into_iter()
        .try_for_each(check)
        .map_err(|message| format!("{message}; sheet: {}", sheet.escape_ascii()))?;
    Ok(wanted)
}

/// Every sheet of small_texts; some with unscored pairs are read.
fn sheets_of_texts() -> Result<(), String> {
    let mut unscored = 0;
    for sheet in small_texts() {
        check_reader(&sheet)?;
        let mut pairs = [0; MOST_PAIRS];
        let read = engine::read(&sheet, &mut pairs).is_ok();
        unscored += usize::from(read && pairs.contains(&UNSCORED));
    }
    met("sheets with unscored pairs that are read", unscored)
}

/// A sheet of one entry.
fn check_value(text: &str) -> Result<i64, String> {
    check_reader(format!("A\n{text}\n").as_bytes())
}

/// Every text of up to five of these bytes: some are values, others are not.
fn values_of_few_bytes() -> Result<(), String> {
    let mut texts = vec![String::new()];
    let mut tally = Tally::default();
    for _ in 0..5 {
        texts = texts
            .iter()
            .flat_map(|text| "-.057 ".chars().map(move |byte| format!("{text}{byte}")))
            .collect();
        for text in &texts {
            tally.count(check_value(text)?);
        }
    }
    met(
        "texts of few bytes that are values",
        tally.listings as usize,
    )?;
    met(
        "texts of few bytes that are none",
        tally.refusals[8] as usize,
    )
}

/// Values of 1 to 7 digits and one more, whole and with a half, of either sign, as
/// they are written; those of a digit too many are refused.
fn values_of_every_length() -> Result<(), String> {
    let mut tally = Tally::default();
    for digits in 0..=7 {
        let power = 10i64.pow(digits);
        for points in [power - 1, power, power + 1, power + power / 2, 9 * power] {
            for sign in [1, -1] {
                for half in [0, 1] {
                    let text = engine::in_points(sign * (2 * points + half));
                    tally.count(check_value(&text)?);
                }
            }
        }
    }
    met("values that are read", tally.listings as usize)?;
    met("values of a digit too many", tally.refusals[8] as usize)
}

// -------------------------------------------------------------------- Names

/// The names asked for.
#[derive(Default)]
pub struct Names {
    /// By their length.
    lengths: [u64; 9],
    /// Entries of sheets that are read, and of sheets that are refused.
    pub tally: Tally,
    /// Numbers that are no entries of a sheet that is read.
    no_entry: u64,
    /// Names whose bytes stand in the sheet before their own place.
    seen_before: usize,
}

impl Names {
    /// Names of good and damaged sheets; of numbers that are no entries too.
    fn generated(&mut self, random: &mut Random, cases: usize) -> Result<(), String> {
        for _ in 0..cases {
            let n = generate::entries(random);
            let table = generate::good(random, n).1;
            let sheet = match random.below(3) {
                0 => generate::damaged(random, &table),
                _ => table.sheet(),
            };
            self.check_all(&sheet, n)?;
        }
        let flawed = |random: &mut Random| generate::flawed(random).0.sheet;
        (0..cases).try_for_each(|_| self.check_all(&flawed(random), 4))
    }

    /// Up to four of a few names in every order, and many names of two letters
    /// only: most stand within others, before them or behind.
    fn within_names(&mut self, random: &mut Random, cases: usize) -> Result<(), String> {
        let few = ["A", "B", "AA", "AB", "BA", "AAA", "A1", "A11"];
        for number in 0..few.len().pow(4) {
            let places: Vec<usize> = (0..4).map(|digit| number >> (3 * digit) & 7).collect();
            for n in 1..=4 {
                let names: Vec<String> = places[..n].iter().map(|&at| few[at].into()).collect();
                self.check_all(&sheet_of(names), n)?;
            }
        }
        for _ in 0..cases / 10 {
            let n = generate::entries(random);
            let mut names: Vec<String> = Vec::new();
            while names.len() < n {
                let length = 1 + random.below(8);
                let name = (0..length).map(|_| random.of(&['A', 'B'])).collect();
                if !names.contains(&name) {
                    names.push(name);
                }
            }
            self.check_all(&sheet_of(names), n)?;
        }
        met("names seen before their place", self.seen_before)
    }

    fn check_all(&mut self, sheet: &[u8], n: usize) -> Result<(), String> {
        for entry in (0..n + 2).chain([32, 33, 1 << 32, usize::MAX]) {
            self.check(sheet, entry)?;
        }
        Ok(())
    }

    /// The place, the length, and the bytes there.
    pub fn check(&mut self, sheet: &[u8], entry: usize) -> Result<(), String> {
        let (start, name) = engine::name(sheet, entry);
        let describe = |message| {
            let (name, sheet) = (name.escape_ascii(), sheet.escape_ascii());
            format!("{message}; entry {entry} is {name} at {start}, sheet: {sheet}")
        };
        for flip in FLIPS {
            let mut lent = Lent::new(1, flip);
            let given = on_copy(sheet, |sheet| calls::name(sheet, entry, lent.slice()));
            let given = given.map_err(describe)?;
            if given != name.len() {
                return Err(describe(format!("answers {given}")));
            }
            lent.check(&[start]).map_err(describe)?;
            let at = lent.slice()[0];
            if sheet.get(at..at + given) != Some(name) {
                return Err(describe("other bytes".into()));
            }
        }
        self.count(sheet, start, name);
        Ok(())
    }

    fn count(&mut self, sheet: &[u8], start: usize, name: &[u8]) {
        self.lengths[name.len()] += 1;
        match engine::read(sheet, &mut [0; MOST_PAIRS]) {
            Err(number) => self.tally.count(-number),
            Ok(_) if name.is_empty() => self.no_entry += 1,
            Ok(n) => {
                self.tally.count(n as i64);
                let first = sheet.windows(name.len()).position(|part| part == name);
                self.seen_before += usize::from(first != Some(start));
            }
        }
    }

    /// Every length, the refusals behind an empty name, and numbers that are no
    /// entries.
    fn every_answer_is_met(&self, parts: &mut Parts) {
        println!("names by length, from 0: {:?}", self.lengths);
        println!("names of no entry: {}", self.no_entry);
        let outcome = match self.lengths.contains(&0) || self.no_entry == 0 {
            true => Err("none of a kind was met".into()),
            false => Ok(()),
        };
        parts.add("names, every length is met", outcome);
        parts.add_refusals("names", &self.tally, REFUSALS);
    }
}

/// A sheet with these names, all values 0.
fn sheet_of(names: Vec<String>) -> Vec<u8> {
    let n = names.len();
    let values = vec![vec![0; n]; n];
    Table { names, values }.sheet()
}
