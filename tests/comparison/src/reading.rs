//! Sheets made to go every way through a reader that takes some cells, names and
//! numbers of entries another way than others: each through the sheet call of every
//! kind, with buffers around what the listing needs and what it may need at most,
//! the pair list call, the name call, and the pool call on either side.

use crate::damage::{self, Texts, ILL_FORMED, NEAR};
use crate::engines::Outcomes;
use crate::parts::Parts;
use crate::pool_call;
use crate::reader_calls::{check_reader, Names, REFUSALS};
use crate::sheet_call::line_count;
use second_engine::compare::{Case, Expected, Tally};
use second_engine::generate::{
    self, Halves, Random, Share, Table, FAR, FARTHEST, MALFORMED_HALVES, MARK, SHARES,
};
use second_engine::pooling::{self, OF_A_POOL, OF_A_SHEET};
use std::mem::{replace, take};

pub fn run(rounds: usize, seed: u64, parts: &mut Parts) {
    let mut random = Random::new(seed);
    let mut calls = Calls::new(parts);
    calls.every_share(&mut random, rounds);
    calls.every_number_of_entries();
    calls.every_length();
    calls.every_name();
    calls.every_value();
    calls.every_end();
    calls.every_mirror(&mut random);
    calls.two_damages(&mut random);
    calls.every_separator(&mut random);
    calls.every_line(&mut random);
    calls.every_byte();
    calls.end();
}

/// The most bytes that the listing of so many lines can have, and some more.
fn most_bytes(lines: usize) -> usize {
    15 + 34 * lines
}

/// More than any listing has.
const ROOM: usize = 2_191;

/// What the listings of all kinds can be refused for.
const OF_A_LISTING: [usize; 12] = [2, 3, 4, 5, 6, 7, 8, 9, 11, 16, 12, 14];

struct Calls<'a> {
    parts: &'a mut Parts,
    /// Of all sheets.
    listings: Tally,
    pairs: Tally,
    names: Names,
    pools: pool_call::Calls,
    sheets: usize,
    calls: usize,
    /// The lines of the longest listing.
    most_lines: usize,
    /// Of the sheets of one sort.
    outcomes: Outcomes,
    readers: Result<(), String>,
    met: Tally,
    /// The listings of each kind, from kind 1.
    listed: [usize; 3],
}

impl<'a> Calls<'a> {
    fn new(parts: &'a mut Parts) -> Self {
        Calls {
            parts,
            listings: Tally::default(),
            pairs: Tally::default(),
            names: Names::default(),
            pools: pool_call::Calls::default(),
            sheets: 0,
            calls: 0,
            most_lines: 0,
            outcomes: Outcomes::default(),
            readers: Ok(()),
            met: Tally::default(),
            listed: [0; 3],
        }
    }

    // ------------------------------------------------------------- The calls

    /// Every call on a sheet, the name call for these entries, and pools with the
    /// other sheet.
    fn check(&mut self, sheet: &[u8], other: &[u8], entries: impl IntoIterator<Item = usize>) {
        self.sheets += 1;
        for kind in 1..=3 {
            let expected = Expected::of(Case {
                kind,
                sheet: sheet.to_vec(),
                room: ROOM,
            });
            self.check_listing(&expected);
            if expected.answer >= 0 {
                self.listed[kind as usize - 1] += 1;
                self.check_rooms(&expected);
            }
        }
        self.calls += 2;
        let read = check_reader(sheet).map(|answer| self.pairs.count(answer));
        self.and(read);
        for entry in entries {
            self.calls += 2;
            let named = self.names.check(sheet, entry);
            self.and(named);
        }
        self.check_pool(sheet, other);
        self.check_pool(other, sheet);
    }

    /// The first failure stays.
    fn and(&mut self, outcome: Result<(), String>) {
        if self.readers.is_ok() {
            self.readers = outcome;
        }
    }

    fn check_listing(&mut self, expected: &Expected) {
        self.calls += 2;
        self.listings.count(expected.answer);
        self.met.count(expected.answer);
        self.outcomes.each(|engine| engine.check_listing(expected));
    }

    /// A buffer that just serves and one that does not; those around what so many
    /// lines may need.
    fn check_rooms(&mut self, expected: &Expected) {
        let (length, lines) = (expected.listing.len(), line_count(&expected.listing));
        self.most_lines = self.most_lines.max(lines);
        let most = most_bytes(lines);
        for room in [length - 1, length, most - 1, most, most + 1] {
            self.check_listing(&expected.in_room(room));
        }
    }

    /// With a buffer that just serves, and one that does not.
    fn check_pool(&mut self, first: &[u8], second: &[u8]) {
        let case = pooling::Case {
            first: first.to_vec(),
            second: second.to_vec(),
            room: pooling::MOST_BYTES,
        };
        self.calls += 2;
        let expected = pooling::Expected::of(case);
        self.pools.check(&expected);
        if expected.answer >= 0 {
            for room in [expected.pool.len(), expected.pool.len() - 1] {
                self.calls += 2;
                self.pools.check(&expected.in_room(room));
            }
        }
    }

    /// A sheet of so many entries, and a few of its names.
    fn sheet(&mut self, sheet: &[u8], other: &[u8], n: usize) {
        self.check(sheet, other, [0, n / 2, n.saturating_sub(1), n]);
    }

    /// Sheets to damage, as they are: whole numbers only, and all forms.
    fn grounds(&mut self, random: &mut Random, n: usize) -> [Texts; 2] {
        let whole = whole_numbers(random, n, true);
        let mut mixed = whole_numbers(random, n, false);
        put_forms(random, &mut mixed, &ALL_FORMS, Share::OneIn(2), false);
        let grounds = [whole, mixed].map(|table| Texts::of(&table));
        for texts in &grounds {
            self.sheet(&texts.sheet(), &texts.zeros(), n);
        }
        grounds
    }

    /// All sheets of one sort are done: no call failed. If there are any, these
    /// refusals were met, and some calls were answered.
    fn end_sort(&mut self, what: &str, refusals: &[usize]) {
        let outcome = take(&mut self.outcomes)
            .all()
            .and(replace(&mut self.readers, Ok(())))
            .and(take(&mut self.pools.outcomes).all());
        let what = format!("reading, {what}");
        self.parts.add(&what, outcome);
        self.listed = [0; 3];
        let met = take(&mut self.met);
        if !refusals.is_empty() {
            self.parts.add_refusals(&what, &met, refusals);
        }
    }

    /// Every refusal that each call can give was met.
    fn end(self) {
        println!("reading: {} sheets, {} calls", self.sheets, self.calls);
        let lines = match self.most_lines {
            62 => Ok(()),
            other => Err(format!("{other} lines")),
        };
        self.parts
            .add("reading, the longest listing has 62 lines", lines);
        let pooling::Met {
            first,
            second,
            pool,
            ..
        } = &self.pools.met;
        for (name, tally, refusals) in [
            ("listings", &self.listings, &OF_A_LISTING[..]),
            ("pair lists", &self.pairs, REFUSALS),
            ("names", &self.names.tally, REFUSALS),
            ("first sheets of pools", first, &OF_A_SHEET),
            ("second sheets of pools", second, &OF_A_SHEET),
            ("pools", pool, &OF_A_POOL),
        ] {
            self.parts
                .add_refusals(&format!("reading, all {name}"), tally, refusals);
        }
    }

    // ------------------------------------------------------------ The sheets

    /// Whole numbers, and each other form of a cell in each share of the pairs,
    /// with every number of entries; each sheet also damaged.
    fn every_share(&mut self, random: &mut Random, rounds: usize) {
        for (what, forms) in FORMS {
            for share in SHARES {
                for n in 1..=32 {
                    for distances in [false, true] {
                        for _ in 0..rounds {
                            self.share(random, n, distances, |random, table| {
                                put_forms(random, table, forms, share, distances)
                            });
                        }
                    }
                }
                self.end_share(&format!("{what}, {}", share_text(share)), forms);
            }
        }
    }

    fn share(
        &mut self,
        random: &mut Random,
        n: usize,
        distances: bool,
        put: impl Fn(&mut Random, &mut Table),
    ) {
        let mut table = whole_numbers(random, n, distances);
        put(random, &mut table);
        if random.one_in(8) {
            let far = random.of(&[FAR + 2, FAR + 1, FARTHEST - 1, FARTHEST]);
            table.set(random.below(n), random.below(n), far);
        }
        // Sums are out of range now and then.
        let turned: Vec<usize> = (0..n).rev().collect();
        let other = table.reordered(&turned).sheet();
        self.sheet(&table.sheet(), &other, n);
        let damaged = generate::damaged(random, &table);
        self.sheet(&damaged, &Texts::of(&table).zeros(), n);
    }

    /// Listed under each kind that takes these forms.
    fn end_share(&mut self, what: &str, forms: &[Form]) {
        let takes = [
            true,
            !forms.contains(&Form::Mark),
            forms
                .iter()
                .all(|form| *form != Form::Mark && form.sign() > 0),
        ];
        let listed = self.listed;
        let missed = (0..3).find(|&kind| takes[kind] && listed[kind] == 0);
        let outcome = match missed {
            Some(kind) => Err(format!("none of kind {}", kind + 1)),
            None => Ok(()),
        };
        self.parts.add(
            &format!("reading, {what}, listed {listed:?} by kind"),
            outcome,
        );
        self.end_sort(what, &[]);
    }

    /// 1 to 33 entries and some more; as many groups of each kind as there can be.
    fn every_number_of_entries(&mut self) {
        for n in (1..=36).chain([40, 63, 64, 65]) {
            for distances in [false, true] {
                let texts = Texts::of(&ladder(n, distances));
                self.check(&texts.sheet(), &texts.zeros(), 0..n + 1);
            }
        }
        self.end_sort("every number of entries", &[6]);
    }

    /// Sheets of every few bytes, and as long as can be.
    fn every_length(&mut self) {
        let texts = Texts::of(&ladder(3, true));
        let (sheet, zeros) = (texts.sheet(), texts.zeros());
        for length in 0..=sheet.len() {
            self.sheet(&sheet[..length], &zeros, 3);
        }
        for length in [12_287, 12_288, 12_289] {
            for byte in *b"\n A0-.x" {
                let mut long = sheet.clone();
                long.resize(length, byte);
                self.sheet(&long, &zeros, 3);
            }
        }
        // Names of 8 bytes; values of 9 and 10, the latter out of range.
        let mut table = ladder(32, false);
        for (entry, name) in table.names.iter_mut().enumerate() {
            *name = format!("ENTRY{entry:03}");
        }
        for value in [1 - FAR, -FARTHEST] {
            table.values = vec![vec![value; 32]; 32];
            let texts = Texts::of(&table);
            self.sheet(&texts.sheet(), &texts.zeros(), 32);
        }
        self.end_sort("sheets of every length", &[2, 3, 4, 7, 11]);
    }

    fn every_name(&mut self) {
        for names in name_lists() {
            let texts = Texts::of(&named(names));
            let (n, zeros) = (texts.entries(), texts.zeros());
            self.check(&texts.sheet(), &zeros, 0..n + 1);
            // Some name again.
            for (first, second) in [(0, 1), (0, n - 1), (n / 2, n / 2 + 1), (n - 2, n - 1)] {
                let sheet = texts.with_name(first, &texts.names[second]).sheet();
                self.check(&sheet, &zeros, [0, second]);
            }
        }
        for names in [["B", "C"], ["BBBBBBB", "BBBBBBC"], ["BBBBBBBB", "CBBBBBBB"]] {
            let texts = Texts::of(&named(names.map(String::from).to_vec()));
            for entry in 0..2 {
                for name in other_names(names[entry]) {
                    let sheet = texts.with_name(entry, &name).sheet();
                    self.check(&sheet, &texts.zeros(), 0..3);
                }
            }
        }
        self.end_sort("every name", &[3, 4, 5]);
    }

    /// In each cell and its mirror, and in either of them, every text.
    fn every_value(&mut self) {
        for n in 1..=3 {
            let texts = Texts::of(&ladder(n, true));
            let zeros = texts.zeros();
            for place in texts.places() {
                let all = VALUES.iter().chain(&ILL_FORMED).chain(&MALFORMED_HALVES);
                for text in all {
                    self.sheet(&texts.with_pair(place, text).sheet(), &zeros, n);
                    self.sheet(&texts.with(place, text).sheet(), &zeros, n);
                }
            }
        }
        self.end_sort("every value in every cell", &[8, 9, 11, 16, 12]);
    }

    /// Every choice of three texts at the end of the sheet; each end.
    fn every_end(&mut self) {
        const LAST: [&str; 9] = [
            "0",
            "7",
            "42",
            "1000000",
            "9999999",
            "-",
            "-3",
            "0.5",
            "-999999.5",
        ];
        let texts = Texts::of(&ladder(3, true));
        let zeros = texts.zeros();
        for number in 0..LAST.len().pow(3) {
            let text = |place| LAST[number / LAST.len().pow(place) % LAST.len()];
            let sheet = texts
                .with_pair((2, 0), text(0))
                .with_pair((2, 1), text(1))
                .with((2, 2), text(2))
                .sheet();
            for (at, end) in damage::ends(&sheet).iter().enumerate() {
                if at < 2 || at % 8 == number % 8 {
                    self.sheet(end, &zeros, 3);
                }
            }
        }
        self.end_sort("every end of a sheet", &[3, 7, 11, 16, 12]);
    }

    /// Each cell in turn in each way unlike its mirror; of many entries in one of
    /// these ways.
    fn every_mirror(&mut self, random: &mut Random) {
        for n in [2, 3, 5, 8, 9, 16, 17, 32] {
            for texts in self.grounds(random, n) {
                let zeros = texts.zeros();
                for (number, (a, b)) in texts.places().enumerate() {
                    let others = damage::near(&texts.cells[a][b]);
                    for (way, text) in others.iter().enumerate() {
                        if n < 9 || number % NEAR == way {
                            self.sheet(&texts.with((a, b), text).sheet(), &zeros, n);
                        }
                    }
                }
            }
        }
        self.end_sort("every cell unlike its mirror", &[8, 9]);
    }

    /// A cell that is no value, or is out of range, and one unlike its mirror,
    /// before it and behind.
    fn two_damages(&mut self, random: &mut Random) {
        for texts in self.grounds(random, 4) {
            let zeros = texts.zeros();
            for (a, b) in texts.places() {
                let others = damage::near(&texts.cells[a][b]);
                // Another first digit; the mark.
                for text in [&others[0], &others[4]] {
                    let unlike = texts.with((a, b), text);
                    for place in texts.places() {
                        for ill in ["-0", "007", "", "5.", "1 2", "12345678", "A"] {
                            self.sheet(&unlike.with(place, ill).sheet(), &zeros, 4);
                        }
                        let far = unlike.with_pair(place, "1000001");
                        self.sheet(&far.sheet(), &zeros, 4);
                        self.sheet(&far.with((a, b), text).sheet(), &zeros, 4);
                    }
                }
            }
        }
        self.end_sort("two damages", &[8, 9, 11]);
    }

    fn every_separator(&mut self, random: &mut Random) {
        for n in [1, 2, 3, 4, 8, 9, 16, 17, 32] {
            for texts in self.grounds(random, n) {
                let zeros = texts.zeros();
                for sheet in damage::separators(&texts.sheet(), n < 8) {
                    self.sheet(&sheet, &zeros, n);
                }
            }
        }
        self.end_sort("every separator", &[3, 4, 7, 8]);
    }

    fn every_line(&mut self, random: &mut Random) {
        for n in [1, 2, 3, 4, 7, 8, 9, 15, 16, 17, 31, 32] {
            for texts in self.grounds(random, n) {
                let zeros = texts.zeros();
                for sheet in damage::lines(&texts) {
                    self.sheet(&sheet, &zeros, n);
                }
            }
        }
        self.end_sort("every line", &[4, 6, 7, 8, 9]);
    }

    fn every_byte(&mut self) {
        for sheet in [
            "A\n0\n",
            "A B\n0 7\n7 0\n",
            "AB C D\n0 3 45\n3 0 9\n45 9 0\n",
            "A B2 CCCCCCCC\n-5 - 0.5\n- 1000000 -7.5\n0.5 -7.5 12\n",
        ] {
            let names: Vec<&str> = sheet.lines().next().unwrap_or("").split(' ').collect();
            let n = names.len();
            let names = names.into_iter().map(String::from).collect();
            let zeros = Texts::of(&named(names)).zeros();
            self.sheet(sheet.as_bytes(), &zeros, n);
            for sheet in damage::bytes(sheet.as_bytes()) {
                self.sheet(&sheet, &zeros, n);
            }
        }
        let refusals = [2, 3, 4, 5, 7, 8, 9, 11, 16, 12];
        self.end_sort("every byte", &refusals);
    }
}

// ------------------------------------------------------------------- Cells

/// The forms of a cell.
#[derive(Clone, Copy, Debug, PartialEq, Eq)]
enum Form {
    Whole,
    Minus,
    Half,
    MinusHalf,
    Mark,
}

impl Form {
    fn sign(self) -> i64 {
        match self {
            Form::Minus | Form::MinusHalf => -1,
            _ => 1,
        }
    }

    /// A value of so many digits, or the mark.
    fn value(self, random: &mut Random, digits: u32) -> i64 {
        let least = 10i64.pow(digits - 1);
        let most = (10 * least - 1).min(FAR / 2 - 1);
        let points = random.between(least.min(most), most);
        match self {
            Form::Mark => MARK,
            Form::Half | Form::MinusHalf => self.sign() * (2 * points + 1),
            _ if digits == 7 => self.sign() * FAR,
            _ => self.sign() * 2 * points,
        }
    }
}

const ALL_FORMS: [Form; 5] = [
    Form::Whole,
    Form::Minus,
    Form::Half,
    Form::MinusHalf,
    Form::Mark,
];

const FORMS: [(&str, &[Form]); 6] = [
    ("whole numbers", &[Form::Whole]),
    ("minus signs", &[Form::Minus]),
    ("half points", &[Form::Half]),
    (
        "half points, some with a minus",
        &[Form::Half, Form::MinusHalf],
    ),
    ("marks", &[Form::Mark]),
    ("all forms", &ALL_FORMS),
];

fn share_text(share: Share) -> String {
    match share {
        Share::OnePair => "one pair".into(),
        Share::OneIn(1) => "all pairs".into(),
        Share::OneIn(count) => format!("1 in {count} pairs"),
    }
}

/// Whole numbers of 0 or more: those of a tree, or of every number of digits.
fn whole_numbers(random: &mut Random, n: usize, distances: bool) -> Table {
    let mut table = match distances {
        true => generate::distances_with(random, n, Halves::None),
        false => generate::scores_with(random, n, Halves::None),
    };
    let values = table.values.iter_mut().flatten();
    values.for_each(|value| *value = value.abs());
    if random.one_in(2) {
        let whole = [Form::Whole];
        put_forms(random, &mut table, &whole, Share::OneIn(1), distances);
    }
    table
}

/// Puts these forms into that share of the pairs; own distances stay 0.
fn put_forms(
    random: &mut Random,
    table: &mut Table,
    forms: &[Form],
    share: Share,
    distances: bool,
) {
    for (a, b) in generate::unscored(random, table.entries(), share) {
        if a != b || !distances {
            let digits = 1 + random.below(7) as u32;
            let value = random.of(forms).value(random, digits);
            table.set(a, b, value);
        }
    }
}

/// Entries join one by one: as many groups as there can be. Distances are those
/// along a path from which each entry hangs.
fn ladder(n: usize, distances: bool) -> Table {
    let names = (0..n).map(|entry| format!("E{entry}")).collect();
    let mut table = Table {
        names,
        values: vec![vec![0; n]; n],
    };
    for a in 0..n {
        for b in 0..=a {
            let value = match (distances, a == b) {
                (true, true) => 0,
                (true, false) => 2 * (3 + 5 * (a - b)),
                (false, _) => 2 * (n - a) + if a == b { 2 * n } else { 0 },
            };
            table.set(a, b, value as i64);
        }
    }
    table
}

/// Well formed, of 1 to 7 digits and of each form; some out of range.
const VALUES: [&str; 28] = [
    "0",
    "1",
    "9",
    "10",
    "99",
    "123",
    "9876",
    "12345",
    "100000",
    "999999",
    "1000000",
    "1000001",
    "9999999",
    "-",
    "-1",
    "-10",
    "-123",
    "-999999",
    "-1000000",
    "-1000001",
    "-9999999",
    "0.5",
    "-0.5",
    "10.5",
    "999999.5",
    "1000000.5",
    "9999999.5",
    "-9999999.5",
];

// ------------------------------------------------------------------- Names

/// A sheet of distances with these names.
fn named(names: Vec<String>) -> Table {
    let mut table = ladder(names.len(), true);
    table.names = names;
    table
}

/// Letters and digits, the letters first.
const SIGNS: &[u8] = b"ABCDEFGHIJKLMNOPQRSTUVWXYZ0123456789";

/// Lists of names: of one length, which differ in one byte only; of which one is
/// the beginning of the next, in either order; of two letters in any order.
fn name_lists() -> Vec<Vec<String>> {
    let mut lists = Vec::new();
    for length in 1..=9 {
        for place in 0..length {
            // A name starts with a letter.
            let signs = if place == 0 {
                &SIGNS[..26]
            } else {
                &SIGNS[4..]
            };
            for n in [3, signs.len()] {
                let name = |entry: usize| {
                    let mut name = vec!['Q'; length];
                    name[place] = char::from(signs[entry]);
                    name.iter().collect()
                };
                lists.push((0..n).map(name).collect());
            }
        }
    }
    for longest in ["ABCDEFGH", "A0000000", "AAAAAAAA", "Z9Z9Z9Z9", "ABCDEFGHI"] {
        let beginnings = (1..=longest.len()).map(|length| longest[..length].to_string());
        lists.push(beginnings.clone().collect());
        lists.push(beginnings.rev().collect());
    }
    let pairs = ["AB", "BA", "AAB", "ABA", "BAA", "ABAB", "BABA", "A", "B"];
    lists.push(pairs.map(String::from).to_vec());
    lists
}

/// A byte more, a byte less, none; in each place a byte that is no sign, the first
/// and the last that is one, and one with its highest bit set.
fn other_names(name: &str) -> Vec<String> {
    let mut names = vec![
        format!("{name}A"),
        format!("{name}0"),
        name[..name.len() - 1].into(),
        name[1..].into(),
        String::new(),
    ];
    for place in 0..name.len() {
        for sign in [
            "A", "Z", "0", "9", "@", "[", "/", ":", "a", "-", ".", "\u{c1}",
        ] {
            names.push(format!("{}{sign}{}", &name[..place], &name[place + 1..]));
        }
    }
    names
}
