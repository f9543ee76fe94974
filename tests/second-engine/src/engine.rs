//! The rules of document 01, in its order: the sheet, the definitions, what is
//! written, where a call is turned away; with them the call of request 2.1, the
//! unscored pairs of request 2.2 and the half points of request 2.6. Sets of
//! entries are 32-bit numbers in which entry i weighs 2 to the power i. Values of
//! a pair list, and all that is found from them, count half points.

use std::cmp::Ordering;

/// The number of the refusal, as in the table.
pub type Refusal = i64;

/// The bytes that a sheet may have.
pub const MOST_BYTES: usize = 12_288;
const MOST_ENTRIES: usize = 32;
/// A point, in half points.
pub const POINT: i32 = 2;
/// The greatest score, and minus the least: 1,000,000 points.
pub const GREATEST: i32 = 1_000_000 * POINT;
/// What a pair list holds of a pair never compared.
pub const UNSCORED: i32 = i32::MIN;

pub const STRONG: i32 = 1;
pub const CLEAN: i32 = 2;
pub const SPLITS: i32 = 3;

// ---------------------------------------------------------------- The sheet

pub(crate) struct Sheet<'a> {
    pub(crate) names: Vec<&'a [u8]>,
    pub(crate) pairs: Vec<i32>,
}

/// Reads a sheet, or refuses it by checks 2 to 9.
pub(crate) fn read_sheet(sheet: &[u8]) -> Result<Sheet<'_>, Refusal> {
    read_sheet_by(is_sheet_byte, read_value, sheet)
}

/// The same, with the bytes that check 3 allows, and the reader of a value.
pub(crate) fn read_sheet_by(
    is_allowed: fn(u8) -> bool,
    value: fn(&[u8]) -> Option<i32>,
    sheet: &[u8],
) -> Result<Sheet<'_>, Refusal> {
    if sheet.is_empty() || sheet.len() > MOST_BYTES {
        return Err(2);
    }
    if !sheet.iter().all(|&byte| is_allowed(byte)) {
        return Err(3);
    }
    let line_1_end = sheet.iter().position(|&byte| byte == b'\n').ok_or(4)?;
    let (line_1, after) = (&sheet[..line_1_end], &sheet[line_1_end + 1..]);

    // A space too many leaves an empty part, and so does an empty line.
    let names: Vec<&[u8]> = line_1.split(|&byte| byte == b' ').collect();
    if !names.iter().all(|name| is_name(name)) {
        return Err(4);
    }
    if has_equal(&names) {
        return Err(5);
    }
    let n = names.len();
    check_entries(n)?;

    let line_feeds = after.iter().filter(|&&byte| byte == b'\n').count();
    if line_feeds != n || sheet.last() != Some(&b'\n') {
        return Err(7);
    }
    let lines = after[..after.len() - 1].split(|&byte| byte == b'\n');
    let rows: Vec<Vec<i32>> = lines
        .map(|line| read_values(value, line, n))
        .collect::<Option<_>>()
        .ok_or(8)?;
    if (0..n).any(|i| (0..i).any(|j| rows[i][j] != rows[j][i])) {
        return Err(9);
    }
    // The lower triangle with own pairs, row by row.
    let pairs = (0..n).flat_map(|i| rows[i][..=i].to_vec()).collect();
    Ok(Sheet { names, pairs })
}

fn is_sheet_byte(byte: u8) -> bool {
    matches!(byte, b'A'..=b'Z' | b'0'..=b'9' | b'-' | b'.' | b' ' | b'\n')
}

/// 1 to 8 bytes, first A to Z, then A to Z or 0 to 9.
fn is_name(name: &[u8]) -> bool {
    (1..=8).contains(&name.len())
        && name[0].is_ascii_uppercase()
        && name
            .iter()
            .all(|byte| byte.is_ascii_uppercase() || byte.is_ascii_digit())
}

fn has_equal(names: &[&[u8]]) -> bool {
    (0..names.len()).any(|i| names[..i].contains(&names[i]))
}

/// Exactly n well-formed values and single spaces between.
fn read_values(value: fn(&[u8]) -> Option<i32>, line: &[u8], n: usize) -> Option<Vec<i32>> {
    let parts = line.split(|&byte| byte == b' ');
    let values: Vec<i32> = parts.map(value).collect::<Option<_>>()?;
    (values.len() == n).then_some(values)
}

/// An optional minus and 1 to 7 decimal digits, without a leading zero unless
/// they are `0`, and perhaps `.5` behind; `-0` is ill-formed. Or a lone minus, the
/// mark of an unscored pair. Answers half points.
fn read_value(text: &[u8]) -> Option<i32> {
    match text {
        b"-" => Some(UNSCORED),
        b"-0" => None,
        [b'-', size @ ..] => Some(-read_size(size)?),
        size => read_size(size),
    }
}

/// A value without its sign.
fn read_size(text: &[u8]) -> Option<i32> {
    let (digits, half) = match text.strip_suffix(b".5") {
        Some(digits) => (digits, 1),
        None => (text, 0),
    };
    if !(1..=7).contains(&digits.len()) || !digits.iter().all(u8::is_ascii_digit) {
        return None;
    }
    if digits[0] == b'0' && digits.len() > 1 {
        return None;
    }
    let points = digits
        .iter()
        .fold(0, |sum, digit| sum * 10 + i32::from(digit - b'0'));
    Some(points * POINT + half)
}

/// The pair list of a sheet in the first slots, or the refusal by checks 2 to 9;
/// answers the number of entries.
pub fn read(sheet: &[u8], slots: &mut [i32]) -> Result<usize, Refusal> {
    let Sheet { names, pairs } = read_sheet(sheet)?;
    slots[..pairs.len()].copy_from_slice(&pairs);
    Ok(names.len())
}

/// The name of an entry, counted from 0: where it starts, and its own part of
/// the sheet. 0 and the empty part if checks 2 to 9 refuse the sheet or there is
/// no such entry.
pub fn name(sheet: &[u8], entry: usize) -> (usize, &[u8]) {
    match read_sheet(sheet) {
        Ok(Sheet { names, .. }) if entry < names.len() => {
            // Each name before it, and the space behind.
            let start = names[..entry].iter().map(|name| name.len() + 1).sum();
            (start, names[entry])
        }
        _ => (0, &sheet[..0]),
    }
}

/// Scores or distances, looked up by two entries in the pair list as lent.
#[derive(Clone, Copy)]
pub(crate) struct Scores<'a> {
    n: usize,
    pairs: &'a [i32],
}

impl<'a> Scores<'a> {
    pub(crate) fn new(n: usize, pairs: &'a [i32]) -> Self {
        assert_eq!(pairs.len(), pair_count(n));
        Scores { n, pairs }
    }

    pub(crate) fn at(self, a: usize, b: usize) -> i64 {
        let (row, column) = (a.max(b), a.min(b));
        i64::from(self.pairs[pair_count(row) + column])
    }
}

/// The pairs of n entries; also where row n starts.
fn pair_count(n: usize) -> usize {
    n * (n + 1) / 2
}

/// All of the first n entries.
fn all(n: usize) -> u32 {
    ((1u64 << n) - 1) as u32
}

fn single(entry: usize) -> u32 {
    1 << entry
}

fn members(set: u32) -> Vec<usize> {
    (0..MOST_ENTRIES)
        .filter(|&entry| set & single(entry) != 0)
        .collect()
}

// -------------------------------------------------------------- Definitions
//
// X is given as `whole`, so that the same words also serve for the first few
// entries of a sheet.

/// The least s(a,a') - s(a,x), a and a' in A, x outside A; a and a' may be the
/// same entry. A is non-empty and not X.
pub(crate) fn strong_index(s: Scores, whole: u32, set: u32) -> i64 {
    least_difference(s, s, whole, set)
}

/// The same, where pairs within A and pairs across have scores of their own.
fn least_difference(within: Scores, across: Scores, whole: u32, set: u32) -> i64 {
    let (inside, outside) = (members(set), members(whole & !set));
    let mut least = i64::MAX;
    for &a in &inside {
        for &a2 in &inside {
            for &x in &outside {
                least = least.min(within.at(a, a2) - across.at(a, x));
            }
        }
    }
    least
}

/// s(a,b) - the larger of s(a,c) and s(b,c), for three different entries.
fn triple_weight(s: Scores, a: usize, b: usize, c: usize) -> i64 {
    s.at(a, b) - s.at(a, c).max(s.at(b, c))
}

/// The sum of the |A| - 1 smallest weights of all triples with a, b in A and c
/// outside, {a,b} unordered, equal weights counted each. A has at least 2
/// members and is not X.
pub(crate) fn clean_index(s: Scores, whole: u32, set: u32) -> i64 {
    let (inside, outside) = (members(set), members(whole & !set));
    let mut weights = Vec::new();
    for (place, &a) in inside.iter().enumerate() {
        for &b in &inside[..place] {
            for &c in &outside {
                weights.push(triple_weight(s, a, b, c));
            }
        }
    }
    weights.sort_unstable();
    weights[..inside.len() - 1].iter().sum()
}

/// The least d(a,b) + d(a',b') - d(a,a') - d(b,b'), a and a' on one side, b and
/// b' on the other; a may equal a', b may equal b'. Both sides are non-empty.
pub(crate) fn separation_index(d: Scores, side: u32, other: u32) -> i64 {
    let (side, other) = (members(side), members(other));
    let mut least = i64::MAX;
    for &a in &side {
        for &a2 in &side {
            for &b in &other {
                for &b2 in &other {
                    let across = d.at(a, b) + d.at(a2, b2);
                    least = least.min(across - d.at(a, a2) - d.at(b, b2));
                }
            }
        }
    }
    least
}

/// The index of a set, none where the kind has no index for it. A split is
/// given by its side without the first entry.
pub(crate) fn index(kind: i32, s: Scores, whole: u32, set: u32) -> Option<i64> {
    let proper = set != 0 && set != whole;
    match kind {
        STRONG if proper => Some(strong_index(s, whole, set)),
        CLEAN if proper && set.count_ones() >= 2 => Some(clean_index(s, whole, set)),
        SPLITS if proper && set & single(0) == 0 => Some(separation_index(s, set, whole & !set)),
        _ => None,
    }
}

/// A group or split is listed if its index is half a point or more.
fn is_listed(kind: i32, s: Scores, whole: u32, set: u32) -> bool {
    matches!(index(kind, s, whole, set), Some(index) if index >= 1)
}

/// S(a,b) = d(a,x) + d(b,x) - d(a,b), over all of X, the anchor x included.
fn anchored_score(d: Scores, x: usize, a: usize, b: usize) -> i64 {
    d.at(a, x) + d.at(b, x) - d.at(a, b)
}

#[derive(Clone, Copy, Debug, PartialEq, Eq)]
pub enum Method {
    Single,
    Average,
}

/// The link of two blocks, as a fraction with a positive lower number: the
/// greatest score between them, or the sum of the scores over the product of
/// the sizes.
fn link(method: Method, s: Scores, block: u32, other: u32) -> (i128, i128) {
    let (block, other) = (members(block), members(other));
    let scores = block
        .iter()
        .flat_map(|&a| other.iter().map(move |&b| i128::from(s.at(a, b))));
    match method {
        Method::Single => (scores.max().expect("blocks are non-empty"), 1),
        Method::Average => (scores.sum(), (block.len() * other.len()) as i128),
    }
}

/// The pairs of blocks left whose link is the greatest between any two.
fn allowed_merges(method: Method, s: Scores, blocks: &[u32]) -> Vec<(u32, u32)> {
    let mut allowed = Vec::new();
    let mut greatest = None;
    for (place, &block) in blocks.iter().enumerate() {
        for &other in &blocks[..place] {
            let link = link(method, s, block, other);
            let order = greatest.map_or(Ordering::Greater, |old| compare_fractions(link, old));
            if order == Ordering::Greater {
                allowed.clear();
                greatest = Some(link);
            }
            if order != Ordering::Less {
                allowed.push((block, other));
            }
        }
    }
    allowed
}

/// Fractions with positive lower numbers, compared without division.
fn compare_fractions(left: (i128, i128), right: (i128, i128)) -> Ordering {
    (left.0 * right.1).cmp(&(right.0 * left.1))
}

/// The blocks that remain when two of them merge.
fn merge(blocks: &mut Vec<u32>, (block, other): (u32, u32)) {
    blocks.retain(|&left| left != block && left != other);
    blocks.push(block | other);
}

/// The merged blocks of a tree, `pick` taking one of the merges allowed.
pub(crate) fn tree(method: Method, s: Scores, mut pick: impl FnMut(usize) -> usize) -> Vec<u32> {
    let mut blocks: Vec<u32> = (0..s.n).map(single).collect();
    let mut merged = Vec::new();
    while blocks.len() > 1 {
        let allowed = allowed_merges(method, s, &blocks);
        let (block, other) = allowed[pick(allowed.len())];
        merge(&mut blocks, (block, other));
        merged.push(block | other);
    }
    merged
}

/// Whether the merged blocks, in this order, are those of a linkage tree that
/// the pair list allows: n - 1 merges, each of two blocks left whose link is
/// the greatest.
pub fn is_tree(method: Method, n: usize, pairs: &[i32], merged: &[u32]) -> bool {
    if check_entries(n).is_err() || check_length(n, pairs).is_err() || merged.len() != n - 1 {
        return false;
    }
    let s = Scores::new(n, pairs);
    let mut blocks: Vec<u32> = (0..n).map(single).collect();
    merged.iter().all(|&set| {
        let allowed = allowed_merges(method, s, &blocks);
        let found = allowed.into_iter().find(|(a, b)| a | b == set);
        found.map(|pair| merge(&mut blocks, pair)).is_some()
    })
}

// ------------------------------------------------- Which groups are listed

/// How the sets to be judged are found. Either way each one is judged by its
/// index, so a way can only miss sets.
#[derive(Clone, Copy, Debug, PartialEq, Eq)]
pub(crate) enum Way {
    EverySet,
    Candidates,
}

fn usual_way(n: usize) -> Way {
    if n <= 12 {
        Way::EverySet
    } else {
        Way::Candidates
    }
}

/// The listed groups or splits and their indices, by size, then by set.
pub(crate) fn listed(kind: i32, s: Scores, way: Way) -> Vec<(u32, i64)> {
    let whole = all(s.n);
    let mut sets = match (way, kind) {
        (Way::EverySet, _) => (0..=whole).collect(),
        (Way::Candidates, STRONG) => strong_candidates(s),
        (Way::Candidates, CLEAN) => clean_candidates(s),
        (Way::Candidates, _) => split_candidates(s),
    };
    sets.sort_unstable_by_key(|&set| (set.count_ones(), set));
    sets.dedup();
    sets.into_iter()
        .filter_map(|set| Some((set, index(kind, s, whole, set)?)))
        .filter(|&(_, index)| index >= 1)
        .collect()
}

/// The entries x of a set with the highest s(a,x), cut at each value.
fn top_sets(s: Scores, a: usize, among: u32) -> Vec<u32> {
    let others = members(among);
    let above = |cut: i64| {
        let top = others.iter().filter(|&&x| s.at(a, x) >= cut);
        top.fold(0, |set, &x| set | single(x))
    };
    others.iter().map(|&x| above(s.at(a, x))).collect()
}

/// Let A be a strong group and a in A. Every s(a,a') with a' in A, own score
/// included, is above every s(a,x) with x outside. So A is cut off the entries
/// by one value of the scores of a.
fn strong_candidates(s: Scores) -> Vec<u32> {
    let whole = all(s.n);
    (0..s.n).flat_map(|a| top_sets(s, a, whole)).collect()
}

/// Entry by entry (003, theorem 2.5). Let A be a clean group of the first k
/// entries and a newcomer r.
///
/// r outside A: A is all of the first k entries, or else clean among them,
/// since fewer triples have no smaller sum of |A| - 1 smallest weights.
///
/// r in A, A' = A less r: if A' has 2 or more members and is not clean among
/// the first k entries, then |A'| - 1 triples of A', which are triples of A
/// too, sum to 0 or less. One more triple a, r | x of weight 0 or less, with a
/// in A' and x outside A, would give |A| - 1 triples of A with such a sum; so
/// all these weights are positive. If A' is one entry, the index of A is the
/// least of these weights, and they are positive too. Each s(r,a) is then above
/// each s(r,x): A' is cut off the first k entries by one value of the scores of
/// r, own score left aside.
fn clean_candidates(s: Scores) -> Vec<u32> {
    let mut clean: Vec<u32> = Vec::new();
    for r in 1..s.n {
        let (before, now) = (all(r), all(r + 1));
        let mut sets = vec![before];
        sets.extend(clean.iter().flat_map(|&set| [set, set | single(r)]));
        sets.extend(top_sets(s, r, before).iter().map(|&set| set | single(r)));
        sets.sort_unstable();
        sets.dedup();
        sets.retain(|&set| is_listed(CLEAN, s, now, set));
        clean = sets;
    }
    clean
}

/// Entry by entry. Let A|B be a listed split of the first k entries and a
/// newcomer r. Either r is alone on its side, or taking it away leaves a split
/// of the first k entries, whose index is the least of fewer terms and so no
/// smaller. Splits are kept as the side without the first entry, which r joins
/// or not.
fn split_candidates(d: Scores) -> Vec<u32> {
    let mut sides: Vec<u32> = Vec::new();
    for r in 1..d.n {
        let mut sets = vec![single(r)];
        sets.extend(sides.iter().flat_map(|&side| [side, side | single(r)]));
        sets.retain(|&side| is_listed(SPLITS, d, all(r + 1), side));
        sides = sets;
    }
    sides
}

// ----------------------------------------------------------- Unscored pairs
//
// A filling gives each unscored pair a score in the allowed range, and the
// strong index is the least over all fillings.

/// How many pairs of a list are unscored.
pub fn unscored(pairs: &[i32]) -> usize {
    pairs.iter().filter(|&&pair| pair == UNSCORED).count()
}

/// The fillings that take no other scores than these.
pub(crate) fn fillings<'a>(
    pairs: &'a [i32],
    scores: &'a [i32],
) -> impl Iterator<Item = Vec<i32>> + 'a {
    let count = scores.len().pow(unscored(pairs) as u32);
    (0..count).map(move |mut number| {
        let mut filling = pairs.to_vec();
        for pair in filling.iter_mut().filter(|pair| **pair == UNSCORED) {
            *pair = scores[number % scores.len()];
            number /= scores.len();
        }
        filling
    })
}

/// The strong groups that each of these fillings lists, with the least of their
/// indices.
///
/// To take the two ends of the range is enough. Each term of an index is one
/// score less another one, so it changes evenly with the score of a pair, the
/// other pairs kept; the least of several terms is then smallest at an end. Pair
/// by pair any filling leads to one of ends alone, and no index rises.
pub(crate) fn listed_in_all(n: usize, pairs: &[i32], scores: &[i32]) -> Vec<(u32, i64)> {
    let mut rest = fillings(pairs, scores);
    let first = rest.next().expect("a score to fill with");
    let mut lines = listed(STRONG, Scores::new(n, &first), usual_way(n));
    for filling in rest {
        let s = Scores::new(n, &filling);
        for (set, index) in &mut lines {
            *index = strong_index(s, all(n), *set).min(*index);
        }
        lines.retain(|&(_, index)| index >= 1);
    }
    lines
}

/// The least and the greatest score that each pair can have.
pub(crate) struct Bounds {
    n: usize,
    least: Vec<i32>,
    greatest: Vec<i32>,
}

impl Bounds {
    pub(crate) fn new(n: usize, pairs: &[i32], greatest: i32) -> Self {
        let filled = |score| fillings(pairs, &[score]).next().expect("one filling");
        Bounds {
            n,
            least: filled(-greatest),
            greatest: filled(greatest),
        }
    }

    /// The least strong index at once. No pair is both within A and across, so
    /// one filling makes every term the least it can be: each pair within A has
    /// its least score, each pair across its greatest.
    pub(crate) fn strong_index(&self, set: u32) -> i64 {
        let within = Scores::new(self.n, &self.least);
        let across = Scores::new(self.n, &self.greatest);
        least_difference(within, across, all(self.n), set)
    }

    /// The strong groups of every filling: one of them has each pair at its
    /// least, and lists them all.
    pub(crate) fn listed(&self) -> Vec<(u32, i64)> {
        let one = listed(STRONG, Scores::new(self.n, &self.least), usual_way(self.n));
        one.into_iter()
            .map(|(set, _)| (set, self.strong_index(set)))
            .filter(|&(_, index)| index >= 1)
            .collect()
    }
}

/// The fillings of so many pairs, by the ends of the range, are all tried.
const FEW_UNSCORED: usize = 8;

/// The lines of a pair list that its kind accepts.
fn lines(kind: i32, n: usize, pairs: &[i32]) -> Vec<(u32, i64)> {
    lines_within(GREATEST, kind, n, pairs)
}

/// The same, where no score is greater, or below minus it.
pub(crate) fn lines_within(greatest: i32, kind: i32, n: usize, pairs: &[i32]) -> Vec<(u32, i64)> {
    match unscored(pairs) {
        0 => listed(kind, Scores::new(n, pairs), usual_way(n)),
        1..=FEW_UNSCORED => listed_in_all(n, pairs, &[-greatest, greatest]),
        _ => Bounds::new(n, pairs, greatest).listed(),
    }
}

// --------------------------------------------------------- What is written

/// A number of half points, written in points, with `.5` where needed.
pub fn in_points(halves: i64) -> String {
    let point = i64::from(POINT);
    let (sign, size) = match halves {
        0.. => ("", halves),
        _ => ("-", -halves),
    };
    let half = match size % point {
        0 => "",
        _ => ".5",
    };
    format!("{sign}{}{half}", size / point)
}

/// First line `set size index`, then a line per group.
fn listing_text(lines: &[(u32, i64)]) -> Vec<u8> {
    let mut text = String::from("set size index\n");
    for &(set, index) in lines {
        text += &format!("{set:08x} {} {}\n", set.count_ones(), in_points(index));
    }
    text.into_bytes()
}

// ------------------------------------------- Where a call is turned away

pub(crate) fn refuse_if(condition: bool, number: Refusal) -> Result<(), Refusal> {
    if condition {
        Err(number)
    } else {
        Ok(())
    }
}

/// The number in C: a length, or minus the refusal number.
pub(crate) fn in_c(answer: Result<usize, Refusal>) -> i64 {
    match answer {
        Ok(length) => length as i64,
        Err(number) => -number,
    }
}

/// The text in the first bytes, or 14 if it has more bytes than there are;
/// answers its length.
pub(crate) fn hand_over(text: &[u8], out: &mut [u8]) -> Result<usize, Refusal> {
    refuse_if(text.len() > out.len(), 14)?;
    out[..text.len()].copy_from_slice(text);
    Ok(text.len())
}

/// 1: the kind is not 1, 2 or 3.
pub(crate) fn check_kind(kind: i32) -> Result<(), Refusal> {
    refuse_if(![STRONG, CLEAN, SPLITS].contains(&kind), 1)
}

/// 6: n is 0 or over 32.
pub(crate) fn check_entries(n: usize) -> Result<(), Refusal> {
    refuse_if(n == 0 || n > MOST_ENTRIES, 6)
}

/// 10: the length is not n(n+1)/2.
pub(crate) fn check_length(n: usize, pairs: &[i32]) -> Result<(), Refusal> {
    refuse_if(pairs.len() != pair_count(n), 10)
}

/// 11: a value below -1,000,000 or above 1,000,000 points; the mark is exempt.
pub(crate) fn check_range(pairs: &[i32]) -> Result<(), Refusal> {
    check_within(GREATEST, pairs)
}

/// The same, of another range.
pub(crate) fn check_within(greatest: i32, pairs: &[i32]) -> Result<(), Refusal> {
    let within = |&value: &i32| (-greatest..=greatest).contains(&value) || value == UNSCORED;
    refuse_if(!pairs.iter().all(within), 11)
}

/// 16, right after 11: an unscored pair.
fn check_scored(pairs: &[i32]) -> Result<(), Refusal> {
    refuse_if(unscored(pairs) > 0, 16)
}

/// 12: in kind 3, a negative value, or an own value that is not 0.
fn check_distances(kind: i32, n: usize, pairs: &[i32]) -> Result<(), Refusal> {
    let d = Scores::new(n, pairs);
    let negative = pairs.iter().any(|&value| value < 0);
    let own = (0..n).any(|a| d.at(a, a) != 0);
    refuse_if(kind == SPLITS && (negative || own), 12)
}

/// What a kind asks of the values: 11, 16 unless it is kind 1, 12.
pub(crate) fn check_values(kind: i32, n: usize, pairs: &[i32]) -> Result<(), Refusal> {
    check_range(pairs)?;
    check_carried(kind, n, pairs)
}

/// Without 11.
pub(crate) fn check_carried(kind: i32, n: usize, pairs: &[i32]) -> Result<(), Refusal> {
    if kind != STRONG {
        check_scored(pairs)?;
    }
    check_distances(kind, n, pairs)
}

/// The sheet call and the C call: the listing's length in bytes, or minus the
/// refusal number. A refusal writes no byte, a listing only its own.
pub fn listing(kind: i32, sheet: &[u8], out: &mut [u8]) -> i64 {
    in_c(sheet_call(kind, sheet, out))
}

fn sheet_call(kind: i32, sheet: &[u8], out: &mut [u8]) -> Result<usize, Refusal> {
    check_kind(kind)?;
    let Sheet { names, pairs } = read_sheet(sheet)?;
    let n = names.len();
    check_values(kind, n, &pairs)?;
    hand_over(&listing_text(&lines(kind, n, &pairs)), out)
}

/// The numbers call: sets and indices in the order of the listing, 0 in all
/// further slots; answers their count.
pub fn numbers(
    kind: i32,
    n: usize,
    pairs: &[i32],
    sets: &mut [u32],
    indices: &mut [i64],
) -> Result<usize, Refusal> {
    check_numbers(kind, n, pairs)?;
    refuse_if(sets.len() < 2 * n || indices.len() < 2 * n, 13)?;
    let lines = lines(kind, n, pairs);
    sets.fill(0);
    indices.fill(0);
    for (place, &(set, index)) in lines.iter().enumerate() {
        sets[place] = set;
        indices[place] = index;
    }
    Ok(lines.len())
}

/// The checks of the numbers call, 13 left out.
fn check_numbers(kind: i32, n: usize, pairs: &[i32]) -> Result<(), Refusal> {
    check_kind(kind)?;
    check_entries(n)?;
    check_length(n, pairs)?;
    check_values(kind, n, pairs)
}

/// The smallest group, of kind 1 or 2, that holds both of two entries, and its
/// line, counted from 1 after the first; all n entries and 0 if none does
/// (request 2.1). The same entry twice is allowed. Kind 3 gets 1 here.
pub fn smallest_shared(
    kind: i32,
    n: usize,
    pairs: &[i32],
    a: usize,
    b: usize,
) -> Result<(u32, usize), Refusal> {
    smallest_among(n, &shared_groups(kind, n, pairs)?, a, b)
}

/// The groups that `smallest_shared` reads, in written order; refuses by the
/// checks that ask nothing of the two entries.
pub fn shared_groups(kind: i32, n: usize, pairs: &[i32]) -> Result<Vec<u32>, Refusal> {
    refuse_if(kind == SPLITS, 1)?;
    check_numbers(kind, n, pairs)?;
    let lines = lines(kind, n, pairs);
    Ok(lines.into_iter().map(|(set, _)| set).collect())
}

/// Of these groups of n entries, all of them read, the one with the fewest
/// members that holds both, and its line. All entries are more than any group.
pub fn smallest_among(
    n: usize,
    groups: &[u32],
    a: usize,
    b: usize,
) -> Result<(u32, usize), Refusal> {
    refuse_if(a >= n || b >= n, 15)?;
    let both = single(a) | single(b);
    let mut smallest = (all(n), 0);
    for (place, &group) in groups.iter().enumerate() {
        if group & both == both && group.count_ones() < smallest.0.count_ones() {
            smallest = (group, place + 1);
        }
    }
    Ok(smallest)
}

/// What turns a linkage call away that lends a result slice of so many slots.
pub fn linkage_refusal(n: usize, pairs: &[i32], slots: usize) -> Result<(), Refusal> {
    check_entries(n)?;
    check_length(n, pairs)?;
    check_range(pairs)?;
    check_scored(pairs)?;
    refuse_if(slots < n - 1, 15)
}

/// The linkage calls: the n - 1 merged blocks in the order of merging. Of the
/// merges allowed at each step, `pick` is given their number and takes one.
pub fn linkage(
    method: Method,
    n: usize,
    pairs: &[i32],
    merged: &mut [u32],
    pick: impl FnMut(usize) -> usize,
) -> Result<usize, Refusal> {
    linkage_refusal(n, pairs, merged.len())?;
    let tree = tree(method, Scores::new(n, pairs), pick);
    merged[..tree.len()].copy_from_slice(&tree);
    Ok(tree.len())
}

/// The anchored scores, in the order of the pair list; answers how many.
pub fn anchored(
    n: usize,
    pairs: &[i32],
    anchor: usize,
    scores: &mut [i32],
) -> Result<usize, Refusal> {
    check_entries(n)?;
    check_length(n, pairs)?;
    check_values(SPLITS, n, pairs)?;
    refuse_if(anchor >= n || scores.len() < pairs.len(), 15)?;
    let list = anchored_list(Scores::new(n, pairs), anchor);
    for (slot, score) in scores.iter_mut().zip(&list) {
        *slot = i32::try_from(*score).expect("at most twice the greatest value");
    }
    Ok(list.len())
}

fn anchored_list(d: Scores, anchor: usize) -> Vec<i64> {
    let rows = 0..d.n;
    rows.flat_map(|a| (0..=a).map(move |b| anchored_score(d, anchor, a, b)))
        .collect()
}

/// The way back: the distances whose anchored scores these are, in the order of
/// the pair list; answers how many.
pub fn way_back(
    n: usize,
    scores: &[i32],
    anchor: usize,
    distances: &mut [i32],
) -> Result<usize, Refusal> {
    check_entries(n)?;
    check_length(n, scores)?;
    refuse_if(anchor >= n || distances.len() < scores.len(), 15)?;
    let list = distances_behind(n, scores, anchor).ok_or(15)?;
    distances[..list.len()].copy_from_slice(&list);
    Ok(list.len())
}

/// Distances passing 11, 16 and 12 with these anchored scores. There is only one
/// choice, by 2 d(a,b) = S(a,a) + S(b,b) - 2 S(a,b); it is none if half of that
/// is no such distance or does not lead to these scores again.
fn distances_behind(n: usize, scores: &[i32], anchor: usize) -> Option<Vec<i32>> {
    let s = Scores::new(n, scores);
    let mut list = Vec::new();
    for a in 0..n {
        for b in 0..=a {
            let twice = s.at(a, a) + s.at(b, b) - 2 * s.at(a, b);
            list.push(i32::try_from(twice.div_euclid(2)).ok()?);
        }
    }
    check_values(SPLITS, n, &list).ok()?;
    let again = anchored_list(Scores::new(n, &list), anchor);
    let same = again
        .iter()
        .zip(scores)
        .all(|(&s, &given)| s == i64::from(given));
    same.then_some(list)
}

/// The score of two entries, counted from 0, in a pair list; of an unscored pair
/// the mark.
pub fn score(n: usize, pairs: &[i32], a: usize, b: usize) -> Result<i64, Refusal> {
    check_entries(n)?;
    check_length(n, pairs)?;
    refuse_if(a >= n || b >= n, 15)?;
    Ok(Scores::new(n, pairs).at(a, b))
}

#[cfg(test)]
mod tests {
    use super::*;

    const EXAMPLE: [i32; 10] = [9, 8, 9, 6, 5, 9, 2, 3, 1, 9];

    #[test]
    fn indices_below_1() {
        // s(B,C) = 2 in the worked example.
        let mut lower = EXAMPLE;
        lower[4] = 2;
        let s = Scores::new(4, &lower);
        assert_eq!(index(STRONG, s, all(4), 0b0111), Some(-1));
        assert_eq!(index(STRONG, s, all(4), 0b0101), Some(6 - 8));
        // Weights of {B,C}: 2 - 8 with A, 2 - 3 with D; of {A,C,D}: see B.
        assert_eq!(index(CLEAN, s, all(4), 0b0110), Some(-6));
        assert_eq!(index(CLEAN, s, all(4), 0b1101), Some((2 - 8) + (6 - 8)));

        let s = Scores::new(3, &[5; 6]);
        assert_eq!(index(STRONG, s, all(3), 0b001), Some(0));
        assert_eq!(index(CLEAN, s, all(3), 0b011), Some(0));

        let d = Scores::new(4, &[0, 2, 0, 4, 4, 0, 4, 4, 2, 0]);
        assert_eq!(index(SPLITS, d, all(4), 0b1010), Some(2 + 2 - 4 - 4));
        let d = Scores::new(2, &[0, 0, 0]);
        assert_eq!(index(SPLITS, d, all(2), 0b10), Some(0));
    }

    #[test]
    fn sets_without_an_index() {
        let s = Scores::new(4, &EXAMPLE);
        for set in [0, 0b1111] {
            assert_eq!(index(STRONG, s, all(4), set), None);
            assert_eq!(index(CLEAN, s, all(4), set), None);
            assert_eq!(index(SPLITS, s, all(4), set), None);
        }
        assert_eq!(index(CLEAN, s, all(4), 0b0010), None);
        assert_eq!(index(SPLITS, s, all(4), 0b0011), None);
    }

    #[test]
    fn one_way_up_to_12_entries_another_beyond() {
        assert_eq!(usual_way(12), Way::EverySet);
        assert_eq!(usual_way(13), Way::Candidates);
    }

    /// Sheets on which one rule for a newcomer is the only one to lead to a
    /// clean group.
    #[test]
    fn every_rule_for_a_newcomer_is_needed() {
        let clean = |pairs: &[i32]| {
            let lines = listed(CLEAN, Scores::new(4, pairs), Way::Candidates);
            lines.iter().map(|line| line.0).collect::<Vec<_>>()
        };
        // {0,1}: all before entry 2, clean from then on; {0,1,2}: all before 3.
        assert_eq!(clean(&[0, 9, 0, 5, 5, 0, 1, 1, 1, 0]), [0b0011, 0b0111]);
        // {0,3} and {1,2,3}: cut off by the newcomer's scores.
        assert_eq!(clean(&[0, 1, 0, 1, 5, 0, 1, 5, 5, 0]), [0b1110]);
        assert_eq!(clean(&[0, 1, 0, 1, 1, 0, 9, 1, 1, 0]), [0b1001]);
        // {0,1,3}: s(3,0) = 4 is below s(3,2) = 5, so only {0,1} leads there.
        assert_eq!(clean(&[0, 20, 0, 1, 1, 0, 4, 9, 5, 0]), [0b0011, 0b1011]);
    }
}
