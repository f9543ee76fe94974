//! Request 2.4: the pool of two sheets, found name by name.

use crate::engine::{
    check_range, hand_over, in_c, in_points, read_sheet, refuse_if, Refusal, Sheet, GREATEST,
    UNSCORED,
};
use std::collections::{BTreeMap, BTreeSet};

/// The score that each two names have, in either order, in half points; none if
/// unscored.
type Scores<'a> = BTreeMap<(&'a [u8], &'a [u8]), Option<i32>>;

/// The pool's length in bytes, or minus the refusal number. A refusal writes no
/// byte, a pool only its own.
pub fn pool(first: &[u8], second: &[u8], out: &mut [u8]) -> i64 {
    in_c(pool_text(first, second).and_then(|text| hand_over(&text, out)))
}

fn pool_text(first: &[u8], second: &[u8]) -> Result<Vec<u8>, Refusal> {
    let first = accepted(first)?;
    let second = accepted(second)?;
    refuse_if(name_set(&first) != name_set(&second), 17)?;

    let others = scores(&second);
    let sums: Scores = scores(&first)
        .into_iter()
        .map(|(pair, score)| (pair, sum(score, others[&pair])))
        .collect();
    let within = |sum: &i32| (-GREATEST..=GREATEST).contains(sum);
    refuse_if(!sums.values().flatten().all(within), 18)?;
    Ok(sheet_text(&first.names, &sums))
}

/// The number with which 2 to 9 and 11 refuse a sheet, 0 if they pass it.
pub fn refusal(sheet: &[u8]) -> Refusal {
    accepted(sheet).err().unwrap_or(0)
}

/// A sheet that passes 2 to 9 and 11.
fn accepted(sheet: &[u8]) -> Result<Sheet<'_>, Refusal> {
    let sheet = read_sheet(sheet)?;
    check_range(&sheet.pairs)?;
    Ok(sheet)
}

fn name_set<'a>(sheet: &Sheet<'a>) -> BTreeSet<&'a [u8]> {
    sheet.names.iter().copied().collect()
}

/// None if the pair is unscored on either sheet.
fn sum(score: Option<i32>, other: Option<i32>) -> Option<i32> {
    Some(score? + other?)
}

fn scores<'a>(sheet: &Sheet<'a>) -> Scores<'a> {
    let names = sheet.names.iter().enumerate();
    let pairs = names.flat_map(|(i, &a)| sheet.names[..=i].iter().map(move |&b| (a, b)));
    let mut scores = Scores::new();
    for ((a, b), &pair) in pairs.zip(&sheet.pairs) {
        let score = (pair != UNSCORED).then_some(pair);
        scores.insert((a, b), score);
        scores.insert((b, a), score);
    }
    scores
}

/// Line 1 with the names, then a line for each of them, its scores in points.
fn sheet_text(names: &[&[u8]], scores: &Scores) -> Vec<u8> {
    let cell = |score: Option<i32>| score.map_or("-".into(), |score| in_points(score.into()));
    let row = |a| -> Vec<String> { names.iter().map(|b| cell(scores[&(a, *b)])).collect() };
    let mut text = names.join(&b' ');
    text.push(b'\n');
    for &name in names {
        text.extend((row(name).join(" ") + "\n").bytes());
    }
    text
}
