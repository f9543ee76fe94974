//! What request 2.6 says of half points, held against an engine's own answers.

use crate::compare::{self, Case, Expected};
use crate::engine::{POINT, UNSCORED};
use crate::generate::{Table, MARK};
use crate::unscored::Groups;
use crate::whole;

/// The sort of an index: 0 if it is half a point, 1 if it is whole points, 2 if it
/// is any other.
pub fn sort(index: i64) -> usize {
    match (index, index % i64::from(POINT)) {
        (1, _) => 0,
        (_, 0) => 1,
        _ => 2,
    }
}

/// A sheet without a point gets the answer and the bytes that it got before there
/// were half points, refused or not. Answers what that is.
pub fn check_whole(
    name: &str,
    listing: impl Fn(i32, &[u8], &mut [u8]) -> i64,
    case: Case,
) -> Result<i64, String> {
    assert!(!case.sheet.contains(&b'.'));
    let mut bytes = vec![0; case.room];
    let answer = whole::listing(case.kind, &case.sheet, &mut bytes);
    bytes.truncate(usize::try_from(answer).unwrap_or(0));
    let expected = Expected {
        case,
        answer,
        listing: bytes,
    };
    compare::check(name, listing, &expected)?;
    Ok(answer)
}

/// The table with every score halved, so that its double is in range.
pub fn halved(table: &Table) -> Table {
    let mut half = table.clone();
    let scores = half.values.iter_mut().flatten();
    scores
        .filter(|score| **score != MARK)
        .for_each(|score| *score /= i64::from(POINT));
    half
}

/// The list with every score doubled: what it says in points where the list itself
/// says half points.
pub fn doubled(pairs: &[i32]) -> Vec<i32> {
    let twice = |&pair: &i32| match pair {
        UNSCORED => UNSCORED,
        score => score * POINT,
    };
    pairs.iter().map(twice).collect()
}

/// The doubled list has the same groups, each of twice the index. Answers how many
/// there are.
pub fn check_doubled(found: impl Fn(&[i32]) -> Groups, pairs: &[i32]) -> Result<usize, String> {
    let mut wanted = found(pairs)?;
    for (_, index) in &mut wanted {
        *index *= i64::from(POINT);
    }
    let groups = found(&doubled(pairs))?;
    match groups == wanted {
        true => Ok(groups.len()),
        false => Err(format!(
            "{groups:x?}, wanted {wanted:x?}; doubled {pairs:?}"
        )),
    }
}
