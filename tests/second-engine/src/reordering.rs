//! One sheet in two orders: both listings say the same of the entries.

use crate::engine::{in_points, POINT};
use crate::generate::Table;

/// A set A has a line exactly when the set of all p(a) has one in the reordered
/// sheet, with an equal index; in kind 3 a side may stand for the other.
/// Answers how many lines each listing has after the first.
pub fn check(
    call: impl Fn(i32, &[u8], &mut [u8]) -> i64,
    kind: i32,
    table: &Table,
    p: &[usize],
) -> Result<usize, String> {
    let mut wanted = read_listing(&call, kind, table)?;
    for line in &mut wanted {
        line.0 = image(kind, p, line.0);
    }
    wanted.sort_unstable_by_key(|&(set, _)| (set.count_ones(), set));
    let new = read_listing(&call, kind, &table.reordered(p))?;
    if new != wanted {
        let sheet = show(kind, table);
        return Err(format!(
            "reordered by {p:?}: {new:x?}, wanted {wanted:x?}; {sheet}"
        ));
    }
    Ok(new.len())
}

/// The set of all p(a); in kind 3 the side without the first entry.
pub fn image(kind: i32, p: &[usize], set: u32) -> u32 {
    let members = (0..p.len()).filter(|a| set >> a & 1 == 1);
    let image = members.fold(0, |image, a| image | 1 << p[a]);
    if kind == 3 && image & 1 == 1 {
        whole(p.len()) & !image
    } else {
        image
    }
}

/// All of the first n entries.
pub(crate) fn whole(n: usize) -> u32 {
    ((1u64 << n) - 1) as u32
}

pub(crate) fn show(kind: i32, table: &Table) -> String {
    show_sheet(kind, &table.sheet())
}

fn show_sheet(kind: i32, sheet: &[u8]) -> String {
    format!("kind {kind}, sheet:\n{}", String::from_utf8_lossy(sheet))
}

/// The sets and indices of a listing, read back from its bytes.
pub(crate) fn read_listing(
    call: impl Fn(i32, &[u8], &mut [u8]) -> i64,
    kind: i32,
    table: &Table,
) -> Result<Vec<(u32, i64)>, String> {
    read_lines(call, kind, &table.sheet())
}

/// The same, of a sheet's bytes.
pub(crate) fn read_lines(
    call: impl Fn(i32, &[u8], &mut [u8]) -> i64,
    kind: i32,
    sheet: &[u8],
) -> Result<Vec<(u32, i64)>, String> {
    let mut bytes = vec![0; 4096];
    let answer = call(kind, sheet, &mut bytes);
    let listing = usize::try_from(answer)
        .ok()
        .and_then(|length| bytes.get(..length))
        .ok_or_else(|| format!("answer {answer}; {}", show_sheet(kind, sheet)))?;
    let text = String::from_utf8_lossy(listing);
    parse_listing(&text).ok_or_else(|| format!("listing {text:?}; {}", show_sheet(kind, sheet)))
}

/// The sets and indices of a listing's text, the indices in half points; none if
/// it is no listing.
pub fn parse_listing(text: &str) -> Option<Vec<(u32, i64)>> {
    let lines = text
        .strip_prefix("set size index\n")?
        .split_terminator('\n');
    lines
        .map(|line| {
            let words: Vec<&str> = line.split(' ').collect();
            let [set, size, index] = <[&str; 3]>::try_from(words).ok()?;
            let digits = u32::from_str_radix(set, 16).ok()?;
            let sized = size.parse() == Ok(digits.count_ones());
            (set.len() == 8 && sized).then_some((digits, parse_index(index)?))
        })
        .collect()
}

/// An index, which is written in points, as half points; none if it is written
/// otherwise, or below half a point.
fn parse_index(text: &str) -> Option<i64> {
    let (points, half) = match text.strip_suffix(".5") {
        Some(points) => (points, 1),
        None => (text, 0),
    };
    let halves = points.parse::<i64>().ok()?.checked_mul(POINT.into())? + half;
    (halves >= 1 && in_points(halves) == text).then_some(halves)
}

#[cfg(test)]
mod tests {
    use super::*;
    use crate::engine::listing;

    #[test]
    fn a_listing_is_read_back() {
        assert_eq!(
            parse_listing("set size index\n00000003 2 5\n"),
            Some(vec![(3, 10)])
        );
        for (index, halves) in [
            ("0.5", 1),
            ("1", 2),
            ("1.5", 3),
            ("59999999.5", 119_999_999),
        ] {
            assert_eq!(
                parse_listing(&format!("set size index\n00000001 1 {index}\n")),
                Some(vec![(1, halves)])
            );
        }
        for wrong in [
            "set size index",
            "set size index\n3 2 5\n",
            "set size index\n00000003 1 5\n",
            "set size index\n00000003 2  5\n",
            "set size index\n00000003 2 5 \n",
        ] {
            assert_eq!(parse_listing(wrong), None);
        }
        for index in [
            "0", "0.0", "00.5", "01", "1.0", "1.", ".5", ".", "", "-1", "-0.5", "+1", "1.50",
            "1.5.5", "1.4", "1,5",
        ] {
            let wrong = format!("set size index\n00000001 1 {index}\n");
            assert_eq!(parse_listing(&wrong), None, "{index:?}");
        }
    }

    #[test]
    fn images() {
        // 0 and 1 change places, so do 2 and 3.
        let p = [1, 0, 3, 2];
        assert_eq!(image(1, &p, 0b0101), 0b1010);
        assert_eq!(image(1, &p, 0b0110), 0b1001);
        assert_eq!(image(3, &p, 0b0110), 0b0110);
        assert_eq!(image(3, &p, 0b0100), 0b1000);
    }

    /// d(0,1) = d(2,3) = 2, other distances 4, in points; also as scores.
    fn copies() -> Table {
        let row = |a: usize| {
            let value = |b: usize| [8, 4, 0][usize::from(a / 2 == b / 2) + usize::from(a == b)];
            (0..4).map(value).collect()
        };
        Table {
            names: ["A", "B", "C", "D"].map(String::from).to_vec(),
            values: (0..4).map(row).collect(),
        }
    }

    #[test]
    fn what_depends_on_the_order_is_seen() {
        let (table, p) = (copies(), [2, 0, 3, 1]);
        assert_eq!(check(listing, 3, &table, &p), Ok(5));
        assert_eq!(check(listing, 3, &table, &[0, 1, 2, 3]), Ok(5));

        // Without its last line, the listing lacks another split in each order.
        let short = |kind, sheet: &[u8], out: &mut [u8]| listing(kind, sheet, out) - 13;
        assert!(check(short, 3, &table, &p).is_err());
        // The index of the second line is 9 in one order only.
        let odd = |kind, sheet: &[u8], out: &mut [u8]| {
            let length = listing(kind, sheet, out);
            if sheet.starts_with(b"A") {
                out[26] = b'9';
            }
            length
        };
        assert!(check(odd, 3, &table, &p).is_err());
        // An answer that is no length of the buffer's.
        assert!(check(|_, _, _| -9, 3, &table, &p).is_err());
        assert!(check(|_, _, _| 5000, 3, &table, &p).is_err());
    }
}
