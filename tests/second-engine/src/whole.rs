//! The sheet call as it was before request 2.6, when a value was a whole number of
//! points: how it was read, the range, how a line was written. "A sheet of whole
//! points gives the listing it gave before."

use crate::engine::{
    check_carried, check_kind, check_within, hand_over, in_c, lines_within, read_sheet_by, Refusal,
    Sheet, UNSCORED,
};

/// The greatest score, and minus the least.
const GREATEST: i32 = 1_000_000;

/// The listing's length in bytes, or minus the refusal number.
pub fn listing(kind: i32, sheet: &[u8], out: &mut [u8]) -> i64 {
    in_c(sheet_call(kind, sheet, out))
}

fn sheet_call(kind: i32, sheet: &[u8], out: &mut [u8]) -> Result<usize, Refusal> {
    check_kind(kind)?;
    let Sheet { names, pairs } = read_sheet_by(is_sheet_byte, read_value, sheet)?;
    let n = names.len();
    check_within(GREATEST, &pairs)?;
    check_carried(kind, n, &pairs)?;
    let mut text = String::from("set size index\n");
    for (set, index) in lines_within(GREATEST, kind, n, &pairs) {
        text += &format!("{set:08x} {} {index}\n", set.count_ones());
    }
    hand_over(text.as_bytes(), out)
}

/// There was no point.
fn is_sheet_byte(byte: u8) -> bool {
    byte.is_ascii_uppercase() || byte.is_ascii_digit() || b"- \n".contains(&byte)
}

/// A number of at most 7 digits, written as it is written by others; or the mark.
fn read_value(text: &[u8]) -> Option<i32> {
    let text = std::str::from_utf8(text).ok()?;
    if text == "-" {
        return Some(UNSCORED);
    }
    let value: i32 = text.parse().ok()?;
    let seven = (-9_999_999..=9_999_999).contains(&value);
    (seven && value.to_string() == text).then_some(value)
}
