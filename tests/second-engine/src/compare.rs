//! Another engine's answers held against this one's: the number returned and
//! every byte lent, with guard bytes on both sides of the buffer.

use crate::engine;

/// One call: a kind, a sheet, and the length of the buffer lent.
#[derive(Clone, Debug, PartialEq, Eq)]
pub struct Case {
    pub kind: i32,
    pub sheet: Vec<u8>,
    pub room: usize,
}

/// How many calls ended how; a refusal is counted under its number.
#[derive(Clone, Debug, Default, PartialEq, Eq)]
pub struct Tally {
    pub listings: u64,
    pub refusals: [u64; NUMBERS],
}

/// The refusals have numbers below this.
const NUMBERS: usize = 20;

/// The refusals that the sheet call can give, in the order of its checks.
pub const SHEET_REFUSALS: [usize; 13] = [1, 2, 3, 4, 5, 6, 7, 8, 9, 11, 16, 12, 14];

impl Tally {
    pub fn count(&mut self, answer: i64) {
        match usize::try_from(-answer) {
            Ok(number) if (1..NUMBERS).contains(&number) => self.refusals[number] += 1,
            _ => self.listings += 1,
        }
    }

    pub fn calls(&self) -> u64 {
        self.listings + self.refusals.iter().sum::<u64>()
    }

    /// Those of the numbers that never turned up.
    pub fn missed(&self, numbers: &[usize]) -> Vec<usize> {
        let mut missed = numbers.to_vec();
        missed.retain(|&number| self.refusals[number] == 0);
        missed
    }
}

/// A call, the answer it must get and the bytes it must write.
#[derive(Clone, Debug, PartialEq, Eq)]
pub struct Expected {
    pub case: Case,
    pub answer: i64,
    pub listing: Vec<u8>,
}

impl Expected {
    /// As this engine answers.
    pub fn of(case: Case) -> Self {
        let mut listing = vec![0; case.room];
        let answer = engine::listing(case.kind, &case.sheet, &mut listing);
        listing.truncate(usize::try_from(answer).unwrap_or(0));
        Expected {
            case,
            answer,
            listing,
        }
    }

    /// A listing that was written, asked for with a buffer of another length.
    pub fn in_room(&self, room: usize) -> Self {
        let serves = room >= self.listing.len();
        Expected {
            case: Case {
                room,
                ..self.case.clone()
            },
            answer: if serves { self.answer } else { -14 },
            listing: if serves { self.listing.clone() } else { vec![] },
        }
    }
}

const GUARD: usize = 64;

/// Calls `other` on each case and compares; the first difference ends the run.
pub fn compare(
    name: &str,
    other: impl Fn(i32, &[u8], &mut [u8]) -> i64,
    cases: impl IntoIterator<Item = Case>,
) -> Result<Tally, String> {
    let mut tally = Tally::default();
    for case in cases {
        let expected = Expected::of(case);
        tally.count(expected.answer);
        check(name, &other, &expected)?;
    }
    Ok(tally)
}

/// Calls `other`: the answer, the buffer's bytes and the sheet are as they must
/// be.
pub fn check(
    name: &str,
    other: impl Fn(i32, &[u8], &mut [u8]) -> i64,
    expected: &Expected,
) -> Result<(), String> {
    let Case { kind, sheet, room } = &expected.case;
    let call = |out: &mut [u8]| on_copy(sheet, |sheet| other(*kind, sheet, out));
    check_written(*room, expected.answer, &expected.listing, call).map_err(|message| {
        let sheet = sheet.escape_ascii();
        format!("{name} {message}: kind {kind}, buffer of {room} bytes; sheet: {sheet}")
    })
}

/// Whether two slices hold the same. Never inlined, so that a slice lent to a call
/// is looked at afterwards, whatever the compiler knows of it before.
#[inline(never)]
pub fn equal<T: PartialEq>(found: &[T], wanted: &[T]) -> bool {
    found == wanted
}

/// Calls on a copy of the sheet, which stays as it is.
pub fn on_copy<T>(sheet: &[u8], call: impl FnOnce(&[u8]) -> T) -> Result<T, String> {
    let lent = sheet.to_vec();
    let given = call(&lent);
    match equal(&lent, sheet) {
        true => Ok(given),
        false => Err("changed a sheet itself".into()),
    }
}

/// Calls with a buffer of so many bytes, once on a pattern and once on its
/// complement, so that no byte written can hide behind what was there: the answer
/// is the one wanted, the first bytes are those to be written, all others what
/// they were.
pub fn check_written(
    room: usize,
    answer: i64,
    written: &[u8],
    call: impl Fn(&mut [u8]) -> Result<i64, String>,
) -> Result<(), String> {
    for flip in [0x00, 0xff] {
        let mut found = pattern(room + 2 * GUARD, flip);
        let mut wanted = found.clone();
        wanted[GUARD..GUARD + written.len()].copy_from_slice(written);

        let given = call(&mut found[GUARD..GUARD + room])?;
        if given != answer || !equal(&found, &wanted) {
            return Err(describe(answer, given, &wanted, &found));
        }
    }
    Ok(())
}

fn pattern(length: usize, flip: u8) -> Vec<u8> {
    (0..length).map(|i| (i * 167 + 89) as u8 ^ flip).collect()
}

fn describe(answer: i64, given: i64, wanted: &[u8], found: &[u8]) -> String {
    let text = format!("answers {given}, wanted {answer}");
    match wanted.iter().zip(found).position(|(w, f)| w != f) {
        Some(at) => {
            let place = at as i64 - GUARD as i64;
            let (w, f) = (wanted[at], found[at]);
            format!("{text}; byte {place} of the buffer is {f:#04x}, wanted {w:#04x}")
        }
        None => text,
    }
}
