//! Sheets by their texts, damaged in every place in turn. Some damages leave a good
//! sheet.

use second_engine::generate::{written, Table};

/// A sheet before it is written: each name and each value as a text, good or not.
#[derive(Clone)]
pub struct Texts {
    pub names: Vec<String>,
    pub cells: Vec<Vec<String>>,
}

impl Texts {
    pub fn of(table: &Table) -> Self {
        Texts {
            names: table.names.clone(),
            cells: table.cells(),
        }
    }

    pub fn entries(&self) -> usize {
        self.names.len()
    }

    pub fn sheet(&self) -> Vec<u8> {
        written(&self.names, &self.cells)
    }

    /// With another text in one cell; its mirror cell stays.
    pub fn with(&self, (a, b): (usize, usize), text: &str) -> Texts {
        let mut texts = self.clone();
        texts.cells[a][b] = text.into();
        texts
    }

    /// With another text in the cell and in its mirror cell.
    pub fn with_pair(&self, (a, b): (usize, usize), text: &str) -> Texts {
        self.with((a, b), text).with((b, a), text)
    }

    /// With another name.
    pub fn with_name(&self, entry: usize, name: &str) -> Texts {
        let mut texts = self.clone();
        texts.names[entry] = name.into();
        texts
    }

    /// The sheet with zeros for values and its entries in the reverse order.
    pub fn zeros(&self) -> Vec<u8> {
        let n = self.entries();
        let names: Vec<String> = self.names.iter().rev().cloned().collect();
        written(&names, &vec![vec!["0".into(); n]; n])
    }

    /// Every place of a cell.
    pub fn places(&self) -> impl Iterator<Item = (usize, usize)> {
        let n = self.entries();
        (0..n).flat_map(move |a| (0..n).map(move |b| (a, b)))
    }
}

/// How many texts `near` gives.
pub const NEAR: usize = 7;

/// Texts near that of a value: another first digit, another last digit, with and
/// without `.5`, with and without a minus, the mark, a digit more, a digit less.
pub fn near(text: &str) -> [String; NEAR] {
    let (whole, half) = match text.strip_suffix(".5") {
        Some(whole) => (whole, ".5"),
        None => (text, ""),
    };
    let first = whole.find(|byte: char| byte.is_ascii_digit());
    let last = whole.rfind(|byte: char| byte.is_ascii_digit());
    let other_half = if half.is_empty() { ".5" } else { "" };
    let other_sign = match text.strip_prefix('-') {
        Some(size) => size.into(),
        None => format!("-{text}"),
    };
    let mark = if text == "-" { "0" } else { "-" };
    let less = last.map_or("1", |at| &whole[..at]);
    [
        other_digit(text, first),
        other_digit(text, last),
        format!("{whole}{other_half}"),
        other_sign,
        mark.into(),
        format!("{whole}0{half}"),
        format!("{less}{half}"),
    ]
}

/// Never a 0, which might be the first digit of several.
fn other_digit(text: &str, at: Option<usize>) -> String {
    let at = match at {
        Some(at) => at,
        None => return format!("{text}1"),
    };
    let other = match &text[at..=at] {
        "9" => "8".into(),
        digit => (digit.parse().unwrap_or(0) + 1).to_string(),
    };
    format!("{}{other}{}", &text[..at], &text[at + 1..])
}

/// Texts that are no values, none of them for a point.
pub const ILL_FORMED: [&str; 20] = [
    "-0",
    "00",
    "01",
    "007",
    "-01",
    "-007",
    "0000000",
    "0123456",
    "00000000",
    "12345678",
    "-12345678",
    "123456789",
    "--",
    "--1",
    "1-",
    "1-1",
    "",
    "A",
    "1A",
    "-A",
];

/// Each separator, a space or a line feed, in each of these ways: any other one,
/// twice, with another beside it, none.
const SEPARATORS: [&str; 12] = [
    "\n", " ", "  ", "\n\n", " \n", "\n ", "\t", "\r\n", "", "-", ".", "0",
];

/// In all ways, or in one of them for each separator in turn.
pub fn separators(sheet: &[u8], all: bool) -> Vec<Vec<u8>> {
    let places = (0..sheet.len()).filter(|&at| b" \n".contains(&sheet[at]));
    let mut sheets = Vec::new();
    for (number, at) in places.enumerate() {
        for (way, text) in SEPARATORS.iter().enumerate() {
            let same = text.as_bytes() == [sheet[at]];
            if !same && (all || number % SEPARATORS.len() == way) {
                sheets.push([&sheet[..at], text.as_bytes(), &sheet[at + 1..]].concat());
            }
        }
    }
    sheets
}

/// In each line in turn a part too many or too few; each line twice, left out,
/// empty, or behind the next.
pub fn lines(texts: &Texts) -> Vec<Vec<u8>> {
    let mut lines = vec![texts.names.clone()];
    lines.extend(texts.cells.iter().cloned());
    let mut sheets = Vec::new();
    for at in 0..lines.len() {
        let line = &lines[at];
        let part = if at == 0 { "Q9" } else { "5" };
        for place in [0, line.len() / 2, line.len()] {
            let mut longer = line.clone();
            longer.insert(place, part.into());
            sheets.push(with_lines(&lines, at, &[longer]));
        }
        for place in [0, line.len() / 2, line.len() - 1] {
            let mut shorter = line.clone();
            shorter.remove(place);
            sheets.push(with_lines(&lines, at, &[shorter]));
        }
        sheets.push(with_lines(&lines, at, &[line.clone(), line.clone()]));
        sheets.push(with_lines(&lines, at, &[]));
        sheets.push(with_lines(&lines, at, &[Vec::new()]));
        sheets.push(with_lines(&lines, at, &[Vec::new(), line.clone()]));
        let mut turned = lines.clone();
        turned.swap(at, (at + 1) % lines.len());
        sheets.push(written(&turned[0], &turned[1..]));
    }
    sheets
}

/// With others in the place of a line.
fn with_lines(lines: &[Vec<String>], at: usize, others: &[Vec<String>]) -> Vec<u8> {
    let all = [&lines[..at], others, &lines[at + 1..]].concat();
    match all.split_first() {
        Some((names, cells)) => written(names, cells),
        None => Vec::new(),
    }
}

/// Bytes of a sheet, bytes beside those, and others.
const BYTES: [u8; 27] = *b"\0\t\n\r +,-./0159:@AIZ[`az\x7f\x80\xb1\xff";

/// Each byte changed to each of some, left out, twice, the last; and each of some
/// before it.
pub fn bytes(sheet: &[u8]) -> Vec<Vec<u8>> {
    let mut sheets = Vec::new();
    for at in 0..sheet.len() {
        let (before, behind) = (&sheet[..at], &sheet[at + 1..]);
        for byte in BYTES {
            sheets.push([before, &[byte], behind].concat());
            sheets.push([before, &[byte], &sheet[at..]].concat());
        }
        sheets.push([before, behind].concat());
        sheets.push([&sheet[..=at], &sheet[at..]].concat());
        sheets.push(before.to_vec());
    }
    sheets
}

/// The sheet as it is, without its last byte, and with one more behind it.
pub fn ends(sheet: &[u8]) -> Vec<Vec<u8>> {
    let mut sheets = vec![sheet.to_vec(), sheet[..sheet.len() - 1].to_vec()];
    for byte in *b"\n 05-.A\t" {
        sheets.push([sheet, &[byte]].concat());
    }
    sheets
}
