//! The bench of document 01, starred cases and others, and its worked example;
//! unscored pairs (request 2.2); half points (request 2.6).

use second_engine::compare::{Case, Expected};

/// The lines after the first, or the refusal's number.
pub type Answer = Result<String, i64>;

/// Every case, a listing with each length of the buffer up to two bytes more
/// than it needs.
pub fn calls() -> Vec<Expected> {
    let mut calls = Vec::new();
    for (kind, sheet, answer) in cases() {
        let (listing, number) = match answer {
            Ok(lines) => (format!("set size index\n{lines}").into_bytes(), 14),
            Err(number) => (Vec::new(), number),
        };
        for room in 0..=listing.len() + 2 {
            let serves = !listing.is_empty() && room >= listing.len();
            calls.push(Expected {
                case: Case {
                    kind,
                    sheet: sheet.clone().into_bytes(),
                    room,
                },
                answer: if serves {
                    listing.len() as i64
                } else {
                    -number
                },
                listing: if serves { listing.clone() } else { Vec::new() },
            });
        }
    }
    calls
}

/// A kind, a sheet, and what the sheet call answers.
pub fn cases() -> Vec<(i32, String, Answer)> {
    let mut cases = Vec::new();
    let mut add = |kind, sheet: &str, answer: Result<&str, i64>| {
        cases.push((kind, sheet.to_string(), answer.map(String::from)));
    };

    let four = "A B C D\n9 8 6 2\n8 9 5 3\n6 5 9 1\n2 3 1 9\n";
    let singles = "00000001 1 1\n00000002 1 1\n00000004 1 3\n00000008 1 6\n";
    let strong = format!("{singles}00000003 2 2\n00000007 3 2\n");
    add(1, four, Ok(&strong));
    add(2, four, Ok("00000003 2 2\n00000007 3 6\n"));
    let lower = "A B C D\n9 8 6 2\n8 9 2 3\n6 2 9 1\n2 3 1 9\n";
    add(1, lower, Ok(&format!("{singles}00000003 2 2\n")));
    add(2, lower, Ok("00000003 2 2\n00000007 3 3\n"));
    let five = "A B C\n5 5 5\n5 5 5\n5 5 5\n";
    add(1, five, Ok(""));
    add(2, five, Ok(""));
    let own_6 = "A B C\n6 5 5\n5 6 5\n5 5 6\n";
    add(1, own_6, Ok("00000001 1 1\n00000002 1 1\n00000004 1 1\n"));
    let copies = "A B C D\n0 2 4 4\n2 0 4 4\n4 4 0 2\n4 4 2 0\n";
    let ends = "00000002 1 2\n00000004 1 2\n00000008 1 2\n";
    add(
        3,
        copies,
        Ok(&format!("{ends}0000000c 2 4\n0000000e 3 2\n")),
    );
    add(3, "A B\n0 5\n5 0\n", Ok("00000002 1 10\n"));
    add(3, "A B\n0 0\n0 0\n", Ok(""));

    for kind in 1..=3 {
        add(kind, "A\n0\n", Ok(""));
        add(kind, &crowd(33, "0"), Err(6));
        for far in ["1000001", "-1000001"] {
            add(kind, &format!("A\n{far}\n"), Err(11));
            add(kind, &format!("A B\n0 {far}\n{far} 0\n"), Err(11));
        }
        for ill_formed in ["-0", "007"] {
            add(kind, &format!("A\n{ill_formed}\n"), Err(8));
        }
        add(kind, &"\n".repeat(12_289), Err(2));
        add(kind, &"\n".repeat(12_288), Err(4));
    }

    // Own values 0 and others 7: every end of the star is a split of its own.
    let mut star: String = (1..32)
        .map(|entry| format!("{:08x} 1 7\n", 1u32 << entry))
        .collect();
    star += "fffffffe 31 7\n";
    for (kind, lines) in [(1, ""), (2, ""), (3, &star)] {
        add(kind, &crowd(32, "7"), Ok(lines));
    }
    for kind in [1, 2] {
        add(kind, "A\n1000000\n", Ok(""));
        add(kind, "A\n-1000000\n", Ok(""));
    }
    let farthest = "A B\n0 1000000\n1000000 0\n";
    add(3, farthest, Ok("00000002 1 2000000\n"));

    // C and D never compared; then A's own pair; then no pair at all.
    let apart = "A B C D\n9 8 6 2\n8 9 5 3\n6 5 9 -\n2 3 - 9\n";
    add(1, apart, Ok("00000001 1 1\n00000002 1 1\n00000003 2 2\n"));
    let own = "A B\n- 1\n1 9\n";
    add(1, own, Ok("00000002 1 8\n"));
    let none = ["A\n-\n", "A B\n- -\n- -\n"];
    for sheet in none {
        add(1, sheet, Ok(""));
    }
    for kind in [2, 3] {
        for sheet in [apart, own].into_iter().chain(none) {
            add(kind, sheet, Err(16));
        }
        add(kind, "A B\n7 -\n- -1\n", Err(16));
        add(kind, "A B\n7 -\n- 1000001\n", Err(11));
    }
    for kind in 1..=3 {
        add(kind, "A B\n0 -\n0 0\n", Err(9));
        for ill_formed in ["--", "- ", " -", "-2147483648"] {
            add(kind, &format!("A\n{ill_formed}\n"), Err(8));
        }
    }

    // The worked example with halves; then an index of half a point, and none.
    let half = "A B C D\n9 8.5 6 2\n8.5 9 5.5 3\n6 5.5 9 -0.5\n2 3 -0.5 9\n";
    let singles = "00000001 1 0.5\n00000002 1 0.5\n00000004 1 3\n00000008 1 6\n";
    let strong = format!("{singles}00000003 2 2.5\n00000007 3 2.5\n");
    add(1, half, Ok(&strong));
    add(2, half, Ok("00000003 2 2.5\n00000007 3 6.5\n"));
    add(1, "A B\n5.5 5\n5 5\n", Ok("00000001 1 0.5\n"));
    add(1, "A B\n5 5\n5 4.5\n", Ok(""));
    let pair = "A B C\n0 1.5 1\n1.5 0 1\n1 1 0\n";
    add(2, pair, Ok("00000003 2 0.5\n"));
    let three = "A B C\n0 1 1\n1 0 1.5\n1 1.5 0\n";
    let lines = "00000002 1 1.5\n00000004 1 1.5\n00000006 2 0.5\n";
    add(3, three, Ok(lines));
    add(3, "A B\n0 0.5\n0.5 0\n", Ok("00000002 1 1\n"));
    let below = "A B\n-0.5 -7.5\n-7.5 -7\n";
    add(1, below, Ok("00000001 1 7\n00000002 1 0.5\n"));
    let ends = "A B\n1000000 -999999.5\n-999999.5 999999.5\n";
    let lines = "00000001 1 1999999.5\n00000002 1 1999999\n";
    add(1, ends, Ok(lines));
    let apart = "A B C\n1000000 - 0.5\n- 9 0.5\n0.5 0.5 1\n";
    add(1, apart, Ok("00000004 1 0.5\n"));
    for kind in 1..=3 {
        for far in ["1000000.5", "-1000000.5", "9999999.5", "-9999999.5"] {
            add(kind, &format!("A\n{far}\n"), Err(11));
        }
        for ill_formed in [
            ".5",
            "-.5",
            "5.",
            "5.0",
            "00.5",
            "0.50",
            "12345678.5",
            "5.5.5",
        ] {
            add(kind, &format!("A\n{ill_formed}\n"), Err(8));
            add(kind, &format!("A B\n0 0\n0 {ill_formed}\n"), Err(8));
        }
        for line in ["A.", ".A", "A.5", ".", "A ."] {
            add(kind, &format!("{line}\n0.5\n"), Err(4));
        }
        add(kind, "A\n0.5", Err(7));
        add(kind, "A\n0.5\n.", Err(7));
        add(kind, "A B\n0 0.5\n0 0\n", Err(9));
        add(kind, "A B\n0 0.5\n-0.5 0\n", Err(9));
        add(kind, "A\n0,5\n", Err(3));
    }
    add(3, "A B\n0 -0.5\n-0.5 0\n", Err(12));
    add(3, "A B\n0 0.5\n0.5 0.5\n", Err(12));
    for kind in [2, 3] {
        add(kind, "A B\n0.5 -\n- 0.5\n", Err(16));
    }
    cases
}

/// n entries, own values 0.
fn crowd(n: usize, other: &str) -> String {
    let names: Vec<String> = (0..n).map(|entry| format!("A{entry}")).collect();
    let mut sheet = names.join(" ") + "\n";
    for a in 0..n {
        let line: Vec<&str> = (0..n).map(|b| if a == b { "0" } else { other }).collect();
        sheet += &(line.join(" ") + "\n");
    }
    sheet
}
