//! The bench of document 01, starred cases and others, and its worked example.

use second_engine::engine::{listing, numbers};

const FIRST_LINE: &str = "set size index\n";

/// The listing, or `refused N`.
fn answer(kind: i32, sheet: &str) -> String {
    let mut out = [0; 4096];
    match listing(kind, sheet.as_bytes(), &mut out) {
        length if length >= 0 => String::from_utf8(out[..length as usize].to_vec()).unwrap(),
        minus => format!("refused {}", -minus),
    }
}

/// The lines after the first.
fn lines(kind: i32, sheet: &str) -> String {
    answer(kind, sheet)
        .strip_prefix(FIRST_LINE)
        .expect("a listing starts with its first line")
        .to_string()
}

const SHEET: &str = "A B C D\n9 8 6 2\n8 9 5 3\n6 5 9 1\n2 3 1 9\n";
const LOWER_BC: &str = "A B C D\n9 8 6 2\n8 9 2 3\n6 2 9 1\n2 3 1 9\n";

#[test]
fn worked_example() {
    let whole = "set size index\n\
        00000001 1 1\n\
        00000002 1 1\n\
        00000004 1 3\n\
        00000008 1 6\n\
        00000003 2 2\n\
        00000007 3 2\n";
    assert_eq!(answer(1, SHEET), whole);
}

#[test]
fn clean_groups_of_the_sheet() {
    assert_eq!(lines(2, SHEET), "00000003 2 2\n00000007 3 6\n");
}

#[test]
fn lower_bc_clean() {
    assert_eq!(lines(2, LOWER_BC), "00000003 2 2\n00000007 3 3\n");
}

#[test]
fn lower_bc_strong() {
    // The single C rises to 9 - 6 = 3, {A,B} stays; {A,B,C} has 2 - 3 = -1.
    assert_eq!(
        lines(1, LOWER_BC),
        "00000001 1 1\n00000002 1 1\n00000004 1 3\n00000008 1 6\n00000003 2 2\n"
    );
}

#[test]
fn all_values_five() {
    let sheet = "A B C\n5 5 5\n5 5 5\n5 5 5\n";
    assert_eq!(answer(1, sheet), FIRST_LINE);
    assert_eq!(answer(2, sheet), FIRST_LINE);
}

#[test]
fn own_six_others_five() {
    let sheet = "A B C\n6 5 5\n5 6 5\n5 5 6\n";
    assert_eq!(
        lines(1, sheet),
        "00000001 1 1\n00000002 1 1\n00000004 1 1\n"
    );
}

#[test]
fn four_copies() {
    let sheet = "A B C D\n0 2 4 4\n2 0 4 4\n4 4 0 2\n4 4 2 0\n";
    assert_eq!(
        lines(3, sheet),
        "00000002 1 2\n00000004 1 2\n00000008 1 2\n0000000c 2 4\n0000000e 3 2\n"
    );
}

#[test]
fn two_copies() {
    assert_eq!(lines(3, "A B\n0 5\n5 0\n"), "00000002 1 10\n");
    assert_eq!(answer(3, "A B\n0 0\n0 0\n"), FIRST_LINE);
}

#[test]
fn one_entry() {
    for kind in 1..=3 {
        let sheet = b"A\n0\n";
        let mut out = [b'?'; 15];
        assert_eq!(listing(kind, sheet, &mut out), 15);
        assert_eq!(&out, FIRST_LINE.as_bytes());
        let mut out = [b'?'; 14];
        assert_eq!(listing(kind, sheet, &mut out), -14);
        assert_eq!(out, [b'?'; 14]);
    }
}

/// n entries A0, A1 and so on, own values `own`, others `other`.
fn crowd(n: usize, own: &str, other: &str) -> String {
    let names: Vec<String> = (0..n).map(|i| format!("A{i}")).collect();
    let mut sheet = names.join(" ") + "\n";
    for i in 0..n {
        let line: Vec<&str> = (0..n).map(|j| if i == j { own } else { other }).collect();
        sheet += &(line.join(" ") + "\n");
    }
    sheet
}

#[test]
fn thirty_two_names_pass_thirty_three_do_not() {
    for kind in 1..=3 {
        assert!(answer(kind, &crowd(32, "0", "7")).starts_with(FIRST_LINE));
        assert_eq!(answer(kind, &crowd(33, "0", "7")), "refused 6");
    }
    let singles: String = (0..32)
        .map(|i| format!("{:08x} 1 1\n", 1u32 << i))
        .collect();
    assert_eq!(lines(1, &crowd(32, "8", "7")), singles);
}

#[test]
fn the_ends_of_the_range() {
    for kind in 1..=3 {
        for far in ["1000001", "-1000001", "1000000.5", "-1000000.5"] {
            let sheet = format!("A B\n0 {far}\n{far} 0\n");
            assert_eq!(answer(kind, &sheet), "refused 11", "{far}");
        }
    }
    assert_eq!(
        lines(3, "A B\n0 1000000\n1000000 0\n"),
        "00000002 1 2000000\n"
    );
    assert_eq!(
        lines(1, "A B\n1000000 -1000000\n-1000000 1000000\n"),
        "00000001 1 2000000\n00000002 1 2000000\n"
    );
    assert_eq!(answer(3, "A B\n0 -1\n-1 0\n"), "refused 12");
    assert_eq!(answer(3, "A B\n0 1\n1 1\n"), "refused 12");
}

#[test]
fn ill_formed_values() {
    for value in [
        "-0",
        "007",
        "00",
        "-01",
        "",
        "--",
        "--1",
        "1-",
        "12345678",
        "-12345678",
        "A",
        "1 1",
    ] {
        let sheet = format!("A B\n0 {value}\n{value} 0\n");
        assert_eq!(answer(1, &sheet), "refused 8", "{value:?}");
    }
    // 7 digits are well-formed; they only go too far.
    assert_eq!(answer(1, "A B\n0 -9999999\n-9999999 0\n"), "refused 11");
}

#[test]
fn the_length_of_a_sheet() {
    assert_eq!(answer(1, ""), "refused 2");
    assert_eq!(answer(1, &"\n".repeat(12_289)), "refused 2");
    assert_eq!(answer(1, &"\n".repeat(12_288)), "refused 4");
    let longest = format!("{SHEET}{}", " ".repeat(12_288 - SHEET.len()));
    assert_eq!(answer(1, &longest), "refused 7");
    assert_eq!(answer(1, &(longest + " ")), "refused 2");
}

#[test]
fn each_line_of_the_table() {
    for kind in [0, 4, -1, i32::MIN, i32::MAX] {
        assert_eq!(answer(kind, ""), "refused 1");
    }
    for (sheet, number) in [
        ("a\n0\n", 3),
        ("A\r\n0\r\n", 3),
        ("A\t\n0\n", 3),
        ("A\n+0\n", 3),
        ("A", 4),
        ("\n", 4),
        ("A  B\n0 0\n0 0\n", 4),
        (" A\n0\n", 4),
        ("A \n0\n", 4),
        ("1A\n0\n", 4),
        ("A-\n0\n", 4),
        ("ABCDEFGHI\n0\n", 4),
        ("A B A\n", 5),
        ("A\n", 7),
        ("A\n0", 7),
        ("A\n0\n\n", 7),
        ("A\n0\n0", 7),
        ("A B\n0 0\n0 0\n0 0\n", 7),
        ("A\n\n", 8),
        ("A\n 0\n", 8),
        ("A\n0 \n", 8),
        ("A B\n0 0\n0\n", 8),
        ("A B\n0 0 0\n0 0\n", 8),
        ("A B\n0  0\n0 0\n", 8),
        ("A B\n0 1\n2 0\n", 9),
        ("A B\n0 1\n-1 0\n", 9),
    ] {
        for kind in 1..=3 {
            let wanted = format!("refused {number}");
            assert_eq!(answer(kind, sheet), wanted, "{sheet:?}");
        }
    }
    for name in ["A", "Z9", "ABCDEFGH", "A0000000"] {
        assert_eq!(answer(1, &format!("{name}\n0\n")), FIRST_LINE);
    }
}

#[test]
fn equal_names_come_before_too_many() {
    let sheet = crowd(33, "0", "0").replacen("A1 ", "A0 ", 1);
    assert_eq!(answer(1, &sheet), "refused 5");
}

#[test]
fn a_listing_fills_only_its_bytes() {
    let whole = answer(1, SHEET);
    for room in whole.len() - 1..whole.len() + 8 {
        let mut out = vec![b'?'; room];
        let given = listing(1, SHEET.as_bytes(), &mut out);
        if room < whole.len() {
            assert_eq!(given, -14);
            assert!(out.iter().all(|&byte| byte == b'?'));
        } else {
            assert_eq!(given, whole.len() as i64);
            assert_eq!(out[..whole.len()], *whole.as_bytes());
            assert!(out[whole.len()..].iter().all(|&byte| byte == b'?'));
        }
    }
}

#[test]
fn numbers_in_the_order_of_the_listing() {
    let pairs = [18, 16, 18, 12, 10, 18, 4, 6, 2, 18];
    let (mut sets, mut indices) = ([99; 9], [99; 8]);
    assert_eq!(numbers(1, 4, &pairs, &mut sets, &mut indices), Ok(6));
    assert_eq!(sets, [1, 2, 4, 8, 3, 7, 0, 0, 0]);
    assert_eq!(indices, [2, 2, 6, 12, 4, 4, 0, 0]);
}
