//! The wrong turns of document 01: for each, a sheet on which it would lead to
//! another answer.

use second_engine::engine::{anchored, is_tree, listing, Method};

fn lines(kind: i32, sheet: &str) -> String {
    let mut out = [0; 4096];
    let length = listing(kind, sheet.as_bytes(), &mut out);
    let text = std::str::from_utf8(&out[..length as usize]).unwrap();
    text.strip_prefix("set size index\n").unwrap().to_string()
}

/// Without a = a' no single would have a term, and {A,B} would be listed with
/// 8 - 6 = 2; the own score of A makes it 5 - 6.
#[test]
fn leaving_out_the_same_entry_twice() {
    let sheet = "A B C\n5 8 6\n8 9 5\n6 5 9\n";
    assert_eq!(lines(1, sheet), "00000002 1 1\n00000004 1 3\n");
    let sheet = "A B C\n7 8 6\n8 9 5\n6 5 9\n";
    assert_eq!(
        lines(1, sheet),
        "00000002 1 1\n00000004 1 3\n00000003 2 1\n"
    );
}

/// {A,B,C} is clean by -1 + 3, but single linkage joins D to {A,B} before C.
#[test]
fn clean_groups_from_the_single_linkage_tree() {
    let sheet = "A B C D\n0 10 6 7\n10 0 6 1\n6 6 0 1\n7 1 1 0\n";
    assert_eq!(lines(2, sheet), "00000003 2 3\n00000007 3 2\n");
    let pairs = [0, 10, 0, 6, 6, 0, 7, 1, 1, 0];
    assert!(is_tree(Method::Single, 4, &pairs, &[3, 0b1011, 0b1111]));
    assert!(!is_tree(Method::Single, 4, &pairs, &[3, 0b0111, 0b1111]));
    assert!(is_tree(Method::Average, 4, &pairs, &[3, 0b0111, 0b1111]));
}

/// {A,B} to C is 7/2 and C to D is 3: both are 3 after division.
#[test]
fn comparing_averages_after_division() {
    let pairs = [0, 9, 0, 4, 3, 0, 0, 0, 3, 0];
    assert!(is_tree(Method::Average, 4, &pairs, &[3, 0b0111, 0b1111]));
    assert!(!is_tree(Method::Average, 4, &pairs, &[3, 0b1100, 0b1111]));
}

/// Single linkage goes {A,B,C}, {A,B,C,D}, all. Against D alone {A,B,C} has
/// index 1; but s(A,C) = 1 and s(A,E) = 5.
#[test]
fn testing_only_within_the_block_around() {
    let sheet = "A B C D E\n\
        20 9 1 0 5\n\
        9 20 9 8 0\n\
        1 9 20 0 0\n\
        0 8 0 20 0\n\
        5 0 0 0 20\n";
    let pairs = [20, 9, 20, 1, 9, 20, 0, 8, 0, 20, 5, 0, 0, 0, 20];
    let mut tree = [0b00011, 0b00111, 0b01111, 0b11111];
    assert!(is_tree(Method::Single, 5, &pairs, &tree));
    tree[2] = 0b10111;
    assert!(!is_tree(Method::Single, 5, &pairs, &tree));
    assert_eq!(
        lines(1, sheet),
        "00000001 1 11\n00000002 1 11\n00000004 1 11\n00000008 1 12\n00000010 1 15\n"
    );
}

/// d(A,B) = d(A,C) = 2, d(B,C) = 10. With A away from the scores anchored at A,
/// nothing would speak against {B,C}; b = b' = A gives 2 + 2 - 10.
#[test]
fn leaving_the_anchor_out() {
    let sheet = "A B C\n0 2 2\n2 0 10\n2 10 0\n";
    assert_eq!(lines(3, sheet), "00000002 1 4\n00000004 1 4\n");
    let mut scores = [77; 6];
    assert_eq!(anchored(3, &[0, 2, 0, 2, 10, 0], 0, &mut scores), Ok(6));
    assert_eq!(scores, [0, 0, 4, 0, -6, 4]);
}

/// The weights of {A,B,C} are 3, -1, -1: two of them sum to -2, two different
/// ones to 2. Those of the second sheet are 1, 1, 3.
#[test]
fn counting_only_different_weights() {
    let sheet = "A B C D\n0 8 4 5\n8 0 4 5\n4 4 0 5\n5 5 5 0\n";
    assert_eq!(lines(2, sheet), "00000003 2 3\n");
    let sheet = "A B C D\n0 8 6 5\n8 0 6 5\n6 6 0 5\n5 5 5 0\n";
    assert_eq!(lines(2, sheet), "00000003 2 2\n00000007 3 2\n");
}
