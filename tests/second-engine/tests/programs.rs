//! The programs: what they write, and how they end.

use std::fs::{File, OpenOptions};
use std::io::{Seek, Write};
use std::os::unix::ffi::OsStrExt;
use std::process::{Command, Output, Stdio};

const SECOND: &str = env!("CARGO_BIN_EXE_farzhudyl-second");

/// A run on these bytes of standard input.
fn run(program: &str, words: &[&str], input: &[u8]) -> Output {
    let mut child = Command::new(program)
        .args(words)
        .stdin(Stdio::piped())
        .stdout(Stdio::piped())
        .stderr(Stdio::piped())
        .spawn()
        .unwrap();
    // A program that has seen enough ends before all is written.
    let _ = child.stdin.take().unwrap().write_all(input);
    child.wait_with_output().unwrap()
}

/// Ends with 0, and writes this and nothing on standard error.
fn writes(words: &[&str], input: &[u8], wanted: &str) {
    let found = run(SECOND, words, input);
    assert_eq!(String::from_utf8_lossy(&found.stdout), wanted, "{words:?}");
    assert_eq!(found.stderr, b"");
    assert_eq!(found.status.code(), Some(0));
}

/// Ends with 2, one line on standard error, nothing written.
fn fails(found: Output, wanted: &str) {
    assert_eq!(found.status.code(), Some(2));
    assert_eq!(found.stdout, b"");
    let message = String::from_utf8(found.stderr).unwrap();
    assert!(message.contains(wanted), "{message}");
    assert_eq!(message.matches('\n').count(), 1);
    assert!(message.ends_with('\n'));
}

const FOUR: &[u8] = b"A B C D\n9 8 6 2\n8 9 5 3\n6 5 9 1\n2 3 1 9\n";
const KINDS: [&str; 3] = ["strong", "clean", "splits"];

#[test]
fn a_listing_of_each_kind() {
    writes(
        &["strong"],
        FOUR,
        "set size index\n\
         00000001 1 1\n00000002 1 1\n00000004 1 3\n00000008 1 6\n\
         00000003 2 2\n00000007 3 2\n",
    );
    writes(
        &["clean"],
        FOUR,
        "set size index\n00000003 2 2\n00000007 3 6\n",
    );
    writes(
        &["splits"],
        b"A B\n0 5\n5 0\n",
        "set size index\n00000002 1 10\n",
    );
    for kind in KINDS {
        writes(&[kind], b"A\n0\n", "set size index\n");
    }
    writes(
        &["strong"],
        b"A B\n- 1\n1 9\n",
        "set size index\n00000002 1 8\n",
    );
    writes(
        &["strong"],
        b"A B\n0.5 -0.5\n-0.5 0\n",
        "set size index\n00000001 1 1\n00000002 1 0.5\n",
    );
}

#[test]
fn refusals_of_one_digit_and_two() {
    writes(&["splits"], b"A B\n0 5\n4 0\n", "refused 9\n");
    writes(&["strong"], b"A\n1000001\n", "refused 11\n");
    writes(&["clean"], b"A\n-1000000.5\n", "refused 11\n");
    writes(&["strong"], b"A\n5.0\n", "refused 8\n");
    writes(&["strong"], b"A.\n0\n", "refused 4\n");
    writes(&["splits"], FOUR, "refused 12\n");
    writes(&["clean"], b"A B\n- 1\n1 9\n", "refused 16\n");
}

#[test]
fn no_bytes() {
    for kind in KINDS {
        writes(&[kind], b"", "refused 2\n");
    }
}

/// 12,288 line feeds are read to the end; one more is too long.
#[test]
fn long_sheets() {
    for kind in KINDS {
        writes(&[kind], &vec![b'\n'; 12_288], "refused 4\n");
        writes(&[kind], &vec![b'\n'; 12_289], "refused 2\n");
        writes(&[kind], &vec![b'\n'; 200_000], "refused 2\n");
    }
}

#[test]
fn a_sheet_without_end() {
    let found = Command::new(SECOND)
        .arg("strong")
        .stdin(File::open("/dev/zero").unwrap())
        .output()
        .unwrap();
    assert_eq!(found.stdout, b"refused 2\n");
    assert_eq!(found.status.code(), Some(0));
}

/// One byte more than a sheet may have is read, and no further one.
#[test]
fn bytes_that_are_not_read() {
    let path = concat!(env!("CARGO_TARGET_TMPDIR"), "/long.sheet");
    std::fs::write(path, vec![b'\n'; 200_000]).unwrap();
    let mut sheet = File::open(path).unwrap();
    // A copy of the open file has the same place in it.
    let found = Command::new(SECOND)
        .arg("strong")
        .stdin(sheet.try_clone().unwrap())
        .output()
        .unwrap();
    assert_eq!(found.stdout, b"refused 2\n");
    assert_eq!(sheet.stream_position().unwrap(), 12_289);
}

#[test]
fn called_otherwise() {
    let usage = "usage: farzhudyl-second strong|clean|splits < SHEET";
    for words in [
        &[][..],
        &["1"],
        &["Strong"],
        &["strong "],
        &["listing"],
        &["strong", "clean"],
    ] {
        fails(run(SECOND, words, FOUR), usage);
    }
    let word = std::ffi::OsStr::from_bytes(b"\xff");
    fails(Command::new(SECOND).arg(word).output().unwrap(), usage);
}

#[test]
fn nothing_to_read_from() {
    let run = |stdin: File| Command::new(SECOND).arg("clean").stdin(stdin).output();
    let folder = File::open("/").unwrap();
    fails(run(folder).unwrap(), "cannot read the sheet: ");
    let unread = OpenOptions::new().write(true).open("/dev/null").unwrap();
    fails(run(unread).unwrap(), "cannot read the sheet: ");
}

#[test]
fn nowhere_to_write_to() {
    let run = |stdout: File| {
        Command::new(SECOND)
            .arg("clean")
            .stdin(Stdio::null())
            .stdout(stdout)
            .output()
    };
    let full = OpenOptions::new().write(true).open("/dev/full").unwrap();
    fails(run(full).unwrap(), "cannot write the listing: ");
    let unwritten = File::open("/dev/null").unwrap();
    fails(run(unwritten).unwrap(), "cannot write the listing: ");
}

#[test]
fn the_selfcheck() {
    let status = |words: &[&str]| {
        let found = run(env!("CARGO_BIN_EXE_second-engine"), words, b"");
        found.status.code()
    };
    assert_eq!(status(&[]), Some(2));
    assert_eq!(status(&["selfcheck", "many", "1"]), Some(2));
    // No round, so no refusal is met.
    assert_eq!(status(&["selfcheck", "0", "1"]), Some(1));
    assert_eq!(status(&["selfcheck", "20", "1"]), Some(0));
}
