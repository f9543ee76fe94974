//! `farzhudyl-second strong|clean|splits < SHEET`: the listing of a sheet, or
//! `refused N` and a line feed, as the engine's programs write them. Ends with 0
//! in both cases; with 2, and a line on standard error, if it is called
//! otherwise or cannot read or write.

use second_engine::engine::{self, CLEAN, MOST_BYTES, SPLITS, STRONG};
use std::ffi::OsString;
use std::fs::File;
use std::io::{self, Read, Write};
use std::os::unix::io::AsFd;
use std::process::ExitCode;

/// Room for every listing.
const MOST_LISTING: usize = 2048;

fn main() -> ExitCode {
    let words: Vec<OsString> = std::env::args_os().skip(1).collect();
    let kind = match &words[..] {
        [word] if word == "strong" => STRONG,
        [word] if word == "clean" => CLEAN,
        [word] if word == "splits" => SPLITS,
        _ => return fail("usage: farzhudyl-second strong|clean|splits < SHEET"),
    };
    let sheet = match read() {
        Ok(sheet) => sheet,
        Err(error) => return fail(&format!("cannot read the sheet: {error}")),
    };
    match write(&answer(kind, &sheet)) {
        Ok(()) => ExitCode::SUCCESS,
        Err(error) => fail(&format!("cannot write the listing: {error}")),
    }
}

fn fail(message: &str) -> ExitCode {
    // Nobody is left to be told if this fails.
    let _ = writeln!(io::stderr(), "{message}");
    ExitCode::from(2)
}

/// The bytes of standard input, up to one more than a sheet may have: check 2
/// refuses a longer one, however long it is.
fn read() -> io::Result<Vec<u8>> {
    let mut sheet = Vec::new();
    file(io::stdin())?
        .take(MOST_BYTES as u64 + 1)
        .read_to_end(&mut sheet)?;
    Ok(sheet)
}

fn answer(kind: i32, sheet: &[u8]) -> Vec<u8> {
    let mut listing = vec![0; MOST_LISTING];
    let answer = engine::listing(kind, sheet, &mut listing);
    match usize::try_from(answer) {
        Ok(length) => {
            listing.truncate(length);
            listing
        }
        Err(_) => format!("refused {}\n", -answer).into_bytes(),
    }
}

fn write(bytes: &[u8]) -> io::Result<()> {
    file(io::stdout())?.write_all(bytes)
}

/// A stream as a file, which tells of every error: standard input and output
/// take one that is not open for reading or writing as empty or as written.
fn file(stream: impl AsFd) -> io::Result<File> {
    stream.as_fd().try_clone_to_owned().map(File::from)
}
