//! The tool's answers: as kept in `golden/`, as the second implementation has them, and on damaged input.

mod browser;
mod damaged;
mod golden;
mod matrix;
mod numbers;
mod page;
mod program;
mod questions;
mod readme;
mod refusals;
mod round_trip;
mod text_faults;

use lots::Answer;
use std::ffi::OsString;
use std::path::PathBuf;

/// The answer to a command line, of words without blanks, with this on standard input.
fn ask(line: &str, input: &[u8]) -> Answer {
    let words: Vec<&str> = line.split_ascii_whitespace().collect();
    ask_words(&words, input)
}

/// The answer to the words of a command line.
fn ask_words(words: &[&str], input: &[u8]) -> Answer {
    let words: Vec<OsString> = words.iter().map(OsString::from).collect();
    lots::answer(&words, &mut &input[..])
}

/// The text of an answer that has no fault.
fn text(line: &str, input: &[u8]) -> String {
    let answer = ask(line, input);
    assert_eq!((answer.status, answer.err.as_str()), (0, ""), "{line}");
    String::from_utf8(answer.out).expect("text")
}

/// A path in the repository.
fn path(name: &str) -> PathBuf {
    PathBuf::from(env!("CARGO_MANIFEST_DIR"))
        .join("../..")
        .join(name)
}

/// A file of the repository.
fn file(name: &str) -> Vec<u8> {
    std::fs::read(path(name)).unwrap_or_else(|error| panic!("{name}: {error}"))
}

/// The names of a sheet without their zeros.
fn names_of(sheet: &second::Sheet) -> Vec<String> {
    let name = |name: &[u8; 8]| {
        String::from_utf8_lossy(name)
            .trim_end_matches('\0')
            .to_string()
    };
    sheet.names.iter().map(name).collect()
}

/// An answer or a page without the lines that say how much of the sheet was looked at.
fn without_cut(shown: &[u8]) -> Vec<u8> {
    let shown = String::from_utf8_lossy(shown);
    let fronts = ["<li>", "as it stood with ", "  cut        "];
    let cut = |line: &&str| {
        let mut rest = fronts.iter().filter_map(|front| line.strip_prefix(front));
        !rest.any(|rest| rest.starts_with("no movement "))
    };
    shown
        .split_inclusive('\n')
        .filter(cut)
        .collect::<String>()
        .into_bytes()
}
