//! The program itself: what it does where it cannot write, and what it gives to a pipe.

use crate::path;
use std::fs::File;
use std::io::{Read, Write};
use std::process::{ChildStdout, Command, Output, Stdio};

fn program(words: &str) -> Command {
    let mut command = Command::new(env!("CARGO_BIN_EXE_lots"));
    command.args(words.split(' ')).current_dir(path("examples"));
    command
}

fn err(output: &Output) -> String {
    String::from_utf8(output.stderr.clone()).expect("text")
}

/// A full disk, and a standard output that can only be read.
#[test]
fn an_answer_that_cannot_be_written() {
    let outputs = [
        File::options().write(true).open("/dev/full"),
        File::open("/dev/null"),
    ];
    for output in outputs {
        let output = output.expect("a device");
        let given = program("whose two-paths.sheet")
            .stdout(output)
            .stderr(Stdio::piped())
            .output();
        let given = given.expect("the program starts");
        assert_eq!(given.status.code(), Some(3));
        assert!(
            err(&given).starts_with("lots: standard output: "),
            "{}",
            err(&given)
        );
    }
}

#[test]
fn a_listing_program_that_is_not_there() {
    let given = program("list two-paths.sheet")
        .env("LUMCHAKI_LIST", "/no/such/program")
        .output();
    let given = given.expect("the program starts");
    assert_eq!((given.status.code(), given.stdout.len()), (Some(3), 0));
    assert!(
        err(&given).starts_with("lots: /no/such/program: "),
        "{}",
        err(&given)
    );
}

/// The page of a sheet on standard input, to a reader that takes all of it or goes away before.
fn page_to(reader: impl FnOnce(ChildStdout)) {
    let mut child = program("page -")
        .stdin(Stdio::piped())
        .stdout(Stdio::piped())
        .spawn()
        .expect("the program starts");
    let output = child.stdout.take().expect("a pipe");
    let mut input = child.stdin.take().expect("a pipe");
    let sheet = crate::file("examples/bakery-day.sheet");
    let fed = std::thread::spawn(move || input.write_all(&sheet));
    reader(output);
    assert!(fed.join().is_ok_and(|fed| fed.is_ok()));
    assert_eq!(child.wait().expect("it ends").code(), Some(0));
}

#[test]
fn a_reader_that_takes_all() {
    page_to(|mut output| {
        let mut page = String::new();
        output.read_to_string(&mut page).expect("text");
        assert!(page.contains("<li>sheet: standard input</li>"));
        assert!(page.ends_with("</html>\n"));
    });
}

#[test]
fn a_reader_that_goes_away() {
    page_to(drop);
}

/// A file that is far longer than a sheet is refused as one; as a text it is not read.
#[test]
fn a_long_file() {
    let mut long = crate::file("examples/two-paths.sheet");
    long.resize((16 << 20) + 5, 0);
    let answer = crate::ask("check -", &long);
    let out = String::from_utf8(answer.out).expect("text");
    assert_eq!(answer.status, 1);
    assert!(
        out.starts_with("not fit: layout (16)\n  it has 16777217 bytes or more, "),
        "{out}"
    );
    assert_eq!(crate::ask("-", &long).out, b"refused 16\n");
    long.fill(b'#');
    let answer = crate::ask("sheet -", &long);
    assert_eq!(
        (answer.status, answer.err.as_str()),
        (2, "lots: -: longer than 16777216 bytes\n")
    );
}
