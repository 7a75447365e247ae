//! `lots`: whose flour is in every vessel, and since when.

use std::ffi::OsString;
use std::fs::File;
use std::io::{stderr, stdin, stdout, Error, ErrorKind, IsTerminal, Write};
use std::os::fd::AsFd;
use std::process::ExitCode;

/// The status where a sheet would go to a terminal.
const WRONG_USE: u8 = 2;

/// The status where the answer could not be written.
const UNWRITTEN: u8 = 3;

fn main() -> ExitCode {
    let arguments: Vec<OsString> = std::env::args_os().skip(1).collect();
    let answer = lots::answer(&arguments, &mut stdin().lock());
    if answer.sheet && stdout().is_terminal() {
        let _ = stderr().write_all(answer.err.as_bytes());
        let _ = writeln!(
            stderr(),
            "lots: a sheet is no text to show: lots sheet TEXT >SHEET"
        );
        return ExitCode::from(WRONG_USE);
    }
    let written = write(&answer.out);
    let _ = stderr().write_all(answer.err.as_bytes());
    match written {
        // A reader that goes away early, as `head` does, is no fault.
        Err(error) if error.kind() != ErrorKind::BrokenPipe => {
            let _ = writeln!(stderr(), "lots: standard output: {error}");
            ExitCode::from(UNWRITTEN)
        }
        _ => ExitCode::from(answer.status),
    }
}

/// Writes to standard output itself: `Stdout` takes one that cannot be written for one that takes all.
fn write(bytes: &[u8]) -> Result<(), Error> {
    File::from(stdout().as_fd().try_clone_to_owned()?).write_all(bytes)
}
