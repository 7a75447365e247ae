//! The listing, by the proved program.

use std::io::{ErrorKind, Write};
use std::path::{Path, PathBuf};
use std::process::{Command, Stdio};
use std::thread;

/// The program that `LUMCHAKI_LIST` names, or the one that the repository builds.
fn program() -> PathBuf {
    let built = || Path::new(env!("CARGO_MANIFEST_DIR")).join("../../crates/list/out/list");
    std::env::var_os("LUMCHAKI_LIST").map_or_else(built, PathBuf::from)
}

/// What the program prints of a sheet.
pub fn list(sheet: &[u8]) -> Result<Vec<u8>, String> {
    let program = program();
    let failed = |what: &str| format!("{}: {what}", program.display());
    let mut child = Command::new(&program)
        .stdin(Stdio::piped())
        .stdout(Stdio::piped())
        .spawn()
        .map_err(|error| failed(&error.to_string()))?;
    let mut stdin = child.stdin.take().ok_or_else(|| failed("no input"))?;
    let output = thread::scope(|scope| {
        let fed = scope.spawn(move || stdin.write_all(sheet));
        let output = child.wait_with_output();
        // It may stop reading once it has seen more than any sheet has.
        match fed.join() {
            Ok(Err(error)) if error.kind() != ErrorKind::BrokenPipe => Err(error),
            _ => output,
        }
    });
    let output = output.map_err(|error| failed(&error.to_string()))?;
    match output.status.success() {
        true => Ok(output.stdout),
        false => Err(failed(&output.status.to_string())),
    }
}
