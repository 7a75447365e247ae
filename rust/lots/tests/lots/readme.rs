//! README's first screen: what it shows is what the program prints.

use crate::path;
use std::process::Command;

/// The blocks of README that show a command behind `$ ./lots`, and what it prints.
#[test]
fn what_readme_shows() {
    let readme = std::fs::read_to_string(path("README.md")).expect("README.md");
    let indented = readme
        .lines()
        .map(|line| line.strip_prefix("    ").unwrap_or("\0"));
    let blocks = indented.collect::<Vec<&str>>().join("\n");
    let mut shown = 0;
    for block in blocks.split("$ ./lots ").skip(1) {
        let block = block.split('\0').next().unwrap_or("");
        let (command, printed) = block.split_once('\n').unwrap_or((block, ""));
        let output = Command::new(env!("CARGO_BIN_EXE_lots"))
            .args(command.split(' '))
            .current_dir(path(""))
            .output()
            .expect("the program starts");
        let out = String::from_utf8(output.stdout).expect("text");
        assert_eq!(printed.trim_end(), out.trim_end(), "{command}");
        shown += 1;
    }
    assert!(shown >= 2, "README shows {shown} commands");
}
