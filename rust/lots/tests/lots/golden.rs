//! Every command on every example, as `golden/` keeps it: what the program itself gives on standard output and
//! standard error, and its status. To renew them: `LOTS_GOLDEN=write cargo test -p lots golden`.

use crate::path;
use std::fs;
use std::process::Command;

const EXAMPLES: [&str; 5] = [
    "two-paths",
    "bakery-day",
    "six-movements",
    "old-flour",
    "holiday",
];

/// The commands on an example of this name, with `S` for its sheet.
fn commands(example: &str) -> Vec<&'static str> {
    let mut all = vec![
        "S",
        "list S",
        "whose S",
        "whole S",
        "whole S --csv",
        "check S",
        "text S",
        "page S",
        "whose S 0 --start Mon",
        "text S --start Mon",
        "page S --start Mon-05:30",
        "whose S --movements 2",
        "whole S --until 500",
        "list S --until 4",
        "check S --movements 0",
        "where S 0",
        "where S 1 0 500",
        "where S 1 9 8",
        "where S SIL0",
    ];
    if example == "two-paths" {
        all.extend([
            "whose S DOUGH-1 DOUGH-2 DOUGH-3 --start Mon",
            "where S MILLER-B Tue-06:00 Tue-12:00 --start Mon",
            "where S MILLER-B Tue-06:00 Tue-12:00 --start Mon --until Tue-08:15",
            "where S MILLER-B Tue-06:00 Tue-12:00",
            "whose S dough-2",
        ]);
    }
    if example == "bakery-day" {
        all.extend([
            "where S OSTMILL Tue-00:00 Tue-03:00 --start Mon",
            "whose S FARMER'S",
        ]);
    }
    all
}

/// What the program gives, with the parts of the page that are files of their own left out.
fn given(example: &str, command: &str) -> String {
    let words: Vec<String> = command
        .split(' ')
        .map(|word| {
            if word == "S" {
                format!("{example}.sheet")
            } else {
                word.to_string()
            }
        })
        .collect();
    let output = Command::new(env!("CARGO_BIN_EXE_lots"))
        .args(&words)
        .current_dir(path("examples"))
        .output()
        .expect("the program starts");
    let out = String::from_utf8(output.stdout).expect("text");
    let out = out.replace(include_str!("../../src/page.css"), "(page.css)\n");
    let out = out.replace(include_str!("../../src/page.js"), "(page.js)\n");
    let err = String::from_utf8(output.stderr).expect("text");
    let status = output.status.code().expect("a status");
    format!("$ lots {}\n{out}{err}= {status}\n\n", words.join(" "))
}

#[test]
fn every_command_on_the_examples() {
    let write = std::env::var_os("LOTS_GOLDEN").is_some_and(|word| word == "write");
    for example in EXAMPLES {
        let all = commands(example);
        let given: String = all.iter().map(|command| given(example, command)).collect();
        let kept = path(&format!("rust/lots/tests/lots/golden/{example}.txt"));
        if write {
            fs::write(&kept, &given).expect("the golden file is written");
        }
        let kept = fs::read_to_string(&kept).expect("the golden file is there");
        assert!(
            given == kept,
            "{example}: see the diff that LOTS_GOLDEN=write leaves"
        );
    }
}

/// Each example stands as text and as sheet, and the one is made of the other.
#[test]
fn examples_as_text_and_sheet() {
    for example in EXAMPLES {
        let sheet = crate::file(&format!("examples/{example}.sheet"));
        let answer = crate::ask("sheet -", &crate::file(&format!("examples/{example}.txt")));
        assert_eq!((answer.status, answer.err.as_str()), (0, ""), "{example}");
        assert_eq!(answer.out, sheet, "{example}");
    }
}
