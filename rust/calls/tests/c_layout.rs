//! The records lie in C, by the header, as they lie here.

use calls::{Head, Movement, Opened, Ran, Reading, Reported, RuleSet, Tipped, Transferred};
use std::io::Write;
use std::mem::{offset_of, size_of};
use std::path::Path;
use std::process::{Command, Stdio};

/// What C says of each record: its size, where some of its fields start, and how wide an age is.
const PROGRAM: &str = r#"
#include "lumchaki.h"
#include <stdio.h>
#define SIZE(record) printf(#record " %u\n", (unsigned)sizeof(record))
#define FIELD(record, field) printf(#field " %u\n", (unsigned)offsetof(record, field))
#define WIDTH(record, field) printf(#field " %u\n", (unsigned)sizeof(((record *)0)->field))
int main(void) {
    SIZE(lumchaki_head);
    FIELD(lumchaki_head, balances);
    FIELD(lumchaki_head, scale);
    FIELD(lumchaki_head, rules);
    SIZE(lumchaki_opened);
    FIELD(lumchaki_opened, head);
    SIZE(lumchaki_transferred);
    FIELD(lumchaki_transferred, head);
    FIELD(lumchaki_transferred, born);
    SIZE(lumchaki_tipped);
    FIELD(lumchaki_tipped, head);
    SIZE(lumchaki_rule_set);
    FIELD(lumchaki_rule_set, head);
    SIZE(lumchaki_reported);
    FIELD(lumchaki_reported, head);
    SIZE(lumchaki_reading);
    FIELD(lumchaki_reading, movements);
    SIZE(lumchaki_movement_read);
    FIELD(lumchaki_movement_read, weight);
    FIELD(lumchaki_movement_read, age);
    WIDTH(lumchaki_movement_read, age);
    SIZE(lumchaki_ran);
    FIELD(lumchaki_ran, head);
    return 0;
}
"#;

/// How wide the field is that this picks.
fn width<R, F>(_: fn(&R) -> &F) -> usize {
    size_of::<F>()
}

#[test]
fn records_lie_as_in_c() {
    let include = Path::new(env!("CARGO_MANIFEST_DIR")).join("../../include");
    let program = Path::new(env!("CARGO_TARGET_TMPDIR")).join("layout");
    let mut gcc = Command::new("gcc")
        .args(["-std=c99", "-Wall", "-Wextra", "-pedantic", "-Werror"])
        .arg("-I")
        .arg(include)
        .args(["-x", "c", "-", "-o"])
        .arg(&program)
        .stdin(Stdio::piped())
        .spawn()
        .expect("gcc starts");
    let mut stdin = gcc.stdin.take().expect("standard input is a pipe");
    stdin
        .write_all(PROGRAM.as_bytes())
        .expect("gcc takes the program");
    drop(stdin);
    assert!(gcc.wait().expect("gcc ends").success());
    let output = Command::new(&program).output().expect("the program starts");
    let here = [
        ("lumchaki_head", size_of::<Head>()),
        ("balances", offset_of!(Head, balances)),
        ("scale", offset_of!(Head, scale)),
        ("rules", offset_of!(Head, rules)),
        ("lumchaki_opened", size_of::<Opened>()),
        ("head", offset_of!(Opened, head)),
        ("lumchaki_transferred", size_of::<Transferred>()),
        ("head", offset_of!(Transferred, head)),
        ("born", offset_of!(Transferred, born)),
        ("lumchaki_tipped", size_of::<Tipped>()),
        ("head", offset_of!(Tipped, head)),
        ("lumchaki_rule_set", size_of::<RuleSet>()),
        ("head", offset_of!(RuleSet, head)),
        ("lumchaki_reported", size_of::<Reported>()),
        ("head", offset_of!(Reported, head)),
        ("lumchaki_reading", size_of::<Reading>()),
        ("movements", offset_of!(Reading, movements)),
        ("lumchaki_movement_read", size_of::<Movement>()),
        ("weight", offset_of!(Movement, weight)),
        ("age", offset_of!(Movement, age)),
        ("age", width(|movement: &Movement| &movement.age)),
        ("lumchaki_ran", size_of::<Ran>()),
        ("head", offset_of!(Ran, head)),
    ];
    let here: String = here.iter().map(|(n, at)| format!("{n} {at}\n")).collect();
    assert_eq!(String::from_utf8_lossy(&output.stdout), here);
}
