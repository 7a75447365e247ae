//! The C header says what the Rust declarations say.

use calls::{
    Refusal, MOVEMENTS, MOVEMENT_BYTES, MOVEMENT_NUMBERS, NAME_BYTES, PLACES, SCALE, SHEET_HEADER,
    STIRRED, VESSELS,
};

const HEADER: &str = include_str!("../../../../include/lumchaki.h");
const DECLARATIONS: &str = include_str!("../../../lumchaki/src/ffi.rs");

/// The functions that a text declares.
fn functions(text: &str) -> Vec<&str> {
    let mut names: Vec<&str> = text
        .match_indices("lumchaki_")
        .filter_map(|(at, _)| {
            let name = text[at..].split(|c: char| c != '_' && !c.is_ascii_lowercase());
            let name = name.into_iter().next()?;
            text[at + name.len()..].starts_with('(').then_some(name)
        })
        .collect();
    names.sort_unstable();
    names.dedup();
    names
}

#[test]
fn every_refusal_has_its_number_and_word() {
    for refusal in Refusal::ALL {
        let number = format!(" = {}", refusal.number());
        let word = format!("/* \"{}\": ", refusal.word());
        let mut lines = HEADER.lines().filter(|line| line.contains(&word));
        let line = lines.next().unwrap_or_else(|| panic!("no {word}"));
        let before = line.split([',', '/']).next();
        assert!(
            before.is_some_and(|b| b.trim_end().ends_with(&number)),
            "{line}"
        );
        assert_eq!(lines.next(), None);
    }
}

#[test]
fn every_limit_and_rule_has_its_number() {
    let limits = [
        ("FIRST_RECEIVED", 0),
        ("LAST_RECEIVED", 1),
        ("FIRST_BORN", 2),
        ("LAST_BORN", 3),
        ("STIRRED", STIRRED as usize),
        ("VESSELS", VESSELS),
        ("SCALE", SCALE as usize),
        ("PLACES", PLACES),
        ("MOVEMENTS", MOVEMENTS),
        ("SHEET_HEADER", SHEET_HEADER),
        ("NAME_BYTES", NAME_BYTES),
        ("MOVEMENT_BYTES", MOVEMENT_BYTES),
        ("MOVEMENT_NUMBERS", MOVEMENT_NUMBERS),
    ];
    for (name, number) in limits {
        let limit = format!("LUMCHAKI_{name} = {number}");
        let lines = HEADER.lines().map(|line| line.split([',', '/']).next());
        let said = lines.flatten().filter(|line| line.trim() == limit);
        assert_eq!(said.count(), 1, "{limit}");
    }
}

#[test]
fn every_function_is_declared() {
    let declared = functions(DECLARATIONS);
    assert_eq!(declared.len(), 15);
    assert_eq!(functions(HEADER), declared);
}
