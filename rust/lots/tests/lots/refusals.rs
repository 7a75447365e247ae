//! Every number that a sheet can get, through `check`, with its place.

use crate::{ask, text, without_cut};
use calls::{Refusal, Transfer, TOP};
use compare::{sheet, Random};
use second::Sheet;
use std::collections::BTreeSet;

/// Three vessels; minutes 5, 7, 9.
fn good() -> Sheet {
    Sheet {
        rule: 0,
        names: vec![*b"MILL\0\0\0\0", *b"SILO\0\0\0\0", *b"MIXER\0\0\0"],
        movements: vec![
            Transfer::new([0, 1, 5, 100]),
            Transfer::new([0, 1, 7, 50]),
            Transfer::new([1, 2, 9, 120]),
        ],
    }
}

/// The good sheet with one field put: at a byte, so many bytes of a number.
fn put(at: usize, size: usize, number: u32) -> Vec<u8> {
    let mut bytes = good().bytes();
    bytes[at..at + size].copy_from_slice(&number.to_le_bytes()[..size]);
    bytes
}

/// The good sheet with its last movement put.
fn moved(movement: Transfer) -> Vec<u8> {
    let mut sheet = good();
    sheet.movements[2] = movement;
    sheet.bytes()
}

fn named(name: &[u8; 8]) -> Vec<u8> {
    let mut sheet = good();
    sheet.names[2] = *name;
    sheet.bytes()
}

/// Sheets that are refused when they are read, with number and place.
#[rustfmt::skip] // a table
fn unreadable() -> Vec<(Vec<u8>, Refusal, &'static str)> {
    let mut longer = good().bytes();
    longer.push(0);
    vec![
        (vec![], Refusal::NoSheet, "it is empty"),
        (good().bytes()[..23].to_vec(), Refusal::NoSheet, "it has 23 bytes"),
        (put(3, 1, 0x1b), Refusal::NoSheet, "field mark, bytes 0 to 3: \"PRO\\x1b\", not \"PROV\""),
        (crate::file("examples/two-paths.txt"), Refusal::NoSheet, "it looks like a text: lots sheet TEXT >SHEET"),
        (put(4, 2, 4), Refusal::RuleUnknown, "field rule, bytes 4 to 5: 4, not 0 to 3"),
        (put(6, 2, 0), Refusal::VesselCount, "field count of vessels, bytes 6 to 7: 0, not 1 to 64"),
        (put(6, 2, 65), Refusal::VesselCount, "bytes 6 to 7: 65, not 1 to 64"),
        (put(8, 4, 4097), Refusal::Movements, "field count of movements, bytes 8 to 11: 4097, not 0 to 4096"),
        (put(12, 4, 25), Refusal::Layout, "field offset of the names, bytes 12 to 15: 25, not 24"),
        (put(16, 4, 47), Refusal::Layout, "field offset of the movements, bytes 16 to 19: 47, not 48"),
        (put(20, 4, TOP), Refusal::Layout, "field length, bytes 20 to 23: 4294967295, not 84"),
        (put(8, 4, 2), Refusal::Layout, "field length, bytes 20 to 23: 84, not 72"),
        (longer, Refusal::Layout, "it has 85 bytes, and 3 vessels and 3 movements are 84"),
        (named(&[0; 8]), Refusal::Name, "vessel 2, its name, bytes 40 to 47: \"\\x00"),
        (named(b"A B\0\0\0\0\0"), Refusal::Name, "20 hexadecimal at 1 is no visible character"),
        (named(b"A\0B\0\0\0\0\0"), Refusal::Name, "behind its end there is 42 hexadecimal"),
        (named(b"MILL\0\0\0\0"), Refusal::Name, "the same as vessel 0's"),
        (put(48, 1, 3), Refusal::NoVessel, "movement 0, its source, byte 48: 3, and the vessels are 3"),
        (put(73, 1, 255), Refusal::NoVessel, "movement 2, its destination, byte 73: 255"),
    ]
}

/// Sheets that stop at their last movement, with number and reason.
#[rustfmt::skip] // a table
fn stopping() -> Vec<(Vec<u8>, Refusal, &'static str)> {
    let with = |numbers| moved(Transfer::new(numbers));
    vec![
        (with([1, 1, 9, 1]), Refusal::SameVessel, "SILO is source and destination"),
        (with([1, 2, 9, 0]), Refusal::NoWeight, "its weight is 0"),
        (with([1, 2, 6, 1]), Refusal::ClockBack, "its minute, 6, is before the last one, 7"),
        (moved(Transfer::new([1, 2, 9, 1]).aged(10)), Refusal::BeforeTime, "its age, 10, is above its minute, 9; let minute 0 be earlier"),
        (with([0, 1, 9, TOP]), Refusal::Overfull, "SILO holds 150 g, and a vessel holds at most 4294967295"),
    ]
}

#[test]
fn every_number_that_a_sheet_can_get() {
    let mut seen = BTreeSet::new();
    for (bytes, refusal, place) in unreadable() {
        let answer = ask("check -", &bytes);
        let out = String::from_utf8(answer.out).expect("text");
        assert_eq!(
            (answer.status, answer.err),
            (1, format!("lots: -: {refusal}\n")),
            "{out}"
        );
        assert!(out.starts_with(&format!("not fit: {refusal}\n  ")), "{out}");
        assert!(out.contains(place), "{out}wanted {place}");
        for command in ["whose -", "where - 0", "whole -", "text -", "page -"] {
            let other = ask(command, &bytes);
            assert_eq!((other.status, other.out.len()), (1, 0), "{command}");
            assert!(
                other.err.starts_with(&format!("lots: -: {refusal}: ")),
                "{}",
                other.err
            );
            assert!(other.err.contains(place), "{}", other.err);
        }
        seen.insert(refusal.number());
    }
    for (bytes, refusal, reason) in stopping() {
        let answer = ask("check -", &bytes);
        let out = String::from_utf8(answer.out).expect("text");
        assert!(
            out.starts_with(&format!(
                "not fit: {refusal}\n  movement   2 (the first is 0)"
            )),
            "{out}"
        );
        assert!(out.contains(&format!("  because    {reason}\n")), "{out}");
        assert!(
            out.contains("bytes 72 to 83\n  line       10 of `lots text`: "),
            "{out}"
        );
        assert!(out.contains("  accepted   2 of 3 movements\n"), "{out}");
        let place = "stopped at movement 2, line 10 of `lots text`";
        let stopped = format!("lots: -: {place}: {refusal}: {reason}\n");
        assert_eq!((answer.status, &answer.err), (1, &stopped));
        still_answers(&bytes, &stopped);
        seen.insert(refusal.number());
    }
    // 10 and 11 need more movements than a sheet has; the others are no answers to a sheet.
    assert_eq!(
        seen,
        BTreeSet::from([2, 3, 5, 6, 7, 8, 9, 14, 15, 16, 17, 21])
    );
}

/// A sheet that stops answers as it stood before that movement.
fn still_answers(bytes: &[u8], stopped: &str) {
    for command in [
        "whose -",
        "where - MILL",
        "whole -",
        "whole - --csv",
        "page -",
    ] {
        let answer = ask(command, bytes);
        assert_eq!(
            (answer.status, answer.err.as_str()),
            (1, stopped),
            "{command}"
        );
        let out = String::from_utf8(answer.out).expect("text");
        let before = text(&format!("{command} --movements 2"), bytes);
        let before = String::from_utf8(without_cut(before.as_bytes())).expect("text");
        match command {
            "page -" => assert!(out.contains("Stopped at movement 2 (the first is 0): ")),
            "whole - --csv" => assert_eq!(out, before),
            _ => {
                let (first, rest) = out.split_once('\n').expect("two lines");
                assert!(first.starts_with("as it stood before movement 2 (the first is 0), "));
                assert_eq!(rest, before);
            }
        }
    }
}

/// The line that a stop is said to be at is the movement's own in the text, with a start and without.
#[test]
fn the_line_of_a_stop() {
    let words =
        |line: &str| -> Vec<String> { line.split_ascii_whitespace().map(str::to_string).collect() };
    let mut random = Random::new(73);
    let mut stops = 0;
    for _ in 0..2_000 {
        let bytes = sheet(&mut random, 12).bytes();
        let start = random.one_of(&["", "--start Mon", "--start Thu-04:15"]);
        let check = ask(&format!("check - {start}"), &bytes);
        let shown = String::from_utf8(check.out).expect("text");
        let Some((place, shown)) = shown.split_once(" of `lots text`: ") else {
            continue;
        };
        let line: usize = words(place)
            .last()
            .and_then(|n| n.parse().ok())
            .expect("a line");
        assert!(
            check
                .err
                .contains(&format!(", line {line} of `lots text`: ")),
            "{}",
            check.err
        );
        let text = String::from_utf8(ask(&format!("text - {start}"), &bytes).out).expect("text");
        let shown = shown.lines().next().expect("a movement");
        assert_eq!(text.lines().nth(line - 1).map(words), Some(words(shown)));
        stops += 1;
    }
    println!("lines of stops: {stops}");
    assert!(stops > 200);
}
