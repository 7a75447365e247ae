//! Sheets: good ones, long ones, damaged ones.

use calls::{Refusal, Transfer, MOVEMENTS, MOVEMENT_NUMBERS, NAME_BYTES, SHEET_HEADER};
use compare::{damage, near, room, sheet, subjects, Pair, Random};
use second::Sheet;

/// What reading a sheet may answer.
const READ: [u32; 8] = [0, 2, 3, 5, 14, 15, 16, 17];

/// A table length for a run: mostly enough, often too small for all pieces, now and then none.
pub fn table_length(random: &mut Random) -> usize {
    match random.below(8) {
        0 => random.index(8),
        1 => 16_384 + random.index(9),
        2..=4 => random.index(60),
        _ => 400,
    }
}

/// Every call on a sheet, with indices near the limits. Whether it was read and has no movements.
fn ask_all(pair: &mut Pair, random: &mut Random, bytes: &[u8]) -> bool {
    let reading = pair.read(bytes);
    let index = near(random, &[0, reading.movements]);
    pair.movement(bytes, index);
    let vessel = near(random, &[0, reading.vessels]);
    pair.name(bytes, vessel);
    let length = table_length(random);
    let mut table = room(random, length);
    pair.run(bytes, &mut table);
    reading.number == 0 && reading.movements == 0
}

/// Takes a sheet apart by the subject's own answers and writes it anew: the same bytes.
fn rewrite(pair: &mut Pair, random: &mut Random, sheet: &Sheet) {
    let bytes = sheet.bytes();
    let reading = pair.read(&bytes);
    assert_eq!(reading.number, 0);
    assert_eq!(reading.rule, sheet.rule);
    let mut names = Vec::new();
    for (vessel, given) in (0..reading.vessels).zip(&sheet.names) {
        let (number, name) = pair.name(&bytes, vessel);
        assert_eq!(number, 0);
        names.extend(name);
        names.resize(NAME_BYTES * (vessel as usize + 1), 0);
        assert!(names.ends_with(given));
    }
    let mut numbers = Vec::new();
    for (index, given) in (0..reading.movements).zip(&sheet.movements) {
        let m = pair.movement(&bytes, index);
        let m = [m.source, m.destination, m.minute, m.weight, m.age];
        assert_eq!(m, given.numbers());
        numbers.extend(m);
    }
    assert_eq!(numbers.len(), MOVEMENT_NUMBERS * sheet.movements.len());
    let mut out = vec![0xee; bytes.len() + random.index(5)];
    let parts = (reading.rule, reading.vessels);
    assert_eq!(pair.write(parts, &names, &numbers, &mut out), 0);
    assert_eq!(out[..bytes.len()], bytes);
}

#[test]
fn good_sheets() {
    for subject in subjects() {
        let mut pair = Pair::new(subject);
        let mut random = Random::new(11);
        let mut empty = 0;
        for _ in 0..10_000 {
            let sheet = sheet(&mut random, 60);
            empty += u32::from(ask_all(&mut pair, &mut random, &sheet.bytes()));
            if random.once_in(8) {
                rewrite(&mut pair, &mut random, &sheet);
            }
        }
        pair.tally.print(&format!(
            "good sheets, {} ({empty} without movements)",
            pair.label()
        ));
        assert!(empty > 100);
        pair.tally.expect("read", &[0], 10_000);
        pair.tally.expect("movement", &[0, 20], 500);
        pair.tally.expect("name", &[0, 5], 500);
        pair.tally.expect("write", &[0], 300);
        pair.tally.expect("run", &[0, 1, 6, 7, 8, 9, 11, 21], 30);
    }
}

#[test]
fn long_sheets() {
    for subject in subjects() {
        let mut pair = Pair::new(subject);
        let mut random = Random::new(12);
        let mut pieces = 0;
        for round in 0..60 {
            let sheet = match round {
                0..=3 => compare::heaviest(round),
                4..=7 => compare::working_day(&mut random, round - 4),
                8..=11 => compare::aged_day(&mut random, round - 8),
                _ => sheet(&mut random, MOVEMENTS as u32),
            };
            let length = random.one_of(&[16_384, 20_003, 1_000, 4_000]);
            let mut table = room(&mut random, length);
            let ran = pair.run(&sheet.bytes(), &mut table);
            pieces = pieces.max(ran.head.pieces);
        }
        pair.tally.print(&format!(
            "long sheets, {} (up to {pieces} pieces)",
            pair.label()
        ));
        assert!(pieces > 3_000);
        assert!(pair.tally.count("run", 0) > 10 && pair.tally.count("run", 11) > 3);
    }
}

#[test]
fn damaged_sheets() {
    for subject in subjects() {
        let mut pair = Pair::new(subject);
        let mut random = Random::new(13);
        let mut empty = 0;
        for _ in 0..40_000 {
            let mut bytes = sheet(&mut random, 12).bytes();
            for _ in 0..random.from_to(1, 2) {
                damage(&mut random, &mut bytes);
            }
            empty += u32::from(ask_all(&mut pair, &mut random, &bytes));
        }
        pair.tally.print(&format!(
            "damaged sheets, {} ({empty} without movements)",
            pair.label()
        ));
        assert!(empty > 500);
        pair.tally.expect("read", &READ, 500);
        let asked: Vec<u32> = READ.into_iter().chain([20]).collect();
        pair.tally.expect("movement", &asked, 500);
        pair.tally.expect("name", &READ, 500);
        let run: Vec<u32> = READ.into_iter().chain([1, 6, 7, 8, 9, 11, 21]).collect();
        pair.tally.expect("run", &run, 20);
    }
}

/// Every byte of a small sheet, with every value; and of one without movements.
#[test]
fn every_byte_of_a_sheet() {
    let good = Sheet {
        rule: 1,
        names: vec![*b"FULLNAME", *b"B\0\0\0\0\0\0\0"],
        movements: vec![
            Transfer::new([0, 1, 5, 7]),
            Transfer::new([1, 0, 6, 3]).aged(2),
        ],
    };
    let nothing = Sheet {
        movements: Vec::new(),
        ..good.clone()
    };
    for subject in subjects() {
        let mut pair = Pair::new(subject);
        let mut random = Random::new(14);
        let mut empty = 0;
        for mut bytes in [good.bytes(), nothing.bytes()] {
            for at in 0..bytes.len() {
                let kept = bytes[at];
                for value in 0..=255 {
                    bytes[at] = value;
                    empty += u32::from(ask_all(&mut pair, &mut random, &bytes));
                }
                bytes[at] = kept;
            }
        }
        pair.tally.print(&format!(
            "every byte, {} ({empty} without movements)",
            pair.label()
        ));
        pair.tally.expect("read", &READ, 100);
        assert!(empty > 500);
    }
}

#[test]
fn every_length_of_a_sheet() {
    for subject in subjects() {
        let mut pair = Pair::new(subject);
        let mut random = Random::new(15);
        for _ in 0..30 {
            let bytes = sheet(&mut random, 8).bytes();
            let mut longer = bytes.clone();
            longer.extend(bytes.iter().cycle().take(40));
            for length in 0..longer.len() {
                let number = pair.read(&longer[..length]).number;
                let expected = if length == bytes.len() {
                    0
                } else if length < SHEET_HEADER {
                    Refusal::NoSheet.number()
                } else {
                    Refusal::Layout.number()
                };
                assert_eq!(number, expected);
            }
        }
        pair.tally.print(&format!("every length, {}", pair.label()));
        pair.tally.expect("read", &[0, 14, 16], 30);
    }
}
