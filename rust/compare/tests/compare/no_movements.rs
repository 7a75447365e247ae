//! A shift that moved nothing: sheets of no movements, read, asked, written, run and listed.

use crate::desk::{engines, example};
use crate::order::{first, sets};
use crate::sheet_order::{good_parts, sheet_with};
use calls::{Ran, TOP};
use compare::{names, subjects, Pair, Random};
use second::{listing, Sheet};

/// The vessels and rule of the sheet of old flour on a holiday.
#[test]
fn example_sheet_of_a_holiday() {
    let sheet = example("holiday.sheet");
    assert_eq!(sheet.len(), 24 + 8 * 4);
    assert_eq!(sheet[24..], example("old-flour.sheet")[24..56]);
    let text = "vessels 4 rule 2 accepted 0 pieces 0 even 0\n";
    assert_eq!(listing(&sheet), text);
}

/// A shift that moved nothing, for every rule and count of vessels: read, written anew, run, listed.
#[test]
fn every_rule_and_count_of_vessels() {
    for engine in engines() {
        let mut random = Random::new(102);
        for (rule, vessels) in (0..4).flat_map(|rule| (1..=64).map(move |v| (rule, v))) {
            let names = names(&mut random, vessels);
            let length = 24 + 8 * vessels as usize;
            let mut sheet = vec![0xee; length + 3];
            let number = engine.write(rule, vessels, &names.concat(), &[], &mut sheet);
            assert_eq!((number, &sheet[length..]), (0, &[0xee; 3][..]));
            sheet.truncate(length);
            let second = Sheet {
                rule,
                names,
                movements: Vec::new(),
            };
            assert_eq!(sheet, second.bytes(), "{}", engine.label());

            let read = engine.read(&sheet);
            let counts = (read.rule, read.vessels, read.movements);
            assert_eq!((read.number, counts), (0, (rule, vessels, 0)));
            assert_eq!(engine.movement(&sheet, 0).number, 20);
            assert_eq!(engine.name_number(&sheet, vessels - 1), 0);
            let mut table = [7; 4];
            let ran = engine.run(&sheet, &mut table);
            assert_eq!((ran.number, ran.index, ran.even), (0, 0, 0));
            assert_eq!((ran.head, table), (engine.open(rule, vessels).head, [7; 4]));
            let text = format!("vessels {vessels} rule {rule} accepted 0 pieces 0 even 0\n");
            assert_eq!(listing(&sheet), text);
        }
    }
}

/// A sheet without movements beside every other fault of a sheet. It has no movement to ask for, and
/// its run, on a table that is long enough, is the book that opening gives.
#[test]
fn reading_without_movements() {
    const FAULTS: [u32; 6] = [14, 2, 3, 15, 16, 17];
    for subject in subjects() {
        let mut pair = Pair::new(subject);
        let fresh = Ran {
            number: 0,
            index: 0,
            even: 0,
            head: pair.open(3, 2).head,
        };
        for (form, set) in (0..4).flat_map(|form| sets(&FAULTS).map(move |set| (form, set))) {
            let sheet = sheet_with(&[], &set, form);
            let number = first(&set);
            let or = |own: u32| if number == 0 { own } else { number };
            let reading = pair.read(&sheet);
            let read = (reading.number, reading.movements);
            assert_eq!(read, (number, 0), "{set:?} form {form}");
            for index in [0, 1, 4_095, 4_096, TOP] {
                assert_eq!(pair.movement(&sheet, index).number, or(20));
            }
            assert_eq!(pair.name(&sheet, 1).0, number);
            assert_eq!(pair.name(&sheet, 2).0, or(5));
            for length in 0..=4 {
                let mut table = vec![7; length];
                let ran = pair.run(&sheet, &mut table);
                assert_eq!(ran.number, or(u32::from(length < 4)));
                assert!(ran.number != 0 || ran == fresh, "{ran:?}");
                assert_eq!(table, vec![7; length]);
            }
        }
        pair.tally
            .print(&format!("order, without movements, {}", pair.label()));
        pair.tally.expect("read", &[0, 2, 3, 14, 15, 16, 17], 4);
        pair.tally
            .expect("movement", &[2, 3, 14, 15, 16, 17, 20], 20);
        pair.tally.expect("run", &[0, 1, 2, 3, 14, 15, 16, 17], 4);
    }
}

/// The writer without numbers beside every other fault: it writes the header and the names.
#[test]
fn writing_without_movements() {
    const FAULTS: [u32; 5] = [2, 3, 16, 17, 19];
    for subject in subjects() {
        let mut pair = Pair::new(subject);
        for (form, set) in (0..4).flat_map(|form| sets(&FAULTS).map(move |set| (form, set))) {
            let mut parts = good_parts();
            parts.numbers.clear();
            let mut room = [40, 41, 64, 100][form];
            for fault in &set {
                match fault {
                    2 => parts.rule = [4, 256, TOP, 65_536][form],
                    3 => parts.vessels = [0, 65, TOP, 1 << 29][form],
                    16 if form == 0 => parts.names.push(b'A'),
                    16 if form == 1 => parts.names.truncate(8),
                    16 => parts.numbers.extend(&[0, 1, 7, 5][..2 * form - 2]),
                    17 => parts.names[1] = [0x20, 0x7f, 0x80, 0xff][form],
                    _ => room = [39, 0, 23, 24][form],
                }
            }
            let mut out = vec![0xee; room];
            let shape = (parts.rule, parts.vessels);
            let number = pair.write(shape, &parts.names, &parts.numbers, &mut out);
            assert_eq!(number, first(&set), "{set:?} form {form}");
            if number == 0 {
                assert_eq!(out[..40], sheet_with(&[], &[], 0));
                assert_eq!(out[40..], vec![0xee; room - 40]);
            }
        }
        pair.tally
            .print(&format!("order, writing nothing, {}", pair.label()));
        pair.tally.expect("write", &[0, 2, 3, 16, 17, 19], 4);
    }
}
