//! Ages: worked by hand, any and every one of a sheet, those that can be written.

use crate::desk::{engines, example, sheet_of, Desk};
use crate::sheet_order::good_parts;
use crate::sheets::table_length;
use calls::{Refusal, Transfer, TOP};
use compare::{room, sheet, subjects, Pair, Random};
use second::{listing, Sheet, WeighBook};

/// Movements of three vessels, and the pieces they leave under each rule.
type AgedVector = (&'static [Transfer], [&'static [[u32; 4]]; 4]);

/// Ages, worked by hand.
const AGED: [AgedVector; 3] = [
    // Vessel 0 holds 4 g born at 8, then 3 g that came later and were milled before, at 5. The two
    // orders by birth are those by receipt reversed.
    (
        &[
            Transfer::new([1, 0, 10, 4]).aged(2),
            Transfer::new([2, 0, 12, 3]).aged(7),
            Transfer::new([0, 1, 12, 5]),
        ],
        [
            &[[0, 2, 5, 2], [1, 1, 8, 4], [1, 2, 5, 1]],
            &[[0, 1, 8, 2], [1, 2, 5, 3], [1, 1, 8, 2]],
            &[[0, 1, 8, 2], [1, 2, 5, 3], [1, 1, 8, 2]],
            &[[0, 2, 5, 2], [1, 1, 8, 4], [1, 2, 5, 1]],
        ],
    ),
    // Born alike at 6, from another minute and age: rule 2 takes the earlier received first, rule 3
    // the later.
    (
        &[
            Transfer::new([1, 0, 10, 4]).aged(4),
            Transfer::new([2, 0, 12, 3]).aged(6),
            Transfer::new([0, 1, 12, 5]),
        ],
        [
            &[[0, 2, 6, 2], [1, 1, 6, 4], [1, 2, 6, 1]],
            &[[0, 1, 6, 2], [1, 2, 6, 3], [1, 1, 6, 2]],
            &[[0, 2, 6, 2], [1, 1, 6, 4], [1, 2, 6, 1]],
            &[[0, 1, 6, 2], [1, 2, 6, 3], [1, 1, 6, 2]],
        ],
    ),
    // The second movement hands on 2 g, whose birth its age leaves alone, and 3 g are born at 0: its
    // age is its minute. The third splits; its age says nothing, as nothing is born.
    (
        &[
            Transfer::new([1, 0, 5, 2]),
            Transfer::new([0, 2, 9, 5]).aged(9),
            Transfer::new([2, 1, 9, 4]).aged(3),
        ],
        [
            &[[2, 0, 0, 1], [1, 1, 5, 2], [1, 0, 0, 2]],
            &[[2, 1, 5, 1], [1, 0, 0, 3], [1, 1, 5, 1]],
            &[[2, 1, 5, 1], [1, 0, 0, 3], [1, 1, 5, 1]],
            &[[2, 0, 0, 1], [1, 1, 5, 2], [1, 0, 0, 2]],
        ],
    ),
];

#[test]
fn ages() {
    for engine in engines() {
        for (movements, left) in AGED {
            for (rule, pieces) in (0..).zip(left) {
                let mut desk = Desk::open(engine, rule, 3);
                for &movement in movements {
                    assert_eq!(desk.make(movement), 0);
                }
                assert_eq!(desk.pieces(), pieces, "{} rule {rule}", engine.label());
                let sheet = sheet_of(rule, movements.iter().copied()).bytes();
                let mut table = [0; 64];
                let ran = engine.run(&sheet, &mut table);
                assert_eq!((ran.number, ran.index), (0, movements.len() as u32));
                assert_eq!((ran.head, table), (desk.head, desk.table));
            }
        }
    }
}

/// Two transfers from one vessel with another minute and age, and equal births.
#[test]
fn equal_births_add_up() {
    let mut book = WeighBook::new(3);
    for movement in AGED[1].0 {
        assert_eq!(book.feed(*movement), 0);
    }
    let again = Transfer::new([1, 2, 15, 10]).aged(9);
    assert_eq!(book.feed(again), 0);
    // Vessel 1 had 5 g; 5 more are born at 15 - 9, beside the 4 that were born at 10 - 4.
    let births: Vec<_> = book.births.into_iter().collect();
    assert_eq!(births, [((1, 6), 9), ((2, 6), 3)]);
}

/// Age = minute is fine, one more is 21: after 8, before 9 to 11, and also where nothing is born.
#[test]
fn milled_before_time() {
    let before_time = Refusal::BeforeTime.number();
    let clock_back = Refusal::ClockBack.number();
    for engine in engines() {
        for rule in 0..4 {
            let mut desk = Desk::open(engine, rule, 3);
            let heavy = Transfer::new([0, 1, 5, TOP - 1]);
            assert_eq!(desk.make(heavy.aged(6)), before_time);
            assert_eq!(desk.make(heavy.aged(5)), 0);
            assert_eq!(desk.pieces(), [[1, 0, 0, TOP - 1]]);
            let nothing_born = Transfer::new([1, 2, 5, 1]);
            assert_eq!(desk.make(nothing_born.aged(6)), before_time);
            let overfull = Transfer::new([2, 1, 5, 2]);
            assert_eq!(desk.make(overfull.aged(6)), before_time);
            assert_eq!(desk.make(overfull.aged(5)), Refusal::Overfull.number());
            let back = Transfer::new([1, 2, 4, 1]);
            assert_eq!(desk.make(back.aged(u16::MAX)), clock_back);
            // The largest age, where it is above the minute, the minute, and far below it.
            let late = |minute| Transfer::new([0, 2, minute, 1]).aged(u16::MAX);
            assert_eq!(desk.make(late(65_534)), before_time);
            assert_eq!(desk.make(late(65_535)), 0);
            assert_eq!(desk.make(late(TOP)), 0);
            assert_eq!(
                desk.pieces()[1..],
                [[2, 0, 0, 1], [2, 0, TOP - 65_535, 1]],
                "{}",
                engine.label()
            );
        }
    }
}

/// A movement's bytes 2 and 3 are its age, low first, and the writer puts them there.
#[test]
fn bytes_of_an_age() {
    let movement = Transfer::new([1, 2, 0x2345, 7]).aged(0x1234);
    let bytes = [1, 2, 0x34, 0x12, 0x45, 0x23, 0, 0, 7, 0, 0, 0];
    let sheet = sheet_of(2, [movement]).bytes();
    assert_eq!(sheet[48..], bytes);
    for engine in engines() {
        let mut out = [0; 60];
        let names = &sheet[24..48];
        let number = engine.write(2, 3, names, &movement.numbers(), &mut out);
        assert_eq!((number, &out[..]), (0, &sheet[..]), "{}", engine.label());
        let read = engine.movement(&sheet, 0);
        let numbers = (read.source, read.destination, read.minute, read.weight);
        assert_eq!((read.number, numbers), (0, (1, 2, 0x2345, 7)));
        assert_eq!(read.age, 0x1234);
        let mut table = [0; 64];
        assert_eq!(engine.run(&sheet, &mut table).number, 0);
        assert_eq!(table[..4], [2, 1, 0x2345 - 0x1234, 7]);
    }
}

#[test]
fn listing_of_ages() {
    let [early, late, last] = AGED[0].0 else {
        panic!("three movements")
    };
    let before_time = last.aged(13);
    let text = "vessels 3 rule 2 accepted 2 pieces 2 even 0\n\
                0 1 8 4\n0 2 5 3\nstopped 2 at 21\n";
    let sheet = sheet_of(2, [*early, *late, before_time]);
    assert_eq!(listing(&sheet.bytes()), text);
}

/// The farm's 300 g came to the silo last and were milled first, at 490 - 60: the mixer gets them first.
#[test]
fn example_sheet_of_old_flour() {
    let sheet = example("old-flour.sheet");
    let text = "vessels 4 rule 2 accepted 3 pieces 3 even 0\n\
                2 0 480 200\n3 1 430 300\n3 0 480 300\n";
    assert_eq!(listing(&sheet), text);
    for engine in engines() {
        let mut table = [0; 12];
        assert_eq!(engine.run(&sheet, &mut table).number, 0);
        let left = [2, 0, 480, 200, 3, 1, 430, 300, 3, 0, 480, 300];
        assert_eq!(table, left, "{}", engine.label());
    }
}

/// Any bytes in the place of the ages: the sheet reads as before, and a movement has the age there.
#[test]
fn any_ages_of_a_sheet() {
    for subject in subjects() {
        let mut pair = Pair::new(subject);
        let mut random = Random::new(17);
        for _ in 0..4_000 {
            let mut sheet = sheet(&mut random, 12);
            let given = pair.read(&sheet.bytes());
            for movement in &mut sheet.movements {
                let minute = movement.minute.min(TOP - 1);
                let ages = [minute, minute + 1, u16::MAX.into(), random.any()];
                movement.age = random.one_of(&ages) as u16;
            }
            let mut bytes = sheet.bytes();
            assert_eq!(pair.read(&bytes), given);
            for (index, movement) in (0..).zip(&sheet.movements) {
                let asked = pair.movement(&bytes, index);
                assert_eq!((asked.number, asked.age), (0, movement.age.into()));
            }
            // A refusal gives no age.
            assert_eq!(pair.movement(&bytes, given.movements).age, 0);
            let length = table_length(&mut random);
            pair.run(&bytes, &mut room(&mut random, length));
            bytes[0] = b'p';
            assert_eq!(pair.movement(&bytes, 0).age, 0);
        }
        pair.tally.print(&format!("any ages, {}", pair.label()));
        pair.tally.expect("read", &[0], 8_000);
        pair.tally.expect("movement", &[0, 14, 20], 4_000);
        assert!(pair.tally.count("run", 0) > 100 && pair.tally.count("run", 21) > 1_000);
    }
}

/// Every age of a movement at a few minutes: it is read, and the run stops where it is above.
#[test]
fn every_age_of_a_sheet() {
    for subject in subjects() {
        let mut pair = Pair::new(subject);
        for minute in [0, 1, 30_000, 65_534, 65_535, TOP] {
            let movement = Transfer::new([0, 1, minute, 7]);
            let mut sheet = Sheet {
                rule: 2,
                names: vec![*b"A\0\0\0\0\0\0\0", *b"B\0\0\0\0\0\0\0"],
                movements: vec![movement],
            };
            for age in 0..=u16::MAX {
                sheet.movements[0] = movement.aged(age);
                let bytes = sheet.bytes();
                assert_eq!(pair.movement(&bytes, 0).age, age.into());
                let mut table = [9; 4];
                let ran = pair.run(&bytes, &mut table);
                if u32::from(age) > minute {
                    assert_eq!((ran.number, ran.index, table), (21, 0, [9; 4]));
                } else {
                    let piece = [1, 0, minute - u32::from(age), 7];
                    assert_eq!((ran.number, ran.index, table), (0, 1, piece));
                }
            }
        }
        pair.tally.print(&format!("every age, {}", pair.label()));
        pair.tally.expect("movement", &[0], 6 << 16);
        pair.tally.expect("run", &[0, 21], 100_000);
    }
}

/// The largest age that can be written, the least that cannot, and larger ones.
#[test]
fn written_ages() {
    for subject in subjects() {
        let mut pair = Pair::new(subject);
        let ages = [0, 1, 255, 256, 0x1234, 65_534, 65_535];
        let over = [65_536, 65_537, 1 << 17, 0x1234_0000, 1 << 31, TOP - 1, TOP];
        for age in ages.into_iter().chain(over) {
            for at in [4, 9] {
                let mut parts = good_parts();
                parts.numbers[at] = age;
                let mut out = vec![0xee; 64];
                let shape = (parts.rule, parts.vessels);
                let number = pair.write(shape, &parts.names, &parts.numbers, &mut out);
                assert_eq!(number, if age > 65_535 { 18 } else { 0 });
                if number == 0 {
                    let movement = 40 + 12 * (at / 5);
                    let low_first = [age as u8, (age >> 8) as u8];
                    assert_eq!(out[movement + 2..movement + 4], low_first);
                    let asked = pair.movement(&out, at as u32 / 5);
                    assert_eq!((asked.number, asked.age), (0, age));
                }
            }
        }
        pair.tally
            .print(&format!("order, written ages, {}", pair.label()));
        pair.tally.expect("write", &[0, 18], 14);
    }
}
