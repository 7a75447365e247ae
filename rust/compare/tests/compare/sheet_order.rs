//! The order of a sheet's checks: every set of faults that it can have at once, read and written.

use crate::order::{first, sets, Due};
use calls::TOP;
use compare::{subjects, Pair};

/// The parts of a good sheet, as the writer takes them.
pub struct Parts {
    pub rule: u32,
    pub vessels: u32,
    pub names: Vec<u8>,
    pub numbers: Vec<u32>,
}

pub fn good_parts() -> Parts {
    Parts {
        rule: 3,
        vessels: 2,
        names: b"LEFT\0\0\0\0RIGHT\0\0\0".to_vec(),
        numbers: vec![0, 1, 5, 9, 0, 1, 0, 6, 4, 65_535],
    }
}

#[test]
fn writing() {
    const FAULTS: [u32; 8] = [2, 3, 16, 15, 17, 18, 5, 19];
    for subject in subjects() {
        let mut pair = Pair::new(subject);
        let mut due = Due::default();
        // Each fault in more than one form. 18 and 5 are in the same movement.
        for form in 0..4 {
            for set in sets(&FAULTS) {
                let mut parts = good_parts();
                let mut room = 24 + 16 + 24;
                for fault in &set {
                    match fault {
                        2 => parts.rule = [4, 256, TOP, 65_536][form],
                        3 => parts.vessels = [0, 65, TOP, 1 << 29][form],
                        17 => parts.names[9] = [0x20, 0x7f, 0x80, 0xff][form],
                        18 => {
                            parts.numbers[[4, 4, 9, 9][form]] = [65_536, TOP, 1 << 24, 65_537][form]
                        }
                        5 => parts.numbers[[0, 1, 5, 6][form]] = [2, 256, TOP, 65_536][form],
                        19 => room = [63, 0, 23, 40][form],
                        _ => {}
                    }
                }
                if set.contains(&15) {
                    let movements = [4_097, 4_098, 8_192, 5_000][form];
                    parts.numbers.resize(5 * movements, 0);
                }
                if set.contains(&16) {
                    match form {
                        0 => parts.names.push(b'A'),
                        1 => drop(parts.names.pop()),
                        2 => parts.numbers.push(0),
                        // A movement without its age.
                        _ => parts.numbers.extend([0, 1, 7, 5]),
                    }
                }
                let mut out = vec![0xee; room];
                let shape = (parts.rule, parts.vessels);
                let number = pair.write(shape, &parts.names, &parts.numbers, &mut out);
                assert_eq!(number, first(&set), "{set:?}");
                due.add(&set);
            }
        }
        let said = due.said();
        pair.tally
            .print(&format!("order, writing, {} {said}", pair.label()));
        pair.tally
            .expect("write", &[0, 2, 3, 5, 15, 16, 17, 18, 19], 4);
        due.expect(&FAULTS, 4);
    }
}

/// Each movement in turn for 18 and 5, and not all ages first; 19 comes after all of them.
#[test]
fn movements_in_turn() {
    const VESSELS: [[usize; 2]; 2] = [[0, 1], [5, 6]];
    const AGES: [usize; 2] = [4, 9];
    for subject in subjects() {
        let mut pair = Pair::new(subject);
        for (age_in, vessel_in) in [(0, 0), (0, 1), (1, 0), (1, 1)] {
            for at in VESSELS[vessel_in] {
                for (age, room) in [(65_536, 64), (TOP, 64), (65_536, 63), (TOP, 0)] {
                    let mut parts = good_parts();
                    parts.numbers[AGES[age_in]] = age;
                    parts.numbers[at] = 2;
                    let mut out = vec![0xee; room];
                    let shape = (parts.rule, parts.vessels);
                    let number = pair.write(shape, &parts.names, &parts.numbers, &mut out);
                    assert_eq!(number, if vessel_in < age_in { 5 } else { 18 });
                }
            }
        }
        pair.tally
            .print(&format!("order, movements in turn, {}", pair.label()));
        pair.tally.expect("write", &[5, 18], 8);
    }
}

/// The ages of the two movements of a sheet, at minutes 5 and 6, and the number of its run: an age
/// never makes a sheet unreadable.
const SHEET_AGES: [([u16; 2], u32); 4] = [
    ([0, 0], 0),
    ([5, 6], 0),
    ([0x100, 0], 21),
    ([0, 65_535], 21),
];

/// The bytes of two movements with the ages of a form.
fn two_movements(form: usize) -> Vec<u8> {
    let [[a, b], [c, d]] = SHEET_AGES[form].0.map(u16::to_le_bytes);
    let movements = [
        [0, 1, a, b, 5, 0, 0, 0, 9, 0, 0, 0],
        [1, 0, c, d, 6, 0, 0, 0, 4, 0, 0, 0],
    ];
    movements.concat()
}

/// A sheet of two vessels and these movements with these faults. 5 is in its first movement.
pub fn sheet_with(movements: &[u8], set: &[u32], form: usize) -> Vec<u8> {
    let mut bytes = b"PROV\x03\0\x02\0".to_vec();
    bytes.extend([movements.len() as u8 / 12, 0, 0, 0]);
    bytes.extend(b"\x18\0\0\0\x28\0\0\0");
    bytes.extend([40 + movements.len() as u8, 0, 0, 0]);
    bytes.extend(b"LEFT\0\0\0\0RIGHT\0\0\0");
    bytes.extend(movements);
    for fault in set.iter().rev() {
        match fault {
            14 => bytes[form] ^= 0x20,
            2 => bytes[4 + form % 2] = 4,
            3 => bytes[6 + form % 2] = [0, 1, 65, 255][form],
            15 => bytes[8..12].copy_from_slice(&[4_097, TOP, 1 << 16, 5_000][form].to_le_bytes()),
            16 => match form {
                0 => bytes[12] += 1,
                1 => bytes[16] -= 8,
                2 => bytes[20] += 12,
                _ => bytes.extend([0; 12]),
            },
            17 => match form {
                0 => bytes[24] = 0,
                1 => bytes[31] = b'x',
                2 => bytes[35] = 0x7f,
                _ => bytes.copy_within(24..32, 32),
            },
            5 => bytes[40 + form % 2] = [2, 3, 64, 255][form],
            _ => {}
        }
    }
    bytes
}

#[test]
fn reading() {
    const FAULTS: [u32; 7] = [14, 2, 3, 15, 16, 17, 5];
    for subject in subjects() {
        let mut pair = Pair::new(subject);
        for (form, (_, stop)) in SHEET_AGES.into_iter().enumerate() {
            for set in sets(&FAULTS) {
                let sheet = sheet_with(&two_movements(form), &set, form);
                let number = first(&set);
                assert_eq!(pair.read(&sheet).number, number, "{set:?} form {form}");
                let or = |own: u32| if number == 0 { own } else { number };
                // The sheet's own faults come before a fault of the question.
                assert_eq!(pair.movement(&sheet, 1).number, number);
                assert_eq!(pair.movement(&sheet, 2).number, or(20));
                assert_eq!(pair.name(&sheet, 1).0, number);
                assert_eq!(pair.name(&sheet, 2).0, or(5));
                assert_eq!(pair.run(&sheet, &mut [7; 3]).number, or(1));
                assert_eq!(pair.run(&sheet, &mut [7; 40]).number, or(stop));
            }
        }
        pair.tally
            .print(&format!("order, reading, {}", pair.label()));
        pair.tally.expect("read", &[0, 2, 3, 5, 14, 15, 16, 17], 4);
        assert!(pair.tally.count("run", 21) >= 2);
    }
}
