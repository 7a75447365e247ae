//! Sheets written from their parts, good ones and damaged ones.

use calls::{
    Engine, Refusal, Transfer, MOVEMENT_BYTES, MOVEMENT_NUMBERS, NAME_BYTES, SHEET_HEADER,
};
use compare::{near, sheet, subjects, Pair, Random};
use second::Second;
use std::collections::BTreeMap;

/// What the ages of written movements came to.
#[derive(Debug, Default)]
struct Written {
    /// An age is above 65,535: how often, by the number that the writer gives without such ages.
    over: BTreeMap<u32, u32>,
    /// A movement before that one has no vessel.
    vessel_first: u32,
    /// Written with an age of 65,535.
    largest: u32,
    /// Refused for an age of 65,536.
    one_over: u32,
}

impl Written {
    /// The number of a writing by that without ages above 65,535, and counts it.
    fn number(&mut self, vessels: u32, numbers: &[u32], without: u32, number: u32) -> u32 {
        const OVER: u32 = 65_536;
        let movements = || numbers.chunks(MOVEMENT_NUMBERS);
        let age = |m: &[u32]| m.get(4).copied().unwrap_or(0);
        self.largest += u32::from(number == 0 && movements().any(|m| age(m) == OVER - 1));
        let Some(first) = movements().position(|m| age(m) >= OVER) else {
            return without;
        };
        *self.over.entry(without).or_default() += 1;
        let stranger = |m: &[u32]| m[0].max(m[1]) >= vessels;
        let vessel_first = movements().take(first).any(stranger);
        match without {
            2 | 3 | 15 | 16 | 17 => without,
            5 if vessel_first => {
                self.vessel_first += 1;
                without
            }
            _ => {
                self.one_over += u32::from(numbers[MOVEMENT_NUMBERS * first + 4] == OVER);
                Refusal::AgeOver.number()
            }
        }
    }
}

#[test]
fn written_sheets() {
    for subject in subjects() {
        let mut pair = Pair::new(subject);
        let mut random = Random::new(16);
        let mut ages = Written::default();
        for _ in 0..20_000 {
            let sheet = sheet(&mut random, 8);
            let mut rule = sheet.rule;
            let mut vessels = sheet.names.len() as u32;
            let mut names: Vec<u8> = sheet.names.concat();
            let numbers = sheet.movements.iter().flat_map(Transfer::numbers);
            let mut numbers: Vec<u32> = numbers.collect();
            let mut length = sheet.bytes().len() + random.index(9);
            for _ in 0..random.below(3) {
                let (some_name, some_number) = (
                    random.index(names.len().max(1)),
                    random.index(numbers.len().max(1)),
                );
                match random.below(14) {
                    0 => rule = near(&mut random, &[4]),
                    1 => vessels = near(&mut random, &[0, 65, vessels]),
                    2 => names.truncate(some_name),
                    3 => names.extend([0x41; NAME_BYTES]),
                    4 => numbers.truncate(some_number),
                    5 => numbers.clear(),
                    6 => numbers.resize(MOVEMENT_NUMBERS * random.one_of(&[4096, 4097]), 0),
                    7 if some_name < names.len() => {
                        names[some_name] = random.one_of(&[0, 0x20, 0x7f, 0x21, 0xff]);
                    }
                    8 if some_number < numbers.len() => {
                        // Also a number whose low byte alone would be a vessel.
                        numbers[some_number] = near(&mut random, &[vessels, 256, 1 << 24]);
                    }
                    9..=12 => {
                        // Also a number whose low 16 bits alone would be an age.
                        let age = near(&mut random, &[65_535, 65_536, 1 << 24]);
                        let movement = some_number - some_number % MOVEMENT_NUMBERS;
                        if let Some(number) = numbers.get_mut(movement + 4) {
                            *number = age;
                        }
                    }
                    _ => length = random.index(length + 1),
                }
            }
            let mut out: Vec<u8> = (0..length).map(|_| random.any() as u8).collect();
            let number = pair.write((rule, vessels), &names, &numbers, &mut out);
            let mut young = numbers.clone();
            for age in young.iter_mut().skip(4).step_by(MOVEMENT_NUMBERS) {
                *age = (*age).min(u16::MAX.into());
            }
            let without = Second.write(rule, vessels, &names, &young, &mut out.clone());
            let expected = ages.number(vessels, &numbers, without, number);
            assert_eq!(number, expected, "{numbers:?}");
            if number == 0 {
                let movements = numbers.len() / MOVEMENT_NUMBERS;
                let written = SHEET_HEADER + names.len() + MOVEMENT_BYTES * movements;
                let reading = pair.read(&out[..written]);
                let counts = (reading.rule, reading.vessels, reading.movements as usize);
                assert_eq!(reading.number, 0);
                assert_eq!(counts, (rule, vessels, movements));
            }
        }
        pair.tally
            .print(&format!("written sheets, {} {ages:?}", pair.label()));
        pair.tally
            .expect("write", &[0, 2, 3, 5, 15, 16, 17, 18, 19], 200);
        let over = |number| ages.over.get(number).copied().unwrap_or(0);
        let met = [0, 2, 3, 5, 15, 16, 17, 19].iter().all(|n| over(n) >= 20);
        assert!(met && ages.vessel_first >= 5, "{ages:?}");
        assert!(ages.largest > 200 && ages.one_over > 200, "{ages:?}");
    }
}
