//! Sheets of as many movements as there may be: what runs are timed on.

use crate::sheets::names;
use crate::Random;
use calls::{Transfer, MOVEMENTS, VESSELS};
use second::{Sheet, WeighBook};

/// The sheet of two vessels and these movements.
fn of_two(rule: u32, movements: impl Iterator<Item = Transfer>) -> Sheet {
    Sheet {
        rule,
        names: vec![*b"A\0\0\0\0\0\0\0", *b"B\0\0\0\0\0\0\0"],
        movements: movements.collect(),
    }
}

/// The heaviest sheet: two vessels, all at minute 0, 1 gram forth, 2 back, 3 forth and so on. Each movement
/// moves all there is and bears a gram.
pub fn heaviest(rule: u32) -> Sheet {
    let movement = |i: u32| Transfer::new([i % 2, 1 - i % 2, 0, i + 1]);
    of_two(rule, (0..MOVEMENTS as u32).map(movement))
}

/// The heaviest sheet with flour of any age: by birth, what is born lies anywhere among all there is.
pub fn aged_heaviest(random: &mut Random, rule: u32) -> Sheet {
    let mut sheet = heaviest(rule);
    for movement in &mut sheet.movements {
        movement.minute = u16::MAX.into();
        movement.age = random.from_to(0, movement.minute) as u16;
    }
    sheet
}

/// One vessel that is fed a gram at a time, of any age: by birth, each piece lies anywhere among those that
/// are there.
pub fn fed_by_the_gram(random: &mut Random, rule: u32) -> Sheet {
    let minute = u16::MAX.into();
    let mut fed = |_| Transfer::new([0, 1, minute, 1]).aged(random.from_to(0, minute) as u16);
    of_two(rule, (0..MOVEMENTS).map(&mut fed))
}

/// Two vessels that get a thousand pieces each, and then halves of what one of them has go to and fro.
pub fn two_big(random: &mut Random, rule: u32) -> Sheet {
    let mut held = [0; 2];
    let mut movement = |i: u32| {
        let minute = i / 3;
        let to = i % 2;
        if (i as usize) < MOVEMENTS / 2 {
            let weight = random.from_to(1_000, 5_000);
            held[to as usize] += weight;
            return Transfer::new([2 + to, to, minute, weight]);
        }
        let half = held[1 - to as usize] / 2;
        held[1 - to as usize] -= half;
        held[to as usize] += half;
        Transfer::new([1 - to, to, minute, half])
    };
    let movements = (0..MOVEMENTS as u32).map(&mut movement).collect();
    Sheet {
        rule,
        names: names(random, 4),
        movements,
    }
}

/// Any two of all vessels, and any weight up to a few pieces'.
pub fn random_pairs(random: &mut Random, rule: u32) -> Sheet {
    const ALL: u32 = VESSELS as u32;
    let movement = |i: u32| {
        let source = random.below(ALL);
        let destination = (source + random.from_to(1, ALL - 1)) % ALL;
        Transfer::new([source, destination, i / 3, random.from_to(1, 5_000)])
    };
    let movements = (0..MOVEMENTS as u32).map(movement).collect();
    Sheet {
        rule,
        names: names(random, ALL),
        movements,
    }
}

/// A bakery's day: 8 suppliers, 16 silos, 16 leavens and 24 mixers. Deliveries of whole lots, then
/// mostly parts of them, and now and then all that is left of a leaven.
pub fn working_day(random: &mut Random, rule: u32) -> Sheet {
    const SUPPLIERS: u32 = 0;
    const SILOS: u32 = 8;
    const LEAVENS: u32 = 24;
    const MIXERS: u32 = 40;
    let mut book = WeighBook::new(VESSELS as u32);
    let mut movements = Vec::new();
    while movements.len() < MOVEMENTS {
        let supplier = SUPPLIERS + random.below(8);
        let silo = SILOS + random.below(16);
        let leaven = LEAVENS + random.below(16);
        let mixer = MIXERS + random.below(24);
        let left = book.weights[leaven as usize] as u32;
        let (source, destination, weight) = match random.below(40) {
            0..=3 => (supplier, silo, random.from_to(20_000, 60_000)),
            4..=14 => (silo, leaven, random.from_to(200, 2_000)),
            15..=26 => (silo, mixer, random.from_to(500, 4_000)),
            27..=37 => (leaven, mixer, random.from_to(100, 1_500)),
            38 => (leaven, silo, random.from_to(50, 300)),
            _ => (leaven, mixer, left),
        };
        let minute = movements.len() as u32 / 3;
        let movement = Transfer::new([source, destination, minute, weight]);
        if book.feed(movement) == 0 {
            movements.push(movement);
        }
    }
    Sheet {
        rule,
        names: names(random, VESSELS as u32),
        movements,
    }
}

/// A bakery's day with flour of any age: the same movements, and births in no order.
pub fn aged_day(random: &mut Random, rule: u32) -> Sheet {
    let mut sheet = working_day(random, rule);
    for movement in &mut sheet.movements {
        let oldest = movement.minute.min(u16::MAX.into());
        movement.age = random.from_to(0, oldest) as u16;
    }
    sheet
}
