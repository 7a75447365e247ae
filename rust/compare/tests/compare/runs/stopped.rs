//! Stops at every movement: each of the numbers that a movement may give, at each index.

use super::maker::{aimed, picked, Maker};
use super::reached::Reached;
use super::{pairs, print, run_all};
use calls::{Transfer, PLACES, TOP};
use compare::{Pair, Random};
use second::{Book, Sheet};
use std::collections::BTreeMap;

/// The refusals of a movement on a sheet that can be read.
pub const NUMBERS: [u32; 6] = [6, 7, 8, 21, 9, 11];

/// How a table that is full refuses a movement.
#[derive(Debug, Default)]
pub struct Full {
    /// For a part of a piece, and for what is born.
    pub part: u32,
    pub birth: u32,
    /// Where pieces would go whole before.
    pub behind: u32,
}

/// A weight that needs a place, after some of the source's pieces went whole.
fn needing_a_place(random: &mut Random, source: &[u32], full: &mut Full) -> u32 {
    let whole = random.index(source.len() + 1);
    let sum: u32 = source[..whole].iter().sum();
    full.behind += u32::from(whole > 0);
    match source.get(whole) {
        Some(&next) if next > 1 => {
            full.part += 1;
            sum + random.one_of(&[1, next - 1])
        }
        Some(_) => {
            full.birth += 1;
            source.iter().sum::<u32>() + 1
        }
        None => {
            full.birth += 1;
            sum + random.one_of(&[1, 1, 9])
        }
    }
}

/// A movement that is refused by a number, in place of one that a book accepts, and the places of a table.
/// None where no movement can be refused so.
fn faulty(
    random: &mut Random,
    book: &Book,
    good: Transfer,
    number: u32,
    full: &mut Full,
) -> Option<(Transfer, usize)> {
    let head = book.head();
    let mut t = good;
    match number {
        6 => t.destination = t.source,
        7 => t.weight = 0,
        8 => t.minute = random.one_of(&[0, head.last.checked_sub(1)?]),
        21 => {
            let above = good.minute.checked_add(1)?.try_into().ok()?;
            t = t.aged(random.one_of(&[above, u16::MAX]));
        }
        9 => {
            let held = head.balances.iter().position(|&balance| balance > 0)? as u32;
            (t.source, t.destination) = ((held + 1) % head.vessels, held);
            let least = TOP - head.balances[held as usize] + 1;
            t.weight = random.one_of(&[least, least, TOP]);
        }
        _ => {
            if head.pieces == 0 {
                return None;
            }
            let source = picked(&book.pieces(), t.source, head.rule);
            let source: Vec<u32> = source.iter().map(|p| p.weight).collect();
            t.weight = needing_a_place(random, &source, full);
            return Some((t, head.pieces as usize));
        }
    }
    Some((t, head.pieces as usize + random.from_to(1, 50) as usize))
}

/// A sheet, the book that its movements before an index make, and that index.
pub type Place<'s> = (&'s Sheet, &'s Book, usize);

/// Stops a sheet at an index by a number, on a table that is full for 11 and has room for the others. What
/// the run leaves is what the movements before leave. False where no movement can be refused so.
pub fn stop(
    pairs: &mut [Pair],
    random: &mut Random,
    (sheet, book, index): Place,
    number: u32,
    (full, reached): (&mut Full, &mut Reached),
) -> bool {
    let good = sheet.movements[index];
    let Some((t, places)) = faulty(random, book, good, number, full) else {
        return false;
    };
    let mut stopped = sheet.clone();
    stopped.movements[index] = t;
    let length = 4 * places + random.index(4);
    let seed = random.bits();
    let (ran, table) = run_all(pairs, &mut Random::new(seed), &stopped.bytes(), length);
    assert_eq!((ran.number, ran.index as usize), (number, index));
    reached.watch(&stopped, places, false);
    // The same table before, and the sheet cut there.
    stopped.movements.truncate(index);
    let (cut, cut_table) = run_all(pairs, &mut Random::new(seed), &stopped.bytes(), length);
    assert_eq!((cut.number, cut.index), (0, ran.index));
    assert_eq!((cut.head, cut.even), (ran.head, ran.even));
    assert_eq!(cut_table, table);
    true
}

/// The sheets of these tests: light ones, at minutes that an age may be above.
fn stoppable(random: &mut Random, rule: u32, movements: u32) -> Maker {
    loop {
        let maker = aimed(random, rule, movements);
        let early = maker.sheet.movements.iter().all(|t| t.minute < 50_000);
        let heaviest = maker.book.head().balances.into_iter().max();
        if early && heaviest < Some(1_000_000) {
            return maker;
        }
    }
}

#[test]
fn at_every_movement() {
    const SHORTEST: u32 = 24;
    const LONGEST: u32 = 40;
    let mut pairs = pairs();
    let mut random = Random::new(112);
    let mut reached = Reached::default();
    let mut full = Full::default();
    // How often runs stopped by each number at each index.
    let mut at = BTreeMap::new();
    for round in 0..80 {
        let movements = random.from_to(SHORTEST, LONGEST);
        let sheet = stoppable(&mut random, round % 4, movements).sheet;
        let vessels = sheet.names.len() as u32;
        let mut book = Book::open(sheet.rule, vessels, PLACES).expect("a sheet");
        for (index, &t) in sheet.movements.iter().enumerate() {
            for number in NUMBERS {
                let counts = (&mut full, &mut reached);
                let place = (&sheet, &book, index);
                if stop(&mut pairs, &mut random, place, number, counts) {
                    *at.entry((number, index)).or_insert(0) += 1;
                }
            }
            book.transfer(t).expect("accepted");
        }
    }
    print(&format!("runs, stops {full:?}"), &pairs, &reached);
    for pair in &pairs {
        pair.tally.expect("run", &[0, 6, 7, 8, 9, 11, 21], 2_000);
    }
    // Before the first accepted movement no clock goes back, nothing is overfull and no table full.
    for number in NUMBERS {
        let from = usize::from([8, 9, 11].contains(&number));
        for index in from..SHORTEST as usize {
            let count = at.get(&(number, index)).copied().unwrap_or(0);
            assert_eq!(count, 80, "{number} at {index}");
        }
    }
    assert!(full.part > 500 && full.birth > 500 && full.behind > 1_000);
}
