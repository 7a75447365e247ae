//! The whole report, made both ways (`Pair::whole`): every number of vessels, full tables, numbers up
//! to the largest weight, loads of every origin, and the edges of its room. Its rows are held reports,
//! its columns spread reports over every minute.

use crate::desk::{engines, Desk};
use crate::vectors::SIX;
use calls::{Engine, Head, Piece, PLACES, SCALE, TOP, VESSELS};
use compare::{balance_of, held_by, mixed_rules, room, subjects, Pair, Random};
use std::collections::BTreeSet;

/// Each way to fill a book: heavy or not, loaded or not.
const FILLINGS: [[bool; 2]; 4] = [[false, false], [true, false], [false, true], [true, true]];

/// The holder and the origin of a piece of a book: any two of its vessels. In a loaded book every third
/// piece is on the scale, and the origins of those go round.
fn holder_and_origin(random: &mut Random, vessels: u32, loaded: bool, i: usize) -> [u32; 2] {
    if loaded && i.is_multiple_of(3) {
        return [SCALE, i as u32 / 3 % vessels];
    }
    [random.below(vessels), random.below(vessels)]
}

/// A book of these vessels that fills its table. In a heavy one each piece takes a part of what its
/// holder is short of TOP, and the last piece of the holder all of it.
pub fn full_book(
    random: &mut Random,
    vessels: u32,
    places: usize,
    [heavy, loaded]: [bool; 2],
) -> (Head, Vec<u32>) {
    let mut head = Head {
        rule: random.below(4),
        vessels,
        pieces: places as u32,
        last: TOP,
        accepted: places as u32,
        rules: mixed_rules(random, vessels),
        ..Head::ZERO
    };
    let mut piece = |i| holder_and_origin(random, vessels, loaded, i);
    let pieces: Vec<[u32; 2]> = (0..places).map(&mut piece).collect();
    let mut to_come = [0; VESSELS + 1];
    for &[holder, _] in &pieces {
        to_come[holder as usize] += 1;
    }
    let mut table = Vec::new();
    for [holder, origin] in pieces {
        let balance = balance_of(&mut head, holder);
        to_come[holder as usize] -= 1;
        let weight = match (heavy, to_come[holder as usize]) {
            (false, _) => random.from_to(1, 9),
            (true, 0) => TOP - *balance,
            (true, later) => random.from_to(1, (TOP - *balance - later).min(TOP / 2)),
        };
        *balance += weight;
        table.extend([holder, origin, random.any(), weight]);
    }
    (head, table)
}

/// The report piece by piece: the weight by origin in each vessel.
fn added(head: &Head, table: &[u32]) -> Vec<u32> {
    let mut weights = vec![vec![0; head.vessels as usize]; head.vessels as usize];
    for p in Piece::all(head, table).filter(|p| p.holder != SCALE) {
        weights[p.holder as usize][p.origin as usize] += p.weight;
    }
    weights.concat()
}

/// The report over random numbers, to which adding would show, in a room with `behind` numbers more
/// than it needs; then the refusal of a room that is one number short.
fn asked(
    pair: &mut Pair,
    random: &mut Random,
    head: Head,
    table: &[u32],
    behind: usize,
) -> Vec<u32> {
    let numbers = (head.vessels as usize).pow(2);
    let mut report = room(random, numbers + behind);
    assert_eq!(pair.whole(head, table, &mut report).number, 0);
    let mut short = vec![TOP; numbers - 1];
    assert_eq!(pair.whole(head, table, &mut short).number, 13);
    report.truncate(numbers);
    report
}

/// Row v is the held report of v, and column u what was born at u at any minute. The room of each is so
/// long that a number for the scale would lie in it.
fn rows_and_columns(pair: &mut Pair, head: Head, table: &[u32], report: &[u32]) {
    let row = head.vessels as usize;
    let mut room = vec![TOP; VESSELS + 1];
    for v in 0..row {
        pair.held(head, table, v as u32, &mut room);
        assert_eq!(room[..row], report[v * row..][..row]);
        pair.spread(head, table, v as u32, (0, TOP), &mut room);
        let column = report[v..].iter().step_by(row);
        assert!(room[..row].iter().eq(column));
    }
}

/// Numbers of the reports: which are 0, which are TOP, and which differ from the one with row and
/// column exchanged.
#[derive(Debug, Default)]
struct Covered {
    zero: usize,
    top: usize,
    asymmetric: usize,
}

impl Covered {
    fn add(&mut self, report: &[u32], row: usize) {
        let count = |wanted: &dyn Fn(usize) -> bool| (0..row * row).filter(|&i| wanted(i)).count();
        self.zero += count(&|i| report[i] == 0);
        self.top += count(&|i| report[i] == TOP);
        self.asymmetric += count(&|i| report[i] != report[i % row * row + i / row]);
    }
}

#[test]
fn every_number_of_vessels() {
    for subject in subjects() {
        let mut pair = Pair::new(subject);
        let mut random = Random::new(104);
        let mut covered = Covered::default();
        for vessels in 1..=64 {
            let mut origins = BTreeSet::new();
            for places in [1, 7, 64, 300] {
                for filling in FILLINGS {
                    let (head, table) = full_book(&mut random, vessels, places, filling);
                    origins.extend(held_by(&head, &table, SCALE).iter().map(|p| p.origin));
                    // A row for the scale would lie in the room.
                    let behind = ((SCALE + 1 - vessels) * vessels) as usize + random.index(9);
                    let report = asked(&mut pair, &mut random, head, &table, behind);
                    assert_eq!(report, added(&head, &table));
                    rows_and_columns(&mut pair, head, &table, &report);
                    covered.add(&report, vessels as usize);
                }
            }
            assert!(origins.into_iter().eq(0..vessels), "a load of every origin");
        }
        pair.tally
            .print(&format!("whole, {} {covered:?}", pair.label()));
        for tally in [&pair.tally, &pair.beside] {
            tally.expect("whole", &[0, 13], 512);
            tally.expect("held", &[0], 15_000);
            tally.expect("spread", &[0], 15_000);
        }
        assert!(covered.zero > 10_000 && covered.top > 100 && covered.asymmetric > 10_000);
    }
}

/// 4,096 pieces, also on a table that is longer than that and in a room that is longer than the rows,
/// by up to more than a row for the scale.
#[test]
fn full_tables() {
    for subject in subjects() {
        let mut pair = Pair::new(subject);
        let mut random = Random::new(105);
        for vessels in [1, 2, 3, 31, 63, 64] {
            for filling in FILLINGS {
                for more in [0, 3, 4, 3_000] {
                    let (head, mut table) = full_book(&mut random, vessels, PLACES, filling);
                    table.extend(room(&mut random, more));
                    let report = asked(&mut pair, &mut random, head, &table, more);
                    assert_eq!(report, added(&head, &table));
                    if more == 0 {
                        rows_and_columns(&mut pair, head, &table, &report);
                    }
                }
            }
        }
        pair.tally
            .print(&format!("whole, full tables, {}", pair.label()));
        pair.tally.expect("whole", &[0, 13], 96);
        pair.beside.expect("whole", &[0, 13], 48);
        for report in ["held", "spread"] {
            pair.beside.expect(report, &[0], 300);
        }
    }
}

/// The six movements, worked by hand: under rules 0 and 2 vessel 0 has 1 g of origin 1 and 2 g of
/// origin 2, vessel 1 has 2 g and vessel 2 has 4 g of origin 1.
#[test]
fn six_movements() {
    const FIRST_OUT: [u32; 9] = [0, 1, 2, 0, 2, 0, 0, 4, 0];
    const LAST_OUT: [u32; 9] = [0, 3, 0, 0, 2, 0, 0, 2, 2];
    let left = [FIRST_OUT, LAST_OUT, FIRST_OUT, LAST_OUT];
    for engine in engines() {
        for (rule, expected) in (0..).zip(left) {
            let Desk { head, table, .. } = Desk::after(engine, rule, &SIX);
            for whole in [Engine::whole, Engine::whole_by_rows] {
                let mut report = [7; 11];
                let answer = whole(engine, head, &table, &mut report);
                assert_eq!((answer.number, answer.head), (0, head));
                assert_eq!(report[..9], expected, "{} rule {rule}", engine.label());
                assert_eq!(report[9..], [7, 7]);
            }
        }
    }
}
