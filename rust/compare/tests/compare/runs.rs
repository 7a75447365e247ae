//! Whole runs, with what decides where pieces are kept in order and the table is written once: tables that
//! fill up, equal births, births between others, stops at every movement, and sheets whose pieces move
//! thousands of times.

mod long;
mod maker;
mod reached;
mod stopped;

use calls::Ran;
use compare::{room, subjects, Pair, Random};
use maker::{aimed, aimed_among, Maker};
use reached::Reached;

/// Each subject beside the second implementation.
fn pairs() -> Vec<Pair> {
    subjects().into_iter().map(Pair::new).collect()
}

/// Runs a sheet by each subject on the same table, of so many numbers, which are any. They answer the same
/// and leave the same.
fn run_all(
    pairs: &mut [Pair],
    random: &mut Random,
    sheet: &[u8],
    length: usize,
) -> (Ran, Vec<u32>) {
    let marks = room(random, length);
    let mut run = |pair: &mut Pair| {
        let mut table = marks.clone();
        (pair.run(sheet, &mut table), table)
    };
    let ran: Vec<_> = pairs.iter_mut().map(&mut run).collect();
    let [first, others @ ..] = &ran[..] else {
        unreachable!("there are subjects");
    };
    assert!(others.iter().all(|other| other == first));
    first.clone()
}

/// Prints what was reached and what the subjects answered.
fn print(title: &str, pairs: &[Pair], reached: &Reached) {
    for pair in pairs {
        let title = format!("{title}, {} {reached:?}", pair.label());
        pair.tally.print(&title);
    }
}

/// Runs a sheet that its book accepts on tables of these lengths. Only a table without a place stops it.
fn run_on(pairs: &mut [Pair], random: &mut Random, maker: &Maker, lengths: &[usize]) {
    let (bytes, pieces) = (maker.sheet.bytes(), maker.pieces());
    for &length in lengths {
        let (ran, _) = run_all(pairs, random, &bytes, length);
        let places = length / 4;
        let number = match places {
            0 => 1,
            _ if places < pieces => 11,
            _ => 0,
        };
        let left = pieces.min(places) as u32;
        assert_eq!((ran.number, ran.head.pieces), (number, left));
    }
}

/// Tables of every small length, just long enough, a place short, and with room.
#[test]
fn tables() {
    let mut pairs = pairs();
    let mut random = Random::new(111);
    let mut reached = Reached::default();
    for round in 0..24_000 {
        let movements = random.from_to(1, 60);
        let maker = aimed(&mut random, round % 4, movements);
        let pieces = maker.pieces();
        let odd = random.index(4);
        let exact = 4 * pieces + odd;
        let roomy = exact + 4 + random.index(300);
        let lengths = [round as usize % 71, exact, exact - 4, roomy];
        run_on(&mut pairs, &mut random, &maker, &lengths);
        reached.watch(&maker.sheet, pieces, true);
        if pieces > 1 {
            reached.watch(&maker.sheet, pieces - 1, false);
        }
    }
    print("runs, tables", &pairs, &reached);
    for pair in &pairs {
        pair.tally.expect("run", &[0, 1, 11], 1_000);
    }
    assert!(reached.full == 24_000 && reached.short > 22_000);
    reached.expect(15_000);
}

/// Few vessels with many pieces.
#[test]
fn many_pieces() {
    let mut pairs = pairs();
    let mut random = Random::new(116);
    let mut reached = Reached::default();
    for round in 0..120 {
        let vessels = random.from_to(2, 4);
        let movements = random.from_to(300, 700);
        let maker = aimed_among(&mut random, round % 4, vessels, movements);
        let exact = 4 * maker.pieces() + random.index(4);
        let lengths = [exact, exact - 4, exact + 4, exact / 2];
        run_on(&mut pairs, &mut random, &maker, &lengths);
        reached.watch(&maker.sheet, maker.pieces(), true);
    }
    print("runs, many pieces", &pairs, &reached);
    assert!(reached.full == 120 && reached.long > 40 && reached.notes > 1_500_000);
    reached.expect(1_000);
}
