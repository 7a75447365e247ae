//! Runs whose pieces move so often that the notes of their receipts are closed up many times.

use super::maker::{brimming, to_and_fro, Births, Maker};
use super::reached::{Reached, NOTES};
use super::stopped::{stop, Full, NUMBERS};
use super::{pairs, print, run_all, run_on};
use calls::{MOVEMENTS, PLACES};
use compare::{aged_heaviest, Pair, Random};
use second::Book;

/// Runs a sheet on tables of these lengths, and watches.
fn run_and_watch(
    pairs: &mut [Pair],
    random: &mut Random,
    reached: &mut Reached,
    (maker, lengths): (&Maker, &[usize]),
) {
    assert!(maker.sheet.movements.len() <= MOVEMENTS);
    run_on(pairs, random, maker, lengths);
    for length in lengths {
        reached.watch(&maker.sheet, length / 4, false);
    }
}

/// Tables with just as many places as a sheet needs, with one place fewer, and with room.
fn three(random: &mut Random, maker: &Maker) -> [usize; 3] {
    let exact = 4 * maker.pieces();
    [
        exact + random.index(4),
        exact - 1 - random.index(4),
        exact + random.from_to(4, 900) as usize,
    ]
}

/// Hundreds of pieces to and fro, hundreds of times; and stopped somewhere by each number.
#[test]
fn hundreds_to_and_fro() {
    let mut pairs = pairs();
    let mut random = Random::new(113);
    let (mut reached, mut full) = (Reached::default(), Full::default());
    for round in 0..60 {
        let births = [Births::Young, Births::Few, Births::Any][round as usize / 4 % 3];
        let vessels = random.one_of(&[2, 3, 5, 64]);
        let mut maker = Maker::new(&mut random, round % 4, vessels).light(births);
        let (pieces, times) = (random.from_to(200, 500), random.from_to(100, 300));
        to_and_fro(&mut random, &mut maker, pieces, times);
        let on_three = (&maker, &three(&mut random, &maker)[..]);
        run_and_watch(&mut pairs, &mut random, &mut reached, on_three);

        let sheet = &maker.sheet;
        let number = NUMBERS[round as usize % NUMBERS.len()];
        let index = sheet.movements.len() - 1 - random.index(times as usize);
        let mut book = Book::open(sheet.rule, vessels, PLACES).expect("a sheet");
        for &t in &sheet.movements[..index] {
            book.transfer(t).expect("accepted");
        }
        let counts = (&mut full, &mut reached);
        let place = (sheet, &book, index);
        assert!(stop(&mut pairs, &mut random, place, number, counts));
    }
    let title = format!("runs, hundreds to and fro {full:?}");
    print(&title, &pairs, &reached);
    for pair in &pairs {
        pair.tally.expect("run", &[0, 6, 7, 8, 9, 11, 21], 10);
    }
    assert!(reached.full >= 60 && reached.short >= 60 && reached.long > 180);
    assert!(reached.closed > 700 && reached.notes > 10_000_000 && reached.most > 500);
}

/// Nearly as many pieces as a table has places at most.
#[test]
fn thousands_to_and_fro() {
    let mut pairs = pairs();
    let mut random = Random::new(114);
    let mut reached = Reached::default();
    for rule in 0..4 {
        for births in [Births::Few, Births::Any] {
            let mut maker = Maker::new(&mut random, rule, 3).light(births);
            let pieces = random.from_to(3_900, 3_980);
            to_and_fro(&mut random, &mut maker, pieces, 50);
            let on_three = (&maker, &three(&mut random, &maker)[..]);
            run_and_watch(&mut pairs, &mut random, &mut reached, on_three);
        }
    }
    print("runs, thousands to and fro", &pairs, &reached);
    assert!(reached.full >= 8 && reached.short >= 8 && reached.long == 24);
}

/// The heaviest sheet of any ages: the only way to have 4,096 pieces is that each movement adds one.
#[test]
fn every_place_of_the_longest_table() {
    let mut pairs = pairs();
    let mut random = Random::new(115);
    let mut reached = Reached::default();
    for rule in 0..4 {
        let mut sheet = aged_heaviest(&mut random, rule);
        let length = [16_384, 16_387, 16_400, 20_003][rule as usize];
        let (ran, _) = run_all(&mut pairs, &mut random, &sheet.bytes(), length);
        assert_eq!((ran.number, ran.head.pieces), (0, PLACES as u32));
        reached.watch(&sheet, PLACES, false);
        // A place short, the last movement is refused, but not where it takes just what there is.
        let short = 4 * PLACES - 1;
        let (ran, _) = run_all(&mut pairs, &mut random, &sheet.bytes(), short);
        assert_eq!((ran.number, ran.index as usize), (11, MOVEMENTS - 1));
        sheet.movements[MOVEMENTS - 1].weight -= 1;
        let (ran, _) = run_all(&mut pairs, &mut random, &sheet.bytes(), short);
        assert_eq!((ran.number, ran.even), (0, 1));
    }
    print("runs, every place", &pairs, &reached);
    assert!(reached.full == 4 && reached.closed > 1_000);
}

/// A movement that makes as many notes as there is room for, up to two fewer and up to two more; and what
/// comes behind it.
#[test]
fn notes_at_the_brim() {
    let mut pairs = pairs();
    let mut random = Random::new(117);
    let mut reached = Reached::default();
    for round in 0..120 {
        let (rule, notes) = (round % 4, NOTES - 2 + round as usize / 4 % 5);
        let mut maker = Maker::new(&mut random, rule, 2).light(Births::Few);
        let at = brimming(&mut random, &mut maker, notes);
        let mut brim = Reached::default();
        let exact = [4 * maker.pieces() + random.index(4)];
        run_and_watch(&mut pairs, &mut random, &mut brim, (&maker, &exact));
        assert_eq!(brim.notes, notes as u64);
        assert_eq!(brim.closed, u64::from(notes > NOTES));
        for weight in [maker.balance(at) - 1, 1, 2] {
            maker.moves(&mut random, at, 1 - at, weight);
        }
        let exact = [4 * maker.pieces() + random.index(4)];
        run_and_watch(&mut pairs, &mut random, &mut reached, (&maker, &exact));
    }
    print("runs, at the brim", &pairs, &reached);
    assert!(reached.full == 120 && reached.closed == 120);
}
