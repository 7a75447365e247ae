//! The typed face of the wrapper against the bare answers under it.

use calls::{Head, Refusal, Reported, Transfer};
use compare::{
    book, damage, foul_book, lift_for, loaded_book, near, room, sheet, tip_for, transfer_for,
    Random, FOUL_CLAUSES,
};
use lumchaki::raw;
use std::collections::BTreeMap;

/// The whole report with its bare answer, and with a result.
type BareWhole = fn(Head, &[u32], &mut [u32]) -> Reported;
type TypedWhole = for<'r> fn(&Head, &[u32], &'r mut [u32]) -> Result<&'r [u32], Refusal>;

/// Both ways to make it.
const WHOLE: [(BareWhole, TypedWhole); 2] = [
    (raw::whole, lumchaki::whole),
    (raw::whole_by_rows, lumchaki::whole_by_rows),
];

/// The number of a result, counted.
#[derive(Default)]
struct Seen(BTreeMap<u32, u32>);

impl Seen {
    fn number<T>(&mut self, result: &Result<T, Refusal>) -> u32 {
        let number = result.as_ref().err().map_or(0, |refusal| refusal.number());
        *self.0.entry(number).or_default() += 1;
        number
    }
}

/// A book on a short table, in half of the rounds with weight on the scale; now and then it is off.
fn any_book(random: &mut Random, round: u32) -> (Head, Vec<u32>) {
    let length = random.index(50);
    let of = if round % 8 < 4 { book } else { loaded_book };
    let (mut head, mut table) = of(random, round % 4, length);
    if length >= 4 && random.once_in(8) {
        let clause = random.one_of(&FOUL_CLAUSES);
        foul_book(random, clause, &mut head, &mut table);
    }
    (head, table)
}

#[test]
fn openings() {
    for rule in 0..6 {
        for vessels in 0..70 {
            let bare = raw::open(rule, vessels);
            match lumchaki::open(rule, vessels) {
                Ok(head) => assert_eq!((0, head), (bare.number, bare.head)),
                Err(refusal) => {
                    assert_eq!((refusal.number(), Head::ZERO), (bare.number, bare.head));
                }
            }
        }
    }
}

#[test]
fn books() {
    let mut random = Random::new(41);
    let mut seen = Seen::default();
    let mut several = 0;
    for round in 0..10_000 {
        let (mut head, mut table) = any_book(&mut random, round);
        let transfer = transfer_for(&mut random, &head, &table);
        let (given_head, mut bare_table) = (head, table.clone());
        let bare = raw::transfer(head, &mut bare_table, transfer);
        let result = lumchaki::transfer(&mut head, &mut table, transfer);
        assert_eq!(seen.number(&result), bare.number);
        assert_eq!((head, &table), (bare.head, &bare_table));
        if let Ok(moved) = result {
            let numbers = (moved.whole, moved.split, moved.born);
            assert_eq!(numbers, (bare.whole, bare.split, bare.born));
            several += u32::from(moved.split > 1);
        } else {
            assert_eq!(head, given_head);
        }

        let vessels = head.vessels.min(64);
        let vessel = near(&mut random, &[0, vessels]);
        let length = random.from_to(0, 2 * vessels) as usize;
        let mut numbers = room(&mut random, length);
        let mut bare_numbers = numbers.clone();
        let bare = raw::held(head, &table, vessel, &mut bare_numbers);
        let result = lumchaki::held(&head, &table, vessel, &mut numbers);
        assert_eq!(seen.number(&result), bare.number);
        if let Ok(report) = result {
            assert_eq!(report, &bare_numbers[..vessels as usize]);
        }
        let (from, to) = (random.below(6), random.below(20));
        let bare = raw::spread(head, &table, vessel, (from, to), &mut bare_numbers);
        let result = lumchaki::spread(&head, &table, vessel, from..=to, &mut numbers);
        assert_eq!(seen.number(&result), bare.number);
        if let Ok(report) = result {
            assert_eq!(report, &bare_numbers[..vessels as usize]);
        }
        let length = random.from_to(0, 2 * vessels * vessels) as usize;
        let lent = room(&mut random, length);
        for (bare, typed) in WHOLE {
            let (mut numbers, mut bare_numbers) = (lent.clone(), lent.clone());
            let bare = bare(head, &table, &mut bare_numbers);
            let result = typed(&head, &table, &mut numbers);
            assert_eq!(seen.number(&result), bare.number);
            if let Ok(report) = result {
                assert_eq!(report, &bare_numbers[..(vessels * vessels) as usize]);
            }
            assert_eq!(numbers, bare_numbers);
        }
    }
    for number in [0, 1, 4, 5, 6, 7, 8, 9, 10, 11, 12, 13, 21] {
        assert!(seen.0.get(&number) > Some(&20), "{number}: {:?}", seen.0);
    }
    assert!(!seen.0.contains_key(&Refusal::ScaleLoaded.number()));
    assert!(several > 15, "{several}");
}

#[test]
fn rules() {
    let mut random = Random::new(44);
    let mut seen = Seen::default();
    for round in 0..6_000 {
        let (mut head, table) = any_book(&mut random, round);
        let vessel = near(&mut random, &[0, head.vessels]);
        let rule = near(&mut random, &[0, 4]);
        let bare = raw::set_rule(head, &table, vessel, rule);
        let result = lumchaki::set_rule(&mut head, &table, vessel, rule);
        assert_eq!(seen.number(&result), bare.number);
        assert_eq!(head, bare.head);
    }
    for number in [0, 1, 2, 4, 5] {
        assert!(seen.0.get(&number) > Some(&20), "{number}: {:?}", seen.0);
    }
}

#[test]
fn lifts_and_tips() {
    let mut random = Random::new(43);
    let mut seen = [Seen::default(), Seen::default()];
    for round in 0..6_000 {
        let (mut head, mut table) = any_book(&mut random, round);
        let lift = lift_for(&mut random, &head, &table);
        let mut bare_table = table.clone();
        let bare = raw::lift(head, &mut bare_table, lift);
        let result = lumchaki::lift(&mut head, &mut table, lift);
        assert_eq!(seen[0].number(&result), bare.number);
        assert_eq!((head, &table), (bare.head, &bare_table));
        if let Ok(moved) = result {
            let numbers = (moved.whole, moved.split, moved.born);
            assert_eq!(numbers, (bare.whole, bare.split, bare.born));
        }
        let tip = tip_for(&mut random, &head);
        let bare = raw::tip(head, &mut bare_table, tip);
        let result = lumchaki::tip(&mut head, &mut table, tip);
        assert_eq!(seen[1].number(&result), bare.number);
        assert_eq!((head, &table), (bare.head, &bare_table));
    }
    let numbers: [&[u32]; 2] = [&[0, 1, 4, 5, 7, 8, 10, 11, 21, 22], &[0, 1, 4, 5, 8, 9, 23]];
    for (seen, numbers) in seen.iter().zip(numbers) {
        for number in numbers {
            assert!(seen.0.get(number) > Some(&20), "{number}: {:?}", seen.0);
        }
    }
}

#[test]
fn sheets() {
    let mut random = Random::new(42);
    let mut seen = Seen::default();
    let (mut stops, mut aged) = (0, 0);
    for round in 0..6_000 {
        let mut bytes = sheet(&mut random, 10).bytes();
        if round % 2 == 1 {
            damage(&mut random, &mut bytes);
        }
        let bare = raw::read(&bytes);
        let result = lumchaki::read(&bytes);
        assert_eq!(seen.number(&result), bare.number);
        if let Ok(summary) = result {
            let counts = [summary.rule, summary.vessels, summary.movements];
            assert_eq!(counts, [bare.rule, bare.vessels, bare.movements]);
        }
        let index = near(&mut random, &[0, bare.movements]);
        let vessel = near(&mut random, &[0, bare.vessels]);
        let bare = raw::movement(&bytes, index);
        let result = lumchaki::movement(&bytes, index);
        assert_eq!(seen.number(&result), bare.number);
        if let Ok(m) = result {
            let fields = [bare.source, bare.destination, bare.minute, bare.weight];
            assert_eq!(m.numbers()[..4], fields);
            assert_eq!(u32::from(m.age), bare.age);
            aged += u32::from(m.age > 0);
        }
        let result = lumchaki::name(&bytes, vessel);
        assert_eq!(seen.number(&result), raw::name_number(&bytes, vessel));
        if let Ok(name) = result {
            assert!(!name.is_empty());
            assert_eq!(
                name.as_ptr_range(),
                raw::name(&bytes, vessel).as_ptr_range()
            );
        }
        let length = random.one_of(&[2, 12, 100]);
        let mut table = room(&mut random, length);
        let mut bare_table = table.clone();
        let bare = raw::run(&bytes, &mut bare_table);
        let result = lumchaki::run(&bytes, &mut table);
        assert_eq!(table, bare_table);
        match result {
            Ok(run) => {
                assert_eq!((run.head, run.even), (bare.head, bare.even));
                assert_eq!(
                    run.stop.map_or(0, |stop| stop.refusal.number()),
                    bare.number
                );
                if let Some(stop) = run.stop {
                    assert_eq!(stop.index, bare.index);
                    stops += 1;
                }
            }
            Err(refusal) => {
                assert_eq!((refusal.number(), Head::ZERO), (bare.number, bare.head));
                seen.number(&Err::<(), _>(refusal));
            }
        }
    }
    assert!(stops > 500 && aged > 200);
    for number in [0, 1, 2, 3, 5, 14, 15, 16, 17, 20] {
        assert!(seen.0.get(&number) > Some(&20), "{number}: {:?}", seen.0);
    }
}

#[test]
fn writing() {
    let names = b"A\0\0\0\0\0\0\0B\0\0\0\0\0\0\0";
    let mut numbers = [0, 1, 2, 3, 0, 1, 0, 2, 1, 65_535];
    let mut out = [0xee; 70];
    let sheet = lumchaki::write(1, 2, names, &numbers, &mut out).expect("a good sheet");
    assert_eq!(sheet.len(), 64);
    let second = lumchaki::movement(sheet, 1).expect("two movements");
    assert_eq!(second, Transfer::new([1, 0, 2, 1]).aged(65_535));
    assert_eq!(lumchaki::name(sheet, 1), Ok(&b"B"[..]));
    let short = lumchaki::write(1, 2, names, &numbers, &mut out[..63]);
    assert_eq!(short, Err(Refusal::OutputShort));
    numbers[9] += 1;
    let over = lumchaki::write(1, 2, names, &numbers, &mut out);
    assert_eq!(over, Err(Refusal::AgeOver));
    let many = lumchaki::write(1, 2, names, &[0; 5 * 4_097], &mut out);
    assert_eq!(many, Err(Refusal::Movements));
}

#[test]
fn no_movements() {
    let mut out = [0xee; 50];
    let sheet = lumchaki::write(3, 2, b"A\0\0\0\0\0\0\0BREAD\0\0\0", &[], &mut out);
    let sheet = sheet.expect("a shift may move nothing");
    assert_eq!(sheet.len(), 40);
    assert_eq!(
        lumchaki::read(sheet).map(|summary| summary.movements),
        Ok(0)
    );
    assert_eq!(lumchaki::movement(sheet, 0), Err(Refusal::PastEnd));
    assert_eq!(lumchaki::name(sheet, 1), Ok(&b"BREAD"[..]));
    let mut table = [7; 4];
    let run = lumchaki::run(sheet, &mut table).expect("the table has a place");
    assert_eq!(Ok(run.head), lumchaki::open(3, 2));
    assert_eq!((run.even, run.stop, table), (0, None, [7; 4]));
    let short = lumchaki::run(sheet, &mut table[..3]);
    assert_eq!(short, Err(Refusal::TableShort));
}
