//! Calls on books: any table, any head, any argument.

use calls::{Head, Refusal, Transfer, Transferred, SCALE, TOP};
use compare::{
    book, foul_book, held_by, lift_for, loaded_book, near, report_room, room, subjects, tip_for,
    transfer_for, Pair, Random, FOUL_CLAUSES,
};

/// Table lengths: none, every small one, those around 4,096 places.
pub fn lengths() -> Vec<usize> {
    let mut lengths: Vec<usize> = (0..=40).collect();
    lengths.extend([100, 257, 1000]);
    lengths
}

pub const LONG: [usize; 7] = [16_380, 16_383, 16_384, 16_385, 16_388, 16_391, 20_000];

const OFF: u32 = Refusal::BookOff.number();

/// What accepted transfers or lifts were like.
#[derive(Debug, Default)]
pub struct Moves {
    splits: u32,
    births: u32,
    several_whole: u32,
    heavy: u32,
    ties: u32,
}

impl Moves {
    pub fn add(&mut self, answer: &Transferred, transfer: Transfer, tied: bool) {
        if answer.number == 0 {
            self.splits += answer.split;
            self.births += u32::from(answer.born > 0);
            self.several_whole += u32::from(answer.whole > 1);
            self.heavy += u32::from(transfer.weight > TOP / 2);
            // Some of the tied pieces went and some stayed, or they went one after the other.
            self.ties += u32::from(tied && answer.whole + answer.split > 0);
        }
    }

    pub fn expect(&self, at_least: u32) {
        let counts = [
            self.splits,
            self.births,
            self.several_whole,
            self.heavy,
            self.ties,
        ];
        assert!(counts.iter().all(|&c| c > at_least), "{self:?}");
    }
}

/// Whether a vessel's rule goes by birth and finds two of its pieces born at the same minute.
pub fn tied(head: &Head, table: &[u32], vessel: u32) -> bool {
    let held = held_by(head, table, vessel);
    let mut births: Vec<u32> = held.iter().map(|p| p.birth).collect();
    births.sort_unstable();
    let by_birth = matches!(head.rules.get(vessel as usize), Some(2 | 3));
    by_birth && births.windows(2).any(|w| w[0] == w[1])
}

/// The three reports with arguments near the limits.
pub fn reports(pair: &mut Pair, random: &mut Random, head: Head, table: &[u32]) {
    let vessels = head.vessels.min(65);
    let length = report_room(random, vessels);
    let mut numbers = room(random, length);
    let vessel = near(random, &[0, vessels]);
    pair.held(head, table, vessel, &mut numbers);
    let mut numbers = room(random, length);
    let origin = near(random, &[0, 1, vessels]);
    let early = head.last.saturating_sub(2);
    let span = (near(random, &[0, early]), near(random, &[head.last, TOP]));
    pair.spread(head, table, origin, span, &mut numbers);
    let length = report_room(random, vessels * vessels);
    let mut numbers = room(random, length);
    pair.whole(head, table, &mut numbers);
}

#[test]
fn opening() {
    for subject in subjects() {
        let mut pair = Pair::new(subject);
        let limits = [TOP - 1, TOP, 1 << 16, 256, 257, 65_540];
        for rule in (0..10).chain(limits) {
            for vessels in (0..=130).chain(limits) {
                pair.open(rule, vessels);
            }
        }
        pair.tally.print(&format!("opening, {}", pair.label()));
        pair.tally.expect("open", &[0, 2, 3], 200);
    }
}

#[test]
fn calls_on_books_that_add_up() {
    for subject in subjects() {
        let mut pair = Pair::new(subject);
        let mut random = Random::new(1);
        let mut covered = Moves::default();
        for round in 0..600 {
            for &length in &lengths() {
                let of = if round % 8 < 4 { book } else { loaded_book };
                let (mut head, mut table) = of(&mut random, round % 4, length);
                for _ in 0..3 {
                    let transfer = transfer_for(&mut random, &head, &table);
                    let tied = tied(&head, &table, transfer.source);
                    let answer = pair.transfer(head, &mut table, transfer);
                    covered.add(&answer, transfer, tied);
                    head = answer.head;
                }
                reports(&mut pair, &mut random, head, &table);
            }
        }
        let (ages, stirs, beside) = (&pair.ages, &pair.stirs, &pair.beside);
        pair.tally.print(&format!(
            "books that add up, {} {covered:?} {ages:?} {stirs:?} beside a load {beside:?}",
            pair.label()
        ));
        stirs.expect(20);
        assert!(stirs.parts > 400 && stirs.beside > 100);
        assert!(stirs.empty > 400 && stirs.outnumbered > 1_000);
        covered.expect(500);
        ages.expect(&[0, 5, 6, 7, 8, 9, 10, 11], 50);
        // A book that adds up is never off, except on a table too short to hold one.
        pair.tally
            .expect("transfer", &[0, 1, 5, 6, 7, 8, 9, 10, 11, 21], 100);
        pair.tally.expect("held", &[0, 1, 5, 13], 100);
        pair.tally.expect("spread", &[0, 1, 5, 12, 13], 100);
        pair.tally.expect("whole", &[0, 1, 13], 100);
        beside.expect("transfer", &[0, 5, 6, 7, 8, 9, 10, 11, 21], 500);
        beside.expect("held", &[0, 5, 13], 500);
        beside.expect("spread", &[0, 5, 12, 13], 500);
        beside.expect("whole", &[0, 13], 500);
    }
}

#[test]
fn calls_on_long_tables() {
    for subject in subjects() {
        let mut pair = Pair::new(subject);
        let mut random = Random::new(2);
        let mut full = 0;
        for round in 0..40 {
            for &length in &LONG {
                let of = if round % 8 < 4 { book } else { loaded_book };
                let (mut head, mut table) = of(&mut random, round % 4, length);
                for _ in 0..6 {
                    let transfer = transfer_for(&mut random, &head, &table);
                    head = pair.transfer(head, &mut table, transfer).head;
                    full += u32::from(head.pieces == 4096);
                }
                reports(&mut pair, &mut random, head, &table);
            }
        }
        let (stirs, beside) = (&pair.stirs, &pair.beside);
        pair.tally.print(&format!(
            "long tables, {} ({full} full ones) {stirs:?} beside a load {beside:?}",
            pair.label()
        ));
        assert!(full > 50 && stirs.parts > 20 && stirs.several > 10);
        for tally in [&pair.tally, beside] {
            assert!(tally.count("transfer", 0) > 100);
            assert!(tally.count("transfer", 11) > 20);
            assert!(tally.count("spread", 0) > 20 && tally.count("whole", 0) > 20);
        }
    }
}

#[test]
fn heads_that_do_not_add_up() {
    for subject in subjects() {
        let mut pair = Pair::new(subject);
        let mut random = Random::new(3);
        let mut covered = [0; FOUL_CLAUSES.len()];
        let mut lengths = lengths();
        lengths.retain(|&length| length >= 4);
        for round in 0..80 {
            for &length in lengths.iter().chain(&LONG[round % LONG.len()..][..1]) {
                for (clause, count) in FOUL_CLAUSES.into_iter().zip(&mut covered) {
                    let of = if round % 8 < 4 { book } else { loaded_book };
                    let (mut head, mut table) = of(&mut random, round as u32 % 4, length);
                    if !foul_book(&mut random, clause, &mut head, &mut table) {
                        continue;
                    }
                    *count += 1;
                    let transfer = transfer_for(&mut random, &head, &table);
                    let [vessel, rule] = [0, 5].map(|mark| near(&mut random, &[mark]));
                    let numbers = [
                        pair.set_rule(head, &table, vessel, rule).number,
                        pair.transfer(head, &mut table, transfer).number,
                        pair.lift(head, &mut table, transfer.lift()).number,
                        pair.tip(head, &mut table, transfer.tip()).number,
                    ];
                    assert_eq!(numbers, [OFF; 4], "{clause}");
                    reports(&mut pair, &mut random, head, &table);
                }
            }
        }
        pair.tally.print(&format!("heads off, {}", pair.label()));
        println!("{:?}", FOUL_CLAUSES.iter().zip(covered).collect::<Vec<_>>());
        assert!(covered.into_iter().all(|count| count > 500), "{covered:?}");
        let calls = [
            "set rule", "transfer", "lift", "tip", "held", "spread", "whole",
        ];
        for call in calls {
            pair.tally.expect(call, &[OFF], 10_000);
        }
    }
}

/// 4,097 pieces that add up in every other way lie in a table long enough for them.
#[test]
fn more_pieces_than_places_on_a_long_table() {
    for subject in subjects() {
        let mut pair = Pair::new(subject);
        let mut random = Random::new(4);
        for rule in 0..4 {
            let (mut head, mut table) = book(&mut random, rule, 20_000);
            head.vessels = 2;
            head.rules[2..].fill(0);
            head.balances = [0; 64];
            head.scale = 0;
            head.pieces = 4097;
            head.accepted = rule;
            head.last = 9;
            for piece in table.chunks_exact_mut(4).take(4097) {
                piece.copy_from_slice(&[0, 1, 5, 1]);
                head.balances[0] += 1;
            }
            let transfer = Transfer::new([0, 1, 9, 4097]);
            let answer = pair.transfer(head, &mut table, transfer);
            assert_eq!(answer.number, OFF);
            // One piece fewer is a full book.
            head.pieces -= 1;
            head.balances[0] -= 1;
            let transfer = Transfer::new([0, 1, 9, 4096]);
            let answer = pair.transfer(head, &mut table, transfer);
            assert_eq!((answer.number, answer.whole), (0, 4096));
        }
        pair.tally.expect("transfer", &[0, 4], 4);
    }
}

#[test]
fn any_head_and_any_table() {
    for subject in subjects() {
        let mut pair = Pair::new(subject);
        let mut random = Random::new(5);
        for _ in 0..5_000 {
            let length = random.index(60);
            let mut table: Vec<u32> = (0..length).map(|_| near(&mut random, &[1, 2])).collect();
            let mut head = Head::ZERO;
            head.rule = near(&mut random, &[1, 3]);
            head.vessels = near(&mut random, &[3, 64]);
            head.pieces = near(&mut random, &[1, 2, length as u32 / 4]);
            head.last = near(&mut random, &[2, 1000]);
            head.accepted = near(&mut random, &[3, 1000]);
            let vessels = head.balances.iter_mut().zip(&mut head.rules);
            for (balance, rule) in vessels.take(4) {
                *balance = near(&mut random, &[0, 0, 2]);
                *rule = near(&mut random, &[0, 0, 1, 4]);
            }
            head.scale = near(&mut random, &[0, 0, 0, 2]);
            if length > 0 && random.once_in(4) {
                let at = random.index(length);
                table[at] = near(&mut random, &[SCALE]);
            }
            let transfer = transfer_for(&mut random, &head, &table);
            pair.transfer(head, &mut table, transfer);
            let lift = lift_for(&mut random, &head, &table);
            pair.lift(head, &mut table, lift);
            let tip = tip_for(&mut random, &head);
            pair.tip(head, &mut table, tip);
            let vessel = near(&mut random, &[0, head.vessels]);
            pair.set_rule(head, &table, vessel, near(&mut random, &[4]));
            reports(&mut pair, &mut random, head, &table);
        }
        pair.tally.print(&format!("any head, {}", pair.label()));
        for call in ["transfer", "lift", "tip", "set rule"] {
            assert!(pair.tally.count(call, 4) > 2_000);
            assert!(pair.tally.count(call, 1) > 100);
        }
    }
}
