//! Lifts and tips on books: any table, any head, any argument, and transfers and reports between them.

use crate::books::{lengths, reports, tied, Moves, LONG};
use calls::{Engine, Head, Piece, Refusal, Tip, SCALE};
use compare::{book, lift_for, loaded_book, subjects, tip_for, transfer_for, Pair, Random};

/// What accepted tips were like.
#[derive(Debug, Default)]
struct Tips {
    accepted: u32,
    several: u32,
    /// Pieces of others lay behind some of the scale's.
    others_behind: u32,
    /// Into the vessel that the lift was from.
    back: u32,
    /// Into another vessel than one that was too full, by a tip before.
    elsewhere: u32,
}

impl Tips {
    fn add(&mut self, head: &Head, table: &[u32]) {
        let mut holders: Vec<u32> = Piece::all(head, table).map(|p| p.holder).collect();
        let lifted = holders.iter().filter(|&&h| h == SCALE).count();
        self.accepted += 1;
        self.several += u32::from(lifted > 1);
        let behind = holders.split_off(holders.len() - lifted);
        self.others_behind += u32::from(behind.iter().any(|&h| h != SCALE));
    }

    fn expect(&self, at_least: u32) {
        let counts = [
            self.accepted,
            self.several,
            self.others_behind,
            self.back,
            self.elsewhere,
        ];
        assert!(counts.iter().all(|&c| c > at_least), "{self:?}");
    }
}

/// Lifts and tips on books, and what they came to.
struct Weighing<'p> {
    pair: &'p mut Pair,
    random: Random,
    moves: Moves,
    tips: Tips,
}

impl Weighing<'_> {
    /// A lift, and the head after it.
    fn lift(&mut self, head: Head, table: &mut [u32]) -> Head {
        let lift = lift_for(&mut self.random, &head, table);
        let tied = tied(&head, table, lift.source);
        let answer = self.pair.lift(head, table, lift);
        self.moves.add(&answer, lift.to(SCALE), tied);
        if answer.number == 0 && self.random.once_in(4) {
            // Back where it came from.
            let tip = lift.to(lift.source).tip();
            let head = self.tip(answer.head, table, tip);
            self.tips.back += u32::from(head.scale == 0);
            return head;
        }
        answer.head
    }

    /// A tip, and the head after it.
    fn tip(&mut self, head: Head, table: &mut [u32], tip: Tip) -> Head {
        let before = table.to_vec();
        let answer = self.pair.tip(head, table, tip);
        if answer.number == 0 {
            self.tips.add(&head, &before);
        }
        if answer.number == Refusal::Overfull.number() {
            let emptiest = (0..head.vessels).min_by_key(|&v| head.balances[v as usize]);
            let destination = emptiest.expect("a book has a vessel");
            let other = self.pair.tip(head, table, Tip { destination, ..tip });
            self.tips.elsewhere += u32::from(other.number == 0);
            return other.head;
        }
        answer.head
    }

    /// Some calls on a book: lifts and tips, mostly those that the scale allows, and transfers and
    /// reports, which it always does.
    fn calls(&mut self, (mut head, mut table): (Head, Vec<u32>), count: u32) -> Head {
        for _ in 0..count {
            if (head.scale > 0) == self.random.once_in(6) {
                head = self.lift(head, &mut table);
            } else {
                let tip = tip_for(&mut self.random, &head);
                head = self.tip(head, &mut table, tip);
            }
            if self.random.once_in(2) {
                let t = transfer_for(&mut self.random, &head, &table);
                head = self.pair.transfer(head, &mut table, t).head;
            }
        }
        reports(self.pair, &mut self.random, head, &table);
        head
    }
}

fn lifts_and_tips_of(subject: &'static dyn Engine) {
    let mut pair = Pair::new(subject);
    let mut weighing = Weighing {
        pair: &mut pair,
        random: Random::new(81),
        moves: Moves::default(),
        tips: Tips::default(),
    };
    for round in 0..300 {
        for &length in &lengths() {
            let of = if round % 8 < 4 { book } else { loaded_book };
            let book = of(&mut weighing.random, round % 4, length);
            weighing.calls(book, 4);
        }
    }
    let Weighing { moves, tips, .. } = weighing;
    let (ages, stirs, beside) = (&pair.lift_ages, &pair.stirs, &pair.beside);
    pair.tally.print(&format!(
        "lifts and tips, {} {moves:?} {tips:?} {ages:?} {stirs:?} beside a load {beside:?}",
        pair.label()
    ));
    stirs.expect(30);
    assert!(stirs.parts > 400 && stirs.lifts > 1_000 && stirs.beside > 20);
    assert!(stirs.empty > 200 && stirs.outnumbered > 1_000);
    moves.expect(500);
    tips.expect(200);
    ages.expect_of_lifts(&[0, 5, 7, 8, 10, 11, 22], 30);
    pair.tally
        .expect("lift", &[0, 1, 5, 7, 8, 10, 11, 21, 22], 100);
    pair.tally.expect("tip", &[0, 1, 5, 8, 9, 23], 100);
    for tally in [&pair.tally, &pair.beside] {
        assert!(tally.count("transfer", 0) > 1_000 && tally.count("whole", 0) > 1_000);
    }
    pair.tally
        .expect("transfer", &[0, 1, 5, 6, 7, 8, 9, 10, 11, 21], 100);
    pair.tally.expect("held", &[0, 1, 5, 13], 100);
    pair.tally.expect("spread", &[0, 1, 5, 12, 13], 100);
    pair.tally.expect("whole", &[0, 1, 13], 100);
}

#[test]
fn lifts_and_tips_on_books_that_add_up() {
    for subject in subjects() {
        lifts_and_tips_of(subject);
    }
}

#[test]
fn lifts_and_tips_on_long_tables() {
    for subject in subjects() {
        let mut pair = Pair::new(subject);
        let mut weighing = Weighing {
            pair: &mut pair,
            random: Random::new(82),
            moves: Moves::default(),
            tips: Tips::default(),
        };
        let mut full = 0;
        for round in 0..32 {
            for &length in &LONG {
                let of = if round % 8 < 4 { book } else { loaded_book };
                let book = of(&mut weighing.random, round % 4, length);
                let head = weighing.calls(book, 6);
                full += u32::from(head.pieces == 4096);
            }
        }
        let tips = weighing.tips;
        pair.tally.print(&format!(
            "lifts and tips on long tables, {} ({full} full ones) {tips:?}",
            pair.label()
        ));
        assert!(full > 50 && tips.accepted > 100 && tips.others_behind > 50);
        assert!(pair.tally.count("lift", 0) > 50 && pair.tally.count("lift", 11) > 20);
    }
}
