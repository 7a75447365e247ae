//! A load that rests on the scale while transfers, reports and refused lifts go on: its pieces stay as
//! they were, in their order, and its tip lays them behind all that the vessel received meanwhile.

use crate::books::{lengths, reports, LONG};
use calls::{Engine, Head, Piece, Refusal, Tip, SCALE};
use compare::{book, held_by, lift_for, loaded_book, subjects, transfer_for, Pair, Random};
use std::collections::BTreeSet;

/// What went on beside loads, and how they were tipped.
#[derive(Debug, Default)]
struct Covered {
    loads: u32,
    /// Loads of several pieces.
    several: u32,
    /// Transfers accepted beside a load: all, from the vessel where it came from, and into that.
    transfers: [u32; 3],
    /// Lifts that had to wait.
    waiting: u32,
    /// Tips into a vessel that holds something and received some meanwhile, by the vessel's rule.
    behind: [u32; 5],
    /// Of those, into the vessel where the load came from.
    back: u32,
}

/// A book with a load on its scale.
struct Rest<'r> {
    pair: &'r mut Pair,
    random: &'r mut Random,
    covered: &'r mut Covered,
    head: Head,
    table: Vec<u32>,
    load: Vec<Piece>,
    /// The vessel where the load came from, and those that received something beside it.
    source: u32,
    receivers: BTreeSet<u32>,
}

impl Rest<'_> {
    /// A transfer, often from the vessel where the load came from, or into it; or reports, and a lift
    /// that has to wait.
    fn meanwhile(&mut self) {
        let mut t = transfer_for(self.random, &self.head, &self.table);
        match self.random.below(6) {
            0 | 1 => t.source = self.source,
            2 | 3 => t.destination = self.source,
            4 => {
                reports(self.pair, self.random, self.head, &self.table);
                let number = self.pair.lift(self.head, &mut self.table, t.lift()).number;
                assert_eq!(number, Refusal::ScaleLoaded.number());
                self.covered.waiting += 1;
                return;
            }
            _ => {}
        }
        let answer = self.pair.transfer(self.head, &mut self.table, t);
        self.head = answer.head;
        if answer.number == 0 {
            self.receivers.insert(t.destination);
            let sides = [true, t.source == self.source, t.destination == self.source];
            for (count, side) in self.covered.transfers.iter_mut().zip(sides) {
                *count += u32::from(side);
            }
        }
    }

    /// A tip: behind what the vessel holds, which is all that it has and received, lies the load.
    fn tip(&mut self) {
        let vessel = self.random.below(self.head.vessels);
        let mut pieces = held_by(&self.head, &self.table, vessel);
        let received = !pieces.is_empty() && self.receivers.contains(&vessel);
        let tip = Tip::new([vessel, self.head.last]);
        let answer = self.pair.tip(self.head, &mut self.table, tip);
        if answer.number == 0 {
            let tipped = self.load.iter().map(|&p| Piece {
                holder: vessel,
                ..p
            });
            pieces.extend(tipped);
            assert_eq!(held_by(&answer.head, &self.table, vessel), pieces);
            let rule = self.head.rules[vessel as usize] as usize;
            self.covered.behind[rule] += u32::from(received);
            self.covered.back += u32::from(received && vessel == self.source);
        }
    }

    fn go(&mut self) {
        self.covered.loads += 1;
        self.covered.several += u32::from(self.load.len() > 1);
        for _ in 0..self.random.from_to(1, 6) {
            self.meanwhile();
            let load = held_by(&self.head, &self.table, SCALE);
            assert_eq!(load, self.load);
        }
        self.tip();
    }
}

/// Loads the scale of a book by a lift, if it is bare, and lets the load rest there.
fn rest(
    (mut head, mut table): (Head, Vec<u32>),
    pair: &mut Pair,
    random: &mut Random,
    covered: &mut Covered,
) {
    // Nobody knows where a load came from that was there already: any vessel will do.
    let mut source = random.below(head.vessels);
    if head.scale == 0 {
        let lift = lift_for(random, &head, &table);
        head = pair.lift(head, &mut table, lift).head;
        source = lift.source;
    }
    let load = held_by(&head, &table, SCALE);
    if load.is_empty() {
        return;
    }
    let mut rest = Rest {
        pair,
        random,
        covered,
        head,
        table,
        load,
        source,
        receivers: BTreeSet::new(),
    };
    rest.go();
}

fn rests_of(subject: &'static dyn Engine) {
    let mut pair = Pair::new(subject);
    let mut random = Random::new(91);
    let mut covered = Covered::default();
    for round in 0..200 {
        let of = if round % 8 < 4 { book } else { loaded_book };
        let long = (round % 7 == 0).then_some(LONG[round as usize % LONG.len()]);
        for length in lengths().into_iter().chain(long) {
            let book = of(&mut random, round % 4, length);
            rest(book, &mut pair, &mut random, &mut covered);
        }
    }
    let (stirs, beside) = (&pair.stirs, &pair.beside);
    pair.tally.print(&format!(
        "rests, {} {covered:?} {stirs:?} beside a load {beside:?}",
        pair.label()
    ));
    assert!(stirs.parts > 70 && stirs.beside > 35 && stirs.several > 20);
    assert!(covered.loads > 1_000 && covered.several > 500 && covered.waiting > 1_000);
    assert!(covered.transfers.iter().all(|&count| count > 500));
    assert!(covered.behind.iter().all(|&count| count > 50) && covered.back > 50);
}

#[test]
fn loads_rest() {
    for subject in subjects() {
        rests_of(subject);
    }
}
