//! A fresh book that the calls of a list are made on, followed in turn: by the second implementation, by
//! the weigh book, and by hand.

use super::covered::Covered;
use crate::second_scale::after;
use calls::{Head, Lift, Piece, Refusal, Tip, Transfer, Transferred, SCALE, STIRRED, VESSELS};
use compare::{room, Call, Pair, Random};
use second::{Book, Moved, WeighBook};
use std::collections::{BTreeMap, BTreeSet};

/// The pieces, in every vessel and on the scale, sum to what the weigh book has there; so do the
/// births.
pub fn check_sums(head: &Head, table: &[u32], weighed: &WeighBook) {
    let mut weights = vec![0; head.vessels as usize];
    let mut scale = 0;
    let mut births = BTreeMap::new();
    for p in Piece::all(head, table) {
        let holder = match p.holder {
            SCALE => &mut scale,
            vessel => &mut weights[vessel as usize],
        };
        *holder += u64::from(p.weight);
        *births.entry((p.origin, p.birth)).or_default() += u64::from(p.weight);
    }
    assert_eq!((&weights, scale), (&weighed.weights, weighed.scale));
    assert_eq!(births, weighed.births);
    assert_eq!(scale, head.scale.into());
    let balances = head.balances.iter().map(|&b| u64::from(b));
    assert!(balances.eq(weights.into_iter().chain([0; 64]).take(64)));
}

/// A book that the calls of a list are made on, beside what the laws speak of.
pub struct Followed<'p> {
    pair: &'p mut Pair,
    covered: &'p mut Covered,
    head: Head,
    table: Vec<u32>,
    /// The accepted calls, followed in turn.
    book: Book,
    /// The same by hand: the pieces, and the vessels' rules, which only a setting changes.
    pieces: Vec<Piece>,
    rules: [u32; VESSELS],
    /// Fed the accepted calls.
    weighed: WeighBook,
    even: u32,
    /// The transfers and lifts answered 0.
    accepted: u32,
    /// What these split and bore: so many pieces there are, under any rule.
    made: u32,
    /// Whether a transfer or lift from a vessel that then had rule 4 was accepted, or refused with 11.
    stirred: bool,
    /// The number of every transfer, lift and tip.
    numbers: Vec<u32>,
    /// Where the load on the scale came from, and the vessels that received something beside it.
    lifted_from: u32,
    receivers: BTreeSet<u32>,
    born_at: BTreeMap<(u32, u32), u32>,
}

impl<'p> Followed<'p> {
    pub fn open(
        pair: &'p mut Pair,
        covered: &'p mut Covered,
        (rule, vessels): (u32, u32),
        table: Vec<u32>,
    ) -> Followed<'p> {
        let places = calls::places(&table);
        let mut rules = [0; VESSELS];
        rules[..vessels as usize].fill(rule);
        Followed {
            head: pair.open(rule, vessels).head,
            pair,
            covered,
            table,
            book: Book::open(rule, vessels, places).expect("opening was accepted"),
            pieces: Vec::new(),
            rules,
            weighed: WeighBook::new(vessels),
            even: 0,
            accepted: 0,
            made: 0,
            stirred: false,
            numbers: Vec::new(),
            lifted_from: 0,
            receivers: BTreeSet::new(),
            born_at: BTreeMap::new(),
        }
    }

    /// Notes the answer of a transfer or a lift, and what following it came to.
    fn note(&mut self, lift: Lift, answer: &Transferred, follow: impl FnOnce(&mut Self) -> Moved) {
        self.head = answer.head;
        self.numbers.push(answer.number);
        let rule = self.rules.get(lift.source as usize).copied();
        let decided = [0, Refusal::TableFull.number()].contains(&answer.number);
        self.stirred |= decided && rule == Some(STIRRED);
        if answer.number != 0 {
            return;
        }
        self.accepted += 1;
        self.even += u32::from(answer.even());
        self.made += answer.split + u32::from(answer.born > 0);
        let rule = self.rules[lift.source as usize];
        let picked = answer.whole + answer.split > 0;
        let set = picked && rule != self.head.rule;
        self.covered.by_set_rule[rule as usize] += u32::from(set);
        if answer.born > 0 {
            let birth = (lift.source, lift.minute - u32::from(lift.age));
            let earlier = self.born_at.insert(birth, lift.minute);
            let added = earlier.is_some_and(|minute| minute != lift.minute);
            self.covered.added += u32::from(added);
            self.covered.births += 1;
        }
        let moved = follow(self);
        assert_eq!(
            [moved.whole, moved.split, moved.born],
            [answer.whole, answer.split, answer.born]
        );
    }

    fn report(&mut self, random: &mut Random, call: &Call) -> u32 {
        let (head, table) = (self.head, &self.table);
        let answer = match *call {
            Call::Held(vessel, length) => {
                let mut room = room(random, length);
                self.pair.held(head, table, vessel, &mut room)
            }
            Call::Spread(origin, span, length) => {
                let mut room = room(random, length);
                self.pair.spread(head, table, origin, span, &mut room)
            }
            Call::Whole(length) => {
                let mut room = room(random, length);
                self.pair.whole(head, table, &mut room)
            }
            _ => panic!("no report"),
        };
        self.head = answer.head;
        answer.number
    }

    fn transfer(&mut self, transfer: Transfer) -> u32 {
        let beside = self.head.scale > 0;
        let answer = self.pair.transfer(self.head, &mut self.table, transfer);
        self.note(transfer.lift(), &answer, |on| {
            assert_eq!(on.weighed.feed(transfer), 0);
            on.book.transfer(transfer).expect("accepted")
        });
        self.covered.transfers += 1;
        if beside && answer.number == 0 {
            self.covered.from_source += u32::from(transfer.source == self.lifted_from);
            self.covered.into_source += u32::from(transfer.destination == self.lifted_from);
            self.receivers.insert(transfer.destination);
        }
        answer.number
    }

    fn lift(&mut self, lift: Lift) -> u32 {
        let answer = self.pair.lift(self.head, &mut self.table, lift);
        self.note(lift, &answer, |on| {
            assert_eq!(on.weighed.feed_lift(lift), 0);
            on.book.lift(lift).expect("accepted")
        });
        self.covered.lifts += 1;
        self.covered.even_lifts += u32::from(answer.even());
        if answer.number == 0 {
            self.lifted_from = lift.source;
            self.receivers.clear();
        }
        answer.number
    }

    fn tip(&mut self, tip: Tip) -> u32 {
        let answer = self.pair.tip(self.head, &mut self.table, tip);
        self.head = answer.head;
        self.numbers.push(answer.number);
        self.covered.tips += 1;
        if answer.number == 0 {
            assert_eq!(self.weighed.feed_tip(tip), 0);
            assert_eq!(self.book.tip(tip), Ok(()));
            let behind = self.receivers.contains(&tip.destination);
            self.covered.behind += u32::from(behind);
        }
        answer.number
    }

    fn set_rule(&mut self, vessel: u32, rule: u32) -> u32 {
        let answer = self.pair.set_rule(self.head, &self.table, vessel, rule);
        self.head = answer.head;
        if answer.number == 0 {
            assert_eq!(self.book.set_rule(vessel, rule), Ok(()));
            self.rules[vessel as usize] = rule;
        }
        answer.number
    }

    /// Makes a call, and what an accepted one does by hand.
    fn call(&mut self, random: &mut Random, call: &Call) {
        let number = match *call {
            Call::Move(transfer) => self.transfer(transfer),
            Call::Lift(lift) => self.lift(lift),
            Call::Tip(tip) => self.tip(tip),
            Call::SetRule(vessel, rule) => self.set_rule(vessel, rule),
            _ => self.report(random, call),
        };
        if number == 0 {
            self.pieces = after(std::mem::take(&mut self.pieces), &self.rules, call);
        }
        assert_eq!(self.head.accepted, self.accepted);
        assert_eq!(self.head.pieces, self.made);
        if !self.stirred {
            assert_eq!(self.head.pieces + self.even, self.accepted);
        }
    }
}

/// What a list came to.
pub struct Ended {
    /// The number of every transfer, lift and tip.
    pub numbers: Vec<u32>,
    pub head: Head,
    pub pieces: Vec<Piece>,
    /// Whether something was picked by rule 4.
    pub stirred: bool,
}

/// Runs a list on a fresh book.
pub fn follow(mut followed: Followed, random: &mut Random, list: &[Call]) -> Ended {
    let opened = followed.head.rule;
    for call in list {
        followed.call(random, call);
    }
    let Followed {
        covered,
        head,
        table,
        book,
        pieces,
        rules,
        weighed,
        even,
        stirred,
        numbers,
        ..
    } = followed;
    assert_eq!(head, book.head());
    assert_eq!((head.rule, head.rules), (opened, rules));
    assert_eq!(pieces, book.pieces());
    assert!(Piece::all(&head, &table).eq(pieces.iter().copied()));
    check_sums(&head, &table, &weighed);
    covered.even += even;
    covered.outnumbered += u32::from(head.pieces > head.accepted);
    covered.loaded += u32::from(head.scale > 0);
    covered.full += u32::from(numbers.contains(&11));
    Ended {
        numbers,
        head,
        pieces,
        stirred,
    }
}
