//! A transfer against its lift and tip in succession: they leave the same, and it is refused where
//! one of them would be. Both are by a second, empty scale, whatever lies on the first; where that one
//! is bare, they are by it too.

use crate::books::LONG;
use crate::second_scale::{by_hand, Left, Refused};
use calls::{Engine, Head, Transfer, Transferred, TOP};
use compare::{book, loaded_book, subjects, transfer_for, Pair, Random};
use std::collections::BTreeMap;

/// What the transfers came to, on bare scales or beside loaded ones.
#[derive(Debug, Default)]
struct Covered {
    /// Accepted ones by the rule of their source: even, with a split, with a birth.
    even: [u32; 5],
    splits: [u32; 5],
    births: [u32; 5],
    /// Refused as the lift was, by its number.
    by_lift: BTreeMap<u32, u32>,
    /// Refused as the tip was, by its number.
    by_tip: BTreeMap<u32, u32>,
    /// Refused for a destination that the lift, which was refused too, does not look at.
    sooner: BTreeMap<u32, u32>,
    /// From a vessel back into it, which only a divided one can do.
    back: u32,
}

/// The number of a transfer by that of its lift, which looks at no destination: 5, 6 and 9 of it come
/// in their order.
fn by_lift(lift: u32, head: &Head, t: Transfer) -> u32 {
    if [1, 4, 5].contains(&lift) {
        return lift;
    }
    if t.destination >= head.vessels {
        return 5;
    }
    if t.source == t.destination {
        return 6;
    }
    let free = TOP - head.balances[t.destination as usize];
    if [0, 10, 11].contains(&lift) && t.weight > free {
        return 9;
    }
    lift
}

/// A transfer divided by the book's own scale, which is bare.
fn by_calls(pair: &mut Pair, head: Head, table: &[u32], t: Transfer) -> Result<Left, Refused> {
    let mut table = table.to_vec();
    let lifted = pair.lift(head, &mut table, t.lift());
    if lifted.number != 0 {
        return Err(Refused::Lift(lifted.number));
    }
    let tipped = pair.tip(lifted.head, &mut table, t.tip());
    if tipped.number != 0 {
        return Err(Refused::Tip(tipped.number));
    }
    Ok(Left {
        head: tipped.head,
        table,
        counts: [lifted.whole, lifted.split, lifted.born],
    })
}

fn add(numbers: &mut BTreeMap<u32, u32>, number: u32) {
    *numbers.entry(number).or_default() += 1;
}

/// Whether each wanted number was met more often than that, and no other one.
fn met(numbers: &BTreeMap<u32, u32>, wanted: &[u32], at_least: u32) -> bool {
    let count = |n| numbers.get(n).copied().unwrap_or(0);
    wanted.iter().all(|n| count(n) > at_least) && numbers.len() == wanted.len()
}

impl Covered {
    /// Makes a transfer on a book, beside its two halves. The next head comes back, and the table is
    /// as the transfer leaves it.
    fn check(&mut self, pair: &mut Pair, head: Head, table: &mut [u32], t: Transfer) -> Head {
        let halves = by_hand(&head, table, t);
        if head.scale == 0 {
            assert_eq!(by_calls(pair, head, table, t), halves, "{head:?} {t:?}");
        }
        let answer = pair.transfer(head, table, t);
        let lift = match halves {
            Err(Refused::Lift(number)) => number,
            _ => 0,
        };
        let number = by_lift(lift, &head, t);
        assert_eq!(answer.number, number, "{head:?} {t:?}");
        match halves {
            Err(Refused::Lift(_)) if lift == number => add(&mut self.by_lift, number),
            Err(Refused::Lift(_)) => add(&mut self.sooner, number),
            _ if number == 6 => self.back += u32::from(halves.is_ok()),
            Err(Refused::Tip(tip)) => {
                assert_eq!(tip, number, "{head:?} {t:?}");
                add(&mut self.by_tip, number);
            }
            Ok(left) => {
                let counts = [answer.whole, answer.split, answer.born];
                let table = table.to_vec();
                let head = answer.head;
                assert_eq!(
                    Left {
                        head,
                        table,
                        counts
                    },
                    left,
                    "{t:?}"
                );
                self.add_accepted(head.rules[t.source as usize], &answer);
            }
        }
        answer.head
    }

    fn add_accepted(&mut self, rule: u32, answer: &Transferred) {
        let rule = rule as usize;
        self.even[rule] += u32::from(answer.even());
        self.splits[rule] += answer.split;
        self.births[rule] += u32::from(answer.born > 0);
    }

    fn expect(&self, by_lift: &[u32], at_least: u32) {
        let accepted = [self.even, self.splits, self.births];
        let mut counts = accepted.iter().flatten().chain([&self.back]);
        assert!(counts.all(|&c| c > at_least), "{self:?}");
        assert!(met(&self.by_lift, by_lift, at_least), "{self:?}");
        assert!(met(&self.by_tip, &[5, 9], at_least), "{self:?}");
        assert!(met(&self.sooner, &[5, 6, 9], at_least), "{self:?}");
    }
}

/// Some transfers on a book: it stays bare, or it stays loaded.
fn transfers_on(
    (mut head, mut table): (Head, Vec<u32>),
    pair: &mut Pair,
    random: &mut Random,
    covered: &mut [Covered; 2],
) {
    for _ in 0..3 {
        let t = transfer_for(random, &head, &table);
        let loaded = usize::from(head.scale > 0);
        head = covered[loaded].check(pair, head, &mut table, t);
    }
}

fn transfers_of(subject: &'static dyn Engine) {
    let mut pair = Pair::new(subject);
    let mut random = Random::new(71);
    let mut covered = <[Covered; 2]>::default();
    for round in 0..800 {
        let of = if round % 8 < 4 { book } else { loaded_book };
        // Now and then a long table too: each pick goes through all of it.
        let long = LONG[round as usize % LONG.len()];
        let long = (round % 9 == 0).then_some(long);
        for length in (0..=40).chain([100, 257]).chain(long) {
            let book = of(&mut random, round % 4, length);
            transfers_on(book, &mut pair, &mut random, &mut covered);
        }
    }
    let ([bare, loaded], stirs) = (&covered, &pair.stirs);
    pair.tally.print(&format!(
        "divided, {} {bare:?} beside a load {loaded:?} {stirs:?}",
        pair.label()
    ));
    stirs.expect(50);
    assert!(stirs.beside > 200);
    bare.expect(&[1, 5, 7, 8, 10, 11, 21], 50);
    loaded.expect(&[5, 7, 8, 10, 11, 21], 50);
}

#[test]
fn transfer_leaves_what_lift_and_tip_leave() {
    for subject in subjects() {
        transfers_of(subject);
    }
}
