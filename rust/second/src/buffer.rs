//! What one vessel holds, kept ready for its rule, and turned over when that changes.

use crate::stirred::Stirred;
use std::cmp::Reverse;
use std::collections::binary_heap::PeekMut;
use std::collections::{BinaryHeap, VecDeque};

/// Weight of one origin and birth minute. The order is that of birth, on a tie that of receipt:
/// receipt numbers are never used twice, so the fields after them decide nothing.
#[derive(Clone, Copy, PartialEq, Eq, PartialOrd, Ord)]
pub struct Lot {
    pub birth: u32,
    pub receipt: u64,
    pub origin: u32,
    pub weight: u32,
}

/// What the next picked lot gives: all of it, or as much of it as is wanted.
pub enum Given {
    Whole(Lot),
    Part(Lot),
}

/// The lots of a vessel.
#[derive(Clone)]
pub enum Buffer {
    /// Rule 0: the earliest received lies in front.
    FirstReceived(VecDeque<Lot>),
    /// Rule 1: the latest received lies on top.
    LastReceived(Vec<Lot>),
    /// Rule 2: the smallest birth is at the root.
    FirstBorn(BinaryHeap<Reverse<Lot>>),
    /// Rule 3: the largest birth is at the root.
    LastBorn(BinaryHeap<Lot>),
    /// Rule 4: all of them give.
    Stirred(Stirred),
}

/// Takes what is wanted from a lot; none if the lot is to go whole.
pub(crate) fn part_of(lot: &mut Lot, want: u32) -> Option<Given> {
    if lot.weight <= want {
        return None;
    }
    lot.weight -= want;
    Some(Given::Part(Lot {
        weight: want,
        ..*lot
    }))
}

impl Buffer {
    pub fn of_rule(rule: u32) -> Buffer {
        match rule {
            0 => Buffer::FirstReceived(VecDeque::new()),
            1 => Buffer::LastReceived(Vec::new()),
            2 => Buffer::FirstBorn(BinaryHeap::new()),
            3 => Buffer::LastBorn(BinaryHeap::new()),
            _ => Buffer::Stirred(Stirred::default()),
        }
    }

    /// The rule that it is kept ready for.
    pub fn rule(&self) -> u32 {
        match self {
            Buffer::FirstReceived(_) => 0,
            Buffer::LastReceived(_) => 1,
            Buffer::FirstBorn(_) => 2,
            Buffer::LastBorn(_) => 3,
            Buffer::Stirred(_) => 4,
        }
    }

    /// Turned over for another rule: the same lots, received by it in the order of their receipts.
    pub fn turned(&self, rule: u32) -> Buffer {
        let mut lots: Vec<Lot> = self.lots().copied().collect();
        lots.sort_unstable_by_key(|lot| lot.receipt);
        let mut turned = Buffer::of_rule(rule);
        for lot in lots {
            turned.receive(lot);
        }
        turned
    }

    /// Receives a lot, whose receipt is the latest so far.
    pub fn receive(&mut self, lot: Lot) {
        match self {
            Buffer::FirstReceived(lots) => lots.push_back(lot),
            Buffer::LastReceived(lots) => lots.push(lot),
            Buffer::FirstBorn(lots) => lots.push(Reverse(lot)),
            Buffer::LastBorn(lots) => lots.push(lot),
            Buffer::Stirred(stirred) => stirred.receive(lot),
        }
    }

    /// Gives a weight below what there is, all of it at once, if it is stirred; else nothing.
    pub fn stir(&mut self, want: u32) -> Vec<Given> {
        match self {
            Buffer::Stirred(stirred) if stirred.exceeds(want) => stirred.stir(want),
            _ => Vec::new(),
        }
    }

    /// Gives the lot that the rule picks, or the wanted part of it. None if there is none. What is stirred
    /// gives so where it is emptied.
    pub fn give(&mut self, want: u32) -> Option<Given> {
        match self {
            Buffer::FirstReceived(lots) => {
                part_of(lots.front_mut()?, want).or_else(|| lots.pop_front().map(Given::Whole))
            }
            Buffer::LastReceived(lots) => {
                part_of(lots.last_mut()?, want).or_else(|| lots.pop().map(Given::Whole))
            }
            Buffer::FirstBorn(lots) => {
                let mut root = lots.peek_mut()?;
                if root.0.weight <= want {
                    return Some(Given::Whole(PeekMut::pop(root).0));
                }
                part_of(&mut root.0, want)
            }
            Buffer::LastBorn(lots) => {
                let mut root = lots.peek_mut()?;
                if root.weight <= want {
                    return Some(Given::Whole(PeekMut::pop(root)));
                }
                part_of(&mut root, want)
            }
            Buffer::Stirred(stirred) => stirred.empty().map(Given::Whole),
        }
    }

    /// How many lots there are more when a weight was taken, with what was born.
    pub fn more(&self, weight: u32) -> usize {
        let mut rest = self.clone();
        let parts = |given: &&Given| matches!(given, Given::Part(_));
        let stirred = rest.stir(weight);
        if !stirred.is_empty() {
            return stirred.iter().filter(parts).count();
        }
        let mut want = weight;
        while want > 0 {
            match rest.give(want) {
                Some(Given::Whole(lot)) => want -= lot.weight,
                Some(Given::Part(_)) | None => return 1,
            }
        }
        0
    }

    /// The lots in no particular order.
    pub fn lots(&self) -> Box<dyn Iterator<Item = &Lot> + '_> {
        match self {
            Buffer::FirstReceived(lots) => Box::new(lots.iter()),
            Buffer::LastReceived(lots) => Box::new(lots.iter()),
            Buffer::FirstBorn(lots) => Box::new(lots.iter().map(|lot| &lot.0)),
            Buffer::LastBorn(lots) => Box::new(lots.iter()),
            Buffer::Stirred(stirred) => Box::new(stirred.lots()),
        }
    }
}
