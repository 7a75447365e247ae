//! Lift and tip, worked by hand: the pieces they leave. What goes on between them is in `scale_beside`.

use crate::desk::{engines, Desk};
use crate::vectors::{AFTER_SIX, SIX};
use calls::{Head, Lift, Refusal, Tip, Transfer, SCALE};
use compare::Call;

pub const LOADED: u32 = Refusal::ScaleLoaded.number();
pub const BARE: u32 = Refusal::ScaleBare.number();

/// Calls on a fresh book, and the pieces they leave under each rule.
pub type ScaleVector = (&'static [Call], [&'static [[u32; 4]]; 4]);

/// Vessel 0 gets 4 g of vessel 1, then 3 g of vessel 2.
pub const FIRST: Call = Call::Move(Transfer::new([1, 0, 1, 4]));
pub const THEN: Call = Call::Move(Transfer::new([2, 0, 2, 3]));
pub const FIVE: Call = Call::Lift(Lift::new([0, 3, 5]));

const DIVIDED: [ScaleVector; 4] = [
    // One piece whole and a part of the other, on the scale in picked order.
    (
        &[FIRST, THEN, FIVE],
        [
            &[[0, 2, 2, 2], [64, 1, 1, 4], [64, 2, 2, 1]],
            &[[0, 1, 1, 2], [64, 2, 2, 3], [64, 1, 1, 2]],
            &[[0, 2, 2, 2], [64, 1, 1, 4], [64, 2, 2, 1]],
            &[[0, 1, 1, 2], [64, 2, 2, 3], [64, 1, 1, 2]],
        ],
    ),
    // Tipped into another vessel.
    (
        &[FIRST, THEN, FIVE, Call::Tip(Tip::new([2, 5]))],
        [
            &[[0, 2, 2, 2], [2, 1, 1, 4], [2, 2, 2, 1]],
            &[[0, 1, 1, 2], [2, 2, 2, 3], [2, 1, 1, 2]],
            &[[0, 2, 2, 2], [2, 1, 1, 4], [2, 2, 2, 1]],
            &[[0, 1, 1, 2], [2, 2, 2, 3], [2, 1, 1, 2]],
        ],
    ),
    // Tipped back: what was lifted lies behind what stayed, and the next transfer picks by that.
    (
        &[
            FIRST,
            THEN,
            FIVE,
            Call::Tip(Tip::new([0, 5])),
            Call::Move(Transfer::new([0, 1, 5, 2])),
        ],
        [
            &[[0, 1, 1, 4], [0, 2, 2, 1], [1, 2, 2, 2]],
            &[[0, 1, 1, 2], [0, 2, 2, 3], [1, 1, 1, 2]],
            &[[0, 2, 2, 2], [0, 1, 1, 2], [0, 2, 2, 1], [1, 1, 1, 2]],
            &[[0, 1, 1, 2], [0, 2, 2, 1], [0, 1, 1, 2], [1, 2, 2, 2]],
        ],
    ),
    // Of 5 g vessel 0 has 2; 3 are born there, milled 7 minutes before the lift. A second lift picks
    // by those births.
    (
        &[
            Call::Move(Transfer::new([1, 0, 5, 2])),
            Call::Lift(Lift::new([0, 9, 5]).aged(7)),
            Call::Tip(Tip::new([1, 9])),
            Call::Lift(Lift::new([1, 9, 4])),
            Call::Tip(Tip::new([2, 9])),
        ],
        [
            &[[1, 0, 2, 1], [2, 1, 5, 2], [2, 0, 2, 2]],
            &[[1, 1, 5, 1], [2, 0, 2, 3], [2, 1, 5, 1]],
            &[[1, 1, 5, 1], [2, 0, 2, 3], [2, 1, 5, 1]],
            &[[1, 0, 2, 1], [2, 1, 5, 2], [2, 0, 2, 2]],
        ],
    ),
];

impl Desk {
    /// Makes a call that is no report and gives its number.
    pub fn call(&mut self, call: &Call) -> u32 {
        match *call {
            Call::Move(transfer) => self.make(transfer),
            Call::Lift(lift) => self.lift(lift),
            Call::Tip(tip) => self.tip(tip),
            Call::SetRule(vessel, rule) => self.set_rule(vessel, rule),
            _ => panic!("a report"),
        }
    }
}

/// Fails unless the calls of each vector, on a book of so many vessels, are accepted and leave its pieces,
/// and the head counts them.
pub fn check(vessels: u32, vectors: &[ScaleVector]) {
    for (calls, left) in vectors {
        check_list(vessels, calls, *left);
    }
}

/// The same of one list of calls, and what it leaves under each rule that the book is opened by.
pub fn check_list(vessels: u32, calls: &[Call], left: [&[[u32; 4]]; 4]) {
    for engine in engines() {
        for (rule, pieces) in (0..).zip(left) {
            let mut desk = Desk::open(engine, rule, vessels);
            for call in calls {
                assert_eq!(desk.call(call), 0);
            }
            assert_eq!(desk.pieces(), pieces, "{} rule {rule}", engine.label());
            // A tip or a setting does not count, and what is on the scale is no vessel's.
            let counts = |call: &&Call| matches!(call, Call::Move(_) | Call::Lift(_));
            let counted = calls.iter().filter(counts).count();
            assert_eq!(desk.head.accepted as usize, counted);
            let sum = |holder| {
                let held = pieces.iter().filter(|p| p[0] == holder);
                held.map(|p| p[3]).sum::<u32>()
            };
            assert_eq!(desk.head.scale, sum(SCALE));
            let balances = &desk.head.balances[..vessels as usize];
            assert!(balances.iter().copied().eq((0..vessels).map(sum)));
        }
    }
}

#[test]
fn divided_transfers() {
    check(3, &DIVIDED);
}

/// The six movements of the published table, each divided: what they leave is the same. Reports go on
/// between the two halves, another lift does not.
#[test]
fn six_movements_divided() {
    for engine in engines() {
        for (rule, (pieces, even)) in (0..).zip(AFTER_SIX) {
            let mut desk = Desk::open(engine, rule, 3);
            for movement in SIX.map(Transfer::new) {
                assert_eq!(desk.tip(movement.tip()), BARE);
                assert_eq!(desk.lift(movement.lift()), 0);
                assert_eq!(desk.lift(movement.lift()), LOADED);
                assert_eq!(desk.reports(), [0; 4]);
                assert_eq!(desk.tip(movement.tip()), 0);
            }
            let by_transfers = Desk::after(engine, rule, &SIX);
            assert_eq!(desk.pieces(), pieces, "{} rule {rule}", engine.label());
            assert_eq!((desk.even, desk.head), (even, by_transfers.head));
        }
    }
}

/// A book as no list of calls leaves it: others' pieces lie between and behind those of the scale.
const BEHIND: [[u32; 4]; 5] = [
    [64, 1, 2, 5],
    [0, 2, 3, 6],
    [64, 0, 1, 7],
    [1, 1, 1, 2],
    [64, 2, 2, 1],
];

/// The scale's pieces join the end in the order they lie.
const BEHIND_TIPPED: [[u32; 4]; 5] = [
    [0, 2, 3, 6],
    [1, 1, 1, 2],
    [0, 1, 2, 5],
    [0, 0, 1, 7],
    [0, 2, 2, 1],
];

/// Then 6 g go from vessel 0 to vessel 2.
const BEHIND_PICKED: [&[[u32; 4]]; 4] = [
    &[
        [1, 1, 1, 2],
        [0, 1, 2, 5],
        [0, 0, 1, 7],
        [0, 2, 2, 1],
        [2, 2, 3, 6],
    ],
    &[
        [0, 2, 3, 6],
        [1, 1, 1, 2],
        [0, 1, 2, 5],
        [0, 0, 1, 2],
        [2, 2, 2, 1],
        [2, 0, 1, 5],
    ],
    &[
        [0, 2, 3, 6],
        [1, 1, 1, 2],
        [0, 1, 2, 5],
        [0, 0, 1, 1],
        [0, 2, 2, 1],
        [2, 0, 1, 6],
    ],
    &[
        [1, 1, 1, 2],
        [0, 1, 2, 5],
        [0, 0, 1, 7],
        [0, 2, 2, 1],
        [2, 2, 3, 6],
    ],
];

#[test]
fn others_behind_the_scale() {
    for engine in engines() {
        for (rule, picked) in (0..).zip(BEHIND_PICKED) {
            let mut desk = Desk::open(engine, rule, 3);
            desk.table[..20].copy_from_slice(&BEHIND.concat());
            desk.head = Head {
                pieces: 5,
                last: 4,
                accepted: 5,
                scale: 13,
                ..desk.head
            };
            desk.head.balances[..2].copy_from_slice(&[6, 2]);
            assert_eq!(desk.reports(), [0; 4]);
            assert_eq!(desk.tip(Tip::new([0, 4])), 0);
            assert_eq!(desk.pieces(), BEHIND_TIPPED, "{}", engine.label());
            assert_eq!(desk.head.balances[..3], [19, 2, 0]);
            assert_eq!((desk.head.scale, desk.head.accepted), (0, 5));
            assert_eq!(desk.transfer([0, 2, 4, 6]), 0);
            assert_eq!(desk.pieces(), picked, "{} rule {rule}", engine.label());
        }
    }
}
