//! The worked vectors: K1 to K10 of document 01, and those that K1 to K10 cannot see.

use crate::desk::{engines, example, sheet_of, Desk};
use calls::{Refusal, Transfer, TOP};
use second::{listing, Sheet, WeighBook};

/// The six movements of the published table.
pub const SIX: [[u32; 4]; 6] = [
    [1, 2, 1, 3],
    [2, 0, 3, 5],
    [0, 1, 4, 3],
    [1, 2, 5, 7],
    [2, 1, 7, 2],
    [2, 0, 8, 1],
];

const K1: &[[u32; 4]] = &[[0, 2, 3, 2], [2, 1, 5, 4], [1, 1, 1, 2], [0, 1, 1, 1]];

const K3: &[[u32; 4]] = &[
    [0, 1, 1, 2],
    [2, 1, 1, 1],
    [2, 2, 3, 2],
    [2, 1, 5, 1],
    [1, 1, 5, 2],
    [0, 1, 5, 1],
];

const K4: &[[u32; 4]] = &[
    [0, 1, 1, 2],
    [2, 2, 3, 2],
    [2, 1, 1, 1],
    [2, 1, 5, 1],
    [1, 1, 5, 2],
    [0, 1, 5, 1],
];

/// What the six movements leave under each rule: the pieces and the even count.
pub const AFTER_SIX: [(&[[u32; 4]], u32); 4] = [(K1, 2), (K3, 0), (K1, 2), (K4, 0)];

/// A rule, movements of three vessels, and the pieces they leave.
type Vector = (u32, &'static [[u32; 4]], &'static [[u32; 4]]);

/// Picked order under rule 1, the ties of rules 2 and 3, and
/// that pieces never merge.
const UNSEEN: [Vector; 4] = [
    (
        1,
        &[[1, 0, 1, 2], [2, 0, 2, 1], [0, 2, 2, 3]],
        &[[2, 2, 2, 1], [2, 1, 1, 2]],
    ),
    (
        2,
        &[[2, 1, 1, 4], [0, 1, 1, 1], [1, 2, 2, 3]],
        &[[1, 2, 1, 1], [1, 0, 1, 1], [2, 2, 1, 3]],
    ),
    (
        3,
        &[[0, 1, 1, 1], [2, 1, 1, 3], [1, 0, 1, 2]],
        &[[1, 0, 1, 1], [1, 2, 1, 1], [0, 2, 1, 2]],
    ),
    (
        0,
        &[[1, 0, 0, 3], [1, 0, 0, 2]],
        &[[0, 1, 0, 3], [0, 1, 0, 2]],
    ),
];

fn six_movements(rule: u32) -> Sheet {
    sheet_of(rule, SIX.map(Transfer::new))
}

#[test]
fn k1_to_k4_pieces_and_k6_balances() {
    for engine in engines() {
        for (rule, (pieces, even)) in (0..).zip(AFTER_SIX) {
            let desk = Desk::after(engine, rule, &SIX);
            assert_eq!(desk.pieces(), pieces, "{} rule {rule}", engine.label());
            assert_eq!(desk.even, even);
            assert_eq!(desk.head.balances[..4], [3, 2, 4, 0]);
            let sheet = six_movements(rule).bytes();
            let mut table = [0; 64];
            let ran = engine.run(&sheet, &mut table);
            assert_eq!((ran.number, ran.index, ran.even), (0, 6, even));
            assert_eq!((ran.head, table), (desk.head, desk.table));
        }
    }
}

#[test]
fn k5_births() {
    let mut book = WeighBook::new(3);
    for movement in SIX {
        assert_eq!(book.feed(Transfer::new(movement)), 0);
    }
    let births: Vec<_> = book.births.into_iter().collect();
    assert_eq!(births, [((1, 1), 3), ((1, 5), 4), ((2, 3), 2)]);
}

#[test]
fn k7_the_clock() {
    for engine in engines() {
        for rule in 0..4 {
            let mut desk = Desk::after(engine, rule, &SIX);
            assert_eq!(desk.transfer([2, 0, 8, 1]), 0);
            let refused = desk.transfer([2, 0, 7, 1]);
            assert_eq!(refused, Refusal::ClockBack.number());
        }
    }
}

#[test]
fn k8_all_of_a_vessel_is_even() {
    for engine in engines() {
        for rule in 0..4 {
            for source in 0..3 {
                let mut desk = Desk::after(engine, rule, &SIX);
                let even = desk.even;
                let balance = desk.head.balances[source as usize];
                assert!(balance > 0);
                assert_eq!(desk.transfer([source, (source + 1) % 3, 9, balance]), 0);
                assert_eq!(desk.even, even + 1);
                assert_eq!(desk.head.balances[source as usize], 0);
            }
        }
    }
}

#[test]
fn k9_the_top() {
    for engine in engines() {
        for rule in 0..4 {
            let mut desk = Desk::after(engine, rule, &[[0, 1, 0, TOP - 1]]);
            assert_eq!(desk.transfer([2, 1, 0, 2]), Refusal::Overfull.number());
            assert_eq!(desk.transfer([2, 1, 0, 1]), 0);
            assert_eq!(desk.head.balances[1], TOP);
        }
    }
}

#[test]
fn k10_same_vessel_before_no_weight() {
    for engine in engines() {
        for rule in 0..4 {
            let mut desk = Desk::open(engine, rule, 3);
            assert_eq!(desk.transfer([1, 1, 0, 0]), Refusal::SameVessel.number());
        }
    }
}

#[test]
fn what_k1_to_k10_cannot_see() {
    for engine in engines() {
        for (rule, movements, pieces) in UNSEEN {
            let desk = Desk::after(engine, rule, movements);
            assert_eq!(desk.pieces(), pieces, "{} rule {rule}", engine.label());
        }
    }
}

#[test]
fn listing_of_the_six_movements() {
    let text = "vessels 3 rule 2 accepted 6 pieces 4 even 2\n\
                0 2 3 2\n2 1 5 4\n1 1 1 2\n0 1 1 1\n";
    assert_eq!(listing(&six_movements(2).bytes()), text);
}

#[test]
fn example_sheet_is_the_six_movements() {
    assert_eq!(example("six-movements.sheet"), six_movements(2).bytes());
}
