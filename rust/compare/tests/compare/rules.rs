//! A rule for each vessel, worked by hand. What is worked is the same whatever rule the book was opened by.

use crate::desk::{engines, Desk};
use crate::scale::{check, ScaleVector};
use calls::{Lift, Refusal, Tip, Transfer};
use compare::Call;

/// A transfer of source, destination, minute and weight, of an age.
const fn moved(numbers: [u32; 4], age: u16) -> Call {
    Call::Move(Transfer::new(numbers).aged(age))
}

/// What each of vessels 0 to 3 gets: 4 g of vessel 4 born at 8, then 3 g of vessel 5 and 2 g of vessel 4
/// born at 5. Each rule takes them in an order of its own.
const EACH_BY_ITS_OWN: &[Call] = &[
    moved([4, 0, 10, 4], 2),
    moved([4, 1, 10, 4], 2),
    moved([4, 2, 10, 4], 2),
    moved([4, 3, 10, 4], 2),
    moved([5, 0, 12, 3], 7),
    moved([5, 1, 12, 3], 7),
    moved([5, 2, 12, 3], 7),
    moved([5, 3, 12, 3], 7),
    moved([4, 0, 13, 2], 8),
    moved([4, 1, 13, 2], 8),
    moved([4, 2, 13, 2], 8),
    moved([4, 3, 13, 2], 8),
    Call::SetRule(3, 3),
    Call::SetRule(1, 1),
    Call::SetRule(0, 0),
    Call::SetRule(2, 2),
    moved([0, 4, 13, 6], 0),
    moved([1, 4, 13, 6], 0),
    moved([2, 4, 13, 6], 0),
    moved([3, 4, 13, 6], 0),
];

const BY_ITS_OWN: &[[u32; 4]] = &[
    [1, 4, 8, 3],
    [2, 4, 8, 3],
    [0, 5, 5, 1],
    [3, 5, 5, 3],
    [0, 4, 5, 2],
    // Of vessel 0: the earliest received, and a part of the next.
    [4, 4, 8, 4],
    [4, 5, 5, 2],
    // Of vessel 1: the latest received, the one before it, and a part of the first.
    [4, 4, 5, 2],
    [4, 5, 5, 3],
    [4, 4, 8, 1],
    // Of vessel 2: the two born at 5, the earlier received before the later, and a part of the other.
    [4, 5, 5, 3],
    [4, 4, 5, 2],
    [4, 4, 8, 1],
    // Of vessel 3: the one born at 8, and of those born at 5 the later received.
    [4, 4, 8, 4],
    [4, 4, 5, 2],
];

/// The same three pieces in vessel 0, of vessels 1 and 2. Parts of them go, by one rule after the other: of
/// the first piece by rule 3 and then by rule 0.
const PARTS: &[Call] = &[
    moved([1, 0, 10, 4], 2),
    moved([2, 0, 12, 3], 7),
    moved([1, 0, 13, 2], 8),
    Call::SetRule(0, 3),
    moved([0, 2, 13, 1], 0),
    Call::SetRule(0, 1),
    moved([0, 2, 13, 1], 0),
    Call::SetRule(0, 0),
    moved([0, 2, 13, 1], 0),
    Call::SetRule(0, 2),
    moved([0, 2, 13, 2], 0),
];

const PARTS_LEFT: &[[u32; 4]] = &[
    [0, 1, 8, 2],
    [0, 2, 5, 1],
    [0, 1, 5, 1],
    [2, 1, 8, 1],
    [2, 1, 5, 1],
    [2, 1, 8, 1],
    [2, 2, 5, 2],
];

/// They are lifted by rule 3, and the rules of both vessels are set while they lie on the scale: what
/// vessel 0 has left goes by rule 1. The scale has no rule, so that its two pieces come in as they lie, and
/// the last transfer takes the later one first.
const BESIDE: &[Call] = &[
    moved([1, 0, 10, 4], 2),
    moved([2, 0, 12, 3], 7),
    moved([1, 0, 13, 2], 8),
    Call::SetRule(0, 3),
    Call::Lift(Lift::new([0, 13, 5])),
    Call::SetRule(0, 1),
    Call::SetRule(1, 1),
    moved([0, 1, 13, 1], 0),
    Call::Tip(Tip::new([1, 13])),
    moved([1, 2, 13, 3], 0),
];

const BESIDE_LEFT: &[[u32; 4]] = &[
    [0, 2, 5, 3],
    [1, 1, 5, 1],
    [1, 1, 8, 2],
    [2, 1, 5, 1],
    [2, 1, 8, 2],
];

const VECTORS: [ScaleVector; 2] = [(PARTS, [PARTS_LEFT; 4]), (BESIDE, [BESIDE_LEFT; 4])];

#[test]
fn mixed_rules() {
    check(6, &[(EACH_BY_ITS_OWN, [BY_ITS_OWN; 4])]);
    check(3, &VECTORS);
}

/// A setting has no minute and counts as nothing: the head differs by one number, and a full tally and a
/// full table do not hinder it. The book's rule stays as opened.
#[test]
fn nothing_but_the_rule() {
    for engine in engines() {
        for opened in 0..4 {
            let mut desk = Desk::after(engine, opened, &[[0, 1, 9, 4], [1, 2, 9, 1]]);
            desk.head.accepted = u32::MAX;
            assert_eq!(desk.head.rules[..4], [opened, opened, opened, 0]);
            for rule in [3, 0, 4, 2, 1] {
                let mut expected = desk.head;
                expected.rules[1] = rule;
                assert_eq!(
                    engine.set_rule(desk.head, &desk.table[..8], 1, rule).number,
                    0
                );
                assert_eq!(desk.set_rule(1, rule), 0);
                assert_eq!(desk.head, expected, "{}", engine.label());
                assert_eq!((desk.head.rule, desk.head.last), (opened, 9));
            }
            let head = desk.head;
            assert_eq!(desk.set_rule(3, 5), Refusal::NoVessel.number());
            assert_eq!(desk.set_rule(2, 5), Refusal::RuleUnknown.number());
            assert_eq!(desk.head, head);
            let short = engine.set_rule(head, &desk.table[..3], 3, 5);
            assert_eq!((short.number, short.head), (1, head));
        }
    }
}
