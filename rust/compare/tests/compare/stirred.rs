//! Stirred vessels (rule 4), worked by hand. What is worked is the same whatever rule the book was opened by.

use crate::desk::{engines, sheet_of, Desk};
use crate::scale::{check, check_list, ScaleVector};
use calls::{Lift, Refusal, Tip, Transfer, STIRRED};
use compare::Call;

/// A transfer of source, destination, minute and weight.
const fn moved(numbers: [u32; 4]) -> Call {
    Call::Move(Transfer::new(numbers))
}

const STIR: Call = Call::SetRule(0, STIRRED);

/// Vessel 0 gets 5 g of vessel 1, 1 g of vessel 2, and of each some more: 13 g. What lies between them is
/// another vessel's.
const FED: [Call; 6] = [
    STIR,
    moved([1, 0, 1, 5]),
    moved([2, 0, 2, 1]),
    moved([1, 3, 2, 9]),
    moved([1, 0, 3, 1]),
    moved([2, 0, 4, 6]),
];

/// 7 of 13 g. Up to each piece 7 * 5 / 13, 7 * 6 / 13, 7 * 7 / 13 and 7 are 2, 3, 3 and 7: the first gives
/// 2 g, the next goes whole, the third stays, and the last gives 4 g.
const SEVEN: Call = moved([0, 1, 5, 7]);

const SEVEN_LEFT: &[[u32; 4]] = &[
    [0, 1, 1, 3],
    [3, 1, 2, 9],
    [0, 1, 3, 1],
    [0, 2, 4, 2],
    [1, 1, 1, 2],
    [1, 2, 2, 1],
    [1, 2, 4, 4],
];

/// Then 3 of the 6 g that are left are lifted: of 3, 1 and 2 g one each, the second whole.
const THREE: Call = Call::Lift(Lift::new([0, 5, 3]));

const THREE_LEFT: &[[u32; 4]] = &[
    [0, 1, 1, 2],
    [3, 1, 2, 9],
    [0, 2, 4, 1],
    [1, 1, 1, 2],
    [1, 2, 2, 1],
    [1, 2, 4, 4],
    [64, 1, 1, 1],
    [64, 1, 3, 1],
    [64, 2, 4, 1],
];

/// Beside the load 1 of 3 g goes: of the first nothing, and all of the other. The load is tipped back behind
/// what stayed, and the stirred vessel has 2, 1, 1 and 1 g. 4 of these 5 g are all but one of the first.
const BACK: [Call; 3] = [
    moved([0, 2, 6, 1]),
    Call::Tip(Tip::new([0, 6])),
    moved([0, 1, 7, 4]),
];

const BACK_LEFT: &[[u32; 4]] = &[
    [0, 1, 1, 1],
    [3, 1, 2, 9],
    [1, 1, 1, 2],
    [1, 2, 2, 1],
    [1, 2, 4, 4],
    [2, 2, 4, 1],
    [1, 1, 1, 1],
    [1, 1, 1, 1],
    [1, 1, 3, 1],
    [1, 2, 4, 1],
];

/// One after the other.
const DRAWN: [(&[Call], &[[u32; 4]]); 3] = [
    (&[SEVEN], SEVEN_LEFT),
    (&[THREE], THREE_LEFT),
    (&BACK, BACK_LEFT),
];

/// 13 g, which are all, go in order of receipt; of 15 two are born, behind them.
const ALL_LEFT: &[[u32; 4]] = &[
    [3, 1, 2, 9],
    [1, 1, 1, 5],
    [1, 2, 2, 1],
    [1, 1, 3, 1],
    [1, 2, 4, 6],
];

const MORE_LEFT: &[[u32; 4]] = &[
    [3, 1, 2, 9],
    [1, 1, 1, 5],
    [1, 2, 2, 1],
    [1, 1, 3, 1],
    [1, 2, 4, 6],
    [1, 0, 5, 2],
];

/// An empty stirred vessel bears all, and of what was milled long before and came last it still gives last.
const BORN: &[Call] = &[
    STIR,
    moved([0, 1, 9, 3]),
    Call::SetRule(1, STIRRED),
    Call::Move(Transfer::new([2, 1, 9, 3]).aged(9)),
    moved([1, 0, 9, 5]),
    moved([0, 2, 9, 2]),
];

/// Of 3 and 3 g 5 go: 2, and all of the other. Of 2 and 3 g 2 go: 4 / 5 is nothing, so that the later
/// piece gives both.
const BORN_LEFT: &[[u32; 4]] = &[[1, 0, 9, 1], [0, 0, 9, 2], [0, 2, 0, 1], [2, 2, 0, 2]];

/// The parts of a lot by one rule after the other. Vessel 0 has 4 g of vessel 1 and 3 g of vessel 2. By rule
/// 1 a gram of the later piece goes; of 4 and 2 g 3 are 2 and 1; by rule 3 the rest of the later one and a
/// gram of the other; the last gram is all.
const PARTS: &[Call] = &[
    moved([1, 0, 1, 4]),
    moved([2, 0, 2, 3]),
    Call::SetRule(0, 1),
    moved([0, 1, 3, 1]),
    STIR,
    moved([0, 1, 4, 3]),
    Call::SetRule(0, 3),
    moved([0, 2, 5, 2]),
    STIR,
    moved([0, 1, 6, 1]),
];

const PARTS_LEFT: &[[u32; 4]] = &[
    [1, 2, 2, 1],
    [1, 1, 1, 2],
    [1, 2, 2, 1],
    [2, 2, 2, 1],
    [2, 1, 1, 1],
    [1, 1, 1, 1],
];

/// A rule that is set while the load waits is not asked for it: three pieces of 2 g are lifted by halves and
/// tipped as they lie, and then rule 0 takes the earliest rest whole.
const WAITED: &[Call] = &[
    moved([1, 0, 1, 2]),
    moved([2, 0, 2, 2]),
    moved([1, 0, 3, 2]),
    STIR,
    Call::Lift(Lift::new([0, 4, 3])),
    Call::SetRule(0, 1),
    Call::Tip(Tip::new([2, 4])),
    Call::SetRule(0, 0),
    moved([0, 1, 4, 2]),
];

const WAITED_LEFT: &[[u32; 4]] = &[
    [0, 1, 3, 1],
    [2, 1, 1, 1],
    [2, 2, 2, 1],
    [2, 1, 3, 1],
    [1, 1, 1, 1],
    [1, 2, 2, 1],
];

const CHANGED: [ScaleVector; 3] = [
    (BORN, [BORN_LEFT; 4]),
    (PARTS, [PARTS_LEFT; 4]),
    (WAITED, [WAITED_LEFT; 4]),
];

#[test]
fn drawn_from_everything() {
    let mut calls = FED.to_vec();
    for (more, left) in DRAWN {
        calls.extend_from_slice(more);
        check_list(4, &calls, [left; 4]);
    }
    for (weight, left) in [(13, ALL_LEFT), (15, MORE_LEFT)] {
        let emptied = moved([0, 1, 5, weight]);
        let calls = FED.into_iter().chain([emptied]);
        check_list(4, &calls.collect::<Vec<_>>(), [left; 4]);
    }
}

#[test]
fn rules_that_change() {
    check(3, &CHANGED);
}

/// What answers say: whole pieces, splits, what was born. Only the one that is all of the vessel is even.
#[test]
fn counts_of_an_answer() {
    for engine in engines() {
        for rule in 0..4 {
            let mut desk = Desk::open(engine, rule, 4);
            for call in &FED {
                assert_eq!(desk.call(call), 0);
            }
            let said = [
                (1, [0, 1, 0]),
                (7, [1, 2, 0]),
                (12, [3, 1, 0]),
                (13, [4, 0, 0]),
                (14, [4, 0, 1]),
            ];
            for (weight, expected) in said {
                let lift = Lift::new([0, 5, weight]);
                let lifted = engine.lift(desk.head, &mut desk.table.clone(), lift);
                let moved = engine.transfer(desk.head, &mut desk.table.clone(), lift.to(1));
                for answer in [lifted, moved] {
                    let counts = [answer.whole, answer.split, answer.born];
                    assert_eq!((answer.number, counts), (0, expected), "{}", engine.label());
                    assert_eq!(answer.even(), weight == 13);
                    let made = answer.split + u32::from(answer.born > 0);
                    assert_eq!(answer.head.pieces, desk.head.pieces + made);
                    assert_eq!(answer.head.accepted, desk.head.accepted + 1);
                }
            }
        }
    }
}

/// Rule 4 is set for a vessel, and no rule above it; no book is opened by it and no sheet has it.
#[test]
fn only_set() {
    let unknown = Refusal::RuleUnknown.number();
    for engine in engines() {
        let mut desk = Desk::open(engine, 0, 3);
        assert_eq!(desk.set_rule(0, 5), unknown);
        assert_eq!(desk.set_rule(0, STIRRED), 0);
        assert_eq!((desk.head.rule, desk.head.rules[0]), (0, STIRRED));
        assert_eq!(engine.open(STIRRED, 3).number, unknown);
        let mut sheet = sheet_of(3, [Transfer::new([0, 1, 0, 1])]).bytes();
        sheet[4] = 4;
        assert_eq!(engine.read(&sheet).number, unknown);
        assert_eq!(engine.run(&sheet, &mut [0; 8]).number, unknown);
        let written = engine.write(STIRRED, 3, &sheet[24..48], &[], &mut [0; 99]);
        assert_eq!(written, unknown);
    }
}
