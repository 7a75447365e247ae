//! Setting a vessel's rule: the order of its checks, every vessel and rule, and heads whose rules are none.

use crate::order::{damage_book, first, sets, small_book, Due, STRANGERS};
use calls::{Head, Lift, Refusal, Tip, Transfer, STIRRED, TOP, VESSELS};
use compare::{mixed_rules, subjects, Pair, Random};

/// Rules that are none.
const UNKNOWN: [u32; 8] = [5, 6, 255, 256, 65_536, 65_540, 1 << 31, TOP];

/// Every set of faults that a setting can have at once, beside a bare scale and a loaded one.
#[test]
fn settings_in_order() {
    const FAULTS: [u32; 4] = [1, 4, 5, 2];
    for subject in subjects() {
        let mut pair = Pair::new(subject);
        let mut due = Due::default();
        for form in 0..96 {
            for set in sets(&FAULTS) {
                let has = |fault| set.contains(&fault);
                let (mut head, mut table) = small_book(form as u32 % 4, form >= 48);
                damage_book(&set, form, &mut head, &mut table);
                let known = form as u32 % 3;
                let vessel = if has(5) {
                    STRANGERS[form / 3 % 4]
                } else {
                    known
                };
                let rule = if has(2) {
                    UNKNOWN[form % 8]
                } else {
                    form as u32 / 4 % 5
                };
                let answer = pair.set_rule(head, &table, vessel, rule);
                assert_eq!(answer.number, first(&set), "{set:?}");
                due.add(&set);
            }
        }
        let said = due.said();
        pair.tally
            .print(&format!("order, settings, {} {said}", pair.label()));
        pair.tally.expect("set rule", &[0, 1, 2, 4, 5], 96);
        pair.beside.expect("set rule", &[0, 1, 2, 4, 5], 48);
        due.expect(&FAULTS, 96);
    }
}

/// A book without pieces, with any rules.
fn empty_book(random: &mut Random, vessels: u32) -> Head {
    Head {
        rule: random.below(4),
        vessels,
        last: random.any(),
        accepted: random.any(),
        rules: mixed_rules(random, vessels),
        ..Head::ZERO
    }
}

/// Every vessel of every book to every rule, and every one that the book does not have.
#[test]
fn every_vessel_and_rule() {
    for subject in subjects() {
        let mut pair = Pair::new(subject);
        let mut random = Random::new(61);
        for vessels in 1..=VESSELS as u32 {
            let mut head = empty_book(&mut random, vessels);
            let table = [TOP; 4];
            for vessel in 0..=VESSELS as u32 {
                for rule in (0..5).chain([5, TOP]) {
                    // One after the other on one book: only the last one of a vessel stays.
                    let answer = pair.set_rule(head, &table, vessel, rule);
                    let number = match (vessel < vessels, rule < 5) {
                        (true, true) => 0,
                        (true, false) => 2,
                        (false, _) => 5,
                    };
                    assert_eq!(answer.number, number);
                    head = answer.head;
                }
            }
            assert!(head.rules[..vessels as usize].iter().all(|&rule| rule == 4));
        }
        pair.tally.print(&format!("settings, {}", pair.label()));
        pair.tally.expect("set rule", &[0, 2, 5], 4_000);
    }
}

/// The numbers of all calls on an empty book of at least two vessels, on a table of one place.
fn numbers(pair: &mut Pair, head: Head) -> [u32; 7] {
    let mut table = [0; 4];
    let mut room = vec![0; VESSELS * VESSELS];
    let (last, other) = (head.last, head.vessels - 1);
    [
        pair.set_rule(head, &table, 0, 3).number,
        pair.held(head, &table, 0, &mut room).number,
        pair.spread(head, &table, 0, (0, last), &mut room).number,
        pair.whole(head, &table, &mut room).number,
        pair.tip(head, &mut table, Tip::new([0, last])).number,
        pair.lift(head, &mut table.clone(), Lift::new([0, last, 1]))
            .number,
        pair.transfer(head, &mut table, Transfer::new([0, other, last, 1]))
            .number,
    ]
}

/// One rule is changed in a head that adds up, at each place and to any number: an unknown one below V and
/// any but 0 from V on make it no book, for every call, and others do not.
#[test]
fn heads_with_any_rule() {
    let off = Refusal::BookOff.number();
    let bare = Refusal::ScaleBare.number();
    for subject in subjects() {
        let mut pair = Pair::new(subject);
        let mut random = Random::new(62);
        let mut covered = [[0; 2]; 2];
        for vessels in [2, 3, 17, 63, 64] {
            for place in 0..VESSELS {
                for rule in (0..5).chain(UNKNOWN) {
                    let mut head = empty_book(&mut random, vessels);
                    head.accepted /= 2;
                    head.rules[place] = rule;
                    let below = place < vessels as usize;
                    let adds_up = rule == 0 || below && rule < 5;
                    let expected = match adds_up {
                        true => [0, 0, 0, 0, bare, 0, 0],
                        false => [off; 7],
                    };
                    assert_eq!(
                        numbers(&mut pair, head),
                        expected,
                        "{vessels} {place} {rule}"
                    );
                    covered[usize::from(below)][usize::from(adds_up)] += 1;
                }
            }
        }
        pair.tally
            .print(&format!("rules of heads, {} {covered:?}", pair.label()));
        assert!(covered.as_flattened().iter().all(|&count| count > 150));
        for call in ["set rule", "transfer", "lift", "held", "spread", "whole"] {
            pair.tally.expect(call, &[0, off], 700);
        }
        pair.tally.expect("tip", &[bare, off], 700);
    }
}

/// The book's own rule stays whatever is set; one that is none makes no book, though it picks nothing. That
/// of a stirred vessel is none for a book.
#[test]
fn rule_of_the_book() {
    for subject in subjects() {
        let mut pair = Pair::new(subject);
        let mut random = Random::new(63);
        for opened in 0..4 {
            let mut head = pair.open(opened, 3).head;
            assert_eq!(head.rules[..4], [opened, opened, opened, 0]);
            for vessel in 0..3 {
                head = pair.set_rule(head, &[0; 4], vessel, random.below(5)).head;
            }
            assert_eq!(head.rule, opened);
            for rule in [STIRRED].into_iter().chain(UNKNOWN) {
                let head = Head { rule, ..head };
                assert_eq!(numbers(&mut pair, head), [4; 7], "{rule}");
            }
        }
        pair.tally
            .print(&format!("rule of the book, {}", pair.label()));
        pair.tally.expect("set rule", &[0, 4], 12);
    }
}
