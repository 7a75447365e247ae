//! The order of the checks of lift and tip: every set of faults that they can have at once.

use crate::order::{
    damage_book, first, rule_and_weight, sets, small_book, Due, AGES, ALL, FORMS, STRANGERS,
};
use calls::{Head, Lift, Tip, TOP};
use compare::{subjects, Pair};

/// A lift with these faults, and the book that it is made on.
fn lift_with(set: &[u32], form: usize) -> (Head, Vec<u32>, Lift) {
    let (rule, weight) = rule_and_weight(form);
    let (mut head, mut table) = small_book(rule, set.contains(&22));
    let mut l = Lift::new([0, 5, weight]);
    for fault in set {
        match fault {
            5 => l.source = STRANGERS[form / 2 % 4],
            7 => l.weight = 0,
            8 => l.minute = 3,
            10 => head.accepted = TOP,
            11 => table.truncate(4 * head.pieces as usize),
            _ => {}
        }
    }
    l.age = AGES[form / 15](set.contains(&21), l.minute);
    damage_book(set, form, &mut head, &mut table);
    (head, table, l)
}

#[test]
fn lifts() {
    const FAULTS: [u32; 9] = [1, 4, 22, 5, 7, 8, 21, 10, 11];
    for subject in subjects() {
        let mut pair = Pair::new(subject);
        let mut due = Due::default();
        for form in 0..FORMS {
            for set in sets(&FAULTS) {
                if set.contains(&11) && rule_and_weight(form).1 == ALL {
                    continue; // it needs no place
                }
                let (head, mut table, l) = lift_with(&set, form);
                let answer = pair.lift(head, &mut table, l);
                assert_eq!(answer.number, first(&set), "{set:?}");
                due.add(&set);
            }
        }
        let (said, unborn) = (due.said(), pair.lift_ages.above_unborn);
        pair.tally.print(&format!(
            "order, lifts, {} {said} unborn {unborn}",
            pair.label()
        ));
        pair.tally
            .expect("lift", &[0, 1, 4, 5, 7, 8, 10, 11, 21, 22], 16);
        due.expect(&FAULTS, 16);
        assert!(unborn >= 16);
    }
}

/// A tip of 9 grams with these faults, and the book that it is made on. By its form the destination
/// is as full as can be without 9 or just as before, and with 9 by one gram too full or by all.
fn tip_with(set: &[u32], form: usize) -> (Head, Vec<u32>, Tip) {
    let has = |fault| set.contains(&fault);
    let (mut head, mut table) = small_book(form as u32 % 4, !has(23));
    let full = match (has(9), form / 4 % 2) {
        (false, 0) => 6,
        (false, _) => TOP - 9,
        (true, 0) => TOP - 8,
        (true, _) => TOP,
    };
    // The second piece is all that vessel 1 has.
    table[7] = full;
    head.balances[1] = full;
    let destination = if has(5) { STRANGERS[form / 2 % 4] } else { 1 };
    let minute = if has(8) { 3 } else { 4 + form as u32 % 2 };
    damage_book(set, form, &mut head, &mut table);
    (head, table, Tip::new([destination, minute]))
}

#[test]
fn tips() {
    const FAULTS: [u32; 6] = [1, 4, 23, 5, 8, 9];
    for subject in subjects() {
        let mut pair = Pair::new(subject);
        let mut due = Due::default();
        for form in 0..24 {
            for set in sets(&FAULTS) {
                let (head, mut table, t) = tip_with(&set, form);
                let answer = pair.tip(head, &mut table, t);
                assert_eq!(answer.number, first(&set), "{set:?}");
                due.add(&set);
            }
        }
        let said = due.said();
        pair.tally
            .print(&format!("order, tips, {} {said}", pair.label()));
        pair.tally.expect("tip", &[0, 1, 4, 5, 8, 9, 23], 24);
        due.expect(&FAULTS, 24);
    }
}
