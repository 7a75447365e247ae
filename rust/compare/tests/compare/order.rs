//! The order of the checks: every set of faults that a call can have at once, and the answer is the
//! first of them in the documents' order. Transfers and reports, beside a bare scale and a loaded one;
//! lift and tip are in `scale_order`, setting a rule in `rule_order`, a sheet's calls in `sheet_order`.

use calls::{Head, Transfer, SCALE, TOP};
use compare::{subjects, Pair};
use std::collections::BTreeMap;

/// Every subset of some faults, each in their order.
pub fn sets(faults: &[u32]) -> impl Iterator<Item = Vec<u32>> + '_ {
    (0..1u32 << faults.len()).map(move |set| {
        let chosen = (0..).zip(faults).filter(move |(i, _)| set >> i & 1 == 1);
        chosen.map(|(_, &fault)| fault).collect()
    })
}

pub fn first(set: &[u32]) -> u32 {
    set.first().copied().unwrap_or(0)
}

/// How often each two faults were due at once with no third, and each fault alone (twice itself).
#[derive(Default)]
pub struct Due(BTreeMap<[u32; 2], u32>);

impl Due {
    pub fn add(&mut self, set: &[u32]) {
        if let [one] | [one, _] = *set {
            let two = set.last().copied().unwrap_or(one);
            *self.0.entry([one, two]).or_default() += 1;
        }
    }

    pub fn said(&self) -> String {
        let least = self.0.values().min().copied().unwrap_or(0);
        let pairs = self.0.keys().filter(|[one, two]| one != two).count();
        format!("({pairs} pairs due at once, each at least {least} times)")
    }

    /// Fails unless each of these faults was due so often alone and with each other one.
    pub fn expect(&self, faults: &[u32], at_least: u32) {
        for (i, &one) in faults.iter().enumerate() {
            for &two in &faults[i..] {
                let count = self.0.get(&[one, two]).copied().unwrap_or(0);
                assert!(count >= at_least, "{one} and {two}, {count} times");
            }
        }
    }
}

/// A book of 4 pieces in 3 vessels, with 2 places to spare. A loaded one has a fifth piece among
/// them, of 9 grams on the scale. Vessel 0 has this rule, and the others and the book have other ones. It
/// counts fewer accepted transfers than pieces, as one with a stirred vessel may.
pub fn small_book(rule: u32, loaded: bool) -> (Head, Vec<u32>) {
    let mut pieces = vec![[0, 1, 2, 5], [1, 2, 3, 6], [0, 2, 3, 7], [2, 0, 1, 8]];
    let mut head = Head {
        rule: (rule + 1) % 4,
        vessels: 3,
        last: 4,
        accepted: 2,
        ..Head::ZERO
    };
    head.balances[..3].copy_from_slice(&[12, 6, 8]);
    head.rules[..3].copy_from_slice(&[rule, (rule + 2) % 5, (rule + 3) % 5]);
    if loaded {
        pieces.insert(2, [SCALE, 1, 3, 9]);
        head.scale = 9;
    }
    head.pieces = pieces.len() as u32;
    let mut table = pieces.concat();
    table.extend([77; 8]);
    (head, table)
}

/// Fault 1 cuts the table. Fault 4 has, by its form, one gram too many in a balance, one too many on
/// the scale, the scale said to be bare while it is loaded and the other way round, or a rule that is
/// none: of the first vessel, of the last one, or of the first behind them.
pub fn damage_book(set: &[u32], form: usize, head: &mut Head, table: &mut Vec<u32>) {
    for fault in set {
        match (fault, form % 6) {
            (1, _) => table.truncate(3),
            (4, 0) => head.balances[2] += 1,
            (4, 1) => head.scale += 1,
            (4, 2) => head.scale = if head.scale == 0 { 9 } else { 0 },
            (4, 3) => head.rules[0] = 5,
            (4, 4) => head.rules[2] = TOP,
            (4, _) => head.rules[3] = 1,
            _ => {}
        }
    }
}

/// 6 grams of vessel 0 split a piece under every rule, and both if it is stirred, 12 are all of it, and of
/// 13 one is born.
pub const SPLIT: u32 = 6;
pub const ALL: u32 = 12;
pub const BIRTH: u32 = 13;

/// Without 21 the age is 0 or the minute, with 21 one above that or the largest.
pub const AGES: [fn(bool, u32) -> u16; 2] = [
    |fault, minute| if fault { minute as u16 + 1 } else { 0 },
    |fault, minute| if fault { u16::MAX } else { minute as u16 },
];

/// The forms of a transfer or a lift: 5 rules, 3 weights, 2 kinds of ages.
pub const FORMS: usize = 5 * 3 * AGES.len();

pub fn rule_and_weight(form: usize) -> (u32, u32) {
    (form as u32 % 5, [SPLIT, ALL, BIRTH][form / 5 % 3])
}

/// Transfers and reports have the same faults beside either scale.
const SCALES: [(bool, &str); 2] = [(false, "bare"), (true, "loaded")];

/// Vessels that a book of 3 does not have, the scale's number among them.
pub const STRANGERS: [u32; 4] = [3, SCALE, SCALE + 1, TOP];

/// A transfer with these faults, and the book that it is made on.
fn transfer_with(set: &[u32], form: usize, loaded: bool) -> (Head, Vec<u32>, Transfer) {
    let (rule, weight) = rule_and_weight(form);
    let (mut head, mut table) = small_book(rule, loaded);
    let mut t = Transfer::new([0, 1, 5, weight]);
    // From the last to the first, so that an earlier fault has the last word on an argument.
    for fault in set.iter().rev() {
        match fault {
            5 => t.source = STRANGERS[form / 2 % 4],
            6 => t.destination = t.source,
            7 => t.weight = 0,
            8 => t.minute = 3,
            9 => t.weight = TOP - 5,
            10 => head.accepted = TOP,
            11 => table.truncate(4 * head.pieces as usize),
            _ => {}
        }
    }
    if set.contains(&5) && set.contains(&6) {
        t.destination = t.source;
    }
    t.age = AGES[form / 15](set.contains(&21), t.minute);
    damage_book(set, form, &mut head, &mut table);
    (head, table, t)
}

/// Every set of a transfer's faults, in every form.
fn transfers_with(pair: &mut Pair, faults: &[u32], loaded: bool) -> Due {
    let mut due = Due::default();
    for form in 0..FORMS {
        for set in sets(faults) {
            if set.contains(&11) && rule_and_weight(form).1 == ALL {
                continue; // it needs no place
            }
            let (head, mut table, t) = transfer_with(&set, form, loaded);
            let answer = pair.transfer(head, &mut table, t);
            assert_eq!(answer.number, first(&set), "{set:?}");
            due.add(&set);
        }
    }
    due
}

#[test]
fn transfers() {
    const FAULTS: [u32; 10] = [1, 4, 5, 6, 7, 8, 21, 9, 10, 11];
    for subject in subjects() {
        for (loaded, scale) in SCALES {
            let mut pair = Pair::new(subject);
            let due = transfers_with(&mut pair, &FAULTS, loaded);
            let (said, unborn) = (due.said(), pair.ages.above_unborn);
            pair.tally.print(&format!(
                "order, transfers, {scale} scale, {} {said} unborn {unborn}",
                pair.label()
            ));
            pair.tally
                .expect("transfer", &[0, 1, 4, 5, 6, 7, 8, 9, 10, 11, 21], 16);
            due.expect(&FAULTS, 16);
            assert!(unborn >= 16);
        }
    }
}

/// The three reports with these faults, each with those of them that it can have.
fn reports_with(pair: &mut Pair, due: &mut [Due; 3], (set, form): (&[u32], usize), loaded: bool) {
    let has = |fault| set.contains(&fault);
    let (mut head, mut table) = small_book(form as u32 % 4, loaded);
    damage_book(set, form, &mut head, &mut table);
    let vessel = if has(5) { STRANGERS[form % 4] } else { 1 };
    let span = if has(12) { (4, 3) } else { (3, 3) };
    let mut room = vec![9; if has(13) { 2 } else { 3 }];
    let answer = pair.spread(head, &table, vessel, span, &mut room);
    assert_eq!(answer.number, first(set), "spread {set:?}");
    due[0].add(set);
    if !has(12) {
        let answer = pair.held(head, &table, vessel, &mut room);
        assert_eq!(answer.number, first(set), "held {set:?}");
        due[1].add(set);
    }
    if !has(5) && !has(12) {
        let mut room = vec![9; if has(13) { 8 } else { 9 }];
        let answer = pair.whole(head, &table, &mut room);
        assert_eq!(answer.number, first(set), "whole {set:?}");
        due[2].add(set);
    }
}

#[test]
fn reports() {
    const SPREAD: [u32; 5] = [1, 4, 5, 12, 13];
    const HELD: [u32; 4] = [1, 4, 5, 13];
    const WHOLE: [u32; 3] = [1, 4, 13];
    for subject in subjects() {
        for (loaded, scale) in SCALES {
            let mut pair = Pair::new(subject);
            let mut due = <[Due; 3]>::default();
            for form in 0..12 {
                for set in sets(&SPREAD) {
                    reports_with(&mut pair, &mut due, (&set, form), loaded);
                }
            }
            let said = due.each_ref().map(Due::said).join(" ");
            pair.tally.print(&format!(
                "order, reports, {scale} scale, {} {said}",
                pair.label()
            ));
            pair.tally.expect("spread", &[0, 1, 4, 5, 12, 13], 12);
            pair.tally.expect("held", &[0, 1, 4, 5, 13], 12);
            pair.tally.expect("whole", &[0, 1, 4, 13], 12);
            due[0].expect(&SPREAD, 12);
            due[1].expect(&HELD, 12);
            due[2].expect(&WHOLE, 12);
        }
    }
}
