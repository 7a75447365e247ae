//! Two implementations side by side: the calls on a book.

mod reports;
mod rules;
mod scale;
mod sheets;
mod stirs;

pub use scale::tipped;

use crate::{held_by, Ages, Stirs, Tally};
use calls::{places, Engine, Head, Opened, Refusal, Transfer, Transferred, SCALE};
use rules::with_other_rules;
use second::Second;
use std::fmt::Debug;

/// So many elements on each side of lent memory are watched.
const GUARD: usize = 8;

/// Calls a function on a copy of `lent` that has watched elements around it.
fn guarded<T, R>(lent: &mut [T], guard: T, call: impl FnOnce(&mut [T]) -> R) -> R
where
    T: Copy + PartialEq + Debug,
{
    let mut room = vec![guard; GUARD + lent.len() + GUARD];
    let inner = GUARD..GUARD + lent.len();
    room[inner.clone()].copy_from_slice(lent);
    let answer = call(&mut room[inner.clone()]);
    lent.copy_from_slice(&room[inner.clone()]);
    let around = room[..inner.start].iter().chain(&room[inner.end..]);
    assert!(
        around.copied().all(|x| x == guard),
        "written outside the lent memory"
    );
    answer
}

/// The answer of a transfer or lift at age 0, beside the one at its own age: they come to the same,
/// but for 21 and the birth of what is born.
fn beside_young(
    (head, before): (Head, &[u32]),
    table: &[u32],
    t: Transfer,
    answer: &Transferred,
    call: Moving,
) -> Transferred {
    if t.age == 0 {
        return *answer;
    }
    let mut young_table = before.to_vec();
    let young = call(&Second, head, &mut young_table, t.aged(0));
    assert_eq!(answer.number, Ages::number(t, young.number), "{t:?}");
    if answer.number != 0 {
        return young;
    }
    assert_eq!(*answer, young, "{t:?}");
    if answer.born > 0 {
        // What is born is the last piece.
        let birth = &mut young_table[4 * answer.head.pieces as usize - 2];
        assert_eq!(*birth, t.minute);
        *birth -= u32::from(t.age);
    }
    assert_eq!(table, young_table, "{t:?}");
    young
}

/// A subject and the second implementation. Each method makes the call on both, fails where answer
/// or memory differ, and gives the subject's answer.
pub struct Pair {
    subject: &'static dyn Engine,
    /// What the subject answered so far.
    pub tally: Tally,
    /// What it answered to transfers and reports beside a loaded scale.
    pub beside: Tally,
    /// What the ages of its transfers came to.
    pub ages: Ages,
    /// What the ages of its lifts came to.
    pub lift_ages: Ages,
    /// What its transfers and lifts from stirred vessels came to.
    pub stirs: Stirs,
}

/// A transfer or a lift by an engine on head and table.
type Moving<'c> = &'c dyn Fn(&dyn Engine, Head, &mut [u32], Transfer) -> Transferred;

impl Pair {
    /// The subject beside the second implementation.
    pub fn new(subject: &'static dyn Engine) -> Pair {
        Pair {
            subject,
            tally: Tally::default(),
            beside: Tally::default(),
            ages: Ages::default(),
            lift_ages: Ages::default(),
            stirs: Stirs::default(),
        }
    }

    /// The subject's word.
    pub fn label(&self) -> &'static str {
        self.subject.label()
    }

    fn same<T: PartialEq + Debug>(&self, call: &str, told: &dyn Debug, answer: T, expected: T) {
        let label = self.subject.label();
        assert_eq!(answer, expected, "{label}: {call} {told:?}");
    }

    /// Opening. A refusal gives a head of zeros.
    pub fn open(&mut self, rule: u32, vessels: u32) -> Opened {
        let answer = self.subject.open(rule, vessels);
        let expected = Second.open(rule, vessels);
        self.same("open", &(rule, vessels), answer, expected);
        if answer.number != 0 {
            assert_eq!(answer.head, Head::ZERO, "refused");
        }
        self.tally.add("open", answer.number);
        answer
    }

    /// A transfer. What is on the scale stays there as it was, in its order.
    pub fn transfer(&mut self, head: Head, table: &mut [u32], t: Transfer) -> Transferred {
        let load = held_by(&head, table, SCALE);
        let answer = self.moving("transfer", head, table, t, &|engine, head, table, t| {
            engine.transfer(head, table, t)
        });
        assert_eq!(held_by(&answer.head, table, SCALE), load, "{head:?} {t:?}");
        assert_eq!(answer.head.scale, head.scale);
        self.note_beside("transfer", &head, answer.number);
        answer
    }

    /// Counts a transfer or a report beside a loaded scale. 22 is for a lift alone.
    fn note_beside(&mut self, name: &'static str, head: &Head, number: u32) {
        assert_ne!(number, Refusal::ScaleLoaded.number(), "{name}");
        if head.scale > 0 {
            self.beside.add(name, number);
        }
    }

    /// A transfer or a lift, by the call that makes it. Beside the comparison: a refusal changes
    /// nothing, nothing is written behind the last piece, and only the source's rule picks.
    fn moving(
        &mut self,
        name: &'static str,
        head: Head,
        table: &mut [u32],
        t: Transfer,
        call: Moving,
    ) -> Transferred {
        let before = table.to_vec();
        let answer = guarded(table, 0xdead_beef, |table| {
            call(self.subject, head, table, t)
        });
        let mut expected_table = before.clone();
        let expected = call(&Second, head, &mut expected_table, t);
        let told = (head, t, places(table));
        self.same(name, &told, answer, expected);
        self.same(name, &told, &*table, &expected_table);
        if answer.number == 0 {
            let behind = 4 * answer.head.pieces as usize;
            assert_eq!(table[behind..], before[behind..], "behind the last piece");
        } else {
            assert_eq!((answer.head, &*table), (head, &before[..]), "refused");
            assert_eq!([answer.whole, answer.split, answer.born], [0; 3]);
        }
        if ![1, 4].contains(&answer.number) {
            self.by_the_source((head, &before), table, t, &answer, call);
            self.by_the_words((head, &before), table, t, &answer);
        }
        let young = beside_young((head, &before), table, t, &answer, call);
        let ages = match name {
            "lift" => &mut self.lift_ages,
            _ => &mut self.ages,
        };
        ages.add((&head, &before), t, &answer, &young);
        self.tally.add(name, answer.number);
        answer
    }

    /// Whatever the rules of the book and of the other vessels are, a transfer or lift answers the same
    /// and leaves the same, these rules as they were.
    fn by_the_source(
        &self,
        (head, before): (Head, &[u32]),
        table: &[u32],
        t: Transfer,
        answer: &Transferred,
        call: Moving,
    ) {
        let others = with_other_rules(&head, t.source);
        let mut other_table = before.to_vec();
        let mut other = call(self.subject, others, &mut other_table, t);
        assert_eq!(
            (other.head.rule, other.head.rules),
            (others.rule, others.rules)
        );
        (other.head.rule, other.head.rules) = (head.rule, head.rules);
        assert_eq!((&other, &*other_table), (answer, table), "{head:?} {t:?}");
    }
}
