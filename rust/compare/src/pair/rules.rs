//! Setting a vessel's rule, and what a pick asks of the rules.

use super::Pair;
use calls::{places, Engine, Head, RuleSet, STIRRED};
use second::Second;

/// The head with the book's rule and those of all vessels but one changed to other known ones.
pub(super) fn with_other_rules(head: &Head, but: u32) -> Head {
    let mut others = *head;
    others.rule = (head.rule + 1) % 4;
    let vessels = (0..head.vessels).filter(|&v| v != but);
    for vessel in vessels {
        let rule = &mut others.rules[vessel as usize];
        *rule = (*rule + 1) % (STIRRED + 1);
    }
    others
}

impl Pair {
    /// A vessel's rule is set. An accepted setting changes this one number of the head, a refused one
    /// none; the table stays.
    pub fn set_rule(&mut self, head: Head, table: &[u32], vessel: u32, rule: u32) -> RuleSet {
        let before = table.to_vec();
        let answer = self.subject.set_rule(head, table, vessel, rule);
        let expected = Second.set_rule(head, table, vessel, rule);
        let told = (head, vessel, rule, places(table));
        self.same("set rule", &told, answer, expected);
        assert_eq!(table, before, "set rule leaves the table");
        let mut next = head;
        if ![1, 4].contains(&answer.number) {
            let due = [(5, vessel >= head.vessels), (2, rule > STIRRED)];
            let first = due.into_iter().find(|&(_, applies)| applies);
            assert_eq!(answer.number, first.map_or(0, |(number, _)| number));
        }
        if answer.number == 0 {
            next.rules[vessel as usize] = rule;
        }
        assert_eq!(answer.head, next, "{told:?}");
        self.note_beside("set rule", &head, answer.number);
        self.tally.add("set rule", answer.number);
        answer
    }
}
