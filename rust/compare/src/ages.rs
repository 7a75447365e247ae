//! What the ages of transfers and lifts came to, so that a test can say what it covered.

use calls::{Head, Piece, Refusal, Transfer, Transferred};
use std::collections::BTreeMap;

/// The refusals of a transfer or lift before 21.
const BEFORE_21: [Refusal; 7] = [
    Refusal::TableShort,
    Refusal::BookOff,
    Refusal::ScaleLoaded,
    Refusal::NoVessel,
    Refusal::SameVessel,
    Refusal::NoWeight,
    Refusal::ClockBack,
];

/// Counts of transfers, or of lifts, by their ages. A lift is counted as the transfer to the scale.
#[derive(Clone, Debug, Default)]
pub struct Ages {
    /// The age is above the minute: how often, by the number that the transfer gives at age 0.
    pub above: BTreeMap<u32, u64>,
    /// Of those, refused for the age alone where nothing would be born.
    pub above_unborn: u64,
    /// Refused for an age that is one above the minute.
    pub one_above: u64,
    /// Births at minute 0, by an age that is the minute and not 0.
    pub at_minute: u64,
    /// Births of age 65,535.
    pub largest: u64,
    /// Births in vessels of rules 2 and 3 before those of all pieces in the table.
    pub earliest: u64,
    /// Births handed to vessels of rules 2 and 3 that hold one of that minute, received at an earlier
    /// minute. The scale has no rule and no piece before a lift.
    pub equal: u64,
    /// Picks by rules 2 and 3 from pieces whose births do not go up in order of receipt.
    pub behind: u64,
}

impl Ages {
    /// The number of a transfer, by that of the same transfer at age 0.
    pub fn number(t: Transfer, young: u32) -> u32 {
        let earlier = BEFORE_21.iter().any(|refusal| refusal.number() == young);
        if u32::from(t.age) > t.minute && !earlier {
            return Refusal::BeforeTime.number();
        }
        young
    }

    /// Counts a transfer on head and table: its answer, and the answer at age 0.
    pub fn add(
        &mut self,
        (head, table): (&Head, &[u32]),
        t: Transfer,
        answer: &Transferred,
        young: &Transferred,
    ) {
        let age = u32::from(t.age);
        if age > t.minute {
            *self.above.entry(young.number).or_default() += 1;
            self.above_unborn += u64::from(young.number == 0 && young.born == 0);
            let refused = answer.number == Refusal::BeforeTime.number();
            self.one_above += u64::from(refused && age == t.minute + 1);
        }
        if answer.number != 0 {
            return;
        }
        let by_birth = |holder: u32| matches!(head.rules.get(holder as usize), Some(2 | 3));
        let pieces = || Piece::all(head, table);
        let held = |vessel| move |p: &Piece| p.holder == vessel;
        if answer.born > 0 && age > 0 {
            let birth = t.minute - age;
            self.at_minute += u64::from(birth == 0);
            self.largest += u64::from(t.age == u16::MAX);
            let earliest = head.pieces > 0 && pieces().all(|p| birth < p.birth);
            self.earliest += u64::from(by_birth(t.source) && earliest);
            let mut there = pieces().filter(held(t.destination));
            let equal = t.minute > head.last && there.any(|p| p.birth == birth);
            self.equal += u64::from(by_birth(t.destination) && equal);
        }
        if answer.whole + answer.split > 0 {
            let births = pieces().filter(held(t.source)).map(|p| p.birth);
            self.behind += u64::from(by_birth(t.source) && !births.is_sorted());
        }
    }

    /// Fails unless each count of transfers is so high; ages above the minute were met by transfers
    /// that give each of these numbers at age 0.
    pub fn expect(&self, above: &[u32], at_least: u64) {
        self.expect_of_lifts(above, at_least);
        assert!(self.equal >= at_least, "{self:?}");
    }

    /// The same of lifts, which find no piece on the scale.
    pub fn expect_of_lifts(&self, above: &[u32], at_least: u64) {
        for number in above {
            let count = self.above.get(number).copied().unwrap_or(0);
            assert!(count >= at_least, "above, {number} {count} times: {self:?}");
        }
        let counts = [
            self.above_unborn,
            self.one_above,
            self.at_minute,
            self.largest,
            self.earliest,
            self.behind,
        ];
        assert!(counts.iter().all(|&c| c >= at_least), "{self:?}");
    }
}
