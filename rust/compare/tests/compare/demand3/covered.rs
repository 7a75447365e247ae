//! What the lists of demand 3 came to, and how much of it there has to be.

use compare::Pair;

/// Numbers, each of a call, that are counted by the forecasts in which they are met: the scale's own,
/// and those of transfers beside a loaded scale.
pub const FORECASTS: [(u32, &str); 5] = [
    (22, "lift"),
    (23, "tip"),
    (9, "tip"),
    (0, "beside"),
    (9, "beside"),
];

/// How often each law had something to say.
#[derive(Debug, Default)]
pub struct Covered {
    pub lists: u32,
    pub transfers: u32,
    pub lifts: u32,
    pub tips: u32,
    pub even: u32,
    /// Lifts that were even: they count beside the pieces.
    pub even_lifts: u32,
    pub births: u32,
    /// Births entered under an origin and minute that had some from a transfer at another minute.
    pub added: u32,
    /// Lists that end with weight on the scale.
    pub loaded: u32,
    /// Accepted transfers beside a load, from the vessel that the load came from, and into it.
    pub from_source: u32,
    pub into_source: u32,
    /// Tips into a vessel that received something beside the load.
    pub behind: u32,
    pub forecasts: u32,
    pub forecasts_of: [u32; FORECASTS.len()],
    /// Forecasts in which a 21 was met.
    pub age_forecasts: u32,
    pub full: u32,
    /// Transfers and lifts that picked something by a rule that is not the book's, by that rule.
    pub by_set_rule: [u32; 5],
    /// Lists in which something was picked by rule 4, of those with a place for each transfer and lift.
    pub stirred: u32,
    /// Those that end with more pieces than accepted.
    pub outnumbered: u32,
    /// The same list with settings up to rule 3 and up to rule 4 leaves other pieces.
    pub stirred_apart: u32,
    /// Pairs of lists that differ in their settings alone and leave other pieces.
    pub apart: u32,
}

impl Covered {
    /// Prints the counts and fails if they are too low.
    pub fn expect(&self, pair: &Pair) {
        let (ages, lift_ages, beside) = (&pair.ages, &pair.lift_ages, &pair.beside);
        let stirs = &pair.stirs;
        pair.tally.print(&format!(
            "demand 3, {} {self:?} {stirs:?} {ages:?} lifts {lift_ages:?} beside a load {beside:?}",
            pair.label()
        ));
        stirs.expect(30);
        assert!(stirs.parts > 2_000 && stirs.lifts > 1_500 && stirs.beside > 500);
        assert!(stirs.empty > 2_000 && stirs.outnumbered > 2_000);
        assert!(self.stirred > 1_000 && self.outnumbered > 200 && self.stirred_apart > 1_000);
        assert!(self.lists >= 1_000 && self.transfers > 50_000);
        assert!(self.lifts > 20_000 && self.tips > 20_000);
        assert!(self.even > 5_000 && self.births > 5_000 && self.full > 500);
        assert!(self.even_lifts > 1_000 && self.added > 1_000 && self.loaded > 1_000);
        assert!(self.from_source > 1_000 && self.into_source > 1_000 && self.behind > 1_000);
        assert!(self.forecasts > 300 && self.age_forecasts > 100);
        assert!(self.forecasts_of.iter().all(|&count| count > 100));
        assert!(self.by_set_rule.iter().all(|&count| count > 1_000) && self.apart > 1_000);
        for call in ["transfer", "lift", "tip", "set rule"] {
            assert!(pair.tally.count(call, 0) > 10_000, "{call}");
        }
        ages.expect(&[0, 5, 6, 7, 8, 9, 11], 100);
        lift_ages.expect_of_lifts(&[0, 5, 7, 8, 11, 22], 50);
        pair.tally
            .expect("transfer", &[0, 1, 5, 6, 7, 8, 9, 11, 21], 100);
        pair.tally.expect("lift", &[0, 1, 5, 7, 8, 11, 21, 22], 100);
        pair.tally.expect("tip", &[0, 1, 5, 8, 9, 23], 100);
        pair.tally.expect("set rule", &[0, 1, 2, 5], 100);
        pair.tally.expect("held", &[0, 1, 5, 13], 100);
        pair.tally.expect("spread", &[0, 1, 5, 12, 13], 100);
        pair.tally.expect("whole", &[0, 1, 13], 100);
        for call in ["set rule", "transfer", "held", "spread", "whole"] {
            assert!(beside.count(call, 0) > 5_000, "{call}");
        }
        beside.expect("transfer", &[0, 5, 6, 7, 8, 9, 11, 21], 500);
        beside.expect("set rule", &[0, 2, 5], 100);
        beside.expect("held", &[0, 5, 13], 100);
        beside.expect("spread", &[0, 5, 12, 13], 100);
        beside.expect("whole", &[0, 13], 100);
    }
}
