//! What a stirred vessel holds: a queue in order of receipt, all of which gives at once.

use crate::buffer::{part_of, Given, Lot};
use std::collections::VecDeque;

/// The lots of a stirred vessel.
#[derive(Clone, Default)]
pub struct Stirred(VecDeque<Lot>);

impl Stirred {
    /// Receives a lot, whose receipt is the latest so far.
    pub fn receive(&mut self, lot: Lot) {
        self.0.push_back(lot);
    }

    /// The lots in order of receipt.
    pub fn lots(&self) -> impl Iterator<Item = &Lot> {
        self.0.iter()
    }

    /// The earliest received lot goes whole, if there is one.
    pub fn empty(&mut self) -> Option<Lot> {
        self.0.pop_front()
    }

    fn weight(&self) -> u128 {
        self.0.iter().map(|lot| u128::from(lot.weight)).sum()
    }

    /// Whether it holds more than a weight.
    pub fn exceeds(&self, weight: u32) -> bool {
        self.weight() > weight.into()
    }

    /// Gives a weight below what it holds. Each lot owes its exact share, a fraction over all that there
    /// is, and what the earlier ones have owed and not given. It pays the whole grams of that.
    pub fn stir(&mut self, want: u32) -> Vec<Given> {
        let all = self.weight();
        let mut owed = 0; // so many parts of a gram, which has `all`
        let mut given = Vec::new();
        let mut stay = VecDeque::new();
        while let Some(mut lot) = self.0.pop_front() {
            owed += u128::from(want) * u128::from(lot.weight);
            let grams = (owed / all) as u32;
            owed %= all;
            match part_of(&mut lot, grams) {
                Some(_) if grams == 0 => stay.push_back(lot),
                Some(part) => {
                    stay.push_back(lot);
                    given.push(part);
                }
                None => given.push(Given::Whole(lot)),
            }
        }
        self.0 = stay;
        given
    }
}
