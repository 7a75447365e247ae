//! What runs came to, told by a book that the same movements are made on.

use super::maker::picked;
use calls::{Piece, Refusal, Transfer};
use second::{Book, Moved, Sheet};

/// The notes of receipts for which a run has room, before it leaves out those that later ones follow.
pub const NOTES: usize = 4 * calls::PLACES;

/// Counts over all runs that were watched.
#[derive(Debug, Default)]
pub struct Reached {
    /// Movements that were accepted.
    pub made: u64,
    pub whole: u64,
    pub splits: u64,
    pub births: u64,
    /// Runs that passed with a piece at every place, and those that stopped because there was one.
    pub full: u64,
    pub short: u64,
    /// Pieces received: notes, and how often these had to be closed up.
    pub notes: u64,
    pub closed: u64,
    /// Runs that closed them up.
    pub long: u64,
    /// The most pieces that one movement moved.
    pub most: u32,
    /// Of the runs that were watched closely: pieces received by a vessel that has one of that birth, ones
    /// that are born before some there and after others, and ones before all of them; under rules 2 and 3.
    pub ties: [u64; 2],
    pub between: [u64; 2],
    pub ahead: [u64; 2],
    /// Likewise movements of all there is, of one gram of more, and of a gram less than what is picked first, of
    /// just that, and of a gram more.
    pub all: u64,
    pub gram: u64,
    pub first: [u64; 3],
}

impl Reached {
    /// Makes the movements of a sheet on a book of so many places, up to the stop, and counts. Closely: also
    /// where among the others each piece comes to lie.
    pub fn watch(&mut self, sheet: &Sheet, places: usize, closely: bool) {
        let vessels = sheet.names.len() as u32;
        let mut book = Book::open(sheet.rule, vessels, places).expect("a sheet");
        let (mut notes, mut closed, mut pieces) = (0, 0, 0);
        let mut stop = None;
        for &t in &sheet.movements {
            let before = if closely { book.pieces() } else { Vec::new() };
            let moved = match book.transfer(t) {
                Ok(moved) => moved,
                Err(refusal) => {
                    stop = Some(refusal);
                    break;
                }
            };
            if NOTES - notes < pieces + 1 {
                notes = pieces;
                closed += 1;
            }
            let received = self.count(&moved);
            notes += received;
            pieces += (moved.split + u32::from(moved.born > 0)) as usize;
            if closely {
                self.look(sheet.rule, &before, t, &book.pieces(), received);
            }
        }
        self.closed += closed;
        self.long += u64::from(closed > 0);
        self.full += u64::from(stop.is_none() && pieces == places);
        self.short += u64::from(stop == Some(Refusal::TableFull) && pieces == places);
    }

    /// Counts what a movement did; the pieces that it received.
    fn count(&mut self, moved: &Moved) -> usize {
        let born = u32::from(moved.born > 0);
        let received = moved.whole + moved.split + born;
        self.made += 1;
        self.whole += u64::from(moved.whole);
        self.splits += u64::from(moved.split);
        self.births += u64::from(born);
        self.notes += u64::from(received);
        self.most = self.most.max(moved.whole);
        received as usize
    }

    fn look(&mut self, rule: u32, before: &[Piece], t: Transfer, after: &[Piece], received: usize) {
        let source = picked(before, t.source, rule);
        let balance: u32 = source.iter().map(|p| p.weight).sum();
        self.all += u64::from(t.weight == balance);
        self.gram += u64::from(t.weight == 1 && balance > 1);
        if let Some(p) = source.first() {
            for (count, weight) in self.first.iter_mut().zip(p.weight - 1..) {
                *count += u64::from(t.weight == weight);
            }
        }
        if rule < 2 {
            return;
        }
        let by = rule as usize - 2;
        let (others, received) = after.split_at(after.len() - received);
        let held = others.iter().filter(|p| p.holder == t.destination);
        let held: Vec<u32> = held.map(|p| p.birth).collect();
        for p in received {
            let earlier = held.iter().any(|&birth| birth < p.birth);
            let later = held.iter().any(|&birth| birth > p.birth);
            self.ties[by] += u64::from(held.contains(&p.birth));
            self.between[by] += u64::from(earlier && later);
            let ahead = if rule == 2 {
                later && !earlier
            } else {
                earlier && !later
            };
            self.ahead[by] += u64::from(ahead);
        }
    }

    /// Fails unless each thing that close watching tells was met so often.
    pub fn expect(&self, at_least: u64) {
        let counts = [self.splits, self.births, self.whole, self.all, self.gram];
        let by_birth = [self.ties, self.between, self.ahead].concat();
        let mut counts = counts.iter().chain(&self.first).chain(&by_birth);
        assert!(counts.all(|&count| count >= at_least), "{self:?}");
    }
}
