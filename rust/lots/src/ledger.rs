//! A sheet that was run: the book that it leaves, and the questions to it. Every weight comes from the
//! library's reports; births, which no report has, from the pieces that the run left.

use crate::clock::Clock;
use crate::sheet::Sheet;
use lumchaki::{Head, Piece, Refusal, Stop, PLACES};
use std::cmp::Reverse;

/// A sheet and the book after its movements.
pub struct Ledger {
    /// The sheet.
    pub sheet: Sheet,
    /// The book's head after the last accepted movement.
    pub head: Head,
    /// How many accepted movements had neither split nor birth.
    pub even: u32,
    /// Where the run stopped, if a movement was refused.
    pub stop: Option<Stop>,
    table: Vec<u32>,
}

/// The flour of one origin in one vessel.
#[derive(Clone, Copy, Debug, PartialEq, Eq)]
pub struct Share {
    /// The vessel that it lies in.
    pub holder: u32,
    /// The vessel where it was born.
    pub origin: u32,
    /// Its weight in grams, above 0.
    pub weight: u32,
    /// The earliest and the latest minute in which some of it was born.
    pub births: (u32, u32),
}

impl Ledger {
    /// Runs a sheet on a table that has a place for each piece it can leave.
    pub fn of(sheet: Sheet) -> Result<Ledger, Refusal> {
        let mut table = vec![0; 4 * PLACES];
        let run = lumchaki::run(&sheet.bytes()?, &mut table)?;
        Ok(Ledger {
            sheet,
            head: run.head,
            even: run.even,
            stop: run.stop,
            table,
        })
    }

    /// The vessels' numbers.
    pub fn vessels(&self) -> std::ops::Range<u32> {
        0..self.head.vessels
    }

    /// A vessel's name.
    pub fn name(&self, vessel: u32) -> &str {
        &self.sheet.names[vessel as usize]
    }

    /// The weight in a vessel.
    pub fn balance(&self, vessel: u32) -> u32 {
        self.head.balances[vessel as usize]
    }

    /// The minutes of the first and the last accepted movement, as people read them.
    pub fn minutes(&self, clock: &Clock) -> String {
        match self.sheet.movements.first() {
            Some(first) if self.head.accepted > 0 => {
                clock.show_span((first.minute, self.head.last))
            }
            _ => "none".to_string(),
        }
    }

    /// The pieces in order of receipt.
    pub fn pieces(&self) -> impl Iterator<Item = Piece> + '_ {
        Piece::all(&self.head, &self.table)
    }

    /// The weight by origin of every vessel, one row behind the other.
    pub fn whole(&self) -> Result<Vec<u32>, Refusal> {
        let vessels = self.head.vessels as usize;
        let mut report = vec![0; vessels * vessels];
        lumchaki::whole(&self.head, &self.table, &mut report)?;
        Ok(report)
    }

    /// What a vessel holds, by origin, heaviest first.
    pub fn held(&self, vessel: u32) -> Result<Vec<Share>, Refusal> {
        let mut report = vec![0; self.head.vessels as usize];
        let weights = lumchaki::held(&self.head, &self.table, vessel, &mut report)?;
        let of = |(origin, &weight)| self.share(vessel, origin, weight, (0, u32::MAX));
        Ok(heaviest_first(self.vessels().zip(weights).filter_map(of)))
    }

    /// The vessels that hold flour of an origin that was born in a span, both ends included, heaviest first.
    pub fn spread(&self, origin: u32, span: (u32, u32)) -> Result<Vec<Share>, Refusal> {
        let mut report = vec![0; self.head.vessels as usize];
        let minutes = span.0..=span.1;
        let weights = lumchaki::spread(&self.head, &self.table, origin, minutes, &mut report)?;
        let of = |(holder, &weight)| self.share(holder, origin, weight, span);
        Ok(heaviest_first(self.vessels().zip(weights).filter_map(of)))
    }

    /// The weight that a report has, with the births of its pieces; none for no weight.
    fn share(&self, holder: u32, origin: u32, weight: u32, span: (u32, u32)) -> Option<Share> {
        let born = |p: &Piece| p.origin == origin && (span.0..=span.1).contains(&p.birth);
        let births = self.births(|p| p.holder == holder && born(p))?;
        Some(Share {
            holder,
            origin,
            weight,
            births,
        })
    }

    /// The earliest and the latest birth among some of the pieces; none if there are none.
    pub fn births(&self, some: impl Fn(&Piece) -> bool) -> Option<(u32, u32)> {
        let births = self.pieces().filter(some).map(|p| p.birth);
        births.fold(None, |seen: Option<(u32, u32)>, birth| {
            let (first, last) = seen.unwrap_or((birth, birth));
            Some((first.min(birth), last.max(birth)))
        })
    }

    /// The origins whose flour is in the vessels, each with its weight, heaviest first.
    pub fn origins(&self) -> Result<Vec<(u32, u64)>, Refusal> {
        let report = self.whole()?;
        let column = |origin| {
            report
                .iter()
                .skip(origin as usize)
                .step_by(self.head.vessels as usize)
        };
        let weight = |origin| (origin, column(origin).map(|&w| u64::from(w)).sum());
        let mut origins: Vec<(u32, u64)> = self.vessels().map(weight).collect();
        origins.retain(|&(_, weight)| weight > 0);
        origins.sort_by_key(|&(_, weight)| Reverse(weight));
        Ok(origins)
    }
}

/// On a tie the order is that of the vessels' numbers.
fn heaviest_first(shares: impl Iterator<Item = Share>) -> Vec<Share> {
    let mut shares: Vec<Share> = shares.collect();
    shares.sort_by_key(|share| Reverse(share.weight));
    shares
}

/// The sum of weights, which may be above the largest weight of a vessel.
pub fn total(shares: &[Share]) -> u64 {
    shares.iter().map(|share| u64::from(share.weight)).sum()
}

/// A part in percent, to a tenth. What is there is never shown as nothing, nor a part as all.
pub fn percent(part: u32, whole: u32) -> String {
    let (part, whole) = (u64::from(part), u64::from(whole));
    let tenths = (1000 * part + whole / 2) / whole.max(1);
    match tenths {
        0 if part > 0 => "<0.1 %".to_string(),
        1000 if part < whole => ">99.9 %".to_string(),
        _ => format!("{}.{} %", tenths / 10, tenths % 10),
    }
}

#[cfg(test)]
mod tests {
    use super::percent;

    #[test]
    fn shares_in_percent() {
        let shown = [
            (0, 0, "0.0 %"),
            (1, 1, "100.0 %"),
            (1, 2, "50.0 %"),
            (2, 3, "66.7 %"),
            (1, 2000, "0.1 %"),
            (1, 2001, "<0.1 %"),
            (1999, 2000, ">99.9 %"),
            (1998, 2001, "99.9 %"),
            (u32::MAX - 1, u32::MAX, ">99.9 %"),
            (u32::MAX, u32::MAX, "100.0 %"),
        ];
        for (part, whole, text) in shown {
            assert_eq!(percent(part, whole), text, "{part} of {whole}");
        }
    }
}
