//! The scale: a transfer divided into lift and tip.

use super::{draw, Book, Moved};
use crate::buffer::Lot;
use calls::{Lift, Refusal, Tip, TOP};

impl Book {
    /// The weight on the scale.
    pub(super) fn on_scale(&self) -> u64 {
        self.scale.iter().map(|lot| u64::from(lot.weight)).sum()
    }

    /// The refusal of a lift, if one applies.
    fn lift_refusal(&self, l: &Lift) -> Option<Refusal> {
        let source = l.source as usize;
        if !self.scale.is_empty() {
            return Some(Refusal::ScaleLoaded);
        }
        if source >= self.buffers.len() {
            return Some(Refusal::NoVessel);
        }
        if l.weight == 0 {
            return Some(Refusal::NoWeight);
        }
        if l.minute < self.last {
            return Some(Refusal::ClockBack);
        }
        if l.minute < l.age.into() {
            return Some(Refusal::BeforeTime);
        }
        if self.accepted == TOP {
            return Some(Refusal::TallyFull);
        }
        if self.no_place(source, l.weight) {
            return Some(Refusal::TableFull);
        }
        None
    }

    /// Lifts weight onto the scale. The lots join it in picked order.
    pub fn lift(&mut self, l: Lift) -> Result<Moved, Refusal> {
        if let Some(refusal) = self.lift_refusal(&l) {
            return Err(refusal);
        }
        let from = &mut self.buffers[l.source as usize];
        let scale = &mut self.scale;
        let moved = draw(from, &l, &mut self.receipts, |lot| scale.push(lot));
        self.count(&l, &moved);
        Ok(moved)
    }

    /// Tips all of the scale into a vessel: its lots are received anew, in their order.
    pub fn tip(&mut self, t: Tip) -> Result<(), Refusal> {
        let destination = t.destination as usize;
        if self.scale.is_empty() {
            return Err(Refusal::ScaleBare);
        }
        if destination >= self.buffers.len() {
            return Err(Refusal::NoVessel);
        }
        if t.minute < self.last {
            return Err(Refusal::ClockBack);
        }
        let weight = self.on_scale();
        if self.balances[destination] + weight > TOP.into() {
            return Err(Refusal::Overfull);
        }
        let to = &mut self.buffers[destination];
        for lot in self.scale.drain(..) {
            let receipt = self.receipts;
            to.receive(Lot { receipt, ..lot });
            self.receipts += 1;
        }
        self.balances[destination] += weight;
        self.last = t.minute;
        Ok(())
    }
}
