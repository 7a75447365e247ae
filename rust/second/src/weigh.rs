//! The weigh book: a plain machine that knows weights and births, and no pieces.

use calls::{Lift, Refusal, Tip, Transfer, TOP};
use std::collections::BTreeMap;

/// Weight of each vessel and of the scale, births of each vessel and minute, last minute, accepted.
#[derive(Clone, Debug)]
pub struct WeighBook {
    /// W: the weight in each vessel.
    pub weights: Vec<u64>,
    /// The weight on the scale, which is one more place.
    pub scale: u64,
    /// B: the weight born, by vessel and minute of milling, t less the age. What was never born has
    /// no entry.
    pub births: BTreeMap<(u32, u32), u64>,
    /// The minute of the last accepted transfer, lift or tip.
    pub last: u32,
    /// How many transfers and lifts were accepted.
    pub accepted: u32,
}

fn refuse_if(test: bool, refusal: Refusal) -> Result<(), Refusal> {
    if test {
        return Err(refusal);
    }
    Ok(())
}

/// 0 or the refusal's number.
fn number_of(result: Result<(), Refusal>) -> u32 {
    result.err().map_or(0, Refusal::number)
}

impl WeighBook {
    /// The machine at first, for so many vessels.
    pub fn new(vessels: u32) -> WeighBook {
        WeighBook {
            weights: vec![0; vessels as usize],
            scale: 0,
            births: BTreeMap::new(),
            last: 0,
            accepted: 0,
        }
    }

    /// Feeds it a transfer; its answer is 0 or the first of 5 to 8, 21, 9 and 10 that applies.
    pub fn feed(&mut self, t: Transfer) -> u32 {
        number_of(self.weigh(t))
    }

    /// Feeds it a lift; its answer is 0 or the first of 22, 5, 7, 8, 21 and 10 that applies.
    pub fn feed_lift(&mut self, l: Lift) -> u32 {
        number_of(self.weigh_lift(l))
    }

    /// Feeds it a tip; its answer is 0 or the first of 23, 5, 8 and 9 that applies.
    pub fn feed_tip(&mut self, t: Tip) -> u32 {
        number_of(self.weigh_tip(t))
    }

    fn has(&self, vessel: u32) -> bool {
        (vessel as usize) < self.weights.len()
    }

    fn weigh(&mut self, t: Transfer) -> Result<(), Refusal> {
        let known = self.has(t.source) && self.has(t.destination);
        refuse_if(!known, Refusal::NoVessel)?;
        refuse_if(t.source == t.destination, Refusal::SameVessel)?;
        refuse_if(t.weight == 0, Refusal::NoWeight)?;
        refuse_if(t.minute < self.last, Refusal::ClockBack)?;
        refuse_if(u32::from(t.age) > t.minute, Refusal::BeforeTime)?;
        let filled = self.weights[t.destination as usize] + u64::from(t.weight);
        refuse_if(filled > TOP.into(), Refusal::Overfull)?;
        refuse_if(self.accepted == TOP, Refusal::TallyFull)?;
        self.take(t.lift());
        self.weights[t.destination as usize] = filled;
        Ok(())
    }

    fn weigh_lift(&mut self, l: Lift) -> Result<(), Refusal> {
        refuse_if(self.scale > 0, Refusal::ScaleLoaded)?;
        refuse_if(!self.has(l.source), Refusal::NoVessel)?;
        refuse_if(l.weight == 0, Refusal::NoWeight)?;
        refuse_if(l.minute < self.last, Refusal::ClockBack)?;
        refuse_if(u32::from(l.age) > l.minute, Refusal::BeforeTime)?;
        refuse_if(self.accepted == TOP, Refusal::TallyFull)?;
        self.take(l);
        self.scale = l.weight.into();
        Ok(())
    }

    fn weigh_tip(&mut self, t: Tip) -> Result<(), Refusal> {
        refuse_if(self.scale == 0, Refusal::ScaleBare)?;
        refuse_if(!self.has(t.destination), Refusal::NoVessel)?;
        refuse_if(t.minute < self.last, Refusal::ClockBack)?;
        let weight = &mut self.weights[t.destination as usize];
        refuse_if(*weight + self.scale > TOP.into(), Refusal::Overfull)?;
        *weight += self.scale;
        self.scale = 0;
        self.last = t.minute;
        Ok(())
    }

    /// Takes weight from the source of an accepted transfer or lift. What it lacks is born there.
    fn take(&mut self, l: Lift) {
        let weight = u64::from(l.weight);
        let there = &mut self.weights[l.source as usize];
        let born = weight.saturating_sub(*there);
        *there -= weight - born;
        if born > 0 {
            let birth = l.minute - u32::from(l.age);
            *self.births.entry((l.source, birth)).or_default() += born;
        }
        self.last = l.minute;
        self.accepted += 1;
    }
}
