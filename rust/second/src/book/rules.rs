//! The rule of each vessel.

use super::Book;
use crate::buffer::Buffer;
use calls::{Refusal, STIRRED, VESSELS};

impl Book {
    /// Makes the buffers of a book without pieces ready for these rules, if it can have them: each
    /// vessel's is known, and behind the vessels there is none.
    pub(super) fn take_rules(&mut self, rules: &[u32; VESSELS]) -> Result<(), Refusal> {
        let (known, behind) = rules.split_at(self.buffers.len());
        if known.iter().any(|&rule| rule > STIRRED) || behind.iter().any(|&rule| rule > 0) {
            return Err(Refusal::BookOff);
        }
        self.buffers = known.iter().map(|&rule| Buffer::of_rule(rule)).collect();
        Ok(())
    }

    /// Sets the rule of a vessel for later picks: its lots are laid ready for that.
    pub fn set_rule(&mut self, vessel: u32, rule: u32) -> Result<(), Refusal> {
        let buffer = self.buffers.get_mut(vessel as usize);
        let buffer = buffer.ok_or(Refusal::NoVessel)?;
        if rule > STIRRED {
            return Err(Refusal::RuleUnknown);
        }
        *buffer = buffer.turned(rule);
        Ok(())
    }
}
