//! Opening, the rules of the vessels, and whether a book adds up.

use calls::{places, Head, Refusal, SCALE, STIRRED, VESSELS};

pub fn open(rule: u32, vessels: u32) -> Result<Head, Refusal> {
    if rule > 3 {
        return Err(Refusal::RuleUnknown);
    }
    if vessels == 0 || vessels > VESSELS as u32 {
        return Err(Refusal::VesselCount);
    }
    let mut head = Head {
        rule,
        vessels,
        ..Head::ZERO
    };
    head.rules[..vessels as usize].fill(rule);
    Ok(head)
}

/// Sets the rule of a vessel: the next head.
pub fn set_rule(mut head: Head, table: &[u32], vessel: u32, rule: u32) -> Result<Head, Refusal> {
    check(&head, table)?;
    if vessel >= head.vessels {
        return Err(Refusal::NoVessel);
    }
    if rule > STIRRED {
        return Err(Refusal::RuleUnknown);
    }
    head.rules[vessel as usize] = rule;
    Ok(head)
}

/// Checks 1 and 4.
pub fn check(head: &Head, table: &[u32]) -> Result<(), Refusal> {
    if table.len() < 4 {
        return Err(Refusal::TableShort);
    }
    if !adds_up(head, table) {
        return Err(Refusal::BookOff);
    }
    Ok(())
}

/// One pass over the pieces, with sums that do not wrap.
fn adds_up(head: &Head, table: &[u32]) -> bool {
    if head.rule > 3 || head.vessels == 0 || head.vessels > VESSELS as u32 {
        return false;
    }
    let (known, beyond) = head.rules.split_at(head.vessels as usize);
    if known.iter().any(|&rule| rule > STIRRED) || beyond.iter().any(|&rule| rule != 0) {
        return false;
    }
    if head.pieces as usize > places(table) {
        return false;
    }
    // The scale's sum lies behind those of the vessels.
    let mut sums = [0u64; VESSELS + 1];
    for p in table[..4 * head.pieces as usize].as_chunks::<4>().0 {
        let [holder, origin, birth, weight] = *p;
        let nowhere = holder >= head.vessels && holder != SCALE;
        if nowhere || origin >= head.vessels || birth > head.last || weight == 0 {
            return false;
        }
        sums[holder as usize] += u64::from(weight);
    }
    // A sum from `vessels` on is 0, and so its balance has to be.
    u64::from(head.scale) == sums[VESSELS]
        && (0..VESSELS).all(|v| u64::from(head.balances[v]) == sums[v])
}
