//! Books that are off in one clause.

use crate::books::balance_of;
use crate::make::near;
use crate::Random;
use calls::{places, Head, SCALE, STIRRED, TOP, VESSELS};

/// The clauses of "adds up", each with a way to break it alone. More pieces than were accepted break none.
pub const FOUL_CLAUSES: [&str; 23] = [
    "rule",
    "rule of a vessel",
    "rule beyond the vessels",
    "no vessels",
    "too many vessels",
    "pieces above places",
    "holder",
    "holder that marks a gone piece",
    "holder behind the scale",
    "holder beyond the vessels, with its weight",
    "origin",
    "origin on the scale",
    "birth",
    "weight 0",
    "balance one more",
    "balance one less",
    "balance wrapped",
    "balance beyond the vessels",
    "scale one more",
    "scale one less",
    "scale without pieces",
    "pieces on a scale of 0",
    "scale wrapped",
];

/// Breaks one clause of a book that adds up and leaves the others as they are. False where this
/// book has no way to break it.
pub fn foul_book(random: &mut Random, clause: &str, head: &mut Head, table: &mut [u32]) -> bool {
    let vessels = head.vessels;
    match clause {
        rule if rule.starts_with("rule") => return foul_rule(random, rule, head),
        "no vessels" => {
            // A book without pieces: nothing else is off.
            *head = Head {
                rule: head.rule,
                accepted: head.accepted,
                ..Head::ZERO
            };
        }
        "too many vessels" => head.vessels = near(random, &[65, 128]).max(65),
        "pieces above places" => {
            head.pieces = places(table) as u32 + random.one_of(&[1, 1, 2, 4096]);
        }
        "balance one more" => {
            let balance = &mut head.balances[random.below(vessels) as usize];
            *balance = balance.wrapping_add(1);
        }
        "balance one less" => {
            let balance = &mut head.balances[random.below(vessels) as usize];
            *balance = balance.wrapping_sub(1);
        }
        "balance beyond the vessels" if vessels < VESSELS as u32 => {
            let beyond = random.from_to(vessels, VESSELS as u32 - 1);
            head.balances[beyond as usize] = random.any().max(1);
        }
        "scale one more" => head.scale = head.scale.wrapping_add(1),
        "scale one less" => head.scale = head.scale.wrapping_sub(1),
        "scale without pieces" if head.scale == 0 => head.scale = random.any().max(1),
        "pieces on a scale of 0" if head.scale > 0 => head.scale = 0,
        _ => return head.pieces > 0 && foul_piece(random, clause, head, table),
    }
    true
}

/// Breaks a clause about a rule: the book's, or those below or from V on, there often the first or the last.
fn foul_rule(random: &mut Random, clause: &str, head: &mut Head) -> bool {
    let vessels = head.vessels as usize;
    let (rules, known) = match clause {
        "rule" => (std::slice::from_mut(&mut head.rule), 3),
        "rule of a vessel" => (&mut head.rules[..vessels], STIRRED),
        _ => (&mut head.rules[vessels..], 0),
    };
    let Some(last) = rules.len().checked_sub(1) else {
        return false;
    };
    let any = random.index(rules.len());
    let at = random.one_of(&[0, last, any]);
    rules[at] = near(random, &[known + 1, 4, 256, 1 << 16]).max(known + 1);
    true
}

/// Breaks a clause about one of the pieces. The balances go with it.
fn foul_piece(random: &mut Random, clause: &str, head: &mut Head, table: &mut [u32]) -> bool {
    let vessels = head.vessels;
    let at = 4 * random.index(head.pieces as usize);
    let (holder, weight) = (table[at], table[at + 3]);
    match clause {
        "holder" | "holder that marks a gone piece" | "holder behind the scale" => {
            *balance_of(head, holder) -= weight;
            let stranger = near(random, &[vessels, 63, 128]).max(vessels);
            table[at] = match clause {
                "holder" if stranger != SCALE => stranger,
                "holder that marks a gone piece" => TOP,
                _ => SCALE + 1,
            };
        }
        "holder beyond the vessels, with its weight" if vessels < VESSELS as u32 => {
            *balance_of(head, holder) -= weight;
            table[at] = random.from_to(vessels, VESSELS as u32 - 1);
            *balance_of(head, table[at]) += weight;
        }
        "origin" => table[at + 1] = near(random, &[vessels, 64, TOP]).max(vessels),
        "origin on the scale" => table[at + 1] = SCALE,
        "birth" if head.last < TOP => table[at + 2] = random.one_of(&[head.last + 1, TOP]),
        "weight 0" => {
            *balance_of(head, holder) -= weight;
            table[at + 3] = 0;
        }
        "balance wrapped" if holder != SCALE => return wrap(random, head, table, at),
        "scale wrapped" if holder == SCALE => return wrap(random, head, table, at),
        _ => return false,
    }
    true
}

/// Two pieces of one holder get 2^32 more between them: in 32 bits the sum is the same.
fn wrap(random: &mut Random, head: &Head, table: &mut [u32], at: usize) -> bool {
    let same = |i: usize| 4 * i != at && table[4 * i] == table[at];
    let Some(other) = (0..head.pieces as usize).find(|&i| same(i)) else {
        return false;
    };
    let (one, two) = (table[at + 3], table[4 * other + 3]);
    if u64::from(one) + u64::from(two) + 1 > u64::from(TOP) {
        return false;
    }
    let more = random.from_to(two + 1, TOP - one);
    table[at + 3] = one + more;
    table[4 * other + 3] = two.wrapping_sub(more);
    true
}
