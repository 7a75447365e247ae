//! Books to compare on that add up.

use crate::Random;
use calls::{places, Head, Piece, SCALE, STIRRED, TOP, VESSELS};

/// Numbers to be overwritten: not zeros, so that what remains can be told.
pub fn room(random: &mut Random, length: usize) -> Vec<u32> {
    (0..length).map(|_| random.any()).collect()
}

/// Any rule for each of so many vessels, and 0 behind them.
pub fn mixed_rules(random: &mut Random, vessels: u32) -> [u32; VESSELS] {
    let mut rules = [0; VESSELS];
    rules[..vessels as usize].fill_with(|| random.below(STIRRED + 1));
    rules
}

/// The head of a book without pieces. In four of nine each vessel has the book's rule, in one all are
/// stirred, and in the others each has any rule.
fn bare_head(random: &mut Random, rule: u32) -> Head {
    let vessels = random.one_of(&[1, 2, 2, 2, 3, 3, 3, 4, 4, 7, 63, 64]);
    let mut rules = mixed_rules(random, vessels);
    match random.below(9) {
        0..=3 => rules[..vessels as usize].fill(rule),
        4 => rules[..vessels as usize].fill(STIRRED),
        _ => {}
    }
    Head {
        rule,
        vessels,
        last: random.one_of(&[0, 3, 1000, 65_534, 65_535, TOP - 1, TOP]),
        rules,
        ..Head::ZERO
    }
}

/// A book that adds up, on a table of this length. Its pieces are not what a run would leave: births
/// lie in any order and with many ties, weights may be small or reach up to TOP. One book in six has
/// weight on the scale.
pub fn book(random: &mut Random, rule: u32, length: usize) -> (Head, Vec<u32>) {
    let loaded = random.once_in(6);
    filled(random, rule, length, loaded)
}

/// As `book`, with weight on the scale wherever there is a place for it. The scale's pieces lie in
/// any order among the others.
pub fn loaded_book(random: &mut Random, rule: u32, length: usize) -> (Head, Vec<u32>) {
    filled(random, rule, length, true)
}

fn filled(random: &mut Random, rule: u32, length: usize, loaded: bool) -> (Head, Vec<u32>) {
    let mut table = room(random, length);
    let places = places(&table) as u32;
    let mut head = bare_head(random, rule);
    let some = random.below(places + 1);
    let count = random.one_of(&[places, places.saturating_sub(1), some, some / 2]);
    let count = count.max(u32::from(loaded)).min(places) as usize;
    let heavy = random.once_in(4);
    // One of so many pieces is on the scale, and one in any case.
    let share = random.one_of(&[1, 2, 3, 8]);
    let certain = random.index(count.max(1));
    // The most that a birth lies before the last minute: ages give any.
    let oldest = random.one_of(&[3, 3, 3, 100_000]).min(head.last);
    for (i, place) in table.chunks_exact_mut(4).take(count).enumerate() {
        let mut holder = random.below(head.vessels);
        if loaded && (i == certain || random.once_in(share)) {
            holder = SCALE;
        }
        let free = TOP - *balance_of(&mut head, holder);
        if free == 0 {
            break;
        }
        let piece = Piece {
            holder,
            origin: random.below(head.vessels),
            birth: head.last - random.below(oldest + 1),
            weight: random.from_to(1, if heavy { free } else { free.min(9) }),
        };
        *balance_of(&mut head, holder) += piece.weight;
        place.copy_from_slice(&piece.numbers());
        head.pieces += 1;
    }
    head.accepted = accepted(random, head.pieces);
    (head, table)
}

/// A count of accepted transfers and lifts: any, since a stirred vessel makes many pieces of one transfer.
fn accepted(random: &mut Random, pieces: u32) -> u32 {
    match random.below(20) {
        0 => TOP,
        1 => TOP - 1,
        2..=5 => pieces,
        6 => pieces.saturating_sub(1),
        7..=9 => random.below(pieces + 1),
        _ => pieces + random.below(1000),
    }
}

/// The pieces of a holder, in order.
pub fn held_by(head: &Head, table: &[u32], holder: u32) -> Vec<Piece> {
    let all = Piece::all(head, table);
    all.filter(|p| p.holder == holder).collect()
}

/// The balance of a holder: one of the vessels, or the scale.
pub fn balance_of(head: &mut Head, holder: u32) -> &mut u32 {
    match head.balances.get_mut(holder as usize) {
        Some(balance) => balance,
        None => &mut head.scale,
    }
}
