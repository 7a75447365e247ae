//! Calls to compare on.

use crate::Random;
use calls::{Head, Lift, Piece, Tip, Transfer, SCALE, STIRRED, TOP};
use second::WeighBook;

/// A call on an open book.
#[derive(Clone, Debug)]
pub enum Call {
    /// A transfer.
    Move(Transfer),
    /// A lift.
    Lift(Lift),
    /// A tip.
    Tip(Tip),
    /// A vessel's rule is set: vessel, rule.
    SetRule(u32, u32),
    /// A held report: vessel, room.
    Held(u32, usize),
    /// A spread report: origin, span, room.
    Spread(u32, (u32, u32), usize),
    /// A whole report: room.
    Whole(usize),
}

/// A number at or beside one of some marks, at an end, or any.
pub fn near(random: &mut Random, marks: &[u32]) -> u32 {
    let mark = random.one_of(marks);
    match random.below(8) {
        0 => random.one_of(&[0, 1, TOP - 1, TOP]),
        1 => random.any(),
        2 => mark.wrapping_add(1),
        3 => mark.wrapping_sub(1),
        _ => mark,
    }
}

/// A vessel of a book, now and then one that it does not have.
fn vessel(random: &mut Random, vessels: u32) -> u32 {
    if random.once_in(40) {
        return near(random, &[vessels, 64, 256]);
    }
    random.below(vessels.max(1))
}

/// A minute after the last one, now and then before it, now and then long after it.
fn minute(random: &mut Random, last: u32) -> u32 {
    match random.below(60) {
        0 => near(random, &[last]),
        1..=3 => last.saturating_sub(random.from_to(1, 3)),
        4 => last.saturating_add(random.below(100_000)),
        _ => last.saturating_add(random.below(3)),
    }
}

/// An age for a transfer or lift at a minute: mostly 0 or small. Else it makes the birth one of these
/// earlier ones or its neighbour, or puts it before all of them, at minute 0 or just before that; or
/// it is the largest, or any.
fn age(random: &mut Random, minute: u32, births: impl Iterator<Item = u32>) -> u16 {
    let age = match random.below(32) {
        0..=4 => {
            let mut births: Vec<u32> = births.collect();
            births.push(minute);
            minute.saturating_sub(near(random, &births))
        }
        5 | 6 => minute - births.min().unwrap_or(0).saturating_sub(1).min(minute),
        7 => minute,
        8 => minute.saturating_add(1),
        9 => u16::MAX.into(),
        10 => random.any() >> 16,
        11..=18 => random.below(4).min(minute),
        _ => 0,
    };
    age.try_into().unwrap_or(u16::MAX)
}

/// A length for a report of so many numbers: mostly enough, now and then short.
pub fn report_room(random: &mut Random, numbers: u32) -> usize {
    let numbers = numbers as usize;
    match random.below(8) {
        0 => numbers.saturating_sub(1),
        1 => random.index(numbers + 1),
        2 => numbers + random.index(9),
        _ => numbers,
    }
}

/// A source for a transfer: mostly a vessel that holds one of these pieces. No transfer is from the
/// scale: of a piece there it is where it was born.
fn source(random: &mut Random, vessels: u32, pieces: &[Piece]) -> u32 {
    if pieces.is_empty() || random.once_in(4) {
        return vessel(random, vessels);
    }
    let piece = pieces[random.index(pieces.len())];
    match piece.holder {
        SCALE => piece.origin,
        vessel => vessel,
    }
}

/// A transfer for a book, aimed at what decides: exact weights, limits, the last minute, births.
pub fn transfer_for(random: &mut Random, head: &Head, table: &[u32]) -> Transfer {
    let pieces: Vec<Piece> = Piece::all(head, table).collect();
    let source = source(random, head.vessels, &pieces);
    let mut destination = vessel(random, head.vessels);
    if source == destination && !random.once_in(8) {
        destination = source.wrapping_add(1) % head.vessels.max(1);
    }
    let balance = |v: u32| head.balances.get(v as usize).copied().unwrap_or(0);
    let mut held: Vec<u32> = pieces
        .iter()
        .filter(|p| p.holder == source)
        .map(|p| p.weight)
        .collect();
    if random.once_in(2) {
        held.reverse();
    }
    let some = held.len().min(1 + random.index(held.len().max(1)));
    let in_turn = held[..some]
        .iter()
        .fold(0, |sum: u32, &w| sum.saturating_add(w));
    let weight = match random.below(9) {
        0 => near(random, &[balance(source), TOP - balance(destination)]),
        1 => balance(source),
        2 => TOP - balance(destination),
        3 | 4 => in_turn,
        5 => in_turn.saturating_add(1),
        6 => random.from_to(0, balance(source)),
        _ => random.below(20),
    };
    let minute = minute(random, head.last);
    Transfer {
        source,
        destination,
        minute,
        weight,
        age: age(random, minute, pieces.iter().map(|p| p.birth)),
    }
}

/// A lift for a book, aimed as a transfer is; now and then from a vessel that the book does not have.
pub fn lift_for(random: &mut Random, head: &Head, table: &[u32]) -> Lift {
    let mut lift = transfer_for(random, head, table).lift();
    if random.once_in(20) {
        lift.source = near(random, &[head.vessels, SCALE]);
    }
    lift
}

/// A tip for a book: into any vessel, now and then into one that holds the most.
pub fn tip_for(random: &mut Random, head: &Head) -> Tip {
    let mut destination = vessel(random, head.vessels);
    if random.once_in(6) {
        let heaviest = (0..)
            .zip(&head.balances)
            .max_by_key(|(_, &balance)| balance);
        destination = heaviest.map_or(0, |(vessel, _)| vessel);
    }
    Tip {
        destination,
        minute: minute(random, head.last),
    }
}

/// A transfer aimed at what a weigh book shows, without any piece.
pub(crate) fn weighed_transfer(random: &mut Random, book: &WeighBook) -> Transfer {
    let vessels = book.weights.len() as u32;
    let source = vessel(random, vessels);
    let mut destination = vessel(random, vessels);
    if source == destination && !random.once_in(10) {
        destination = source.wrapping_add(1) % vessels;
    }
    let weight = |v: u32| book.weights.get(v as usize).map_or(0, |&w| w as u32);
    let wanted = match random.below(24) {
        0 => near(random, &[weight(source), TOP - weight(destination)]),
        1 => TOP - weight(destination),
        2..=5 => weight(source),
        6 => random.from_to(0, weight(source)),
        _ => random.from_to(1, 12),
    };
    let minute = minute(random, book.last);
    Transfer {
        source,
        destination,
        minute,
        weight: wanted,
        age: age(random, minute, book.births.keys().map(|&(_, birth)| birth)),
    }
}

/// A tip aimed at what a weigh book shows: mostly into any vessel, now and then into one that has the
/// most.
fn weighed_tip(random: &mut Random, book: &WeighBook) -> Tip {
    let mut destination = vessel(random, book.weights.len() as u32);
    if random.once_in(8) {
        let heaviest = (0..).zip(&book.weights).max_by_key(|(_, &weight)| weight);
        destination = heaviest.map_or(0, |(vessel, _)| vessel);
    }
    Tip {
        destination,
        minute: minute(random, book.last),
    }
}

/// The same list with settings of rules between its calls, up to a last rule, which is set most often: of
/// the vessel that gives next, now and then of one that the book does not have, or to a rule that is none.
pub fn with_settings(random: &mut Random, vessels: u32, last: u32, list: &[Call]) -> Vec<Call> {
    let seldom = random.one_of(&[1, 2, 6]);
    let mut with = Vec::new();
    for call in list {
        if random.once_in(seldom) {
            let set = match call {
                Call::Move(t) if random.once_in(2) => t.source,
                Call::Lift(l) if random.once_in(2) => l.source,
                _ => vessel(random, vessels),
            };
            let unknown = random.once_in(20);
            let rule = if unknown {
                near(random, &[STIRRED + 2]).max(STIRRED + 1)
            } else {
                random.below(last + 2).min(last)
            };
            with.push(Call::SetRule(set, rule));
        }
        with.push(call.clone());
    }
    with
}

/// Turns a transfer to a vessel: from it or into it.
fn turned(random: &mut Random, transfer: Transfer, vessel: u32) -> Transfer {
    let mut turned = transfer;
    if random.once_in(2) {
        turned.source = vessel;
    } else {
        turned.destination = vessel;
    }
    if turned.source == turned.destination {
        return transfer;
    }
    turned
}

/// A list of calls for a book of so many vessels. It is made without regard to a rule. In half of the
/// lists a lift is mostly tipped soon, in the others the scale stays loaded for a while. Beside it
/// every other transfer is from the vessel that the load came from, or into it.
pub fn call_list(random: &mut Random, vessels: u32, length: usize) -> Vec<Call> {
    let mut book = WeighBook::new(vessels);
    let mut lifted_from = 0;
    // Of 20 calls beside a load that are no reports, so many are tips.
    let tips = random.one_of(&[16, 16, 4, 2]);
    let mut call = || match random.below(20) {
        0 | 1 => Call::Held(vessel(random, vessels), report_room(random, vessels)),
        2 | 3 => {
            let span = (near(random, &[0, book.last]), near(random, &[book.last]));
            Call::Spread(vessel(random, vessels), span, report_room(random, vessels))
        }
        4 | 5 => Call::Whole(report_room(random, vessels * vessels)),
        kind => {
            let loaded = book.scale > 0;
            if loaded && random.below(20) < tips || kind == 6 {
                let tip = weighed_tip(random, &book);
                book.feed_tip(tip);
                return Call::Tip(tip);
            }
            let mut transfer = weighed_transfer(random, &book);
            if kind <= 10 {
                if book.feed_lift(transfer.lift()) == 0 {
                    lifted_from = transfer.source;
                }
                return Call::Lift(transfer.lift());
            }
            if loaded && random.once_in(2) {
                transfer = turned(random, transfer, lifted_from);
            }
            book.feed(transfer);
            Call::Move(transfer)
        }
    };
    (0..length).map(|_| call()).collect()
}
