//! A second, empty scale, which no book has: a lift onto it and its tip, by hand. The pieces are kept in
//! a list, and what happens to them follows the words of the documents, pick by pick. So do the calls of
//! a list.

use calls::{places, Head, Lift, Piece, Refusal, Transfer, SCALE, STIRRED, VESSELS};
use compare::{stirred, tipped, Call};
use second::WeighBook;

/// The holder number of a second scale.
const SECOND_SCALE: u32 = SCALE + 1;

/// Which half of a divided transfer was refused, with its number.
#[derive(Clone, Copy, Debug, PartialEq)]
pub enum Refused {
    Lift(u32),
    Tip(u32),
}

/// What a lift and its tip in succession leave.
#[derive(Debug, PartialEq)]
pub struct Left {
    pub head: Head,
    pub table: Vec<u32>,
    /// The lift's answer: how many pieces moved whole, how many were split, the weight born.
    pub counts: [u32; 3],
}

/// Where the piece lies that a rule picks from a vessel. What is stirred and emptied goes by receipt.
pub fn picked(rule: u32, pieces: &[Piece], vessel: u32) -> Option<usize> {
    let mut held = (0..pieces.len()).filter(|&i| pieces[i].holder == vessel);
    let birth = |&i: &usize| pieces[i].birth;
    match rule {
        0 | STIRRED => held.next(),
        1 => held.next_back(),
        // On a tie these give the first and the last.
        2 => held.min_by_key(birth),
        _ => held.max_by_key(birth),
    }
}

/// Takes weight from a vessel that is stirred and holds more, onto the second scale.
fn stir(pieces: &mut Vec<Piece>, l: Lift) -> [u32; 3] {
    let (left, counts) = stirred(std::mem::take(pieces), l.to(SECOND_SCALE));
    *pieces = left;
    counts
}

/// Takes weight from a vessel onto the second scale.
fn lift(rule: u32, pieces: &mut Vec<Piece>, l: Lift) -> [u32; 3] {
    let held = pieces.iter().filter(|p| p.holder == l.source);
    let balance: u64 = held.map(|p| u64::from(p.weight)).sum();
    if rule == STIRRED && balance > l.weight.into() {
        return stir(pieces, l);
    }
    let (mut whole, mut split, mut wanted) = (0, 0, l.weight);
    while wanted > 0 {
        let Some(at) = picked(rule, pieces, l.source) else {
            break;
        };
        let mut joining = Piece {
            holder: SECOND_SCALE,
            ..pieces[at]
        };
        if joining.weight <= wanted {
            pieces.remove(at);
            whole += 1;
        } else {
            joining.weight = wanted;
            pieces[at].weight -= wanted;
            split += 1;
        }
        wanted -= joining.weight;
        pieces.push(joining);
    }
    if wanted > 0 {
        pieces.push(Piece {
            holder: SECOND_SCALE,
            origin: l.source,
            birth: l.minute - u32::from(l.age),
            weight: wanted,
        });
    }
    [whole, split, wanted]
}

/// The pieces after an accepted call, by the rules of the vessels. A transfer is divided by the second
/// scale, and what a lift leaves there is the load.
pub fn after(mut pieces: Vec<Piece>, rules: &[u32; VESSELS], call: &Call) -> Vec<Piece> {
    let mut lifted = |l: Lift| lift(rules[l.source as usize], &mut pieces, l);
    match *call {
        Call::Move(t) => {
            lifted(t.lift());
            tipped(pieces.into_iter(), SECOND_SCALE, t.destination)
        }
        Call::Lift(l) => {
            lifted(l);
            tipped(pieces.into_iter(), SECOND_SCALE, SCALE)
        }
        Call::Tip(t) => tipped(pieces.into_iter(), SCALE, t.destination),
        _ => pieces,
    }
}

/// The weigh book of a head. Its scale is the second one.
fn weigh_book(head: &Head) -> WeighBook {
    let mut book = WeighBook::new(head.vessels);
    for (weight, &balance) in book.weights.iter_mut().zip(&head.balances) {
        *weight = balance.into();
    }
    book.last = head.last;
    book.accepted = head.accepted;
    book
}

/// A transfer on a book that adds up, divided by the second scale.
pub fn by_hand(head: &Head, table: &[u32], t: Transfer) -> Result<Left, Refused> {
    if table.len() < 4 {
        return Err(Refused::Lift(Refusal::TableShort.number()));
    }
    let mut book = weigh_book(head);
    let number = book.feed_lift(t.lift());
    if number != 0 {
        return Err(Refused::Lift(number));
    }
    let mut pieces: Vec<Piece> = Piece::all(head, table).collect();
    let rule = head.rules[t.source as usize];
    let counts = lift(rule, &mut pieces, t.lift());
    if pieces.len() > places(table) {
        return Err(Refused::Lift(Refusal::TableFull.number()));
    }
    let number = book.feed_tip(t.tip());
    if number != 0 {
        return Err(Refused::Tip(number));
    }
    let pieces = tipped(pieces.into_iter(), SECOND_SCALE, t.destination);
    let mut head = Head {
        pieces: pieces.len() as u32,
        last: book.last,
        accepted: book.accepted,
        ..*head
    };
    for (balance, &weight) in head.balances.iter_mut().zip(&book.weights) {
        *balance = weight as u32;
    }
    let mut table = table.to_vec();
    for (place, piece) in table.chunks_exact_mut(4).zip(&pieces) {
        place.copy_from_slice(&piece.numbers());
    }
    Ok(Left {
        head,
        table,
        counts,
    })
}
