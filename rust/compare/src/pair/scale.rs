//! Lift and tip, and what is on the scale.

use super::{guarded, Pair};
use calls::{places, Engine, Head, Lift, Piece, Tip, Tipped, Transferred, SCALE};
use second::Second;

/// A book without what is on its scale.
pub(super) fn without_load(head: &Head, table: &[u32]) -> (Head, Vec<u32>) {
    let others = Piece::all(head, table).filter(|p| p.holder != SCALE);
    let mut others: Vec<u32> = others.flat_map(|p| p.numbers()).collect();
    let head = Head {
        pieces: others.len() as u32 / 4,
        scale: 0,
        ..*head
    };
    others.resize(table.len(), 0);
    (head, others)
}

/// The pieces after a tip, in the words of document 02: those on a scale leave it in the order they
/// lie and join the end.
pub fn tipped(pieces: impl Iterator<Item = Piece>, scale: u32, destination: u32) -> Vec<Piece> {
    let (lifted, mut pieces): (Vec<Piece>, Vec<Piece>) = pieces.partition(|p| p.holder == scale);
    let tipped = |p: Piece| Piece {
        holder: destination,
        ..p
    };
    pieces.extend(lifted.into_iter().map(tipped));
    pieces
}

impl Pair {
    /// A lift. An accepted one leaves its weight on the scale, in the last pieces of the table.
    pub fn lift(&mut self, head: Head, table: &mut [u32], l: Lift) -> Transferred {
        let answer = self.moving(
            "lift",
            head,
            table,
            l.to(SCALE),
            &|engine, head, table, t| engine.lift(head, table, t.lift()),
        );
        if answer.number == 0 {
            let lifted = answer.whole + answer.split + u32::from(answer.born > 0);
            let stayed = (answer.head.pieces - lifted) as usize;
            let mut pieces = Piece::all(&answer.head, table).enumerate();
            assert!(pieces.all(|(i, p)| (p.holder == SCALE) == (i >= stayed)));
            let counts = (answer.head.scale, answer.head.accepted);
            assert_eq!(counts, (l.weight, head.accepted + 1));
        }
        answer
    }

    /// A tip. An accepted one moves the scale's pieces behind the others and changes nothing else in
    /// the head than the two balances and the last minute; a refused one changes nothing.
    pub fn tip(&mut self, head: Head, table: &mut [u32], t: Tip) -> Tipped {
        let before = table.to_vec();
        let answer = guarded(table, 0xdead_beef, |table| self.subject.tip(head, table, t));
        let mut expected_table = before.clone();
        let expected = Second.tip(head, &mut expected_table, t);
        let told = (head, t, places(table));
        self.same("tip", &told, answer, expected);
        self.same("tip", &told, &*table, &expected_table);
        if answer.number == 0 {
            let pieces = tipped(Piece::all(&head, &before), SCALE, t.destination);
            assert!(Piece::all(&answer.head, table).eq(pieces), "{told:?}");
            let mut next = head;
            next.balances[t.destination as usize] += head.scale;
            next.scale = 0;
            next.last = t.minute;
            assert_eq!(answer.head, next);
            let behind = 4 * head.pieces as usize;
            assert_eq!(table[behind..], before[behind..], "behind the last piece");
        } else {
            assert_eq!((answer.head, &*table), (head, &before[..]), "refused");
        }
        self.tally.add("tip", answer.number);
        answer
    }
}
