//! What a stirred vessel gives, by the words of document 02.

use super::Pair;
use crate::stirred;
use calls::{places, Head, Piece, Refusal, Transfer, Transferred, STIRRED};

impl Pair {
    /// A transfer or lift past checks 1 and 4, beside the words: of a stirred vessel that holds more each
    /// piece gives its share, else all go, and the number is 11 where the pieces afterwards would exceed the
    /// places. They are counted.
    pub(super) fn by_the_words(
        &mut self,
        (head, before): (Head, &[u32]),
        table: &[u32],
        t: Transfer,
        answer: &Transferred,
    ) {
        self.stirs.add((&head, before), t, answer);
        let full = Refusal::TableFull.number();
        if ![0, full].contains(&answer.number) {
            return;
        }
        if head.rules[t.source as usize] != STIRRED {
            assert!(answer.split <= 1, "{head:?} {t:?}");
            return;
        }
        let (pieces, counts) = stirred(Piece::all(&head, before).collect(), t);
        let fits = pieces.len() <= places(before);
        assert_eq!(answer.number == 0, fits, "{head:?} {t:?}");
        if fits {
            let given = [answer.whole, answer.split, answer.born];
            assert_eq!(given, counts, "{head:?} {t:?}");
            let left = Piece::all(&answer.head, table);
            assert!(left.eq(pieces), "{head:?} {t:?}");
        }
    }
}
