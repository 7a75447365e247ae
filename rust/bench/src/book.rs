//! Books that calls are timed on.

use crate::clock::best;
use calls::{Engine, Head, Piece, Transfer, PLACES, STIRRED, VESSELS};
use compare::Random;
use second::Book;

/// An engine, or the second implementation.
pub type Timed = Option<&'static dyn Engine>;

/// A head, its table, and the same book in the second implementation.
pub struct Full {
    pub head: Head,
    pub table: Vec<u32>,
    pub second: Book,
}

/// A book of pieces of these weights, born at any minute of a day, in the first `vessels` vessels.
fn filled(
    random: &mut Random,
    rule: u32,
    pieces: usize,
    vessels: u32,
    (least, most): (u32, u32),
) -> (Head, Vec<u32>) {
    const DAY: u32 = 1440;
    let mut table = vec![0; 4 * PLACES];
    let mut head = Head {
        rule,
        vessels: VESSELS as u32,
        pieces: pieces as u32,
        last: DAY,
        accepted: pieces as u32,
        rules: [rule; VESSELS],
        ..Head::ZERO
    };
    for place in table.chunks_exact_mut(4).take(pieces) {
        let piece = Piece {
            holder: random.below(vessels),
            origin: random.below(VESSELS as u32),
            birth: random.below(DAY),
            weight: random.from_to(least, most),
        };
        head.balances[piece.holder as usize] += piece.weight;
        place.copy_from_slice(&piece.numbers());
    }
    (head, table)
}

impl Full {
    fn new((head, table): (Head, Vec<u32>)) -> Full {
        let listed: Vec<Piece> = Piece::all(&head, &table).collect();
        let second = Book::resume(&head, PLACES, &listed).expect("the book adds up");
        Full {
            head,
            table,
            second,
        }
    }

    /// A book of pieces of 1 to 5 kg in the first `vessels` vessels.
    pub fn of(random: &mut Random, rule: u32, pieces: usize, vessels: u32) -> Full {
        Full::new(filled(random, rule, pieces, vessels, (1_000, 5_000)))
    }

    /// A book of pieces of such weights in vessel 0, which is stirred.
    pub fn stirred(random: &mut Random, rule: u32, pieces: usize, weights: (u32, u32)) -> Full {
        let (mut head, table) = filled(random, rule, pieces, 1, weights);
        head.rules[0] = STIRRED;
        Full::new((head, table))
    }

    /// The time of some transfers, one after the other, from this book on, and of a single one. They
    /// are made by an engine, which gives the next head, or by the second implementation.
    fn time(
        &self,
        engine: Timed,
        transfers: &[Transfer],
        by_engine: impl Fn(&dyn Engine, Head, &mut [u32], Transfer) -> Head,
        by_second: impl Fn(&mut Book, Transfer),
    ) -> f64 {
        let seconds = match engine {
            Some(engine) => best(
                || (self.head, self.table.clone()),
                |(head, table)| {
                    for t in transfers {
                        *head = by_engine(engine, *head, table, *t);
                    }
                },
            ),
            None => best(
                || self.second.clone(),
                |book| {
                    for t in transfers {
                        by_second(book, *t);
                    }
                },
            ),
        };
        seconds / transfers.len() as f64
    }

    pub fn transfers(&self, engine: Timed, transfers: &[Transfer]) -> f64 {
        let by_engine = |engine: &dyn Engine, head, table: &mut [u32], t| {
            let answer = engine.transfer(head, table, t);
            assert_eq!(answer.number, 0);
            answer.head
        };
        let by_second = |book: &mut Book, t| {
            book.transfer(t).expect("accepted");
        };
        self.time(engine, transfers, by_engine, by_second)
    }

    /// Each transfer is divided: both halves are timed together.
    pub fn divided(&self, engine: Timed, transfers: &[Transfer]) -> f64 {
        let by_engine = |engine: &dyn Engine, head, table: &mut [u32], t: Transfer| {
            let lifted = engine.lift(head, table, t.lift());
            let tipped = engine.tip(lifted.head, table, t.tip());
            assert_eq!((lifted.number, tipped.number), (0, 0));
            tipped.head
        };
        let by_second = |book: &mut Book, t: Transfer| {
            book.lift(t.lift()).expect("accepted");
            book.tip(t.tip()).expect("accepted");
        };
        self.time(engine, transfers, by_engine, by_second)
    }
}
