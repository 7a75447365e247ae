//! What is timed. Each row takes an engine, or none for the second implementation, whose single
//! calls are timed on a book of its own: taking a head and a table apart is no part of its work.

use crate::book::{Full, Timed};
use crate::clock::best;
use calls::{Engine, Head, Refusal, Reported, Transfer, PLACES, VESSELS};
use compare::Random;
use second::{Book, Second, Sheet};

/// A row of the table: what is timed, and how to time it.
type Row = (&'static str, fn(&Loads, Timed) -> f64);

/// The rows of the table.
pub const ROWS: [Row; 17] = [
    ("heaviest sheet, 4,096 movements", Loads::heaviest),
    ("the same, ages in any order", Loads::aged_heaviest),
    ("bakery's day, 4,096 movements", Loads::day),
    ("the same day, ages in any order", Loads::aged_day),
    ("random pairs, 4,096 movements", Loads::random_pairs),
    ("two big vessels, half to and fro", Loads::two_big),
    ("one vessel fed by the gram, any age", Loads::fed),
    ("light transfer, a part of one lot", Loads::light),
    ("the same, by lift and tip", Loads::light_divided),
    ("heavy transfer, 4,096 pieces whole", Loads::heavy),
    ("the same, by lift and tip", Loads::heavy_divided),
    ("stirred transfer, 2,048 splits", Loads::stirred),
    ("the same of 4,096 crumbs, no split", Loads::crumbs),
    ("held report, 4,096 pieces", Loads::held),
    ("spread report, 4,096 pieces", Loads::spread),
    ("whole report, 4,096 pieces", Loads::whole),
    ("the same, row by row", Loads::whole_by_rows),
];

/// The light transfers that are timed together: they fill a table from 4,000 pieces to 4,096.
const LIGHT: usize = 96;

/// The numbers of a whole report.
const SQUARE: usize = VESSELS * VESSELS;

/// The time to write the numbers of a whole report, without any report.
pub fn writing() -> f64 {
    best(|| vec![7; SQUARE], |room| room.fill(0))
}

/// The sheets and books of one rule.
pub struct Loads {
    heaviest: Vec<u8>,
    /// The same movements with flour of any age.
    aged_heaviest: Vec<u8>,
    day: Vec<u8>,
    /// The same movements with flour of any age.
    aged_day: Vec<u8>,
    random_pairs: Vec<u8>,
    two_big: Vec<u8>,
    fed_by_the_gram: Vec<u8>,
    /// 4,000 pieces in 64 vessels.
    nearly_full: Full,
    /// 4,096 pieces in 64 vessels.
    full: Full,
    /// 4,096 pieces in vessel 0.
    heap: Full,
    /// 2,048 pieces in vessel 0, which is stirred, and 4,096 pieces of a gram.
    stirred: Full,
    crumbs: Full,
}

/// The time of a sheet's run on a table of 4,096 places.
fn run(engine: Timed, sheet: &[u8]) -> f64 {
    let engine = engine.unwrap_or(&Second);
    best(
        || vec![0; 4 * PLACES],
        |table| assert_eq!(engine.run(sheet, table).number, 0),
    )
}

/// The time of a transfer of half of what a stirred vessel holds: each of its pieces gives about a half. It
/// has that rule whatever the others have.
fn half_of(book: &Full, engine: Timed) -> f64 {
    let Head { last, balances, .. } = book.head;
    book.transfers(engine, &[Transfer::new([0, 1, last, balances[0] / 2])])
}

impl Loads {
    pub fn new(rule: u32) -> Loads {
        const SEED: u64 = 51;
        let mut random = Random::new(SEED);
        let bytes =
            |made: fn(&mut Random, u32) -> Sheet| made(&mut Random::new(SEED), rule).bytes();
        Loads {
            heaviest: compare::heaviest(rule).bytes(),
            aged_heaviest: bytes(compare::aged_heaviest),
            day: compare::working_day(&mut random, rule).bytes(),
            aged_day: bytes(compare::aged_day),
            random_pairs: bytes(compare::random_pairs),
            two_big: bytes(compare::two_big),
            fed_by_the_gram: bytes(compare::fed_by_the_gram),
            nearly_full: Full::of(&mut random, rule, PLACES - LIGHT, VESSELS as u32),
            full: Full::of(&mut random, rule, PLACES, VESSELS as u32),
            heap: Full::of(&mut random, rule, PLACES, 1),
            stirred: Full::stirred(&mut random, rule, PLACES / 2, (1_000, 5_000)),
            crumbs: Full::stirred(&mut random, rule, PLACES, (1, 1)),
        }
    }

    /// How many pieces lie about at the end of the bakery's day.
    pub fn day_pieces(&self) -> u32 {
        let mut table = vec![0; 4 * PLACES];
        Second.run(&self.day, &mut table).head.pieces
    }

    /// The time of checks 1 and 4 on the full table: that of a report without room.
    pub fn checks(&self, engine: &dyn Engine) -> f64 {
        let Full { head, table, .. } = &self.full;
        best(
            || (),
            |()| assert_eq!(engine.whole(*head, table, &mut []).number, 13),
        )
    }

    fn heaviest(&self, engine: Timed) -> f64 {
        run(engine, &self.heaviest)
    }

    fn aged_heaviest(&self, engine: Timed) -> f64 {
        run(engine, &self.aged_heaviest)
    }

    fn day(&self, engine: Timed) -> f64 {
        run(engine, &self.day)
    }

    fn aged_day(&self, engine: Timed) -> f64 {
        run(engine, &self.aged_day)
    }

    fn random_pairs(&self, engine: Timed) -> f64 {
        run(engine, &self.random_pairs)
    }

    fn two_big(&self, engine: Timed) -> f64 {
        run(engine, &self.two_big)
    }

    fn fed(&self, engine: Timed) -> f64 {
        run(engine, &self.fed_by_the_gram)
    }

    /// No vessel both gives and receives, so that each transfer splits a lot under every rule.
    fn light_transfers(&self) -> Vec<Transfer> {
        let half = VESSELS as u32 / 2;
        let last = self.nearly_full.head.last;
        let light = |i: u32| Transfer::new([i % half, half + i % half, last, 10]);
        (0..LIGHT as u32).map(light).collect()
    }

    fn light(&self, engine: Timed) -> f64 {
        let transfers = self.light_transfers();
        self.nearly_full.transfers(engine, &transfers)
    }

    fn light_divided(&self, engine: Timed) -> f64 {
        let transfers = self.light_transfers();
        self.nearly_full.divided(engine, &transfers)
    }

    /// All of a vessel forth and back.
    fn heavy_transfers(&self) -> [Transfer; 2] {
        let Head { last, balances, .. } = self.heap.head;
        let forth = Transfer::new([0, 1, last, balances[0]]);
        let back = Transfer::new([1, 0, last, balances[0]]);
        [forth, back]
    }

    fn heavy(&self, engine: Timed) -> f64 {
        self.heap.transfers(engine, &self.heavy_transfers())
    }

    fn heavy_divided(&self, engine: Timed) -> f64 {
        self.heap.divided(engine, &self.heavy_transfers())
    }

    fn stirred(&self, engine: Timed) -> f64 {
        half_of(&self.stirred, engine)
    }

    fn crumbs(&self, engine: Timed) -> f64 {
        half_of(&self.crumbs, engine)
    }

    /// The time of a report on the full table, to room for so many numbers: made by an engine, or by
    /// the second implementation.
    fn report(
        &self,
        engine: Timed,
        numbers: usize,
        by_engine: impl Fn(&dyn Engine, Head, &[u32], &mut [u32]) -> Reported,
        by_second: impl Fn(&Book) -> Result<Vec<u32>, Refusal>,
    ) -> f64 {
        let Full {
            head,
            table,
            second,
        } = &self.full;
        match engine {
            Some(engine) => best(
                || vec![0; numbers],
                |report| assert_eq!(by_engine(engine, *head, table, report).number, 0),
            ),
            None => best(|| (), |()| by_second(second)),
        }
    }

    pub fn held(&self, engine: Timed) -> f64 {
        self.report(
            engine,
            VESSELS,
            |engine, head, table, report| engine.held(head, table, 5, report),
            |second| second.held(5),
        )
    }

    fn spread(&self, engine: Timed) -> f64 {
        let (from, to) = (100, 700);
        self.report(
            engine,
            VESSELS,
            |engine, head, table, report| engine.spread(head, table, 5, (from, to), report),
            |second| second.spread(5, from, to),
        )
    }

    pub fn whole(&self, engine: Timed) -> f64 {
        self.report(
            engine,
            SQUARE,
            |engine, head, table, report| engine.whole(head, table, report),
            |second| Ok(second.whole()),
        )
    }

    /// The second implementation has one way for both.
    fn whole_by_rows(&self, engine: Timed) -> f64 {
        self.report(
            engine,
            SQUARE,
            |engine, head, table, report| engine.whole_by_rows(head, table, report),
            |second| Ok(second.whole()),
        )
    }
}
