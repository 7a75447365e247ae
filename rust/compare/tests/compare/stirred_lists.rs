//! Lists of calls with stirred vessels on fresh books: leavens are fed and drawn from in turn, beside loads
//! and under rules that change, until their tables are full. The second implementation goes along on a book
//! that it keeps itself, and so does the weigh book.

use crate::books::reports;
use crate::demand3::check_sums;
use calls::{places, Engine, Head, Lift, Piece, Refusal, Tip, Transfer, SCALE, STIRRED};
use compare::{near, room, subjects, tip_for, Pair, Random};
use second::{Book, WeighBook};

/// What the lists came to.
#[derive(Debug, Default)]
struct Covered {
    /// Lists that end with more pieces than accepted, with twice as many, and that met 11.
    outnumbered: u32,
    doubled: u32,
    full: u32,
    /// Settings to rule 4, and from it to another rule, of vessels that hold several pieces.
    stirred: u32,
    unstirred: u32,
    /// Tips of what was lifted from a stirred vessel: into a stirred one, and back.
    into_stirred: u32,
    back: u32,
}

/// A book that leavens are kept on.
struct Leavens<'l> {
    pair: &'l mut Pair,
    random: &'l mut Random,
    covered: &'l mut Covered,
    head: Head,
    table: Vec<u32>,
    book: Book,
    /// Fed the accepted calls.
    weighed: WeighBook,
    /// So many pieces were split or born, and whether 11 was met.
    made: u32,
    full: bool,
    /// The stirred vessel that the load came from.
    lifted_from: Option<u32>,
}

/// 0 or the refusal's number.
fn number_of<T>(result: Result<T, Refusal>) -> u32 {
    result.err().map_or(0, Refusal::number)
}

impl Leavens<'_> {
    fn open<'l>(
        pair: &'l mut Pair,
        random: &'l mut Random,
        covered: &'l mut Covered,
        length: usize,
    ) -> Leavens<'l> {
        let (rule, vessels) = (random.below(4), random.from_to(3, 6));
        let table = room(random, length);
        Leavens {
            head: pair.open(rule, vessels).head,
            book: Book::open(rule, vessels, places(&table)).expect("opening was accepted"),
            weighed: WeighBook::new(vessels),
            pair,
            random,
            covered,
            table,
            made: 0,
            full: false,
            lifted_from: None,
        }
    }

    fn vessel(&mut self) -> u32 {
        self.random.below(self.head.vessels)
    }

    fn is_stirred(&self, vessel: u32) -> bool {
        self.head.rules.get(vessel as usize) == Some(&STIRRED)
    }

    /// Sets the rule of a vessel: mostly to 4, or to another where it has that.
    fn set(&mut self) {
        let vessel = self.vessel();
        let stirred = self.is_stirred(vessel);
        let mut rule = STIRRED;
        if stirred || self.random.once_in(8) {
            rule = near(self.random, &[1, 2, 5]);
        }
        let pieces = Piece::all(&self.head, &self.table);
        let several = pieces.filter(|p| p.holder == vessel).count() > 1;
        let answer = self.pair.set_rule(self.head, &self.table, vessel, rule);
        assert_eq!(number_of(self.book.set_rule(vessel, rule)), answer.number);
        self.head = answer.head;
        if answer.number == 0 && several && stirred != self.is_stirred(vessel) {
            let count = match stirred {
                true => &mut self.covered.unstirred,
                false => &mut self.covered.stirred,
            };
            *count += 1;
        }
    }

    /// The stirred vessel that holds the most, if there is one.
    fn fullest(&self) -> Option<u32> {
        let stirred = (0..self.head.vessels).filter(|&vessel| self.is_stirred(vessel));
        stirred.max_by_key(|&vessel| self.head.balances[vessel as usize])
    }

    /// What a transfer or a lift is to move: a delivery, which is born in part; a part of what is there, half
    /// of the time in the fullest leaven; seldom all of it.
    fn wanted(&mut self) -> Lift {
        let any = self.vessel();
        let kind = self.random.below(24);
        let source = if kind < 12 { self.fullest() } else { None };
        let source = source.unwrap_or(any);
        let balance = self.head.balances[source as usize];
        let weight = match kind {
            12..=17 => {
                let most = self.random.one_of(&[3, 30, 3_000]);
                balance.saturating_add(self.random.from_to(1, most))
            }
            18 => balance,
            19 => balance.saturating_sub(1),
            _ => self.random.from_to(0, balance / 2) + 1,
        };
        let minute = self.head.last.saturating_add(self.random.below(2));
        let age = self.random.below(minute.min(9) + 1) as u16;
        Lift::new([source, minute, weight]).aged(age)
    }

    /// A transfer, or a lift where it is to the scale.
    fn give(&mut self, t: Transfer) {
        let stirred = self.is_stirred(t.source);
        let (answer, followed) = match t.destination {
            SCALE => (
                self.pair.lift(self.head, &mut self.table, t.lift()),
                self.book.lift(t.lift()),
            ),
            _ => (
                self.pair.transfer(self.head, &mut self.table, t),
                self.book.transfer(t),
            ),
        };
        assert_eq!(number_of(followed), answer.number);
        self.head = answer.head;
        self.full |= answer.number == Refusal::TableFull.number();
        if answer.number != 0 {
            return;
        }
        self.made += answer.split + u32::from(answer.born > 0);
        let fed = match t.destination {
            SCALE => self.weighed.feed_lift(t.lift()),
            _ => self.weighed.feed(t),
        };
        assert_eq!(fed, 0);
        if t.destination == SCALE {
            self.lifted_from = Some(t.source).filter(|_| stirred);
        }
    }

    fn tip(&mut self) {
        let mut tip = tip_for(self.random, &self.head);
        tip.minute = tip.minute.min(self.head.last.saturating_add(2));
        if let Some(vessel) = self.lifted_from.filter(|_| self.random.once_in(3)) {
            tip = Tip::new([vessel, self.head.last]);
        }
        let answer = self.pair.tip(self.head, &mut self.table, tip);
        assert_eq!(number_of(self.book.tip(tip)), answer.number);
        self.head = answer.head;
        if answer.number == 0 {
            assert_eq!(self.weighed.feed_tip(tip), 0);
            let from = self.lifted_from.take();
            let stirred = from.is_some() && self.is_stirred(tip.destination);
            self.covered.into_stirred += u32::from(stirred);
            self.covered.back += u32::from(from == Some(tip.destination));
        }
    }

    fn go(mut self, count: u32) {
        for _ in 0..count {
            match self.random.below(10) {
                0 | 1 => self.set(),
                2 if self.head.scale > 0 => self.tip(),
                kind => {
                    let lift = self.wanted();
                    let to = (lift.source + 1 + self.random.below(2)) % self.head.vessels;
                    let to = if kind < 4 { SCALE } else { to };
                    self.give(lift.to(to));
                }
            }
            assert_eq!(self.head.pieces, self.made);
        }
        assert_eq!(self.book.head(), self.head);
        assert!(Piece::all(&self.head, &self.table).eq(self.book.pieces()));
        check_sums(&self.head, &self.table, &self.weighed);
        reports(self.pair, self.random, self.head, &self.table);
        let Head {
            pieces, accepted, ..
        } = self.head;
        self.covered.outnumbered += u32::from(pieces > accepted);
        self.covered.doubled += u32::from(pieces > 2 * accepted);
        self.covered.full += u32::from(self.full);
    }
}

fn lists_of(subject: &'static dyn Engine) {
    let mut pair = Pair::new(subject);
    let mut random = Random::new(108);
    let mut covered = Covered::default();
    for round in 0..2_000 {
        let (length, count) = match round {
            0 => (16_384, 400),
            _ if round % 100 == 0 => (4_000, 150),
            _ => (random.one_of(&[9, 40, 67, 120, 240, 400, 800]), 40),
        };
        Leavens::open(&mut pair, &mut random, &mut covered, length).go(count);
    }
    let (stirs, beside) = (&pair.stirs, &pair.beside);
    pair.tally.print(&format!(
        "leavens, {} {covered:?} {stirs:?} beside a load {beside:?}",
        pair.label()
    ));
    stirs.expect(100);
    assert!(stirs.parts > 5_000 && stirs.lifts > 1_500 && stirs.beside > 3_000);
    assert!(stirs.empty > 3_000 && stirs.several > 2_000 && stirs.outnumbered > 4_000);
    assert!(covered.outnumbered > 400 && covered.doubled > 100 && covered.full > 500);
    assert!(covered.stirred > 1_500 && covered.unstirred > 700);
    assert!(covered.into_stirred > 600 && covered.back > 500);
    for (tally, at_least) in [(&pair.tally, 3_000), (beside, 2_000)] {
        assert!(tally.count("transfer", 0) > at_least && tally.count("set rule", 0) > at_least);
    }
}

#[test]
fn leavens() {
    for subject in subjects() {
        lists_of(subject);
    }
}
