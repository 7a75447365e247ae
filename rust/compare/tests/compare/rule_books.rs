//! Rules that change on books: between the parts of one lot, on full tables, beside a loaded scale. It is
//! counted how often a pick by another rule would have left something else. The second implementation goes
//! along on a book that it keeps itself, so that what a vessel holds is turned over at each setting.

use crate::books::{lengths, reports, LONG};
use crate::second_scale::picked;
use calls::{places, Engine, Head, Piece, Refusal, Transfer, Transferred, SCALE, STIRRED, TOP};
use compare::{book, loaded_book, near, shares, subjects, tip_for, Pair, Random, Share};
use second::{Book, Second};

/// So many pieces are looked at before they are picked.
const LOOKED_AT: usize = 3;

/// What accepted transfers and lifts came to. Where they are counted by a rule, it is that of the source.
#[derive(Debug, Default)]
struct Covered {
    /// They would have left something else by the rule that the source had before it was set, by that of
    /// the book, by that of the destination.
    by_former: [u32; 5],
    by_book: [u32; 5],
    by_destination: [u32; 5],
    /// The first of these on full tables, beside a load, and on full tables beside a load.
    full: u32,
    beside: u32,
    full_beside: u32,
    /// They took from a lot of which a part had gone before, by that part's rule and this one.
    parts: [[u32; 5]; 5],
    /// Settings that were accepted: on full tables, beside a load, on full tables beside a load.
    settings: [u32; 3],
}

impl Covered {
    fn expect(&self) {
        let rules = [self.by_former, self.by_book, self.by_destination];
        let [rules, parts] = [rules.as_flattened(), self.parts.as_flattened()];
        let states = [self.full, self.beside, self.full_beside];
        assert!(rules.iter().all(|&count| count > 500), "{self:?}");
        assert!(parts.iter().all(|&count| count > 50), "{self:?}");
        assert!(states.iter().all(|&count| count > 500), "{self:?}");
        assert!(self.settings.iter().all(|&count| count > 5_000), "{self:?}");
    }
}

/// A book of which one vessel gives, by changing rules.
struct Giving<'g> {
    pair: &'g mut Pair,
    random: &'g mut Random,
    covered: &'g mut Covered,
    head: Head,
    table: Vec<u32>,
    book: Book,
    vessel: u32,
    /// Where the lot lies of which a part went last, and the rule by which it did.
    parted: Option<(usize, u32)>,
}

impl Giving<'_> {
    fn rule(&self) -> u32 {
        self.head.rules[self.vessel as usize]
    }

    /// Whether the table is full, whether the scale is loaded, and both.
    fn state(&self) -> [bool; 3] {
        let full = self.head.pieces as usize == places(&self.table);
        let beside = self.head.scale > 0;
        [full, beside, full && beside]
    }

    /// Sets a rule: mostly the giving vessel's, to any.
    fn set(&mut self) {
        let mut vessel = self.vessel;
        let mut rule = self.random.below(5);
        if self.random.once_in(8) {
            vessel = near(self.random, &[0, self.head.vessels]);
            rule = near(self.random, &[4]);
        }
        let answer = self.pair.set_rule(self.head, &self.table, vessel, rule);
        assert_eq!(number_of(self.book.set_rule(vessel, rule)), answer.number);
        self.head = answer.head;
        if answer.number == 0 {
            let state = self.state();
            for (count, here) in self.covered.settings.iter_mut().zip(state) {
                *count += u32::from(here);
            }
        }
    }

    /// Where the first pieces lie that the giving vessel's rule picks, in their order.
    fn first_picks(&self) -> Vec<usize> {
        let mut pieces: Vec<Piece> = Piece::all(&self.head, &self.table).collect();
        let mut next = || {
            let at = picked(self.rule(), &pieces, self.vessel)?;
            pieces[at].holder = TOP;
            Some(at)
        };
        (0..LOOKED_AT).map_while(|_| next()).collect()
    }

    /// A weight that some of these pieces have, or that needs a part of the last of them; now and then more
    /// than the vessel has. On a full table a part is seldom asked for.
    fn weight(&mut self, picks: &[usize]) -> u32 {
        if picks.is_empty() || self.random.once_in(12) {
            return self.head.balances[self.vessel as usize].saturating_add(self.random.below(2));
        }
        let some = &picks[..1 + self.random.index(picks.len())];
        let weights = some.iter().map(|&at| self.table[4 * at + 3]);
        let last = weights.clone().next_back().unwrap_or(0);
        let parts = if self.state()[0] { 1 } else { 6 };
        let part = last > 1 && self.random.below(8) < parts;
        let stays = if part {
            self.random.from_to(1, last - 1)
        } else {
            0
        };
        weights.sum::<u32>() - stays
    }

    /// Whether the giving vessel would have left something else by this rule.
    fn apart(&self, rule: u32, before: (Head, &[u32]), t: Transfer) -> bool {
        let (mut head, mut table) = (before.0, before.1.to_vec());
        head.rules[self.vessel as usize] = rule;
        match t.destination {
            SCALE => Second.lift(head, &mut table, t.lift()),
            _ => Second.transfer(head, &mut table, t),
        };
        table != self.table
    }

    /// Counts what an accepted transfer or lift came to.
    fn note(&mut self, former: u32, before: (Head, &[u32]), t: Transfer, state: [bool; 3]) {
        let (head, rule) = (before.0, self.rule() as usize);
        let by_former = self.apart(former, before, t);
        let by_book = self.apart(head.rule, before, t);
        let to = head.rules.get(t.destination as usize);
        let by_destination = to.is_some_and(|&to| self.apart(to, before, t));
        let covered = &mut *self.covered;
        covered.by_former[rule] += u32::from(by_former);
        covered.by_book[rule] += u32::from(by_book);
        covered.by_destination[rule] += u32::from(by_destination);
        let states = [
            &mut covered.full,
            &mut covered.beside,
            &mut covered.full_beside,
        ];
        for (count, here) in states.into_iter().zip(state) {
            *count += u32::from(here && by_former);
        }
    }

    /// Where the pieces lay that went whole, and those that were split. None if more went than were looked
    /// at.
    fn gave(
        &self,
        picks: &[usize],
        (head, table): (Head, &[u32]),
        weight: u32,
        answer: &Transferred,
    ) -> Option<[Vec<usize>; 2]> {
        if self.rule() != STIRRED || head.balances[self.vessel as usize] <= weight {
            let (whole, split) = picks.split_at_checked(answer.whole as usize)?;
            let split = &split[..split.len().min(answer.split as usize)];
            return Some([whole.to_vec(), split.to_vec()]);
        }
        let pieces: Vec<Piece> = Piece::all(&head, table).collect();
        let shares = shares(&pieces, self.vessel, weight);
        let which =
            [Share::whole, Share::split].map(|which| shares.iter().filter(move |s| which(s)));
        Some(which.map(|shares| shares.map(|share| share.place).collect()))
    }

    /// Notes where a lot lies of which a part went, and whether one went of it before.
    fn part(&mut self, gave: Option<[Vec<usize>; 2]>) {
        let rule = self.rule();
        let parted = self.parted.take();
        let Some([whole, split]) = gave else {
            return;
        };
        let taken = |at: &usize| whole.contains(at) || split.contains(at);
        if let Some((_, part)) = parted.filter(|(at, _)| taken(at)) {
            self.covered.parts[part as usize][rule as usize] += 1;
        }
        if let Some(&at) = split.last() {
            let before = whole.iter().filter(|&&gone| gone < at).count();
            self.parted = Some((at - before, rule));
        }
    }

    /// A transfer from the giving vessel, or a lift where the scale is bare; `former` is the rule that it
    /// had before.
    fn give(&mut self, former: u32) {
        let picks = self.first_picks();
        let weight = self.weight(&picks);
        let others = (self.head.vessels - 1).max(1);
        let further = self.random.from_to(1, others);
        let mut destination = (self.vessel + further) % self.head.vessels;
        if self.head.scale == 0 && self.random.once_in(3) {
            destination = SCALE;
        }
        let t = Transfer::new([self.vessel, destination, self.head.last, weight]);
        let (head, before, state) = (self.head, self.table.clone(), self.state());
        let (answer, followed) = match destination {
            SCALE => (
                self.pair.lift(head, &mut self.table, t.lift()),
                self.book.lift(t.lift()),
            ),
            _ => (
                self.pair.transfer(head, &mut self.table, t),
                self.book.transfer(t),
            ),
        };
        assert_eq!(number_of(followed), answer.number);
        self.head = answer.head;
        if answer.number == 0 {
            self.note(former, (head, &before), t, state);
            self.part(self.gave(&picks, (head, &before), weight, &answer));
        }
    }

    fn go(&mut self, count: u32) {
        for _ in 0..count {
            if self.head.balances[self.vessel as usize] == 0 {
                self.vessel = heaviest(&self.head);
                self.parted = None;
            }
            let former = self.rule();
            self.set();
            self.give(former);
            if self.random.once_in(4) {
                let tip = tip_for(self.random, &self.head);
                let answer = self.pair.tip(self.head, &mut self.table, tip);
                assert_eq!(number_of(self.book.tip(tip)), answer.number);
                self.head = answer.head;
                self.parted = self.parted.filter(|_| answer.number != 0);
            }
        }
        assert_eq!(self.book.head(), self.head);
        assert!(Piece::all(&self.head, &self.table).eq(self.book.pieces()));
        reports(self.pair, self.random, self.head, &self.table);
    }
}

/// 0 or the refusal's number.
fn number_of<T>(result: Result<T, Refusal>) -> u32 {
    result.err().map_or(0, Refusal::number)
}

/// The vessel that holds the most.
fn heaviest(head: &Head) -> u32 {
    let vessels = 0..head.vessels;
    let heaviest = vessels.max_by_key(|&vessel| head.balances[vessel as usize]);
    heaviest.expect("a book has a vessel")
}

fn changes_of(subject: &'static dyn Engine) {
    let mut pair = Pair::new(subject);
    let mut random = Random::new(106);
    let mut covered = Covered::default();
    for round in 0..240 {
        let of = if round % 8 < 4 { book } else { loaded_book };
        let long = (round % 3 == 0).then_some(LONG[round as usize % LONG.len()]);
        for length in lengths().into_iter().chain(long) {
            let (head, table) = of(&mut random, round % 4, length);
            if head.pieces == 0 {
                continue;
            }
            let pieces: Vec<Piece> = Piece::all(&head, &table).collect();
            let book = Book::resume(&head, places(&table), &pieces);
            let mut giving = Giving {
                pair: &mut pair,
                random: &mut random,
                covered: &mut covered,
                book: book.expect("it adds up"),
                vessel: heaviest(&head),
                head,
                table,
                parted: None,
            };
            giving.go(6);
        }
    }
    let (label, stirs, beside) = (pair.label(), &pair.stirs, &pair.beside);
    pair.tally.print(&format!(
        "rules that change, {label} {covered:?} {stirs:?} beside a load {beside:?}"
    ));
    covered.expect();
    stirs.expect(15);
    pair.tally.expect("set rule", &[0, 2, 5], 100);
    for tally in [&pair.tally, beside] {
        assert!(tally.count("set rule", 0) > 3_000 && tally.count("transfer", 0) > 1_000);
    }
    assert!(pair.tally.count("lift", 0) > 1_000 && pair.tally.count("tip", 0) > 500);
}

#[test]
fn rules_change() {
    for subject in subjects() {
        changes_of(subject);
    }
}
