//! The book: buffers and their rules, the transfer and the three reports.

mod rules;
mod scale;

use crate::buffer::{Buffer, Given, Lot};
use calls::{Head, Lift, Piece, Refusal, Transfer, SCALE, STIRRED, TOP, VESSELS};

/// A book that keeps its pieces itself.
#[derive(Clone)]
pub struct Book {
    /// As the book was opened. It picks nothing: each buffer has the rule of its vessel.
    rule: u32,
    places: usize,
    last: u32,
    accepted: u32,
    buffers: Vec<Buffer>,
    balances: Vec<u64>,
    /// What is on the scale, in order of receipt: no rule picks from it, and no report includes it.
    scale: Vec<Lot>,
    pieces: usize,
    receipts: u64,
}

/// What an accepted transfer or lift did.
#[derive(Clone, Copy, Debug, Default, PartialEq, Eq)]
pub struct Moved {
    /// How many pieces moved whole.
    pub whole: u32,
    /// How many pieces were split.
    pub split: u32,
    /// The weight born.
    pub born: u32,
}

/// Takes from a vessel, all at once if it is stirred, else lot by lot as its rule picks, and bears what it
/// lacks. The receiver gets each lot with the next receipt.
fn draw(from: &mut Buffer, want: &Lift, receipts: &mut u64, mut receive: impl FnMut(Lot)) -> Moved {
    let mut moved = Moved::default();
    let mut residue = want.weight;
    let mut hand_on = |lot: Lot| {
        let receipt = *receipts;
        receive(Lot { receipt, ..lot });
        *receipts += 1;
    };
    let mut stirred = from.stir(residue).into_iter();
    while residue > 0 {
        let lot = match stirred.next().or_else(|| from.give(residue)) {
            Some(Given::Whole(lot)) => {
                moved.whole += 1;
                lot
            }
            Some(Given::Part(lot)) => {
                moved.split += 1;
                lot
            }
            None => break,
        };
        residue -= lot.weight;
        hand_on(lot);
    }
    if residue > 0 {
        moved.born = residue;
        hand_on(Lot {
            birth: want.minute - u32::from(want.age),
            receipt: 0,
            origin: want.source,
            weight: residue,
        });
    }
    moved
}

impl Book {
    /// Opens a book for so many places. Every vessel gets the rule.
    pub fn open(rule: u32, vessels: u32, places: usize) -> Result<Book, Refusal> {
        if rule > 3 {
            return Err(Refusal::RuleUnknown);
        }
        if vessels < 1 || vessels > VESSELS as u32 {
            return Err(Refusal::VesselCount);
        }
        Ok(Book {
            rule,
            places,
            last: 0,
            accepted: 0,
            buffers: vec![Buffer::of_rule(rule); vessels as usize],
            balances: vec![0; vessels as usize],
            scale: Vec::new(),
            pieces: 0,
            receipts: 0,
        })
    }

    /// The book of a head and its pieces, if it adds up.
    pub fn resume(head: &Head, places: usize, pieces: &[Piece]) -> Result<Book, Refusal> {
        let mut book = Book::open(head.rule, head.vessels, places).or(Err(Refusal::BookOff))?;
        book.take_rules(&head.rules)?;
        book.last = head.last;
        book.accepted = head.accepted;
        let counted = pieces.len() == head.pieces as usize && pieces.len() <= places;
        let sound = |p: &Piece| {
            (p.holder < head.vessels || p.holder == SCALE)
                && p.origin < head.vessels
                && p.birth <= head.last
                && p.weight >= 1
        };
        if !counted || !pieces.iter().all(sound) {
            return Err(Refusal::BookOff);
        }
        for p in pieces {
            let lot = Lot {
                birth: p.birth,
                receipt: book.receipts,
                origin: p.origin,
                weight: p.weight,
            };
            if p.holder == SCALE {
                book.scale.push(lot);
            } else {
                book.buffers[p.holder as usize].receive(lot);
                book.balances[p.holder as usize] += u64::from(p.weight);
            }
            book.receipts += 1;
        }
        book.pieces = pieces.len();
        let mut sums = book.balances.iter().copied().chain(std::iter::repeat(0));
        let balanced = head.balances.iter().all(|&b| sums.next() == Some(b.into()));
        if !balanced || book.on_scale() != head.scale.into() {
            return Err(Refusal::BookOff);
        }
        Ok(book)
    }

    /// The refusal of a transfer, if one applies. Table and book were looked at before.
    fn refusal(&self, t: &Transfer) -> Option<Refusal> {
        let (source, destination) = (t.source as usize, t.destination as usize);
        if source >= self.buffers.len() || destination >= self.buffers.len() {
            return Some(Refusal::NoVessel);
        }
        if source == destination {
            return Some(Refusal::SameVessel);
        }
        if t.weight == 0 {
            return Some(Refusal::NoWeight);
        }
        if t.minute < self.last {
            return Some(Refusal::ClockBack);
        }
        if t.minute < t.age.into() {
            return Some(Refusal::BeforeTime);
        }
        if self.balances[destination] + u64::from(t.weight) > TOP.into() {
            return Some(Refusal::Overfull);
        }
        if self.accepted == TOP {
            return Some(Refusal::TallyFull);
        }
        if self.no_place(source, t.weight) {
            return Some(Refusal::TableFull);
        }
        None
    }

    /// Whether the lots that come from taking weight from a vessel, by splits and birth, exceed the free
    /// places. What is not stirred needs one at most, so that only a full table asks how it will come out.
    fn no_place(&self, source: usize, weight: u32) -> bool {
        let free = self.places - self.pieces;
        let buffer = &self.buffers[source];
        (free == 0 || buffer.rule() == STIRRED)
            && self.balances[source] != weight.into()
            && buffer.more(weight) > free
    }

    /// Transfers weight: Algorithm 2 of the source, with the pick of the giving vessel's rule.
    pub fn transfer(&mut self, t: Transfer) -> Result<Moved, Refusal> {
        if let Some(refusal) = self.refusal(&t) {
            return Err(refusal);
        }
        let (source, destination) = (t.source as usize, t.destination as usize);
        let vessels = self.buffers.get_disjoint_mut([source, destination]);
        let [from, to] = vessels.expect("two vessels of the book");
        let want = t.lift();
        let moved = draw(from, &want, &mut self.receipts, |lot| to.receive(lot));
        self.balances[destination] += u64::from(t.weight);
        self.count(&want, &moved);
        Ok(moved)
    }

    /// Enters what the source of an accepted transfer or lift gave.
    fn count(&mut self, want: &Lift, moved: &Moved) {
        self.pieces += moved.split as usize + usize::from(moved.born > 0);
        self.balances[want.source as usize] -= u64::from(want.weight - moved.born);
        self.last = want.minute;
        self.accepted += 1;
    }

    /// The pieces in order of receipt.
    pub fn pieces(&self) -> Vec<Piece> {
        let mut all: Vec<(u32, Lot)> = Vec::with_capacity(self.pieces);
        for (holder, buffer) in (0..).zip(&self.buffers) {
            all.extend(buffer.lots().map(|&lot| (holder, lot)));
        }
        all.extend(self.scale.iter().map(|&lot| (SCALE, lot)));
        all.sort_unstable_by_key(|(_, lot)| lot.receipt);
        let piece = |(holder, lot): (u32, Lot)| Piece {
            holder,
            origin: lot.origin,
            birth: lot.birth,
            weight: lot.weight,
        };
        all.into_iter().map(piece).collect()
    }

    /// The head of the book.
    pub fn head(&self) -> Head {
        let mut head = Head {
            rule: self.rule,
            vessels: self.buffers.len() as u32,
            pieces: self.pieces as u32,
            last: self.last,
            accepted: self.accepted,
            scale: self.on_scale() as u32, // at most TOP: one lift
            ..Head::ZERO
        };
        for (balance, &sum) in head.balances.iter_mut().zip(&self.balances) {
            *balance = sum as u32; // at most TOP: 9 refuses more
        }
        for (rule, buffer) in head.rules.iter_mut().zip(&self.buffers) {
            *rule = buffer.rule();
        }
        head
    }

    /// The weight by origin in a vessel.
    pub fn held(&self, vessel: u32) -> Result<Vec<u32>, Refusal> {
        let buffer = self.buffers.get(vessel as usize).ok_or(Refusal::NoVessel)?;
        let mut report = vec![0; self.buffers.len()];
        for lot in buffer.lots() {
            report[lot.origin as usize] += lot.weight;
        }
        Ok(report)
    }

    /// The weight in each vessel that was born at an origin, from one minute to another, both included.
    pub fn spread(&self, origin: u32, from: u32, to: u32) -> Result<Vec<u32>, Refusal> {
        if origin as usize >= self.buffers.len() {
            return Err(Refusal::NoVessel);
        }
        if from > to {
            return Err(Refusal::SpanBack);
        }
        let wanted = |lot: &&Lot| lot.origin == origin && (from..=to).contains(&lot.birth);
        let weight = |b: &Buffer| b.lots().filter(wanted).map(|lot| lot.weight).sum();
        Ok(self.buffers.iter().map(weight).collect())
    }

    /// The held reports of all vessels, one behind the other.
    pub fn whole(&self) -> Vec<u32> {
        let rows = (0..self.buffers.len() as u32).filter_map(|v| self.held(v).ok());
        rows.flatten().collect()
    }
}
