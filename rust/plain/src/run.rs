//! The run of a sheet in the time of the pieces that it handles: they are kept in lanes, their receipts in a
//! log, and the table is written once, at the end or the stop.

mod lanes;
mod receipts;

use crate::{book, sheet, transfer};
use calls::{places, Head, Piece, Ran, Reading, Refusal, Transfer};
use lanes::Lanes;
use receipts::Receipts;

/// A book while its sheet is run.
struct Running {
    head: Head,
    places: usize,
    lanes: Lanes,
    receipts: Receipts,
}

impl Running {
    fn new(head: Head, places: usize) -> Running {
        Running {
            head,
            places,
            lanes: Lanes::new(head.rule),
            receipts: Receipts::new(),
        }
    }

    /// Whether a movement needs a place and there is none. A lane is walked only where that decides.
    fn full(&self, t: &Transfer) -> bool {
        let balance = self.head.balances[t.source as usize];
        self.lanes.count() == self.places
            && t.weight != balance
            && (t.weight > balance || self.lanes.splits(t.source, t.weight))
    }

    /// The slot of what a movement adds once no piece goes whole any more, which weighs what is left: a part of
    /// the next piece, or what is born.
    fn add(&mut self, t: &Transfer, left: u32) -> usize {
        let piece = match self.lanes.first(t.source) {
            Some(slot) => self.lanes.part(slot, left),
            None => {
                self.head.balances[t.source as usize] += left;
                Piece {
                    holder: t.source,
                    origin: t.source,
                    birth: t.minute - u32::from(t.age),
                    weight: left,
                }
            }
        };
        self.lanes.lay(piece)
    }

    /// Moves pieces past all checks. Whether that took neither split nor birth.
    fn hand(&mut self, t: &Transfer) -> bool {
        let mut left = t.weight;
        let mut even = true;
        let mut hint = self.lanes.hint(t.destination);
        while left > 0 {
            let slot = self.lanes.leave(t.source, left).unwrap_or_else(|| {
                even = false;
                self.add(t, left)
            });
            left -= self.lanes.piece(slot).weight;
            hint = self.lanes.join(hint, t.destination, slot);
            self.receipts.note(slot);
        }
        self.lanes.set_hint(t.destination, hint);
        self.head.pieces = self.lanes.count() as u32;
        self.head.balances[t.source as usize] -= t.weight;
        self.head.balances[t.destination as usize] += t.weight;
        self.head.last = t.minute;
        self.head.accepted += 1;
        even
    }

    /// A movement with all its checks. Whether it took neither split nor birth.
    fn make(&mut self, t: &Transfer) -> Result<bool, Refusal> {
        transfer::check(&self.head, t)?;
        if self.full(t) {
            return Err(Refusal::TableFull);
        }
        self.receipts.make_room(self.lanes.count() + 1);
        Ok(self.hand(t))
    }

    /// Writes the pieces in order of receipt.
    fn write(&mut self, table: &mut [u32]) {
        let places = table.as_chunks_mut().0;
        for (place, &slot) in places.iter_mut().zip(self.receipts.in_order()) {
            *place = self.lanes.piece(slot.into()).numbers();
        }
    }
}

/// The sheet's reading and a fresh head, once the table was looked at.
fn start(sheet: &[u8], table: &[u32]) -> Result<(Reading, Head), Refusal> {
    let reading = sheet::check(sheet)?;
    if table.len() < 4 {
        return Err(Refusal::TableShort);
    }
    Ok((reading, book::open(reading.rule, reading.vessels)?))
}

pub fn run(sheet: &[u8], table: &mut [u32]) -> Ran {
    let mut answer = Ran {
        number: 0,
        index: 0,
        even: 0,
        head: Head::ZERO,
    };
    let (reading, head) = match start(sheet, table) {
        Ok(started) => started,
        Err(refusal) => {
            answer.number = refusal.number();
            return answer;
        }
    };
    let mut running = Running::new(head, places(table));
    while answer.index < reading.movements {
        let movement = sheet::movement_at(sheet, reading.vessels, answer.index as usize);
        match running.make(&movement) {
            Ok(even) => answer.even += u32::from(even),
            Err(refusal) => {
                answer.number = refusal.number();
                break;
            }
        }
        answer.index += 1;
    }
    running.write(table);
    answer.head = running.head;
    answer
}
