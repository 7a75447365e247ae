//! The second implementation behind the calls: head and lent table in, head and lent table out.

use crate::book::{Book, Moved};
use crate::sheet::{name_part, Sheet};
use calls::{
    places, Engine, Head, Lift, Movement, Opened, Piece, Ran, Reading, Refusal, Reported, RuleSet,
    Tip, Tipped, Transfer, Transferred, NAME_BYTES, SHEET_HEADER,
};

/// The second implementation.
pub struct Second;

/// The book of a head and a table: checks 1 and 4.
fn book_of(head: &Head, table: &[u32]) -> Result<Book, Refusal> {
    if table.len() < 4 {
        return Err(Refusal::TableShort);
    }
    let pieces: Vec<Piece> = Piece::all(head, table).collect();
    Book::resume(head, places(table), &pieces)
}

/// The pieces are laid into the table; what lies behind the last one remains.
fn lay(book: &Book, table: &mut [u32]) {
    for (place, piece) in table.chunks_exact_mut(4).zip(book.pieces()) {
        place.copy_from_slice(&piece.numbers());
    }
}

/// A transfer or a lift, by the call that makes it.
fn transferred(
    head: Head,
    table: &mut [u32],
    call: impl FnOnce(&mut Book) -> Result<Moved, Refusal>,
) -> Transferred {
    let go = || {
        let mut book = book_of(&head, table)?;
        let moved = call(&mut book)?;
        lay(&book, table);
        Ok(Transferred {
            number: 0,
            head: book.head(),
            whole: moved.whole,
            split: moved.split,
            born: moved.born,
        })
    };
    go().unwrap_or_else(|refusal: Refusal| Transferred {
        number: refusal.number(),
        head,
        whole: 0,
        split: 0,
        born: 0,
    })
}

/// The numbers of a report go to the front of the room.
fn fill(room: &mut [u32], numbers: &[u32]) -> Result<(), Refusal> {
    let front = room.get_mut(..numbers.len()).ok_or(Refusal::ReportShort)?;
    front.copy_from_slice(numbers);
    Ok(())
}

/// 0 or the refusal's number.
fn number_of(result: Result<(), Refusal>) -> u32 {
    result.err().map_or(0, Refusal::number)
}

fn reported(head: Head, result: Result<(), Refusal>) -> Reported {
    Reported {
        number: number_of(result),
        head,
    }
}

/// The name of a vessel on a sheet.
fn name_of(sheet: &[u8], vessel: u32) -> Result<&[u8], Refusal> {
    let vessels = Sheet::read(sheet)?.names.len();
    let names = &sheet[SHEET_HEADER..SHEET_HEADER + NAME_BYTES * vessels];
    let mut names = names.chunks_exact(NAME_BYTES);
    names
        .nth(vessel as usize)
        .map(name_part)
        .ok_or(Refusal::NoVessel)
}

impl Engine for Second {
    fn label(&self) -> &'static str {
        "second"
    }

    fn open(&self, rule: u32, vessels: u32) -> Opened {
        match Book::open(rule, vessels, 0) {
            Ok(book) => Opened {
                number: 0,
                head: book.head(),
            },
            Err(refusal) => Opened {
                number: refusal.number(),
                head: Head::ZERO,
            },
        }
    }

    fn set_rule(&self, head: Head, table: &[u32], vessel: u32, rule: u32) -> RuleSet {
        let set = book_of(&head, table).and_then(|mut book| {
            book.set_rule(vessel, rule)?;
            Ok(book.head())
        });
        RuleSet {
            number: set.as_ref().err().map_or(0, |refusal| refusal.number()),
            head: set.unwrap_or(head),
        }
    }

    fn transfer(&self, head: Head, table: &mut [u32], transfer: Transfer) -> Transferred {
        transferred(head, table, |book| book.transfer(transfer))
    }

    fn lift(&self, head: Head, table: &mut [u32], lift: Lift) -> Transferred {
        transferred(head, table, |book| book.lift(lift))
    }

    fn tip(&self, head: Head, table: &mut [u32], tip: Tip) -> Tipped {
        let mut go = || {
            let mut book = book_of(&head, table)?;
            book.tip(tip)?;
            lay(&book, table);
            Ok(Tipped {
                number: 0,
                head: book.head(),
            })
        };
        go().unwrap_or_else(|refusal: Refusal| Tipped {
            number: refusal.number(),
            head,
        })
    }

    fn held(&self, head: Head, table: &[u32], vessel: u32, report: &mut [u32]) -> Reported {
        let numbers = book_of(&head, table).and_then(|book| book.held(vessel));
        reported(head, numbers.and_then(|n| fill(report, &n)))
    }

    fn spread(
        &self,
        head: Head,
        table: &[u32],
        origin: u32,
        (from, to): (u32, u32),
        report: &mut [u32],
    ) -> Reported {
        let numbers = book_of(&head, table).and_then(|book| book.spread(origin, from, to));
        reported(head, numbers.and_then(|n| fill(report, &n)))
    }

    fn whole(&self, head: Head, table: &[u32], report: &mut [u32]) -> Reported {
        let numbers = book_of(&head, table).map(|book| book.whole());
        reported(head, numbers.and_then(|n| fill(report, &n)))
    }

    /// The documents have one whole report, whatever the order of work.
    fn whole_by_rows(&self, head: Head, table: &[u32], report: &mut [u32]) -> Reported {
        self.whole(head, table, report)
    }

    fn read(&self, sheet: &[u8]) -> Reading {
        match Sheet::read(sheet) {
            Ok(sheet) => Reading {
                number: 0,
                rule: sheet.rule,
                vessels: sheet.names.len() as u32,
                movements: sheet.movements.len() as u32,
            },
            Err(refusal) => Reading {
                number: refusal.number(),
                rule: 0,
                vessels: 0,
                movements: 0,
            },
        }
    }

    fn movement(&self, sheet: &[u8], index: u32) -> Movement {
        let found = Sheet::read(sheet).and_then(|sheet| {
            let movement = sheet.movements.get(index as usize);
            movement.copied().ok_or(Refusal::PastEnd)
        });
        let (number, movement) = match found {
            Ok(movement) => (0, movement),
            Err(refusal) => (refusal.number(), Transfer::new([0; 4])),
        };
        Movement {
            number,
            source: movement.source,
            destination: movement.destination,
            minute: movement.minute,
            weight: movement.weight,
            age: movement.age.into(),
        }
    }

    fn name<'s>(&self, sheet: &'s [u8], vessel: u32) -> &'s [u8] {
        name_of(sheet, vessel).unwrap_or(&sheet[..0])
    }

    fn name_number(&self, sheet: &[u8], vessel: u32) -> u32 {
        number_of(name_of(sheet, vessel).map(|_| ()))
    }

    fn write(&self, rule: u32, vessels: u32, names: &[u8], numbers: &[u32], out: &mut [u8]) -> u32 {
        let mut go = || {
            let bytes = Sheet::of_parts(rule, vessels, names, numbers)?.bytes();
            let room = out.get_mut(..bytes.len()).ok_or(Refusal::OutputShort)?;
            room.copy_from_slice(&bytes);
            Ok(())
        };
        number_of(go())
    }

    fn run(&self, sheet: &[u8], table: &mut [u32]) -> Ran {
        match Sheet::read(sheet).and_then(|sheet| sheet.run(places(table))) {
            Ok(outcome) => {
                lay(&outcome.book, table);
                Ran {
                    number: outcome.stopped.map_or(0, Refusal::number),
                    index: outcome.index as u32,
                    even: outcome.even,
                    head: outcome.book.head(),
                }
            }
            Err(refusal) => Ran {
                number: refusal.number(),
                index: 0,
                even: 0,
                head: Head::ZERO,
            },
        }
    }
}
