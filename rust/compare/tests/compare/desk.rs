//! Books kept by hand, and sheets, for worked vectors.

use calls::{Engine, Head, Lift, Piece, Tip, Transfer};
use compare::subjects;
use second::{Second, Sheet};
use std::path::Path;

/// An open book on a table of 16 places, and the engine that keeps it.
pub struct Desk {
    engine: &'static dyn Engine,
    pub head: Head,
    pub table: [u32; 64],
    pub even: u32,
}

impl Desk {
    pub fn open(engine: &'static dyn Engine, rule: u32, vessels: u32) -> Desk {
        let opened = engine.open(rule, vessels);
        assert_eq!(opened.number, 0);
        Desk {
            engine,
            head: opened.head,
            table: [0; 64],
            even: 0,
        }
    }

    /// Transfers at age 0 and gives the number.
    pub fn transfer(&mut self, numbers: [u32; 4]) -> u32 {
        self.make(Transfer::new(numbers))
    }

    /// Transfers and gives the number.
    pub fn make(&mut self, transfer: Transfer) -> u32 {
        let answer = self.engine.transfer(self.head, &mut self.table, transfer);
        self.head = answer.head;
        self.even += u32::from(answer.even());
        answer.number
    }

    /// Lifts and gives the number.
    pub fn lift(&mut self, lift: Lift) -> u32 {
        let answer = self.engine.lift(self.head, &mut self.table, lift);
        self.head = answer.head;
        self.even += u32::from(answer.even());
        answer.number
    }

    /// Tips and gives the number.
    pub fn tip(&mut self, tip: Tip) -> u32 {
        let answer = self.engine.tip(self.head, &mut self.table, tip);
        self.head = answer.head;
        answer.number
    }

    /// Sets a vessel's rule and gives the number.
    pub fn set_rule(&mut self, vessel: u32, rule: u32) -> u32 {
        let answer = self.engine.set_rule(self.head, &self.table, vessel, rule);
        self.head = answer.head;
        answer.number
    }

    /// The numbers of the three reports, of vessel or origin 0, and of whole by rows.
    pub fn reports(&self) -> [u32; 4] {
        let (engine, head, table) = (self.engine, self.head, &self.table);
        let room = &mut [0; 9];
        [
            engine.held(head, table, 0, room).number,
            engine.spread(head, table, 0, (0, u32::MAX), room).number,
            engine.whole(head, table, room).number,
            engine.whole_by_rows(head, table, room).number,
        ]
    }

    pub fn after(engine: &'static dyn Engine, rule: u32, movements: &[[u32; 4]]) -> Desk {
        let mut desk = Desk::open(engine, rule, 3);
        for &movement in movements {
            assert_eq!(desk.transfer(movement), 0);
        }
        desk
    }

    pub fn pieces(&self) -> Vec<[u32; 4]> {
        let pieces = Piece::all(&self.head, &self.table);
        pieces.map(|p| p.numbers()).collect()
    }
}

/// The subjects and the second implementation itself.
pub fn engines() -> Vec<&'static dyn Engine> {
    let mut engines = subjects();
    engines.push(&Second);
    engines
}

/// A sheet of three vessels.
pub fn sheet_of(rule: u32, movements: impl IntoIterator<Item = Transfer>) -> Sheet {
    Sheet {
        rule,
        names: vec![*b"SILO\0\0\0\0", *b"LEAVEN\0\0", *b"MIXER\0\0\0"],
        movements: movements.into_iter().collect(),
    }
}

/// A sheet of the folder `examples`.
pub fn example(name: &str) -> Vec<u8> {
    let folder = Path::new(env!("CARGO_MANIFEST_DIR")).join("../../examples");
    std::fs::read(folder.join(name)).expect("the example is checked in")
}
