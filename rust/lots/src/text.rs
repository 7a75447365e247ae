//! The text form of a sheet: a rule, the vessels in the order of their numbers, the movements.
//!
//! ```text
//! rule 0
//! vessel MILL
//! vessel SILO
//! 480 MILL -> SILO 25000 g
//! 500 MILL -> SILO 25000 g age 60
//! ```
//!
//! Words stand apart by blanks, so that a name is any word. A line that starts with `#` is a remark. With a
//! line `start Mon` minutes may be written as `Tue-06:00`.

mod reader;

pub use reader::{looks_like, read, LineFault};

use crate::clock::Clock;
use crate::sheet::{rules, Sheet};
use lumchaki::Transfer;

/// How a movement is written.
const MOVEMENT: &str = "MINUTE FROM -> TO GRAMS g [age MINUTES]";

/// What a text says, and where.
#[derive(Debug)]
pub struct Text {
    /// The sheet.
    pub sheet: Sheet,
    /// The line of each movement, from 1.
    pub lines: Vec<usize>,
    /// How its minutes are written.
    pub clock: Clock,
}

impl Text {
    /// The text that `write` gives of a sheet.
    pub fn of(sheet: Sheet, clock: &Clock) -> Text {
        let first = 1 + before_movements(&sheet, clock).lines().count();
        Text {
            lines: (first..).take(sheet.movements.len()).collect(),
            sheet,
            clock: *clock,
        }
    }
}

/// The text of a sheet.
pub fn write(sheet: &Sheet, clock: &Clock) -> String {
    let mut text = before_movements(sheet, clock);
    let widths = Widths::of(sheet, clock);
    for m in &sheet.movements {
        text += &movement(sheet, clock, m, &widths);
        text += "\n";
    }
    text
}

fn before_movements(sheet: &Sheet, clock: &Clock) -> String {
    let mut text = format!("# Rules: {}\nrule {}\n", rules(), sheet.rule);
    if let Some(start) = clock.start {
        text += &format!("start {}\n", start.show());
    }
    text += "# Vessels, from number 0 on\n";
    for name in &sheet.names {
        text += &format!("vessel {name}\n");
    }
    text + &format!("# Movements: {MOVEMENT}\n")
}

/// The columns of the movements.
#[derive(Default)]
pub struct Widths {
    minute: usize,
    name: usize,
    grams: usize,
}

impl Widths {
    fn of(sheet: &Sheet, clock: &Clock) -> Widths {
        let minutes = sheet.movements.iter().map(|m| clock.show(m.minute).len());
        let grams = sheet.movements.iter().map(|m| m.weight.to_string().len());
        Widths {
            minute: minutes.max().unwrap_or(0),
            name: sheet.names.iter().map(String::len).max().unwrap_or(0),
            grams: grams.max().unwrap_or(0),
        }
    }
}

/// The line of a movement.
pub fn movement(sheet: &Sheet, clock: &Clock, m: &Transfer, widths: &Widths) -> String {
    let [from, to] = [m.source, m.destination].map(|v| &sheet.names[v as usize]);
    let age = match m.age {
        0 => String::new(),
        age => format!(" age {age}"),
    };
    let Widths {
        minute,
        name,
        grams,
    } = *widths;
    let at = clock.show(m.minute);
    format!(
        "{at:>minute$} {from:name$} -> {to:name$} {:grams$} g{age}",
        m.weight
    )
}
