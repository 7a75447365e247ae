//! What the listing program prints.

use crate::sheet::{Outcome, Sheet};
use calls::{Refusal, PLACES};
use std::fmt::Write;

/// The listing of a sheet, run on a table of 4,096 places.
pub fn listing(sheet: &[u8]) -> String {
    match Sheet::read(sheet).and_then(|sheet| sheet.run(PLACES)) {
        Ok(outcome) => ran(&outcome),
        Err(refusal) => format!("refused {}\n", refusal.number()),
    }
}

fn ran(outcome: &Outcome) -> String {
    let head = outcome.book.head();
    let mut text = format!(
        "vessels {} rule {} accepted {} pieces {} even {}\n",
        head.vessels, head.rule, head.accepted, head.pieces, outcome.even
    );
    for p in outcome.book.pieces() {
        let [holder, origin, birth, weight] = p.numbers();
        writeln!(text, "{holder} {origin} {birth} {weight}").expect("a string takes all");
    }
    if let Some(refusal) = outcome.stopped {
        text += &stopped(outcome.index, refusal);
    }
    text
}

fn stopped(index: usize, refusal: Refusal) -> String {
    format!("stopped {index} at {}\n", refusal.number())
}
