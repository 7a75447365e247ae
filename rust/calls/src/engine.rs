//! What the tests and the benchmarks ask of an implementation: every call, with its bare answer.

use crate::{
    Head, Lift, Movement, Opened, Ran, Reading, Reported, RuleSet, Tip, Tipped, Transfer,
    Transferred,
};

/// An implementation of the documents' calls. Answers and lent memory are compared number by number.
pub trait Engine: Sync {
    /// The word for it in the tests' and benchmarks' output.
    fn label(&self) -> &'static str;

    /// Opens a book.
    fn open(&self, rule: u32, vessels: u32) -> Opened;

    /// Sets the rule of a vessel.
    fn set_rule(&self, head: Head, table: &[u32], vessel: u32, rule: u32) -> RuleSet;

    /// Transfers weight from one vessel to another.
    fn transfer(&self, head: Head, table: &mut [u32], transfer: Transfer) -> Transferred;

    /// Lifts weight from a vessel onto the scale.
    fn lift(&self, head: Head, table: &mut [u32], lift: Lift) -> Transferred;

    /// Tips all that is on the scale into a vessel.
    fn tip(&self, head: Head, table: &mut [u32], tip: Tip) -> Tipped;

    /// The weight by origin in a vessel.
    fn held(&self, head: Head, table: &[u32], vessel: u32, report: &mut [u32]) -> Reported;

    /// The weight in each vessel that was born at an origin in `span`, a pair of minutes, both included.
    fn spread(
        &self,
        head: Head,
        table: &[u32],
        origin: u32,
        span: (u32, u32),
        report: &mut [u32],
    ) -> Reported;

    /// The held report of every vessel, one row behind the other.
    fn whole(&self, head: Head, table: &[u32], report: &mut [u32]) -> Reported;

    /// The same, where the library lends each row to the held report.
    fn whole_by_rows(&self, head: Head, table: &[u32], report: &mut [u32]) -> Reported;

    /// Reads a sheet.
    fn read(&self, sheet: &[u8]) -> Reading;

    /// A movement of a sheet.
    fn movement(&self, sheet: &[u8], index: u32) -> Movement;

    /// A vessel's name, a part of the sheet; on a refusal the empty part at the sheet's start.
    fn name<'s>(&self, sheet: &'s [u8], vessel: u32) -> &'s [u8];

    /// The number that asking for a vessel's name gives.
    fn name_number(&self, sheet: &[u8], vessel: u32) -> u32;

    /// Writes a sheet: 8 bytes for each name, 5 numbers for each movement.
    fn write(&self, rule: u32, vessels: u32, names: &[u8], numbers: &[u32], out: &mut [u8]) -> u32;

    /// Runs a sheet on a table.
    fn run(&self, sheet: &[u8], table: &mut [u32]) -> Ran;
}
