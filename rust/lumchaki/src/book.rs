//! The book: opening, rules, transfer, lift and tip, reports.

use crate::{accept, raw};
use calls::{Head, Lift, Refusal, Tip, Transfer, Transferred};
use std::ops::RangeInclusive;

/// What an accepted transfer or lift did.
#[derive(Clone, Copy, Debug, PartialEq, Eq)]
pub struct Moved {
    /// How many pieces moved whole.
    pub whole: u32,
    /// How many pieces were split: 0 or 1, but for a stirred source.
    pub split: u32,
    /// The weight that the source lacked, born there.
    pub born: u32,
}

/// The head after a transfer or a lift, and what it did; a refusal leaves the head.
fn moved(head: &mut Head, answer: Transferred) -> Result<Moved, Refusal> {
    accept(answer.number)?;
    *head = answer.head;
    Ok(Moved {
        whole: answer.whole,
        split: answer.split,
        born: answer.born,
    })
}

/// Opens a book for 1 to 64 vessels, each of which gets this rule, 0 to 3.
///
/// # Errors
/// [`Refusal::RuleUnknown`], [`Refusal::VesselCount`].
pub fn open(rule: u32, vessels: u32) -> Result<Head, Refusal> {
    let answer = raw::open(rule, vessels);
    accept(answer.number)?;
    Ok(answer.head)
}

/// Sets the rule of a vessel, by which all later transfers and lifts pick from it: 0 earliest received
/// first, 1 latest received first, 2 smallest birth minute, 3 largest, 4 ([`STIRRED`](crate::STIRRED)) all
/// of them by their shares. It may be set at any moment, also while the scale is loaded. Nothing else of
/// the head changes, and `rule` stays as the book was opened.
///
/// # Errors
/// The refusals 1, 4, 5 and 2, the first that applies in this order.
pub fn set_rule(head: &mut Head, table: &[u32], vessel: u32, rule: u32) -> Result<(), Refusal> {
    let answer = raw::set_rule(*head, table, vessel, rule);
    accept(answer.number)?;
    *head = answer.head;
    Ok(())
}

/// Transfers weight from one vessel to another, picked by the rule of the source. What that lacks is
/// born there; it was milled `age` minutes before, so that its birth minute is `minute - age`. What is
/// on the scale stays there. A refused transfer leaves head and table as they are.
///
/// A stirred source that holds more than the weight gives from everything in it: each piece, in order of
/// receipt, its share to within less than a gram, where what was rounded off is handed on to the next ones,
/// so that the shares sum to the weight. What gives a part is split and stays in its place.
///
/// # Errors
/// The refusals 1, 4, 5 to 8, 21 and 9 to 11, the first that applies in this order.
pub fn transfer(head: &mut Head, table: &mut [u32], transfer: Transfer) -> Result<Moved, Refusal> {
    let answer = raw::transfer(*head, table, transfer);
    moved(head, answer)
}

/// Lifts weight from a vessel onto the scale: the first half of a transfer, which counts as one. What
/// the source lacks is born there, as in a transfer. Until the scale is tipped no other lift is
/// accepted; transfers and reports are, and what is on the scale is in no vessel. A refused lift
/// leaves head and table as they are.
///
/// # Errors
/// The refusals 1, 4, 22, 5, 7, 8, 21, 10 and 11, the first that applies in this order.
pub fn lift(head: &mut Head, table: &mut [u32], lift: Lift) -> Result<Moved, Refusal> {
    let answer = raw::lift(*head, table, lift);
    moved(head, answer)
}

/// Tips all that is on the scale into a vessel, behind all that this one received meanwhile. It may be
/// the one that was lifted from. A tip is the second half of a transfer, which does not count. A
/// refused tip leaves head and table as they are, and the scale loaded.
///
/// # Errors
/// The refusals 1, 4, 23, 5, 8 and 9, the first that applies in this order.
pub fn tip(head: &mut Head, table: &mut [u32], tip: Tip) -> Result<(), Refusal> {
    let answer = raw::tip(*head, table, tip);
    accept(answer.number)?;
    *head = answer.head;
    Ok(())
}

/// The weight by origin in a vessel: the part of `report` that was written.
///
/// # Errors
/// The refusals 1, 4, 5 and 13, the first that applies in this order.
pub fn held<'r>(
    head: &Head,
    table: &[u32],
    vessel: u32,
    report: &'r mut [u32],
) -> Result<&'r [u32], Refusal> {
    accept(raw::held(*head, table, vessel, report).number)?;
    Ok(&report[..head.vessels as usize])
}

/// The weight in each vessel that was born at an origin in a span of minutes: the part of `report`
/// that was written.
///
/// # Errors
/// The refusals 1, 4, 5, 12 and 13, the first that applies in this order.
pub fn spread<'r>(
    head: &Head,
    table: &[u32],
    origin: u32,
    span: RangeInclusive<u32>,
    report: &'r mut [u32],
) -> Result<&'r [u32], Refusal> {
    accept(raw::spread(*head, table, origin, span.into_inner(), report).number)?;
    Ok(&report[..head.vessels as usize])
}

/// The held report of every vessel, one row behind the other: the part of `report` that was written.
///
/// # Errors
/// The refusals 1, 4 and 13, the first that applies in this order.
pub fn whole<'r>(head: &Head, table: &[u32], report: &'r mut [u32]) -> Result<&'r [u32], Refusal> {
    accept(raw::whole(*head, table, report).number)?;
    Ok(rows(head, report))
}

/// The same report with the same refusals in another order of work: each row is made by the held
/// report of its vessel, so that the pieces are gone over once for each vessel. It is proved to give
/// what [`whole`] gives; [`whole`] is faster.
///
/// # Errors
/// As of [`whole`].
pub fn whole_by_rows<'r>(
    head: &Head,
    table: &[u32],
    report: &'r mut [u32],
) -> Result<&'r [u32], Refusal> {
    accept(raw::whole_by_rows(*head, table, report).number)?;
    Ok(rows(head, report))
}

/// The part of the room that a whole report was written to.
fn rows<'r>(head: &Head, report: &'r [u32]) -> &'r [u32] {
    let vessels = head.vessels as usize;
    &report[..vessels * vessels]
}
