//! Every call with its bare answer: numbers as documents 01 and 02 lay them down, refusals included.
//! The functions of the crate's root stand on these and give a `Result`.
//!
//! Each call is safe for any argument: the library reads and writes within the slices that it is
//! lent, keeps none of them, and returns on every input. Its contracts are proved; that these
//! declarations match it is not, and the tests are there for it.

#![allow(unsafe_code)]

use crate::ffi;
use calls::{
    Head, Lift, Movement, Opened, Ran, Reading, Reported, RuleSet, Tip, Tipped, Transfer,
    Transferred, NAME_BYTES, SHEET_HEADER,
};

/// Opens a book.
pub fn open(rule: u32, vessels: u32) -> Opened {
    // SAFETY: plain numbers go in.
    unsafe { ffi::lumchaki_open(rule, vessels) }
}

/// Sets the rule of a vessel.
pub fn set_rule(head: Head, table: &[u32], vessel: u32, rule: u32) -> RuleSet {
    // SAFETY: the table is one slice, lent for reading.
    unsafe { ffi::lumchaki_set_rule(head, table.as_ptr(), table.len(), vessel, rule) }
}

/// Transfers weight from one vessel to another. What is born was milled `age` minutes before.
pub fn transfer(head: Head, table: &mut [u32], t: Transfer) -> Transferred {
    // SAFETY: the table is one slice, lent for writing.
    unsafe {
        ffi::lumchaki_transfer(
            head,
            table.as_mut_ptr(),
            table.len(),
            t.source,
            t.destination,
            t.minute,
            t.weight,
            t.age,
        )
    }
}

/// Lifts weight from a vessel onto the scale. What is born was milled `age` minutes before.
pub fn lift(head: Head, table: &mut [u32], l: Lift) -> Transferred {
    // SAFETY: the table is one slice, lent for writing.
    unsafe {
        ffi::lumchaki_lift(
            head,
            table.as_mut_ptr(),
            table.len(),
            l.source,
            l.minute,
            l.weight,
            l.age,
        )
    }
}

/// Tips all that is on the scale into a vessel.
pub fn tip(head: Head, table: &mut [u32], t: Tip) -> Tipped {
    // SAFETY: the table is one slice, lent for writing.
    unsafe {
        ffi::lumchaki_tip(
            head,
            table.as_mut_ptr(),
            table.len(),
            t.destination,
            t.minute,
        )
    }
}

/// The weight by origin in a vessel.
pub fn held(head: Head, table: &[u32], vessel: u32, report: &mut [u32]) -> Reported {
    // SAFETY: table and report are two slices that do not overlap.
    unsafe {
        ffi::lumchaki_held(
            head,
            table.as_ptr(),
            table.len(),
            vessel,
            report.as_mut_ptr(),
            report.len(),
        )
    }
}

/// The weight in each vessel that was born at an origin in a span of minutes, both included.
pub fn spread(
    head: Head,
    table: &[u32],
    origin: u32,
    (from, to): (u32, u32),
    report: &mut [u32],
) -> Reported {
    // SAFETY: table and report are two slices that do not overlap.
    unsafe {
        ffi::lumchaki_spread(
            head,
            table.as_ptr(),
            table.len(),
            origin,
            from,
            to,
            report.as_mut_ptr(),
            report.len(),
        )
    }
}

/// The held report of every vessel, one row behind the other, in one pass over the pieces.
pub fn whole(head: Head, table: &[u32], report: &mut [u32]) -> Reported {
    // SAFETY: table and report are two slices that do not overlap.
    unsafe {
        ffi::lumchaki_whole(
            head,
            table.as_ptr(),
            table.len(),
            report.as_mut_ptr(),
            report.len(),
        )
    }
}

/// The same, where each row is lent to the held report of its vessel.
pub fn whole_by_rows(head: Head, table: &[u32], report: &mut [u32]) -> Reported {
    // SAFETY: table and report are two slices that do not overlap.
    unsafe {
        ffi::lumchaki_whole_by_rows(
            head,
            table.as_ptr(),
            table.len(),
            report.as_mut_ptr(),
            report.len(),
        )
    }
}

/// Reads a sheet.
pub fn read(sheet: &[u8]) -> Reading {
    // SAFETY: the sheet is one slice, lent for reading.
    unsafe { ffi::lumchaki_read(sheet.as_ptr(), sheet.len()) }
}

/// A movement of a sheet.
pub fn movement(sheet: &[u8], index: u32) -> Movement {
    // SAFETY: the sheet is one slice, lent for reading.
    unsafe { ffi::lumchaki_movement(sheet.as_ptr(), sheet.len(), index) }
}

/// A vessel's name, a part of the sheet; on a refusal the empty part at the sheet's start.
pub fn name(sheet: &[u8], vessel: u32) -> &[u8] {
    // SAFETY: the sheet is one slice, lent for reading.
    let length = unsafe { ffi::lumchaki_name(sheet.as_ptr(), sheet.len(), vessel) };
    if length == 0 {
        return &sheet[..0];
    }
    &sheet[SHEET_HEADER + NAME_BYTES * vessel as usize..][..length]
}

/// The number that asking for a vessel's name gives.
pub fn name_number(sheet: &[u8], vessel: u32) -> u32 {
    // SAFETY: the sheet is one slice, lent for reading.
    unsafe { ffi::lumchaki_name_number(sheet.as_ptr(), sheet.len(), vessel) }
}

/// Writes a sheet: 8 bytes for each name, 5 numbers for each movement.
pub fn write(rule: u32, vessels: u32, names: &[u8], numbers: &[u32], out: &mut [u8]) -> u32 {
    // SAFETY: names, numbers and out are three slices that do not overlap.
    unsafe {
        ffi::lumchaki_write(
            rule,
            vessels,
            names.as_ptr(),
            names.len(),
            numbers.as_ptr(),
            numbers.len(),
            out.as_mut_ptr(),
            out.len(),
        )
    }
}

/// Runs a sheet on a table.
pub fn run(sheet: &[u8], table: &mut [u32]) -> Ran {
    // SAFETY: sheet and table are two slices that do not overlap.
    unsafe { ffi::lumchaki_run(sheet.as_ptr(), sheet.len(), table.as_mut_ptr(), table.len()) }
}
