//! The three reports; whole in one pass, and by rows. None includes what is on the scale.

use crate::book;
use calls::{Head, Refusal, SCALE};

/// The pieces of a book that adds up.
fn pieces<'t>(head: &Head, table: &'t [u32]) -> &'t [[u32; 4]] {
    &table.as_chunks().0[..head.pieces as usize]
}

/// One row: the weight by origin in a vessel.
fn row(pieces: &[[u32; 4]], vessel: u32, report: &mut [u32]) {
    report.fill(0);
    for &[holder, origin, _, weight] in pieces {
        if holder == vessel {
            report[origin as usize] += weight;
        }
    }
}

pub fn held(head: &Head, table: &[u32], vessel: u32, report: &mut [u32]) -> Result<(), Refusal> {
    book::check(head, table)?;
    if vessel >= head.vessels {
        return Err(Refusal::NoVessel);
    }
    let vessels = head.vessels as usize;
    if report.len() < vessels {
        return Err(Refusal::ReportShort);
    }
    row(pieces(head, table), vessel, &mut report[..vessels]);
    Ok(())
}

pub fn spread(
    head: &Head,
    table: &[u32],
    origin: u32,
    (from, to): (u32, u32),
    report: &mut [u32],
) -> Result<(), Refusal> {
    book::check(head, table)?;
    if origin >= head.vessels {
        return Err(Refusal::NoVessel);
    }
    if from > to {
        return Err(Refusal::SpanBack);
    }
    let vessels = head.vessels as usize;
    if report.len() < vessels {
        return Err(Refusal::ReportShort);
    }
    let report = &mut report[..vessels];
    report.fill(0);
    for p in pieces(head, table) {
        if p[1] == origin && p[0] != SCALE && from <= p[2] && p[2] <= to {
            report[p[0] as usize] += p[3];
        }
    }
    Ok(())
}

/// The room of a whole report, past its checks: `vessels` rows of so many numbers.
fn square<'r>(head: &Head, table: &[u32], report: &'r mut [u32]) -> Result<&'r mut [u32], Refusal> {
    book::check(head, table)?;
    let vessels = head.vessels as usize;
    report
        .get_mut(..vessels * vessels)
        .ok_or(Refusal::ReportShort)
}

pub fn whole(head: &Head, table: &[u32], report: &mut [u32]) -> Result<(), Refusal> {
    let report = square(head, table, report)?;
    let vessels = head.vessels as usize;
    report.fill(0);
    for &[holder, origin, _, weight] in pieces(head, table) {
        if holder != SCALE {
            report[holder as usize * vessels + origin as usize] += weight;
        }
    }
    Ok(())
}

pub fn whole_by_rows(head: &Head, table: &[u32], report: &mut [u32]) -> Result<(), Refusal> {
    let report = square(head, table, report)?;
    let rows = report.chunks_exact_mut(head.vessels as usize);
    for (vessel, report) in (0..).zip(rows) {
        row(pieces(head, table), vessel, report);
    }
    Ok(())
}
