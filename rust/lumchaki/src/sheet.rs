//! The movement sheet: read, asked, written, run.

use crate::{accept, raw};
use calls::{Head, Refusal, Transfer, MOVEMENT_BYTES, MOVEMENT_NUMBERS, SHEET_HEADER};

/// What a sheet says of itself.
#[derive(Clone, Copy, Debug, PartialEq, Eq)]
pub struct Summary {
    /// The rule of the book.
    pub rule: u32,
    /// How many vessels there are.
    pub vessels: u32,
    /// How many movements there are; a shift may have moved nothing.
    pub movements: u32,
}

/// What a run came to.
#[derive(Clone, Copy, Debug, PartialEq, Eq)]
pub struct Run {
    /// The head after the last accepted movement.
    pub head: Head,
    /// How many accepted movements had neither split nor birth.
    pub even: u32,
    /// Where the run stopped, if a movement was refused.
    pub stop: Option<Stop>,
}

/// A movement that stopped a run.
#[derive(Clone, Copy, Debug, PartialEq, Eq)]
pub struct Stop {
    /// Its index, from 0.
    pub index: u32,
    /// Why it was refused.
    pub refusal: Refusal,
}

/// Reads a sheet and checks all of it.
///
/// # Errors
/// The refusals 14, 2, 3, 15, 16, 17, then 5 of each movement, the first that applies. Any age can be
/// read: one above its minute stops the run.
pub fn read(sheet: &[u8]) -> Result<Summary, Refusal> {
    let answer = raw::read(sheet);
    accept(answer.number)?;
    Ok(Summary {
        rule: answer.rule,
        vessels: answer.vessels,
        movements: answer.movements,
    })
}

/// A movement of a sheet by its index, from 0, with its age.
///
/// # Errors
/// Those of [`read`], then [`Refusal::PastEnd`].
pub fn movement(sheet: &[u8], index: u32) -> Result<Transfer, Refusal> {
    let answer = raw::movement(sheet, index);
    accept(answer.number)?;
    Ok(Transfer {
        source: answer.source,
        destination: answer.destination,
        minute: answer.minute,
        weight: answer.weight,
        age: u16::try_from(answer.age).expect("the library gives ages of 16 bits"),
    })
}

/// A vessel's name, a part of the sheet itself without its zeros.
///
/// # Errors
/// Those of [`read`], then [`Refusal::NoVessel`].
pub fn name(sheet: &[u8], vessel: u32) -> Result<&[u8], Refusal> {
    accept(raw::name_number(sheet, vessel))?;
    Ok(raw::name(sheet, vessel))
}

/// Writes a sheet of 8 bytes for each name, filled up with zeros, and 5 numbers for each movement:
/// source, destination, minute, weight, age. Without numbers it is a sheet of no movements. The part of
/// `out` that was written comes back.
///
/// # Errors
/// The refusals 2, 3, 16, 15, 17, then 18 and 5 of each movement, and 19, the first that applies.
pub fn write<'o>(
    rule: u32,
    vessels: u32,
    names: &[u8],
    numbers: &[u32],
    out: &'o mut [u8],
) -> Result<&'o [u8], Refusal> {
    accept(raw::write(rule, vessels, names, numbers, out))?;
    let movements = numbers.len() / MOVEMENT_NUMBERS;
    Ok(&out[..SHEET_HEADER + names.len() + MOVEMENT_BYTES * movements])
}

/// Runs a sheet on a table: a fresh book, and transfers until one is refused. Without movements the
/// book stays fresh.
///
/// # Errors
/// Those of [`read`], then [`Refusal::TableShort`]. A movement that is refused is no error: the run
/// tells where it stopped, and the movements before it stand.
pub fn run(sheet: &[u8], table: &mut [u32]) -> Result<Run, Refusal> {
    let answer = raw::run(sheet, table);
    let refusal = accept(answer.number).err();
    // Only a book that was opened has vessels.
    match refusal {
        Some(refusal) if answer.head.vessels == 0 => Err(refusal),
        _ => Ok(Run {
            head: answer.head,
            even: answer.even,
            stop: refusal.map(|refusal| Stop {
                index: answer.index,
                refusal,
            }),
        }),
    }
}
