//! The sheet by offsets into its bytes.

use crate::book;
use calls::{
    Movement, Reading, Refusal, Transfer, MOVEMENTS, MOVEMENT_BYTES, MOVEMENT_NUMBERS, NAME_BYTES,
    SHEET_HEADER,
};

const MARK: &[u8; 4] = b"PROV";

fn u16_at(bytes: &[u8], at: usize) -> u16 {
    u16::from(bytes[at]) + 256 * u16::from(bytes[at + 1])
}

fn u32_at(bytes: &[u8], at: usize) -> u32 {
    u32::from(u16_at(bytes, at)) + 65_536 * u32::from(u16_at(bytes, at + 2))
}

fn put_u32(out: &mut [u8], at: usize, number: u32) {
    out[at..at + 4].copy_from_slice(&number.to_le_bytes());
}

fn check_names(names: &[u8]) -> Result<(), Refusal> {
    let names = names.as_chunks::<NAME_BYTES>().0;
    for (i, name) in names.iter().enumerate() {
        let mut ended = false;
        for (at, &byte) in name.iter().enumerate() {
            ended |= byte == 0;
            let visible = (0x21..=0x7e).contains(&byte);
            if (at == 0 || !ended) && !visible || ended && byte != 0 {
                return Err(Refusal::Name);
            }
        }
        if names[..i].contains(name) {
            return Err(Refusal::Name);
        }
    }
    Ok(())
}

/// The movement at an index of a sheet whose layout was checked.
pub fn movement_at(sheet: &[u8], vessels: u32, index: usize) -> Transfer {
    let at = SHEET_HEADER + NAME_BYTES * vessels as usize + MOVEMENT_BYTES * index;
    let bytes = &sheet[at..at + MOVEMENT_BYTES];
    Transfer {
        source: bytes[0].into(),
        destination: bytes[1].into(),
        minute: u32_at(bytes, 4),
        weight: u32_at(bytes, 8),
        age: u16_at(bytes, 2),
    }
}

pub fn check(sheet: &[u8]) -> Result<Reading, Refusal> {
    if sheet.len() < SHEET_HEADER || sheet[..4] != *MARK {
        return Err(Refusal::NoSheet);
    }
    let (rule, vessels) = (u16_at(sheet, 4).into(), u16_at(sheet, 6).into());
    let movements = u32_at(sheet, 8);
    book::open(rule, vessels)?;
    if movements > MOVEMENTS as u32 {
        return Err(Refusal::Movements);
    }
    let first = SHEET_HEADER as u32 + NAME_BYTES as u32 * vessels;
    let length = first + MOVEMENT_BYTES as u32 * movements;
    let fields = [u32_at(sheet, 12), u32_at(sheet, 16), u32_at(sheet, 20)];
    if fields != [SHEET_HEADER as u32, first, length] || sheet.len() != length as usize {
        return Err(Refusal::Layout);
    }
    check_names(&sheet[SHEET_HEADER..first as usize])?;
    for movement in sheet[first as usize..].chunks_exact(MOVEMENT_BYTES) {
        if u32::from(movement[0].max(movement[1])) >= vessels {
            return Err(Refusal::NoVessel);
        }
    }
    Ok(Reading {
        number: 0,
        rule,
        vessels,
        movements,
    })
}

pub fn read(sheet: &[u8]) -> Reading {
    check(sheet).unwrap_or_else(|refusal| Reading {
        number: refusal.number(),
        rule: 0,
        vessels: 0,
        movements: 0,
    })
}

pub fn movement(sheet: &[u8], index: u32) -> Movement {
    let found = check(sheet).and_then(|reading| {
        if index >= reading.movements {
            return Err(Refusal::PastEnd);
        }
        Ok(movement_at(sheet, reading.vessels, index as usize))
    });
    let number = found.map_or_else(Refusal::number, |_| 0);
    let movement = found.unwrap_or(Transfer::new([0; 4]));
    Movement {
        number,
        source: movement.source,
        destination: movement.destination,
        minute: movement.minute,
        weight: movement.weight,
        age: movement.age.into(),
    }
}

pub fn name(sheet: &[u8], vessel: u32) -> Result<&[u8], Refusal> {
    if vessel >= check(sheet)?.vessels {
        return Err(Refusal::NoVessel);
    }
    let at = SHEET_HEADER + NAME_BYTES * vessel as usize;
    let mut length = NAME_BYTES;
    while sheet[at + length - 1] == 0 {
        length -= 1;
    }
    Ok(&sheet[at..at + length])
}

pub fn write(
    rule: u32,
    vessels: u32,
    names: &[u8],
    numbers: &[u32],
    out: &mut [u8],
) -> Result<(), Refusal> {
    book::open(rule, vessels)?;
    let (movements, odd) = numbers.as_chunks::<MOVEMENT_NUMBERS>();
    if names.len() != NAME_BYTES * vessels as usize || !odd.is_empty() {
        return Err(Refusal::Layout);
    }
    if movements.len() > MOVEMENTS {
        return Err(Refusal::Movements);
    }
    check_names(names)?;
    for &[source, destination, _, _, age] in movements {
        if age > u16::MAX.into() {
            return Err(Refusal::AgeOver);
        }
        if source.max(destination) >= vessels {
            return Err(Refusal::NoVessel);
        }
    }
    let first = SHEET_HEADER + names.len();
    let length = first + MOVEMENT_BYTES * movements.len();
    if out.len() < length {
        return Err(Refusal::OutputShort);
    }
    out[..4].copy_from_slice(MARK);
    out[4..6].copy_from_slice(&(rule as u16).to_le_bytes());
    out[6..8].copy_from_slice(&(vessels as u16).to_le_bytes());
    put_u32(out, 8, movements.len() as u32);
    put_u32(out, 12, SHEET_HEADER as u32);
    put_u32(out, 16, first as u32);
    put_u32(out, 20, length as u32);
    out[SHEET_HEADER..first].copy_from_slice(names);
    for (index, &[source, destination, minute, weight, age]) in movements.iter().enumerate() {
        let at = first + MOVEMENT_BYTES * index;
        out[at..at + 2].copy_from_slice(&[source as u8, destination as u8]);
        out[at + 2..at + 4].copy_from_slice(&(age as u16).to_le_bytes());
        put_u32(out, at + 4, minute);
        put_u32(out, at + 8, weight);
    }
    Ok(())
}
