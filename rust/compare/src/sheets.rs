//! Sheets to compare on, and damages to them.

use crate::make::{near, weighed_transfer};
use crate::Random;
use calls::{MOVEMENT_BYTES, NAME_BYTES, SHEET_HEADER, VESSELS};
use second::{Sheet, WeighBook};

/// Well-formed names that differ, 8 bytes each.
pub fn names(random: &mut Random, vessels: u32) -> Vec<[u8; NAME_BYTES]> {
    let mut names: Vec<[u8; NAME_BYTES]> = Vec::new();
    while names.len() < vessels as usize {
        let mut name = [0; NAME_BYTES];
        let length = random.from_to(1, NAME_BYTES as u32) as usize;
        for byte in &mut name[..length] {
            *byte = random.from_to(0x21, 0x7e) as u8;
        }
        if !names.contains(&name) {
            names.push(name);
        }
    }
    names
}

/// A sheet that can be read, of at most so many movements, now and then of none. Its run may stop.
pub fn sheet(random: &mut Random, most: u32) -> Sheet {
    let any = random.from_to(1, VESSELS as u32);
    let vessels = random.one_of(&[1, 2, 2, 3, 3, 4, 5, 64, any]);
    let movements = random.from_to(0, most);
    let mut book = WeighBook::new(vessels);
    let mut sheet = Sheet {
        rule: random.below(4),
        names: names(random, vessels),
        movements: Vec::new(),
    };
    // Long runs want few faults: a stop ends them.
    let calm = random.once_in(2);
    while sheet.movements.len() < movements as usize {
        let movement = weighed_transfer(random, &book);
        if movement.source.max(movement.destination) >= vessels {
            continue;
        }
        let refused = book.feed(movement) != 0;
        if !refused || vessels == 1 || !calm && random.once_in(8) {
            sheet.movements.push(movement);
        }
    }
    sheet
}

/// One damage to a sheet that could be read before the damages to it.
pub fn damage(random: &mut Random, bytes: &mut Vec<u8>) {
    let vessels = bytes.get(6).map_or(0, |&v| usize::from(v));
    let first = SHEET_HEADER + NAME_BYTES * vessels;
    if bytes.len() < first {
        return; // cut already
    }
    let name = SHEET_HEADER + NAME_BYTES * random.index(vessels.max(1));
    let movements = (bytes.len() - first) / MOVEMENT_BYTES;
    let movement = first + MOVEMENT_BYTES * random.index(movements.max(1));
    let length = bytes.len() as u32;
    let mut put = |at: usize, number: u32, size: usize| {
        bytes[at..at + size].copy_from_slice(&number.to_le_bytes()[..size]);
    };
    match random.below(18) {
        0 => put(random.index(4), random.any(), 1),
        1 => put(4, near(random, &[3, 256]), 2),
        2 => put(6, near(random, &[0, 64, vessels as u32]), 2),
        3 => put(8, near(random, &[0, 4096, movements as u32, 1 << 16]), 4),
        4 => put(12, near(random, &[24]), 4),
        5 => put(16, near(random, &[first as u32]), 4),
        6 => put(20, near(random, &[length]), 4),
        7 => bytes.truncate(random.index(length as usize)),
        8 => bytes.extend(vec![0; 1 + random.index(20)]),
        9 => put(name, 0, 1),
        10 => put(
            name + random.index(NAME_BYTES),
            random.one_of(&[0x20, 0x7f, 0x80, 0xff]),
            1,
        ),
        11 => put(
            name + random.index(NAME_BYTES),
            random.one_of(&[0, 1, 0x21, 0x7e]),
            1,
        ),
        12 => {
            let other = SHEET_HEADER + NAME_BYTES * random.index(vessels.max(1));
            bytes.copy_within(name..name + NAME_BYTES, other);
        }
        // Its age: the sheet can be read, and the run may stop.
        13 if movements > 0 => put(movement + 2 + random.index(2), random.from_to(1, 255), 1),
        14 if movements > 0 => put(
            movement + random.index(2),
            near(random, &[vessels as u32, 255]),
            1,
        ),
        15 => {
            // One movement fewer or more, and the header agrees.
            let count = random.one_of(&[movements.saturating_sub(1), movements + 1]);
            bytes.resize(first + MOVEMENT_BYTES * count, 0);
            let length = bytes.len() as u32;
            bytes[8..12].copy_from_slice(&(count as u32).to_le_bytes());
            bytes[20..24].copy_from_slice(&length.to_le_bytes());
        }
        16 if movements > 0 => put(movement + 4 + random.index(8), random.any(), 1),
        _ => put(random.index(length as usize), random.any(), 1),
    }
}
