//! The head of a book, its pieces, and the answers of the calls.

/// The most vessels of a book.
pub const VESSELS: usize = 64;

/// The holder number of the scale: the least that no vessel has.
pub const SCALE: u32 = 64;

/// The rule of a stirred vessel, of which every piece gives its share. It can be set for a vessel, and no
/// book is opened by it.
pub const STIRRED: u32 = 4;

/// A table never counts more places than this.
pub const PLACES: usize = 4096;

/// The most movements of a sheet.
pub const MOVEMENTS: usize = 4096;

/// The largest weight, minute and count.
pub const TOP: u32 = u32::MAX;

/// The bytes of a sheet before its names.
pub const SHEET_HEADER: usize = 24;

/// The bytes of a name in a sheet.
pub const NAME_BYTES: usize = 8;

/// The bytes of a movement in a sheet.
pub const MOVEMENT_BYTES: usize = 12;

/// The numbers of a movement that a sheet is written from: s, d, t, q, age.
pub const MOVEMENT_NUMBERS: usize = 5;

/// The head of a book. It goes into a call by value, and the next head comes back.
#[repr(C)]
#[derive(Clone, Copy, Debug, PartialEq, Eq)]
pub struct Head {
    /// The rule that each vessel got at the opening. It stays, and picks nothing.
    pub rule: u32,
    /// How many vessels there are, 1 to 64.
    pub vessels: u32,
    /// How many pieces lie in the table.
    pub pieces: u32,
    /// The minute of the last accepted transfer, lift or tip.
    pub last: u32,
    /// How many transfers and lifts were accepted.
    pub accepted: u32,
    /// The weight in each vessel; 0 from `vessels` on.
    pub balances: [u32; VESSELS],
    /// The weight on the scale.
    pub scale: u32,
    /// The rule of each vessel, by which its pieces are picked: 0 earliest received first, 1 latest
    /// received first, 2 smallest birth minute, 3 largest, 4 all of them by their shares. 0 from `vessels`
    /// on.
    pub rules: [u32; VESSELS],
}

impl Head {
    /// The head of zeros, which a refused opening and a run refused by its sheet or table give.
    pub const ZERO: Head = Head {
        rule: 0,
        vessels: 0,
        pieces: 0,
        last: 0,
        accepted: 0,
        balances: [0; VESSELS],
        scale: 0,
        rules: [0; VESSELS],
    };
}

/// How many pieces a table has room for.
pub fn places(table: &[u32]) -> usize {
    (table.len() / 4).min(PLACES)
}

/// Weight of one origin and birth minute, in one vessel or on the scale: four numbers of the table.
#[derive(Clone, Copy, Debug, PartialEq, Eq)]
pub struct Piece {
    /// The vessel it lies in, or [`SCALE`].
    pub holder: u32,
    /// The vessel where it was born.
    pub origin: u32,
    /// The minute when it was born: that of the transfer or lift it was born in, less the age.
    pub birth: u32,
    /// Its weight in grams.
    pub weight: u32,
}

impl Piece {
    /// The pieces of a table, in order of receipt, as many as the head counts and the table has.
    pub fn all<'t>(head: &Head, table: &'t [u32]) -> impl Iterator<Item = Piece> + 't {
        let numbers = table.chunks_exact(4).take(head.pieces as usize);
        numbers.map(|n| Piece {
            holder: n[0],
            origin: n[1],
            birth: n[2],
            weight: n[3],
        })
    }

    /// The four numbers in the order of the table.
    pub fn numbers(&self) -> [u32; 4] {
        [self.holder, self.origin, self.birth, self.weight]
    }
}

/// The answer of an opening.
#[repr(C)]
#[derive(Clone, Copy, Debug, PartialEq, Eq)]
pub struct Opened {
    /// 0 or the refusal.
    pub number: u32,
    /// The fresh head, or zeros.
    pub head: Head,
}

/// The answer of a transfer and of a lift.
#[repr(C)]
#[derive(Clone, Copy, Debug, PartialEq, Eq)]
pub struct Transferred {
    /// 0 or the refusal.
    pub number: u32,
    /// The next head, or the one given.
    pub head: Head,
    /// How many pieces moved whole.
    pub whole: u32,
    /// How many pieces were split: 0 or 1, but for a stirred source.
    pub split: u32,
    /// The weight that the source lacked, born there.
    pub born: u32,
}

impl Transferred {
    /// Whether it was accepted without split or birth.
    pub fn even(&self) -> bool {
        self.number == 0 && self.split == 0 && self.born == 0
    }
}

/// The answer of a tip.
#[repr(C)]
#[derive(Clone, Copy, Debug, PartialEq, Eq)]
pub struct Tipped {
    /// 0 or the refusal.
    pub number: u32,
    /// The next head, or the one given.
    pub head: Head,
}

/// The answer of setting a vessel's rule.
#[repr(C)]
#[derive(Clone, Copy, Debug, PartialEq, Eq)]
pub struct RuleSet {
    /// 0 or the refusal.
    pub number: u32,
    /// The next head, or the one given.
    pub head: Head,
}

/// The answer of a report.
#[repr(C)]
#[derive(Clone, Copy, Debug, PartialEq, Eq)]
pub struct Reported {
    /// 0 or the refusal.
    pub number: u32,
    /// The head as given.
    pub head: Head,
}

/// What a sheet says of itself.
#[repr(C)]
#[derive(Clone, Copy, Debug, PartialEq, Eq)]
pub struct Reading {
    /// 0 or the refusal.
    pub number: u32,
    /// The rule of the book.
    pub rule: u32,
    /// How many vessels there are.
    pub vessels: u32,
    /// How many movements there are.
    pub movements: u32,
}

/// A movement of a sheet.
#[repr(C)]
#[derive(Clone, Copy, Debug, PartialEq, Eq)]
pub struct Movement {
    /// 0 or the refusal.
    pub number: u32,
    /// The vessel that gives.
    pub source: u32,
    /// The vessel that receives.
    pub destination: u32,
    /// The minute.
    pub minute: u32,
    /// The weight in grams.
    pub weight: u32,
    /// How many minutes before was milled what is born, at most 65,535.
    pub age: u32,
}

/// The answer of a run.
#[repr(C)]
#[derive(Clone, Copy, Debug, PartialEq, Eq)]
pub struct Ran {
    /// 0, the refusal of the sheet or table, or that of the movement where the run stopped.
    pub number: u32,
    /// The index of that movement, or the count of movements if all passed.
    pub index: u32,
    /// How many accepted movements had neither split nor birth.
    pub even: u32,
    /// The head after the last accepted movement.
    pub head: Head,
}

#[cfg(test)]
mod tests {
    use super::*;
    use core::mem::{offset_of, size_of};

    /// Nothing but 32-bit numbers, so that C and Rust agree on every offset.
    #[test]
    fn records_have_no_gaps() {
        const HEAD: usize = 6 + 2 * VESSELS;
        let numbers = [
            (size_of::<Head>(), HEAD),
            (offset_of!(Head, scale), 5 + VESSELS),
            (offset_of!(Head, rules), 6 + VESSELS),
            (size_of::<Opened>(), 1 + HEAD),
            (size_of::<Transferred>(), 4 + HEAD),
            (size_of::<Tipped>(), 1 + HEAD),
            (size_of::<RuleSet>(), 1 + HEAD),
            (size_of::<Reported>(), 1 + HEAD),
            (size_of::<Reading>(), 4),
            (offset_of!(Movement, age), 5),
            (size_of::<Movement>(), 6),
            (size_of::<Ran>(), 3 + HEAD),
        ];
        for (size, count) in numbers {
            assert_eq!(size, 4 * count);
        }
    }
}
