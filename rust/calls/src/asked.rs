//! What a transfer, a lift and a tip are asked to do.

use crate::MOVEMENT_NUMBERS;

/// What a transfer is asked to do: weight from source to destination, at a minute. What is born was
/// milled `age` minutes before: its birth minute is `minute - age`.
#[derive(Clone, Copy, Debug, PartialEq, Eq)]
pub struct Transfer {
    /// The vessel that gives.
    pub source: u32,
    /// The vessel that receives.
    pub destination: u32,
    /// The minute.
    pub minute: u32,
    /// The weight in grams.
    pub weight: u32,
    /// How many minutes before the transfer was milled what is born in it.
    pub age: u16,
}

impl Transfer {
    /// The transfer of four numbers in the order of document 01: s, d, t, q. Its age is 0.
    pub const fn new([source, destination, minute, weight]: [u32; 4]) -> Transfer {
        Transfer {
            source,
            destination,
            minute,
            weight,
            age: 0,
        }
    }

    /// The same transfer with this age.
    pub const fn aged(self, age: u16) -> Transfer {
        Transfer { age, ..self }
    }

    /// Its first half: the weight goes onto the scale.
    pub const fn lift(self) -> Lift {
        Lift {
            source: self.source,
            minute: self.minute,
            weight: self.weight,
            age: self.age,
        }
    }

    /// Its second half: the scale is emptied into the destination.
    pub const fn tip(self) -> Tip {
        Tip {
            destination: self.destination,
            minute: self.minute,
        }
    }

    /// The five numbers that a sheet is written from: s, d, t, q, age.
    pub fn numbers(&self) -> [u32; MOVEMENT_NUMBERS] {
        [
            self.source,
            self.destination,
            self.minute,
            self.weight,
            self.age.into(),
        ]
    }
}

/// What a lift is asked to do: weight from source onto the scale, at a minute. What is born was
/// milled `age` minutes before, as in a transfer.
#[derive(Clone, Copy, Debug, PartialEq, Eq)]
pub struct Lift {
    /// The vessel that gives.
    pub source: u32,
    /// The minute.
    pub minute: u32,
    /// The weight in grams.
    pub weight: u32,
    /// How many minutes before the lift was milled what is born in it.
    pub age: u16,
}

impl Lift {
    /// The lift of three numbers: s, t, q. Its age is 0.
    pub const fn new([source, minute, weight]: [u32; 3]) -> Lift {
        Lift {
            source,
            minute,
            weight,
            age: 0,
        }
    }

    /// The same lift with this age.
    pub const fn aged(self, age: u16) -> Lift {
        Lift { age, ..self }
    }

    /// The transfer of the same weight to a holder.
    pub const fn to(self, destination: u32) -> Transfer {
        Transfer {
            source: self.source,
            destination,
            minute: self.minute,
            weight: self.weight,
            age: self.age,
        }
    }
}

/// What a tip is asked to do: all that is on the scale to destination, at a minute.
#[derive(Clone, Copy, Debug, PartialEq, Eq)]
pub struct Tip {
    /// The vessel that receives.
    pub destination: u32,
    /// The minute.
    pub minute: u32,
}

impl Tip {
    /// The tip of two numbers: d, t.
    pub const fn new([destination, minute]: [u32; 2]) -> Tip {
        Tip {
            destination,
            minute,
        }
    }
}
