//! A sheet taken apart, and put together again, by the proved library.

use crate::clock::Clock;
use crate::words::shown;
use lumchaki::{Refusal, Transfer, MOVEMENTS, MOVEMENT_BYTES, NAME_BYTES, SHEET_HEADER, VESSELS};

/// The bytes of the longest sheet.
const LONGEST: usize = SHEET_HEADER + NAME_BYTES * VESSELS + MOVEMENT_BYTES * MOVEMENTS;

/// The words for the rules, by their number.
pub const RULES: [&str; 4] = [
    "first in first out",
    "last in first out",
    "oldest first",
    "youngest first",
];

/// The rules with their numbers.
pub fn rules() -> String {
    let rules = (0..)
        .zip(RULES)
        .map(|(number, rule)| format!("{number} {rule}"));
    rules.collect::<Vec<String>>().join(", ")
}

/// A sheet that can be read.
#[derive(Clone, Debug, PartialEq, Eq)]
pub struct Sheet {
    /// The rule of the book.
    pub rule: u32,
    /// The vessels' names: visible characters of ASCII.
    pub names: Vec<String>,
    /// The movements in order.
    pub movements: Vec<Transfer>,
}

/// How much of a sheet is looked at. Both limits hold where both are given.
#[derive(Clone, Debug, Default)]
pub struct Cut {
    /// No movement from the first one on that is later than this minute.
    pub until: Option<String>,
    /// No more movements than these.
    pub movements: Option<u32>,
}

impl Cut {
    /// What an answer leaves out, in words.
    pub fn notes(&self) -> Vec<String> {
        let until = self.until.as_ref();
        let until = until.map(|minute| format!("no movement after {}", shown(minute)));
        let count = self.movements;
        let first = count.map(|count| format!("no movement behind the first {count}"));
        until.into_iter().chain(first).collect()
    }
}

impl Sheet {
    /// Takes a sheet apart.
    pub fn read(bytes: &[u8]) -> Result<Sheet, Refusal> {
        let summary = lumchaki::read(bytes)?;
        let name = |vessel| {
            let name = lumchaki::name(bytes, vessel)?;
            Ok(String::from_utf8_lossy(name).into_owned())
        };
        Ok(Sheet {
            rule: summary.rule,
            names: (0..summary.vessels).map(name).collect::<Result<_, _>>()?,
            movements: (0..summary.movements)
                .map(|index| lumchaki::movement(bytes, index))
                .collect::<Result<_, _>>()?,
        })
    }

    /// The bytes of the sheet.
    pub fn bytes(&self) -> Result<Vec<u8>, Refusal> {
        let mut names = Vec::new();
        for (vessel, name) in self.names.iter().enumerate() {
            names.extend(name.bytes());
            // A name that is too long makes the names too long, and is refused.
            names.resize(names.len().max(NAME_BYTES * (vessel + 1)), 0);
        }
        let numbers: Vec<u32> = self.movements.iter().flat_map(Transfer::numbers).collect();
        let mut room = vec![0; LONGEST];
        let vessels = self.names.len() as u32;
        let written = lumchaki::write(self.rule, vessels, &names, &numbers, &mut room)?;
        Ok(written.to_vec())
    }

    /// Leaves out the movements behind a cut.
    pub fn cut(&mut self, cut: &Cut, clock: &Clock) -> Result<(), String> {
        if let Some(word) = &cut.until {
            let until = clock.read(word)?;
            let later = self.movements.iter().position(|m| m.minute > until);
            self.movements
                .truncate(later.unwrap_or(self.movements.len()));
        }
        if let Some(count) = cut.movements {
            self.movements.truncate(count as usize);
        }
        Ok(())
    }
}
