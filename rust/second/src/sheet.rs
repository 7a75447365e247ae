//! The sheet: from bytes and back, and its run.

use crate::book::Book;
use calls::{
    Refusal, Transfer, MOVEMENTS, MOVEMENT_BYTES, MOVEMENT_NUMBERS, NAME_BYTES, SHEET_HEADER,
    VESSELS,
};

const MARK: [u8; 4] = *b"PROV";

/// A sheet taken apart.
#[derive(Clone, Debug, PartialEq, Eq)]
pub struct Sheet {
    /// The rule of the book.
    pub rule: u32,
    /// The vessels' names, filled up with zeros.
    pub names: Vec<[u8; NAME_BYTES]>,
    /// The movements in order.
    pub movements: Vec<Transfer>,
}

/// What a run came to.
pub struct Outcome {
    pub book: Book,
    pub even: u32,
    pub index: usize,
    pub stopped: Option<Refusal>,
}

/// Takes fields off the front of what is left of a sheet.
struct Fields<'s>(&'s [u8]);

impl Fields<'_> {
    fn array<const N: usize>(&mut self) -> Option<[u8; N]> {
        let (field, rest) = self.0.split_first_chunk::<N>()?;
        self.0 = rest;
        Some(*field)
    }

    fn u16(&mut self) -> Option<u16> {
        self.array().map(u16::from_le_bytes)
    }

    fn u32(&mut self) -> Option<u32> {
        self.array().map(u32::from_le_bytes)
    }
}

/// Whether a name is 1 to 8 visible bytes, then zeros.
fn well_formed(name: &[u8; NAME_BYTES]) -> bool {
    let visible = name_part(name);
    let zeros = &name[visible.len()..];
    !visible.is_empty()
        && visible.iter().all(|b| (0x21..=0x7e).contains(b))
        && zeros.iter().all(|&b| b == 0)
}

/// A name without its zeros.
pub fn name_part(name: &[u8]) -> &[u8] {
    let end = name.iter().position(|&b| b == 0);
    &name[..end.unwrap_or(name.len())]
}

fn check_rule_and_vessels(rule: u32, vessels: u32) -> Result<(), Refusal> {
    Book::open(rule, vessels, 0).map(|_| ())
}

fn check_count(movements: usize) -> Result<(), Refusal> {
    if movements > MOVEMENTS {
        return Err(Refusal::Movements);
    }
    Ok(())
}

fn check_names(names: &[[u8; NAME_BYTES]]) -> Result<(), Refusal> {
    let mut sorted = names.to_vec();
    sorted.sort_unstable();
    sorted.dedup();
    if sorted.len() < names.len() || !names.iter().all(well_formed) {
        return Err(Refusal::Name);
    }
    Ok(())
}

fn check_vessels(movement: &Transfer, vessels: usize) -> Result<(), Refusal> {
    if movement.source as usize >= vessels || movement.destination as usize >= vessels {
        return Err(Refusal::NoVessel);
    }
    Ok(())
}

/// The bytes of a sheet of so many vessels and movements.
fn length_of(vessels: usize, movements: usize) -> usize {
    SHEET_HEADER + NAME_BYTES * vessels + MOVEMENT_BYTES * movements
}

impl Sheet {
    /// Reads a sheet.
    pub fn read(bytes: &[u8]) -> Result<Sheet, Refusal> {
        let short = Refusal::NoSheet;
        if bytes.len() < SHEET_HEADER {
            return Err(short);
        }
        let mut fields = Fields(bytes);
        if fields.array() != Some(MARK) {
            return Err(Refusal::NoSheet);
        }
        let rule = fields.u16().ok_or(short)?.into();
        let vessels = fields.u16().ok_or(short)?.into();
        check_rule_and_vessels(rule, vessels)?;
        let vessels = vessels as usize;
        let movements = fields.u32().ok_or(short)? as usize;
        check_count(movements)?;
        let layout = [
            SHEET_HEADER,
            length_of(vessels, 0),
            length_of(vessels, movements),
        ];
        for expected in layout {
            if fields.u32().ok_or(short)? as usize != expected {
                return Err(Refusal::Layout);
            }
        }
        if bytes.len() != length_of(vessels, movements) {
            return Err(Refusal::Layout);
        }
        let mut sheet = Sheet {
            rule,
            names: Vec::new(),
            movements: Vec::new(),
        };
        for _ in 0..vessels {
            sheet.names.push(fields.array().ok_or(Refusal::Layout)?);
        }
        check_names(&sheet.names)?;
        for _ in 0..movements {
            let [source, destination] = fields.array().ok_or(Refusal::Layout)?;
            // In the order of the bytes.
            let movement = Transfer {
                source: source.into(),
                destination: destination.into(),
                age: fields.u16().ok_or(Refusal::Layout)?,
                minute: fields.u32().ok_or(Refusal::Layout)?,
                weight: fields.u32().ok_or(Refusal::Layout)?,
            };
            check_vessels(&movement, vessels)?;
            sheet.movements.push(movement);
        }
        Ok(sheet)
    }

    /// The sheet of 8 bytes for each name and 5 numbers for each movement.
    pub fn of_parts(
        rule: u32,
        vessels: u32,
        names: &[u8],
        numbers: &[u32],
    ) -> Result<Sheet, Refusal> {
        check_rule_and_vessels(rule, vessels)?;
        let (names, odd_bytes) = names.as_chunks::<NAME_BYTES>();
        let (movements, odd_numbers) = numbers.as_chunks::<MOVEMENT_NUMBERS>();
        if names.len() != vessels as usize || !odd_bytes.is_empty() || !odd_numbers.is_empty() {
            return Err(Refusal::Layout);
        }
        check_count(movements.len())?;
        check_names(names)?;
        let mut sheet = Sheet {
            rule,
            names: names.to_vec(),
            movements: Vec::new(),
        };
        for &[source, destination, minute, weight, age] in movements {
            let age = u16::try_from(age).or(Err(Refusal::AgeOver))?;
            let movement = Transfer::new([source, destination, minute, weight]).aged(age);
            check_vessels(&movement, vessels as usize)?;
            sheet.movements.push(movement);
        }
        Ok(sheet)
    }

    /// The bytes of the sheet, which is one that can be read.
    pub fn bytes(&self) -> Vec<u8> {
        debug_assert!(self.names.len() <= VESSELS && self.movements.len() <= MOVEMENTS);
        let (vessels, movements) = (self.names.len(), self.movements.len());
        let mut bytes = Vec::with_capacity(length_of(vessels, movements));
        bytes.extend(MARK);
        bytes.extend((self.rule as u16).to_le_bytes());
        bytes.extend((vessels as u16).to_le_bytes());
        let counts = [
            movements,
            SHEET_HEADER,
            length_of(vessels, 0),
            length_of(vessels, movements),
        ];
        bytes.extend(counts.into_iter().flat_map(|n| (n as u32).to_le_bytes()));
        bytes.extend(self.names.iter().flatten());
        for m in &self.movements {
            bytes.extend([m.source as u8, m.destination as u8]);
            bytes.extend(m.age.to_le_bytes());
            bytes.extend(m.minute.to_le_bytes());
            bytes.extend(m.weight.to_le_bytes());
        }
        bytes
    }

    /// Runs the sheet on a fresh book of so many places.
    pub fn run(&self, places: usize) -> Result<Outcome, Refusal> {
        if places == 0 {
            return Err(Refusal::TableShort);
        }
        let mut outcome = Outcome {
            book: Book::open(self.rule, self.names.len() as u32, places)?,
            even: 0,
            index: 0,
            stopped: None,
        };
        for movement in &self.movements {
            match outcome.book.transfer(*movement) {
                Ok(moved) if moved.split == 0 && moved.born == 0 => outcome.even += 1,
                Ok(_) => {}
                Err(refusal) => {
                    outcome.stopped = Some(refusal);
                    return Ok(outcome);
                }
            }
            outcome.index += 1;
        }
        Ok(outcome)
    }
}
