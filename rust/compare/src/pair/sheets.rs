//! The calls on a sheet.

use super::{guarded, Pair};
use calls::{Engine, Head, Movement, Ran, Reading, MOVEMENT_BYTES, MOVEMENT_NUMBERS, SHEET_HEADER};
use second::Second;

impl Pair {
    /// Reading a sheet.
    pub fn read(&mut self, sheet: &[u8]) -> Reading {
        let before = sheet.to_vec();
        let answer = self.subject.read(sheet);
        self.same("read", &before, answer, Second.read(sheet));
        assert_eq!(sheet, before, "read leaves the sheet");
        self.tally.add("read", answer.number);
        answer
    }

    /// Asking for a movement.
    pub fn movement(&mut self, sheet: &[u8], index: u32) -> Movement {
        let answer = self.subject.movement(sheet, index);
        let expected = Second.movement(sheet, index);
        self.same("movement", &(sheet, index), answer, expected);
        self.tally.add("movement", answer.number);
        answer
    }

    /// Asking for a name, and the number of that. The name is compared by where it lies too.
    pub fn name<'s>(&mut self, sheet: &'s [u8], vessel: u32) -> (u32, &'s [u8]) {
        let place = |name: &[u8]| (name.as_ptr() as usize - sheet.as_ptr() as usize, name.len());
        let (answer, expected) = (self.subject.name(sheet, vessel), Second.name(sheet, vessel));
        self.same("name", &(sheet, vessel), place(answer), place(expected));
        let number = self.subject.name_number(sheet, vessel);
        let expected = Second.name_number(sheet, vessel);
        self.same("name_number", &(sheet, vessel), number, expected);
        self.tally.add("name", number);
        (number, answer)
    }

    /// Writing a sheet. A refusal writes nothing, and the bytes behind the sheet remain.
    pub fn write(
        &mut self,
        (rule, vessels): (u32, u32),
        names: &[u8],
        numbers: &[u32],
        out: &mut [u8],
    ) -> u32 {
        let before = out.to_vec();
        let answer = guarded(out, 0xa5, |out| {
            self.subject.write(rule, vessels, names, numbers, out)
        });
        let mut expected_out = before.clone();
        let expected = Second.write(rule, vessels, names, numbers, &mut expected_out);
        let told = (rule, vessels, names, numbers);
        self.same("write", &told, answer, expected);
        self.same("write's bytes", &told, &*out, &expected_out);
        let written = if answer == 0 {
            SHEET_HEADER + names.len() + MOVEMENT_BYTES * (numbers.len() / MOVEMENT_NUMBERS)
        } else {
            0
        };
        assert_eq!(out[written..], before[written..], "behind the sheet");
        self.tally.add("write", answer);
        answer
    }

    /// Running a sheet. Nothing is written behind the most pieces there can have been. A run that
    /// the sheet or a short table refuses gives zeros and writes nothing.
    pub fn run(&mut self, sheet: &[u8], table: &mut [u32]) -> Ran {
        let before = table.to_vec();
        let answer = guarded(table, 0xdead_beef, |table| self.subject.run(sheet, table));
        let mut expected_table = before.clone();
        let expected = Second.run(sheet, &mut expected_table);
        self.same("run", &sheet, answer, expected);
        self.same("run's table", &sheet, &*table, &expected_table);
        let checks = [Second.read(sheet).number, u32::from(table.len() < 4)];
        if let Some(number) = checks.into_iter().find(|&number| number != 0) {
            let zeros = Ran {
                number,
                index: 0,
                even: 0,
                head: Head::ZERO,
            };
            assert_eq!((answer, &*table), (zeros, &before[..]), "refused");
        }
        // Pieces never get fewer, so the last piece of the run is the last there ever was.
        let behind = 4 * answer.head.pieces as usize;
        assert_eq!(table[behind..], before[behind..], "behind the last piece");
        self.tally.add("run", answer.number);
        answer
    }
}
