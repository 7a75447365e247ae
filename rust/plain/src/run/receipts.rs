//! The order of receipt as a log: a slot is noted whenever its piece is received, and its last note counts.

use calls::PLACES;

/// Room for so many notes. A movement makes as many as there are pieces at most, which leave room for them
/// once the log is closed up.
const NOTES: usize = 4 * PLACES;

pub struct Receipts {
    notes: [u16; NOTES],
    count: usize,
}

impl Receipts {
    pub fn new() -> Receipts {
        Receipts {
            notes: [0; NOTES],
            count: 0,
        }
    }

    /// Closes the log up, if there is no room for so many notes more.
    pub fn make_room(&mut self, notes: usize) {
        if NOTES - self.count < notes {
            self.close();
        }
    }

    /// The piece in a slot is received.
    pub fn note(&mut self, slot: usize) {
        self.notes[self.count] = slot as u16;
        self.count += 1;
    }

    /// Leaves out the notes that a later one of the same slot follows: from the newest to the oldest, each
    /// slot's first one is kept.
    fn close(&mut self) {
        let mut seen = [false; PLACES];
        let mut kept = [0; PLACES];
        let mut front = PLACES;
        for &slot in self.notes[..self.count].iter().rev() {
            let seen = &mut seen[usize::from(slot)];
            if !*seen {
                *seen = true;
                front -= 1;
                kept[front] = slot;
            }
        }
        self.count = PLACES - front;
        self.notes[..self.count].copy_from_slice(&kept[front..]);
    }

    /// The slots in order of receipt.
    pub fn in_order(&mut self) -> &[u16] {
        self.close();
        &self.notes[..self.count]
    }
}
