//! Sheets aimed at what a run keeps between its movements: the order within each vessel, and that of receipt.

use calls::{Piece, Transfer, PLACES, TOP};
use compare::{names, Random};
use second::{Book, Sheet};

/// Where the births of a sheet lie.
#[derive(Clone, Copy)]
pub enum Births {
    /// At the minutes of the movements.
    Young,
    /// At a few minutes, many at each.
    Few,
    /// Anywhere.
    Any,
}

/// A sheet while it is made, each of whose movements is accepted, and the book that they make.
pub struct Maker {
    pub sheet: Sheet,
    pub book: Book,
    births: Births,
    first: u32,
    minute: u32,
    /// Movements are mostly among so many vessels.
    busy: u32,
    /// What is born may weigh up to the largest weight.
    heavy: bool,
}

/// The pieces of a vessel in the order in which its rule picks.
pub fn picked(pieces: &[Piece], vessel: u32, rule: u32) -> Vec<Piece> {
    let held = pieces.iter().filter(|p| p.holder == vessel);
    let mut held: Vec<Piece> = held.copied().collect();
    if rule >= 2 {
        held.sort_by_key(|p| p.birth);
    }
    if rule % 2 == 1 {
        held.reverse();
    }
    held
}

impl Maker {
    /// A sheet of so many vessels, as yet without movements.
    pub fn new(random: &mut Random, rule: u32, vessels: u32) -> Maker {
        let first = random.one_of(&[1, 2, 30, 30, 1_000, 40_000, 70_000, TOP - 200]);
        Maker {
            sheet: Sheet {
                rule,
                names: names(random, vessels),
                movements: Vec::new(),
            },
            book: Book::open(rule, vessels, PLACES).expect("a rule and vessels"),
            births: random.one_of(&[Births::Young, Births::Few, Births::Few, Births::Any]),
            first,
            minute: first,
            busy: random.from_to(2, vessels.min(5)),
            heavy: random.once_in(8),
        }
    }

    /// The same with births here, nothing heavy, and minutes that an age may be above.
    pub fn light(self, births: Births) -> Maker {
        let first = self.first.min(40_000);
        Maker {
            births,
            first,
            minute: first,
            heavy: false,
            ..self
        }
    }

    /// The vessel that has most.
    fn fullest(&self) -> u32 {
        let balances = self.book.head().balances;
        let vessels = 0..self.sheet.names.len() as u32;
        let fullest = vessels.zip(balances).max_by_key(|&(_, balance)| balance);
        fullest.map_or(0, |(vessel, _)| vessel)
    }

    pub fn balance(&self, vessel: u32) -> u32 {
        self.book.head().balances[vessel as usize]
    }

    fn age(&self, random: &mut Random) -> u16 {
        let oldest = self.minute.min(u16::MAX.into());
        let age = match self.births {
            Births::Young => 0,
            Births::Few => self.minute - (self.first - random.below(3).min(self.first)),
            Births::Any => random.from_to(0, oldest),
        };
        age.min(oldest) as u16
    }

    /// A movement at the next minute or the same, which is accepted.
    pub fn moves(&mut self, random: &mut Random, source: u32, destination: u32, weight: u32) {
        self.minute = self.minute.saturating_add(random.one_of(&[0, 0, 0, 1, 2]));
        let movement = Transfer::new([source, destination, self.minute, weight]);
        let movement = movement.aged(self.age(random));
        self.book.transfer(movement).expect("accepted");
        self.sheet.movements.push(movement);
    }

    fn vessel(&self, random: &mut Random) -> u32 {
        if random.once_in(16) {
            return random.below(self.sheet.names.len() as u32);
        }
        random.below(self.busy)
    }

    /// A vessel that gives: mostly one that has something.
    fn source(&self, random: &mut Random) -> u32 {
        let vessel = self.vessel(random);
        if self.balance(vessel) == 0 && !random.once_in(4) {
            return self.fullest();
        }
        vessel
    }

    /// A weight to take: all, a gram, some pieces' or a gram off one of these, or with something born.
    fn weight(&self, random: &mut Random, source: u32) -> u32 {
        let held = picked(&self.book.pieces(), source, self.sheet.rule);
        let balance: u32 = held.iter().map(|p| p.weight).sum();
        let most = if self.heavy { TOP / 2 } else { 40 };
        let more = balance.saturating_add(random.from_to(1, most));
        if held.is_empty() {
            return more;
        }
        let some = 1 + random.index(held.len().min(4));
        let sum: u32 = held[..some].iter().map(|p| p.weight).sum();
        match random.below(16) {
            0 | 1 => balance,
            2 => balance.saturating_add(1),
            3 => balance - 1,
            4 | 5 => 1,
            6 | 7 => sum,
            8 => sum.saturating_add(1),
            9 => sum - 1,
            10 | 11 => random.from_to(1, balance),
            12 => held[0].weight - 1,
            _ => more,
        }
    }

    /// A movement of any kind.
    pub fn any(&mut self, random: &mut Random) {
        loop {
            let (source, destination) = (self.source(random), self.vessel(random));
            let free = TOP - self.balance(destination);
            if source == destination || free == 0 {
                continue;
            }
            let weight = self.weight(random, source).clamp(1, free);
            return self.moves(random, source, destination, weight);
        }
    }

    pub fn pieces(&self) -> usize {
        self.book.head().pieces as usize
    }
}

/// A sheet of so many movements of any kind.
pub fn aimed(random: &mut Random, rule: u32, movements: u32) -> Maker {
    let any = random.from_to(2, 64);
    let vessels = random.one_of(&[2, 2, 2, 3, 3, 4, 5, 64, any]);
    aimed_among(random, rule, vessels, movements)
}

/// The same among so many vessels.
pub fn aimed_among(random: &mut Random, rule: u32, vessels: u32, movements: u32) -> Maker {
    let mut maker = Maker::new(random, rule, vessels);
    for _ in 0..movements {
        maker.any(random);
    }
    maker
}

/// Some pieces in a vessel, then all or nearly all of it to and fro so often, with movements of any kind
/// between.
pub fn to_and_fro(random: &mut Random, maker: &mut Maker, pieces: u32, times: u32) {
    for _ in 0..pieces {
        let weight = maker.balance(1) + random.from_to(1, 9);
        maker.moves(random, 1, 0, weight);
    }
    for _ in 0..times {
        let from = maker.fullest();
        let to = (from + random.from_to(1, maker.busy - 1)) % maker.busy;
        let balance = maker.balance(from);
        let weight = match random.below(16) {
            0 => balance - 1,
            1 => balance + 1,
            _ => balance,
        };
        maker.moves(random, from, to, weight);
        match random.below(8) {
            0 => maker.any(random),
            // The piece that is picked first.
            1 => {
                let first = picked(&maker.book.pieces(), to, maker.sheet.rule)[0];
                maker.moves(random, to, from, first.weight);
            }
            // A birth among the others.
            2 => {
                let weight = maker.balance(from) + 1;
                maker.moves(random, from, to, weight);
            }
            _ => {}
        }
    }
}

/// Hundreds of pieces in one vessel, moved in such numbers that, when next they all move and something is
/// born, as many receipts were noted as this; and then they do so. The vessel that has them then.
pub fn brimming(random: &mut Random, maker: &mut Maker, notes: usize) -> u32 {
    let pieces = random.from_to(300, 900);
    for _ in 0..pieces {
        let weight = random.from_to(2, 9);
        maker.moves(random, 1, 0, weight);
    }
    let mut missing = notes - 2 * pieces as usize - 1;
    let mut at = 0;
    while missing >= pieces as usize + 3 {
        let all = maker.balance(at);
        maker.moves(random, at, 1 - at, all);
        at = 1 - at;
        missing -= pieces as usize;
    }
    // Two notes are of a piece there and back; a gram there and back is a piece more, too.
    if missing % 2 == 1 {
        maker.moves(random, at, 1 - at, 1);
        maker.moves(random, 1 - at, at, 1);
        missing -= 3;
    }
    for _ in 0..missing / 2 {
        let first = picked(&maker.book.pieces(), at, maker.sheet.rule)[0];
        maker.moves(random, at, 1 - at, first.weight);
        maker.moves(random, 1 - at, at, first.weight);
    }
    let more = maker.balance(at) + 1;
    maker.moves(random, at, 1 - at, more);
    1 - at
}
