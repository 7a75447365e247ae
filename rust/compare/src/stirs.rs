//! What stirred vessels give, by the words of document 02, and what transfers and lifts from them came to.

use calls::{places, Head, Piece, Refusal, Transfer, Transferred, SCALE, STIRRED};

/// What a piece of a stirred vessel gives.
#[derive(Clone, Copy, Debug)]
pub struct Share {
    /// Where the piece lies.
    pub place: usize,
    /// Its weight.
    pub weight: u32,
    /// So much of it goes.
    pub gift: u32,
}

impl Share {
    /// Whether all of it goes.
    pub fn whole(&self) -> bool {
        self.gift == self.weight
    }

    /// Whether a part of it goes.
    pub fn split(&self) -> bool {
        self.gift > 0 && !self.whole()
    }
}

/// What each piece of a stirred vessel gives of less than it holds: of its running sum's share, rounded
/// down, what is above that of the piece before.
pub fn shares(pieces: &[Piece], vessel: u32, wanted: u32) -> Vec<Share> {
    let held = || (0..).zip(pieces).filter(|(_, p)| p.holder == vessel);
    let total: u128 = held().map(|(_, p)| u128::from(p.weight)).sum();
    let mut sum = 0;
    let mut share = |(place, p): (usize, &Piece)| {
        let before = u128::from(wanted) * sum / total;
        sum += u128::from(p.weight);
        Share {
            place,
            weight: p.weight,
            gift: (u128::from(wanted) * sum / total - before) as u32,
        }
    };
    held().map(&mut share).collect()
}

/// Counts of transfers and lifts from stirred vessels, and of calls on books with more pieces than accepted.
#[derive(Clone, Debug, Default)]
pub struct Stirs {
    /// Accepted, of less than the vessel held.
    pub parts: u64,
    /// Accepted, of all that it held.
    pub all: u64,
    /// Accepted, of more than it held.
    pub more: u64,
    /// Accepted, of an empty one.
    pub empty: u64,
    /// Accepted lifts among these.
    pub lifts: u64,
    /// Of `parts`: no piece was split.
    pub unsplit: u64,
    /// Several were.
    pub several: u64,
    /// Some went whole and some were split.
    pub mixed: u64,
    /// One went whole between two that were split.
    pub between: u64,
    /// One gave 0.
    pub spared: u64,
    /// Into a stirred vessel.
    pub to_stirred: u64,
    /// Beside a load.
    pub beside: u64,
    /// The splits filled the table.
    pub filled: u64,
    /// Refused with 11 for splits on a full table.
    pub full: u64,
    /// Refused with 11 though there were places left.
    pub crowded: u64,
    /// Refused with 11 for one place too few, though there were some.
    pub one_short: u64,
    /// Accepted calls on books with more pieces than accepted transfers and lifts.
    pub outnumbered: u64,
}

impl Stirs {
    /// Counts a transfer, or a lift as the transfer to the scale.
    pub fn add(&mut self, (head, table): (&Head, &[u32]), t: Transfer, answer: &Transferred) {
        let accepted = answer.number == 0;
        self.outnumbered += u64::from(accepted && head.pieces > head.accepted);
        if head.rules.get(t.source as usize) != Some(&STIRRED) {
            return;
        }
        let balance = head.balances[t.source as usize];
        let full = answer.number == Refusal::TableFull.number();
        if t.weight < balance && (accepted || full) {
            let pieces: Vec<Piece> = Piece::all(head, table).collect();
            let shares = shares(&pieces, t.source, t.weight);
            if full {
                self.add_full(&shares, places(table) - pieces.len());
            } else {
                self.add_parts(head, &shares, t);
                self.filled += u64::from(answer.head.pieces as usize == places(table));
            }
        }
        if accepted {
            let counts = [
                &mut self.parts,
                &mut self.all,
                &mut self.more,
                &mut self.empty,
            ];
            let which = match balance {
                0 => 3,
                _ if t.weight > balance => 2,
                _ => usize::from(t.weight == balance),
            };
            *counts.into_iter().nth(which).expect("one of four") += 1;
            self.lifts += u64::from(t.destination == SCALE);
        }
    }

    fn add_full(&mut self, shares: &[Share], free: usize) {
        let splits = shares.iter().filter(|share| share.split()).count();
        self.full += u64::from(free == 0);
        self.crowded += u64::from(free > 0);
        self.one_short += u64::from(free > 0 && splits == free + 1);
    }

    fn add_parts(&mut self, head: &Head, shares: &[Share], t: Transfer) {
        let splits = shares.iter().filter(|share| share.split()).count();
        self.unsplit += u64::from(splits == 0);
        self.several += u64::from(splits > 1);
        self.mixed += u64::from(splits > 0 && shares.iter().any(Share::whole));
        self.spared += u64::from(shares.iter().any(|share| share.gift == 0));
        let to = head.rules.get(t.destination as usize);
        self.to_stirred += u64::from(to == Some(&STIRRED));
        self.beside += u64::from(head.scale > 0);
        let behind = shares.iter().skip_while(|share| !share.split());
        let mut behind = behind.skip_while(|share| !share.whole());
        self.between += u64::from(behind.any(Share::split));
    }

    /// Fails unless each count of transfers from stirred vessels that hold something is so high.
    pub fn expect(&self, at_least: u64) {
        let counts = [
            self.parts,
            self.all,
            self.more,
            self.unsplit,
            self.several,
            self.mixed,
            self.spared,
            self.to_stirred,
            self.between,
            self.filled,
            self.full,
            self.crowded,
            self.one_short,
        ];
        assert!(counts.iter().all(|&c| c >= at_least), "{self:?}");
    }
}

/// The pieces after a transfer from a stirred vessel, and the counts of its answer: whole pieces, splits, and
/// the weight born. If it holds more, those that keep something stay in their order, and what is given lies
/// behind them. Else all go, in the order in which they lie, and what it lacks is born.
pub fn stirred(pieces: Vec<Piece>, t: Transfer) -> (Vec<Piece>, [u32; 3]) {
    let held = pieces.iter().filter(|p| p.holder == t.source);
    let balance: u64 = held.map(|p| u64::from(p.weight)).sum();
    if balance > t.weight.into() {
        parted(pieces, t)
    } else {
        emptied(pieces, t, t.weight - balance as u32)
    }
}

fn parted(mut pieces: Vec<Piece>, t: Transfer) -> (Vec<Piece>, [u32; 3]) {
    let shares = shares(&pieces, t.source, t.weight);
    for share in &shares {
        let p = pieces[share.place];
        pieces[share.place].weight -= share.gift;
        pieces.push(Piece {
            holder: t.destination,
            weight: share.gift,
            ..p
        });
    }
    pieces.retain(|p| p.weight > 0);
    let count = |which: fn(&Share) -> bool| shares.iter().filter(|share| which(share)).count();
    let counts = [Share::whole, Share::split].map(|which| count(which) as u32);
    (pieces, [counts[0], counts[1], 0])
}

fn emptied(pieces: Vec<Piece>, t: Transfer, born: u32) -> (Vec<Piece>, [u32; 3]) {
    let (gone, mut pieces): (Vec<Piece>, Vec<Piece>) =
        pieces.into_iter().partition(|p| p.holder == t.source);
    let whole = gone.len() as u32;
    let birth = Piece {
        holder: t.destination,
        origin: t.source,
        birth: t.minute - u32::from(t.age),
        weight: born,
    };
    let moved = gone.into_iter().map(|p| Piece {
        holder: t.destination,
        ..p
    });
    pieces.extend(moved.chain([birth]).filter(|p| p.weight > 0));
    (pieces, [whole, 0, born])
}
