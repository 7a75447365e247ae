//! Stirred vessels on random books. Of a transfer or lift each piece's gift is told by its birth, which no
//! other piece has, and held to the exact fraction. Lists of calls are in `stirred_lists`.

use calls::{Engine, Head, Piece, Refusal, Transfer, Transferred, SCALE, STIRRED, TOP, VESSELS};
use compare::{balance_of, book, loaded_book, room, shares, subjects, transfer_for, Pair, Random};
use std::collections::HashMap;

/// What transfers and lifts of less than a stirred vessel holds came to.
#[derive(Debug, Default)]
struct Covered {
    /// Some piece gives another weight than its own share rounded down, and still does if the last one gives
    /// what is missing then.
    rounded: u32,
    made_up: u32,
    /// The products pass 2^32, and 2^63.
    wide: u32,
    wider: u32,
    /// Gifts that were held to the exact fraction, and those of them that miss it by half a gram or more.
    gifts: u64,
    off: u64,
    /// Hundreds of crumbs.
    crumbs: u32,
}

impl Covered {
    fn add(&mut self, weights: &[u32], gifts: &[u32], wanted: u32) {
        let total: u64 = weights.iter().map(|&w| u64::from(w)).sum();
        let product = u64::from(wanted) * total;
        let own = |&weight: &u32| (u64::from(wanted) * u64::from(weight) / total) as u32;
        let mut own: Vec<u32> = weights.iter().map(own).collect();
        self.rounded += u32::from(own != gifts);
        own[weights.len() - 1] += wanted - own.iter().sum::<u32>();
        self.made_up += u32::from(own != gifts);
        self.wide += u32::from(product > TOP.into());
        self.wider += u32::from(product >> 63 > 0);
        self.crumbs += u32::from(weights.len() > 200 && weights.iter().all(|&w| w == 1));
    }
}

/// A piece of this weight in a vessel.
fn piece(holder: u32, weight: u32) -> Piece {
    Piece {
        holder,
        origin: holder,
        birth: 0,
        weight,
    }
}

/// The weights of the pieces of one vessel: crumbs, light ones, light and heavy ones, or such that they come
/// to TOP or a little less.
fn weights(random: &mut Random, count: usize) -> Vec<u32> {
    let each = match random.below(6) {
        0 => 1,
        1 => 3,
        _ => 9,
    };
    let mut weights: Vec<u32> = (0..count).map(|_| random.from_to(1, each)).collect();
    if random.once_in(2) {
        let heavy = random.index(count);
        let most = TOP - weights.iter().sum::<u32>();
        let any = random.below(most);
        weights[heavy] += random.one_of(&[most, most - 1, most / 2, any, 1_000]);
    }
    weights
}

/// A book of five vessels, of which vessel 0 is stirred, and others often. The pieces of vessel 0 lie among
/// some of the others and of the scale, and every piece has a birth of its own, in no order. It has more
/// pieces than it accepted.
fn tagged_book(random: &mut Random, count: usize) -> (Head, Vec<u32>) {
    let mut head = Head {
        rule: random.below(4),
        vessels: 5,
        last: TOP,
        ..Head::ZERO
    };
    head.rules[..5].fill_with(|| random.one_of(&[0, 1, 2, 3, STIRRED, STIRRED]));
    head.rules[0] = STIRRED;
    let loaded = random.once_in(3);
    let mut pieces: Vec<Piece> = Vec::new();
    for weight in weights(random, count) {
        while random.once_in(4) {
            let holder = random.from_to(1, if loaded { 5 } else { 4 });
            let holder = if holder == 5 { SCALE } else { holder };
            pieces.push(piece(holder, random.from_to(1, 9)));
        }
        pieces.push(piece(0, weight));
    }
    let mut births: Vec<u32> = (0..pieces.len() as u32).collect();
    for p in &mut pieces {
        p.birth = births.swap_remove(random.index(births.len()));
        p.origin = random.below(5);
        *balance_of(&mut head, p.holder) += p.weight;
    }
    head.pieces = pieces.len() as u32;
    head.accepted = random.below(head.pieces + 1) / 2;
    (head, pieces.iter().flat_map(Piece::numbers).collect())
}

/// A weight to be drawn from a vessel that holds so much: mostly less, often by one, and now and then all
/// and a gram more.
fn wanted(random: &mut Random, all: u32) -> u32 {
    match random.below(9) {
        0 => all - 1,
        1 => all,
        2 => all.saturating_add(1),
        3 => 1,
        4 => all / 2,
        5 => random.from_to(1, all.min(9)),
        _ => random.from_to(1, all),
    }
    .max(1)
}

/// The pieces before and after a transfer or lift of less than vessel 0 holds. Those that stay keep their
/// order, and nothing else of them changes than the weight; so do those that are handed over.
fn check_gifts(covered: &mut Covered, before: &[Piece], after: &[Piece], t: Transfer, gone: usize) {
    let (stayed, given) = after.split_at(after.len() - gone);
    let kept: HashMap<u32, u32> = stayed.iter().map(|p| (p.birth, p.weight)).collect();
    let sources = before.iter().filter(|p| p.holder == 0);
    let weights: Vec<u32> = sources.clone().map(|p| p.weight).collect();
    let total: i128 = weights.iter().map(|&w| i128::from(w)).sum();
    let gift = |p: &Piece| p.weight - kept.get(&p.birth).copied().unwrap_or(0);
    let gifts: Vec<u32> = sources.clone().map(gift).collect();
    for (&gift, &weight) in gifts.iter().zip(&weights) {
        let exact = i128::from(t.weight) * i128::from(weight);
        let off = (i128::from(gift) * total - exact).abs();
        assert!(off < total, "{t:?}");
        covered.gifts += 1;
        covered.off += u64::from(2 * off >= total);
    }
    let sum: u64 = gifts.iter().map(|&gift| u64::from(gift)).sum();
    assert_eq!(sum, t.weight.into());
    let rests = before.iter().filter_map(|&p| {
        let weight = *kept.get(&p.birth)?;
        assert!(p.holder == 0 || weight == p.weight, "others are untouched");
        Some(Piece { weight, ..p })
    });
    assert!(stayed.iter().copied().eq(rests), "{t:?}");
    let parts = sources.zip(&gifts).filter(|(_, &gift)| gift > 0);
    let parts = parts.map(|(&p, &weight)| Piece {
        holder: t.destination,
        weight,
        ..p
    });
    assert!(given.iter().copied().eq(parts), "{t:?}");
    covered.add(&weights, &gifts, t.weight);
}

/// Draws from vessel 0 of a tagged book, on a table with the places that the splits need, or some more or
/// less.
fn draw(pair: &mut Pair, random: &mut Random, covered: &mut Covered, count: usize) {
    let (head, mut table) = tagged_book(random, count);
    let before: Vec<Piece> = Piece::all(&head, &table).collect();
    let mut destination = random.from_to(1, 4);
    if head.scale == 0 && random.once_in(2) {
        destination = SCALE;
    }
    let mut weight = wanted(random, head.balances[0]);
    if destination != SCALE {
        weight = weight.min(TOP - head.balances[destination as usize]);
    }
    let t = Transfer::new([0, destination, TOP, weight]);
    let shares = shares(&before, 0, weight);
    let splits = shares.iter().filter(|share| share.split()).count();
    let any = random.index(count + 2);
    let more = random.one_of(&[splits, splits, splits.saturating_sub(1), splits + 1, any]);
    let behind = 4 * more + random.index(4);
    table.extend(room(random, behind));
    let answer = call(pair, head, &mut table, t);
    if answer.number == 0 && weight < head.balances[0] {
        let after: Vec<Piece> = Piece::all(&answer.head, &table).collect();
        let gone = (answer.whole + answer.split) as usize;
        check_gifts(covered, &before, &after, t, gone);
    }
}

/// A transfer, or a lift where it is to the scale. It comes to the same whatever was accepted before.
fn call(pair: &mut Pair, head: Head, table: &mut [u32], t: Transfer) -> Transferred {
    let mut other_table = table.to_vec();
    let other_head = Head {
        accepted: head.pieces,
        ..head
    };
    let mut one = |head, table: &mut [u32]| match t.destination {
        SCALE => pair.lift(head, table, t.lift()),
        _ => pair.transfer(head, table, t),
    };
    let (answer, mut other) = (one(head, table), one(other_head, &mut other_table));
    let accepted = u32::from(answer.number == 0);
    assert_eq!(other.head.accepted, head.pieces + accepted);
    other.head.accepted = head.accepted + accepted;
    assert_eq!((answer, &*table), (other, &other_table[..]));
    answer
}

fn draws_of(subject: &'static dyn Engine) {
    let mut pair = Pair::new(subject);
    let mut random = Random::new(107);
    let mut covered = Covered::default();
    for round in 0..6_000 {
        let count = match round % 60 {
            0 => random.one_of(&[300, 900, 2_047]),
            long if long < 6 => random.from_to(13, 90) as usize,
            _ => random.from_to(1, 12) as usize,
        };
        draw(&mut pair, &mut random, &mut covered, count);
    }
    let stirs = &pair.stirs;
    pair.tally
        .print(&format!("stirred, {} {covered:?} {stirs:?}", pair.label()));
    stirs.expect(500);
    assert!(stirs.beside > 500 && stirs.lifts > 2_000 && stirs.outnumbered > 3_000);
    let counts = [
        covered.rounded,
        covered.made_up,
        covered.wide,
        covered.wider,
    ];
    assert!(counts.iter().all(|&count| count > 200) && covered.crumbs > 3);
    assert!(covered.gifts > 50_000 && covered.off > 5_000);
}

#[test]
fn shares_within_a_gram() {
    for subject in subjects() {
        draws_of(subject);
    }
}

/// A book adds up whatever it accepted, also if that is less than it has pieces, and all calls give the same.
#[test]
fn any_count_of_accepted() {
    for subject in subjects() {
        let mut pair = Pair::new(subject);
        let mut random = Random::new(109);
        let mut fewer = 0;
        for round in 0..600 {
            let length = random.one_of(&[4, 9, 17, 43, 120]);
            let of = if round % 2 == 0 { book } else { loaded_book };
            let (head, table) = of(&mut random, round % 4, length);
            let t = transfer_for(&mut random, &head, &table);
            let mut numbers = None;
            for accepted in [0, head.pieces.saturating_sub(1), head.pieces, TOP - 1] {
                let head = Head { accepted, ..head };
                let mut room = vec![0; VESSELS * VESSELS];
                let given = [
                    pair.set_rule(head, &table, t.source, STIRRED).number,
                    pair.transfer(head, &mut table.clone(), t).number,
                    pair.lift(head, &mut table.clone(), t.lift()).number,
                    pair.tip(head, &mut table.clone(), t.tip()).number,
                    pair.held(head, &table, t.source, &mut room).number,
                    pair.spread(head, &table, 0, (0, TOP), &mut room).number,
                    pair.whole(head, &table, &mut room).number,
                ];
                assert!(!given.contains(&Refusal::BookOff.number()), "{head:?}");
                assert_eq!(*numbers.get_or_insert(given), given, "{head:?} {t:?}");
                fewer += u32::from(accepted < head.pieces);
            }
        }
        pair.tally
            .print(&format!("accepted, {} {fewer} fewer", pair.label()));
        assert!(fewer > 700 && pair.stirs.outnumbered > 300);
        for call in ["set rule", "transfer", "lift", "tip", "held", "whole"] {
            assert!(pair.tally.count(call, 0) > 300, "{call}");
        }
    }
}
