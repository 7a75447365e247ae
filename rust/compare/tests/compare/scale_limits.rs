//! Lift and tip at their limits, worked by hand, and the weigh book's scale.

use crate::desk::{engines, Desk};
use crate::scale::{BARE, LOADED};
use calls::{Engine, Lift, Refusal, Tip, Transfer, SCALE, TOP};
use second::WeighBook;

/// A tip that would overfill leaves the scale loaded, and another vessel may still take it. What is
/// transferred meanwhile lies before it.
#[test]
fn refused_tip_leaves_the_scale_loaded() {
    for engine in engines() {
        for rule in 0..4 {
            let mut desk = Desk::after(engine, rule, &[[0, 1, 3, TOP - 1]]);
            assert_eq!(desk.lift(Lift::new([0, 4, 2])), 0);
            let (head, table) = (desk.head, desk.table);
            assert_eq!(head.scale, 2);
            assert_eq!(desk.tip(Tip::new([1, 6])), Refusal::Overfull.number());
            // Nor did the refused tip move the clock.
            assert_eq!((desk.head, desk.table), (head, table));
            assert_eq!(desk.lift(Lift::new([2, 6, 1])), LOADED);
            assert_eq!(desk.transfer([0, 2, 5, 7]), 0);
            assert_eq!(desk.tip(Tip::new([2, 4])), Refusal::ClockBack.number());
            assert_eq!(desk.tip(Tip::new([2, 5])), 0);
            let left = [[1, 0, 3, TOP - 1], [2, 0, 5, 7], [2, 0, 4, 2]];
            assert_eq!(desk.pieces(), left);
            assert_eq!(desk.tip(Tip::new([2, 5])), BARE);
            // One gram is no more than vessel 1 can take.
            assert_eq!(desk.lift(Lift::new([2, 5, 1])), 0);
            assert_eq!(desk.tip(Tip::new([1, 5])), 0);
            assert_eq!(desk.head.balances[..3], [0, TOP, 8]);
            assert_eq!((desk.head.accepted, desk.head.last), (4, 5));
        }
    }
}

/// All that a vessel can hold goes onto the scale, whatever other vessels hold: a lift has no 9. Nor
/// does any vessel keep room for it: a transfer's 9 is about its destination's balance alone.
#[test]
fn heaviest_lift() {
    for engine in engines() {
        for rule in 0..4 {
            let mut desk = Desk::after(engine, rule, &[[0, 1, 0, TOP]]);
            assert_eq!(desk.lift(Lift::new([2, 0, TOP])), 0);
            assert_eq!((desk.head.scale, desk.head.balances[1]), (TOP, TOP));
            let overfull = Refusal::Overfull.number();
            assert_eq!(desk.tip(Tip::new([1, 0])), overfull);
            assert_eq!(desk.transfer([2, 1, 0, 1]), overfull);
            assert_eq!(desk.transfer([2, 0, 0, TOP]), 0);
            assert_eq!(desk.transfer([2, 0, 0, 1]), overfull);
            assert_eq!((desk.head.scale, desk.head.balances[0]), (TOP, TOP));
            assert_eq!(desk.tip(Tip::new([0, 0])), overfull);
            assert_eq!(desk.tip(Tip::new([2, 0])), 0);
            assert_eq!(desk.head.balances[..3], [TOP; 3]);
            assert_eq!(desk.head.scale, 0);
        }
    }
}

/// The ages of a lift: the minute is fine, one more is 21, also where nothing is born.
#[test]
fn ages_of_a_lift() {
    for engine in engines() {
        for minute in [0, 1, 30_000, 65_534, 65_535, 65_536, TOP] {
            let corners = [
                0,
                1,
                minute.saturating_sub(1),
                minute,
                minute.saturating_add(1),
            ];
            for age in corners.into_iter().chain([65_534, 65_535]) {
                let Ok(age) = u16::try_from(age) else {
                    continue;
                };
                let lift = Lift::new([1, minute, 7]).aged(age);
                let mut desk = Desk::open(engine, 2, 3);
                // Vessel 2 has enough: nothing would be born.
                assert_eq!(desk.transfer([0, 2, 0, 9]), 0);
                if u32::from(age) > minute {
                    let unborn = Lift { source: 2, ..lift };
                    assert_eq!(desk.lift(unborn), 21);
                    assert_eq!(desk.lift(lift), 21);
                    continue;
                }
                assert_eq!(desk.lift(lift), 0);
                assert_eq!(desk.pieces()[1], [64, 1, minute - u32::from(age), 7]);
                assert_eq!(desk.head.last, minute);
            }
        }
    }
}

/// A full table and a full tally: even lifts need no place, a tip needs neither. What is on the scale
/// takes places and was counted, so that transfers beside it meet both.
#[test]
fn full_table_and_full_tally() {
    for engine in engines() {
        for rule in 0..4 {
            let mut desk = Desk::open(engine, rule, 3);
            for _ in 0..16 {
                assert_eq!(desk.transfer([0, 1, 0, 2]), 0);
            }
            assert_eq!(desk.lift(Lift::new([1, 0, 1])), 11);
            assert_eq!(desk.lift(Lift::new([1, 0, 33])), 11);
            desk.head.accepted = TOP - 2;
            assert_eq!(desk.lift(Lift::new([1, 0, 4])), 0);
            for weight in [1, 3, 29] {
                assert_eq!(desk.transfer([1, 2, 0, weight]), 11);
            }
            assert_eq!(desk.transfer([1, 2, 0, 6]), 0);
            assert_eq!((desk.head.accepted, desk.even), (TOP, 2));
            assert_eq!(desk.transfer([1, 2, 0, 6]), 10);
            assert_eq!(desk.tip(Tip::new([2, 0])), 0);
            assert_eq!((desk.head.accepted, desk.head.balances[2]), (TOP, 10));
            assert_eq!(desk.lift(Lift::new([1, 0, 4])), 10);
            assert_eq!(desk.lift(Lift::new([1, 0, 1])), 10);
            assert_eq!(desk.pieces()[11..], [[2, 0, 0, 2]; 5]);
        }
    }
}

/// The scale is never addressed by its number, bare or loaded, on a book of 64 vessels as on one of 3.
#[test]
fn scale_is_no_vessel() {
    let unaddressed = |engine: &dyn Engine, desk: &mut Desk| {
        assert_eq!(desk.transfer([SCALE, 0, 0, 1]), 5);
        assert_eq!(desk.transfer([0, SCALE, 0, 1]), 5);
        let (head, table) = (desk.head, desk.table);
        let room = &mut [0; 65];
        assert_eq!(engine.held(head, &table, SCALE, room).number, 5);
        assert_eq!(engine.spread(head, &table, SCALE, (0, 9), room).number, 5);
    };
    for engine in engines() {
        for vessels in [3, 64] {
            let mut desk = Desk::open(engine, 0, vessels);
            unaddressed(engine, &mut desk);
            assert_eq!(desk.lift(Lift::new([SCALE, 0, 1])), 5);
            assert_eq!(desk.lift(Lift::new([vessels - 1, 0, 1])), 0);
            unaddressed(engine, &mut desk);
            assert_eq!(desk.tip(Tip::new([SCALE, 0])), 5);
            assert_eq!(desk.tip(Tip::new([vessels - 1, 0])), 0);
        }
    }
}

/// Pieces in a book of two vessels at minute 0, the scale's balance, and whether they add up.
type Load = (&'static [[u32; 4]], u32, bool);

const LOADS: [Load; 14] = [
    (&[[64, 0, 0, 5]], 5, true),
    (&[[64, 0, 0, 5]], 4, false),
    (&[[64, 0, 0, 5]], 6, false),
    (&[[64, 0, 0, 5]], 0, false),
    (&[[64, 1, 0, 2], [1, 0, 0, 7], [64, 0, 0, 3]], 5, true),
    (&[[1, 0, 0, 5]], 0, true),
    (&[[1, 0, 0, 5]], 5, false),
    (&[[65, 0, 0, 5]], 5, false),
    (&[[65, 0, 0, 5]], 0, false),
    (&[[64, 64, 0, 5]], 5, false),
    (&[[64, 0, 1, 5]], 5, false),
    (&[[64, 0, 0, 0]], 0, false),
    // 2^32 more than the balance.
    (&[[64, 0, 0, TOP], [64, 1, 0, 6]], 5, false),
    (&[[64, 0, 0, TOP], [64, 1, 0, 1]], 0, false),
];

#[test]
fn scales_that_add_up_and_others() {
    for engine in engines() {
        for (rule, (pieces, scale, adds_up)) in (0..4).flat_map(|r| LOADS.map(|load| (r, load))) {
            let mut desk = Desk::open(engine, rule, 2);
            desk.table[..4 * pieces.len()].copy_from_slice(&pieces.concat());
            desk.head.pieces = pieces.len() as u32;
            desk.head.accepted = 9;
            desk.head.scale = scale;
            let held = pieces.iter().filter(|p| p[0] == 1);
            desk.head.balances[1] = held.map(|p| p[3]).sum();
            let unless_off = |number| if adds_up { number } else { 4 };
            let loaded = unless_off(if scale > 0 { LOADED } else { 0 });
            let bare = unless_off(if scale > 0 { 0 } else { BARE });
            let either = unless_off(0);
            assert_eq!(desk.reports(), [either; 4], "{pieces:?} {scale}");
            // Each on the book as it was.
            let (head, table) = (desk.head, desk.table);
            assert_eq!(desk.transfer([0, 1, 0, 1]), either);
            (desk.head, desk.table) = (head, table);
            assert_eq!(desk.lift(Lift::new([0, 0, 1])), loaded);
            (desk.head, desk.table) = (head, table);
            assert_eq!(desk.tip(Tip::new([1, 0])), bare);
        }
    }
}

/// The weigh book has the scale as one more place and gives 22 and 23 by its own weight there. A
/// transfer beside it finds what the lift left.
#[test]
fn weigh_book_with_a_scale() {
    let mut book = WeighBook::new(3);
    assert_eq!(book.feed_tip(Tip::new([9, 0])), 23);
    assert_eq!(book.feed(Transfer::new([1, 0, 5, 2])), 0);
    assert_eq!(book.feed_lift(Lift::new([0, 9, 5]).aged(7)), 0);
    assert_eq!((book.weights.clone(), book.scale), (vec![0; 3], 5));
    assert_eq!(book.feed(Transfer::new([9, 9, 0, 0])), 5);
    assert_eq!(book.feed_lift(Lift::new([9, 0, 0])), 22);
    assert_eq!(book.feed(Transfer::new([0, 1, 9, TOP])), 0);
    assert_eq!(book.feed(Transfer::new([2, 1, 9, 1])), 9);
    assert_eq!(book.feed_tip(Tip::new([64, 0])), 5);
    assert_eq!(book.feed_tip(Tip::new([0, 8])), 8);
    assert_eq!(book.feed_tip(Tip::new([1, 12])), 9);
    assert_eq!(book.feed_tip(Tip::new([0, 12])), 0);
    assert_eq!(
        (book.weights.clone(), book.scale),
        (vec![5, TOP.into(), 0], 0)
    );
    assert_eq!((book.last, book.accepted), (12, 3));
    assert_eq!(book.feed_lift(Lift::new([2, 12, TOP])), 0);
    assert_eq!(book.feed_tip(Tip::new([1, 12])), 9);
    assert_eq!(book.feed_tip(Tip::new([2, 12])), 0);
    let births: Vec<_> = book.births.into_iter().collect();
    let top = u64::from(TOP);
    let born = [((0, 2), 3), ((0, 9), top), ((1, 5), 2), ((2, 12), top)];
    assert_eq!(births, born);
}
