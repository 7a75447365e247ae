//! Transfers and reports beside a loaded scale, worked by hand.

use crate::desk::{engines, Desk};
use crate::scale::{check, ScaleVector, FIRST, FIVE, THEN};
use calls::{Engine, Lift, Tip, Transfer, TOP};
use compare::Call;

/// Vessel 1 gets 6 g of vessel 2 while 5 g of vessel 0 lie on the scale.
const MEANWHILE: Call = Call::Move(Transfer::new([2, 1, 4, 6]));

const BESIDE: [ScaleVector; 4] = [
    // What is on the scale stays where it lies, and what is transferred joins behind it.
    (
        &[FIRST, THEN, FIVE, MEANWHILE],
        [
            &[[0, 2, 2, 2], [64, 1, 1, 4], [64, 2, 2, 1], [1, 2, 4, 6]],
            &[[0, 1, 1, 2], [64, 2, 2, 3], [64, 1, 1, 2], [1, 2, 4, 6]],
            &[[0, 2, 2, 2], [64, 1, 1, 4], [64, 2, 2, 1], [1, 2, 4, 6]],
            &[[0, 1, 1, 2], [64, 2, 2, 3], [64, 1, 1, 2], [1, 2, 4, 6]],
        ],
    ),
    // Tipped, it lies behind that: rule 0 gives what vessel 1 received meanwhile first, rule 1 last.
    (
        &[
            FIRST,
            THEN,
            FIVE,
            MEANWHILE,
            Call::Tip(Tip::new([1, 5])),
            Call::Move(Transfer::new([1, 2, 6, 7])),
        ],
        [
            &[
                [0, 2, 2, 2],
                [1, 1, 1, 3],
                [1, 2, 2, 1],
                [2, 2, 4, 6],
                [2, 1, 1, 1],
            ],
            &[
                [0, 1, 1, 2],
                [1, 2, 4, 4],
                [2, 1, 1, 2],
                [2, 2, 2, 3],
                [2, 2, 4, 2],
            ],
            &[
                [0, 2, 2, 2],
                [1, 2, 4, 4],
                [2, 1, 1, 4],
                [2, 2, 2, 1],
                [2, 2, 4, 2],
            ],
            &[
                [0, 1, 1, 2],
                [1, 2, 2, 2],
                [1, 1, 1, 2],
                [2, 2, 4, 6],
                [2, 2, 2, 1],
            ],
        ],
    ),
    // The vessel that was lifted from gives what it has left, and 1 g is born there; it gets 2 g back,
    // and then the load. The last transfer picks by that.
    (
        &[
            FIRST,
            THEN,
            FIVE,
            Call::Move(Transfer::new([0, 1, 3, 3])),
            Call::Move(Transfer::new([1, 0, 4, 2])),
            Call::Tip(Tip::new([0, 4])),
            Call::Move(Transfer::new([0, 2, 5, 4])),
        ],
        [
            &[
                [1, 0, 3, 1],
                [0, 1, 1, 2],
                [0, 2, 2, 1],
                [2, 2, 2, 2],
                [2, 1, 1, 2],
            ],
            &[
                [1, 1, 1, 1],
                [0, 0, 3, 1],
                [0, 1, 1, 1],
                [0, 2, 2, 1],
                [2, 1, 1, 2],
                [2, 2, 2, 2],
            ],
            &[[1, 0, 3, 1], [0, 2, 2, 2], [0, 2, 2, 1], [2, 1, 1, 4]],
            &[
                [1, 1, 1, 1],
                [0, 1, 1, 1],
                [0, 1, 1, 2],
                [2, 0, 3, 1],
                [2, 2, 2, 3],
            ],
        ],
    ),
    // Born alike: on a tie what was received meanwhile is the earlier, and the load the later.
    (
        &[
            Call::Move(Transfer::new([1, 0, 5, 4])),
            Call::Lift(Lift::new([0, 5, 4])),
            Call::Move(Transfer::new([2, 0, 5, 3])),
            Call::Tip(Tip::new([0, 5])),
            Call::Move(Transfer::new([0, 1, 5, 2])),
        ],
        [
            &[[0, 2, 5, 1], [0, 1, 5, 4], [1, 2, 5, 2]],
            &[[0, 2, 5, 3], [0, 1, 5, 2], [1, 1, 5, 2]],
            &[[0, 2, 5, 1], [0, 1, 5, 4], [1, 2, 5, 2]],
            &[[0, 2, 5, 3], [0, 1, 5, 2], [1, 1, 5, 2]],
        ],
    ),
];

#[test]
fn transfers_beside_a_loaded_scale() {
    check(3, &BESIDE);
}

/// The three reports of a book, each over sevens in a room with a row more than it needs: held of a
/// vessel, spread of an origin in a span, and whole, which is the same both ways.
fn reports(
    engine: &dyn Engine,
    desk: &Desk,
    vessel: u32,
    (origin, span): (u32, (u32, u32)),
) -> [Vec<u32>; 3] {
    let (head, table) = (desk.head, &desk.table);
    let row = head.vessels as usize;
    let mut rooms = [vec![7; 2 * row], vec![7; 2 * row], vec![7; (row + 1) * row]];
    let mut rows = rooms[2].clone();
    let [held, spread, whole] = &mut rooms;
    let numbers = [
        engine.held(head, table, vessel, held).number,
        engine.spread(head, table, origin, span, spread).number,
        engine.whole(head, table, whole).number,
        engine.whole_by_rows(head, table, &mut rows).number,
    ];
    assert_eq!((numbers, &rows), ([0; 4], &*whole));
    for (room, written) in rooms.iter_mut().zip([row, row, row * row]) {
        assert!(
            room[written..].iter().all(|&n| n == 7),
            "{}",
            engine.label()
        );
        room.truncate(written);
    }
    rooms
}

/// What the reports say after `MEANWHILE`: held of vessel 0, spread of origin 1 at any minute, whole;
/// and whole after the tip.
const SAID: [[&[u32]; 4]; 2] = [
    [
        &[0, 0, 2],
        &[0, 0, 0],
        &[0, 0, 2, 0, 0, 6, 0, 0, 0],
        &[0, 0, 2, 0, 4, 7, 0, 0, 0],
    ],
    [
        &[0, 2, 0],
        &[2, 0, 0],
        &[0, 2, 0, 0, 0, 6, 0, 0, 0],
        &[0, 2, 0, 0, 2, 9, 0, 0, 0],
    ],
];

#[test]
fn reports_beside_a_loaded_scale() {
    for engine in engines() {
        for rule in 0..4 {
            let [held, spread, whole, tipped] = SAID[rule as usize % 2];
            let mut desk = Desk::open(engine, rule, 3);
            for call in [FIRST, THEN, FIVE, MEANWHILE] {
                assert_eq!(desk.call(&call), 0);
            }
            let said = reports(engine, &desk, 0, (1, (0, TOP)));
            assert_eq!(said, [held, spread, whole]);
            // All that was on the scale is missing.
            assert_eq!((whole.iter().sum::<u32>(), desk.head.scale), (8, 5));
            assert_eq!(desk.tip(Tip::new([1, 5])), 0);
            let [_, _, whole] = reports(engine, &desk, 0, (1, (0, TOP)));
            assert_eq!(whole, tipped, "{} rule {rule}", engine.label());
        }
    }
}

/// Of 64 vessels the scale's number is the first behind them.
#[test]
fn reports_of_64_vessels() {
    let row = |weights: &[(usize, u32)]| {
        let mut row = vec![0; 64];
        for &(at, weight) in weights {
            row[at] = weight;
        }
        row
    };
    for engine in engines() {
        for rule in 0..4 {
            let mut desk = Desk::open(engine, rule, 64);
            assert_eq!(desk.transfer([5, 63, 1, 10]), 0);
            assert_eq!(desk.lift(Lift::new([63, 2, 4])), 0);
            assert_eq!(desk.transfer([63, 0, 2, 1]), 0);
            let said = reports(engine, &desk, 63, (5, (1, 1)));
            let mut whole = vec![vec![0; 64]; 64];
            whole[0] = row(&[(5, 1)]);
            whole[63] = row(&[(5, 5)]);
            let expected = [row(&[(5, 5)]), row(&[(0, 1), (63, 5)]), whole.concat()];
            assert_eq!(said, expected, "{} rule {rule}", engine.label());
        }
    }
}
