//! Stirred vessels at their limits, worked by hand: the largest weights, all but a gram and a single gram,
//! crumbs of a gram, tables with exactly the room that the splits need and with one place less.

use crate::desk::engines;
use calls::{
    places, Engine, Head, Lift, Piece, Refusal, Transfer, Transferred, PLACES, SCALE, STIRRED, TOP,
};

const FULL: u32 = Refusal::TableFull.number();

/// A book of three vessels at minute 7 that accepted nothing yet. Vessel 0 is stirred and has pieces of
/// these weights, of origins in turn and born at minute 0.
pub fn stirred_book(weights: &[u32], places: usize) -> (Head, Vec<u32>) {
    let mut head = Head {
        vessels: 3,
        pieces: weights.len() as u32,
        last: 7,
        ..Head::ZERO
    };
    head.rules[0] = STIRRED;
    head.balances[0] = weights.iter().sum();
    let pieces = (0..).zip(weights);
    let mut table: Vec<u32> = pieces.flat_map(|(i, &w)| [0, i % 3, 0, w]).collect();
    table.resize(4 * places, 55);
    (head, table)
}

/// A transfer to vessel 1 or a lift onto the scale, and the weights that it leaves in vessel 0 and at the
/// end, in their order.
fn given(
    engine: &dyn Engine,
    (head, table): (Head, &[u32]),
    to: u32,
    weight: u32,
) -> (Transferred, [Vec<u32>; 2]) {
    let mut table = table.to_vec();
    let before = table.clone();
    let t = Transfer::new([0, to, 7, weight]);
    let answer = match to {
        SCALE => engine.lift(head, &mut table, t.lift()),
        _ => engine.transfer(head, &mut table, t),
    };
    if answer.number != 0 {
        assert_eq!((answer.head, &table), (head, &before));
    }
    let of = |holder| {
        let all = Piece::all(&answer.head, &table);
        all.filter(move |p| p.holder == holder).map(|p| p.weight)
    };
    let ends = (of(0).count(), of(to).count());
    assert_eq!(ends.0 + ends.1, answer.head.pieces as usize);
    let left = [of(0).collect(), of(to).collect()];
    (answer, left)
}

/// Fails unless every engine gives these weights, whole pieces and splits, to a vessel and onto the scale.
fn check(weights: &[u32], wanted: u32, left: [&[u32]; 2], [whole, split]: [u32; 2]) {
    let (head, table) = stirred_book(weights, PLACES);
    for engine in engines() {
        for to in [1, SCALE] {
            let (answer, weights) = given(engine, (head, &table), to, wanted);
            assert_eq!(answer.number, 0);
            assert_eq!(weights, left, "{} {wanted}", engine.label());
            assert_eq!([answer.whole, answer.split, answer.born], [whole, split, 0]);
        }
    }
}

/// Of all but a gram the first piece keeps one, and of a single gram the last piece gives it: running sums
/// below all of it fall short of a whole gram. The products are as large as can be.
#[test]
fn largest_weights() {
    let near = [TOP - 2, 1, 1];
    check(&near, TOP - 1, [&[1], &[TOP - 3, 1, 1]], [2, 1]);
    check(&near, 1, [&[TOP - 2, 1], &[1]], [1, 0]);
    let light_first = [1, 1, TOP - 2];
    check(&light_first, TOP - 1, [&[1], &[1, TOP - 2]], [2, 0]);
    check(&light_first, 1, [&[1, 1, TOP - 3], &[1]], [0, 1]);
    // A third of three thirds, and two thirds, of which the products pass 2^63.
    let third = TOP / 3;
    let (one, two) = (third / 3, third / 3 * 2);
    let left = [third - one, third - one, third - one - 1];
    check(&[third; 3], third, [&left, &[one, one, one + 1]], [0, 3]);
    let left = [third - two, third - two - 1, third - two - 1];
    check(
        &[third; 3],
        2 * third,
        [&left, &[two, two + 1, two + 1]],
        [0, 3],
    );
    check(&[TOP], TOP - 1, [&[1], &[TOP - 1]], [0, 1]);
    check(&[TOP], TOP, [&[], &[TOP]], [1, 0]);
    // 2^31 of 2^32 - 1 in two pieces: 2^62 and a little is 2^30 and a half.
    let half = 1 << 31;
    check(
        &[half, half - 1],
        half,
        [&[half / 2, half / 2 - 1], &[half / 2, half / 2]],
        [0, 2],
    );
}

/// A gram less than all, all, and a gram more, of pieces up to TOP: only what is more is born.
#[test]
fn beside_the_balance() {
    for weights in [
        &[5, 1, 1, 6][..],
        &[1, 1],
        &[2],
        &[TOP - 9, 3, 2, 1],
        &[TOP / 2, TOP / 2 - 1],
    ] {
        let (head, table) = stirred_book(weights, weights.len() + 1);
        let all = head.balances[0];
        let pieces = weights.len() as u32;
        for engine in engines() {
            for to in [1, SCALE] {
                let (answer, left) = given(engine, (head, &table), to, all - 1);
                let kept = u32::from(weights[0] > 1);
                assert_eq!((answer.number, answer.born), (0, 0));
                assert_eq!([answer.whole, answer.split], [pieces - 1, kept]);
                assert_eq!(left[0], [1]);
                let (answer, left) = given(engine, (head, &table), to, all);
                assert_eq!((answer.whole, answer.even()), (pieces, true));
                assert_eq!(left, [vec![], weights.to_vec()]);
                let (answer, left) = given(engine, (head, &table), to, all + 1);
                assert_eq!([answer.whole, answer.split, answer.born], [pieces, 0, 1]);
                assert_eq!(left, [vec![], [weights, &[1]].concat()]);
                // Without a place to spare only what is even goes, or a gram less that splits nothing.
                let full = &table[..4 * weights.len()];
                let numbers = [all - 1, all, all + 1].map(|weight| {
                    let (answer, _) = given(engine, (head, full), to, weight);
                    answer.number
                });
                assert_eq!(numbers, [FULL * kept, 0, FULL], "{}", engine.label());
            }
        }
    }
}

/// Of n crumbs of a gram q are given, and none is split, so that a full table does not hinder it: the i-th
/// goes where i * q passes a multiple of n.
#[test]
fn crumbs() {
    let [mut moved, mut stayed] = [0; 2];
    for (count, wanted) in [
        (3, 2),
        (8, 3),
        (300, 7),
        (997, 996),
        (997, 1),
        (PLACES, 1_000),
        (PLACES, 4_095),
    ] {
        // Each has an origin and a birth that tell where it was.
        let (mut head, mut table) = stirred_book(&vec![1; count], count);
        for (at, piece) in (0..).zip(table.chunks_exact_mut(4)) {
            (piece[1], piece[2]) = (at % 3, at);
        }
        head.last = TOP;
        let goes = |i: usize| (i + 1) * wanted % count < wanted;
        let place = |holder: u32| move |i: usize| [holder, i as u32 % 3, i as u32, 1];
        for engine in engines() {
            for to in [2, SCALE] {
                let mut table = table.clone();
                let t = Transfer::new([0, to, TOP, wanted as u32]);
                let answer = match to {
                    SCALE => engine.lift(head, &mut table, t.lift()),
                    _ => engine.transfer(head, &mut table, t),
                };
                let stay = (0..count).filter(|&i| !goes(i)).map(place(0));
                let expected: Vec<_> = stay
                    .chain((0..count).filter(|&i| goes(i)).map(place(to)))
                    .collect();
                assert_eq!((answer.number, answer.even()), (0, true));
                assert_eq!(answer.whole as usize, wanted);
                assert_eq!(table, expected.concat(), "{}", engine.label());
                moved += wanted;
                stayed += count - wanted;
            }
        }
    }
    assert!(moved > 10_000 && stayed > 10_000);
}

/// Pieces of 2 g that each give one need a place more for each of them. On tables of every small length, and
/// the largest, that is 11 up to the last place, with nothing written, and then fits.
#[test]
fn room_for_many_splits() {
    let mut counts = [0; 2];
    let small =
        (1..=12).flat_map(|count| (count..=2 * count + 1).map(move |places| (count, places)));
    let large = [
        (2_048, 4_095),
        (2_048, 4_096),
        (2_049, 4_096),
        (4_096, 4_096),
        (2_048, 5_000),
    ];
    for (count, table_places) in small.chain(large) {
        let (head, table) = stirred_book(&vec![2; count], table_places);
        // A length that is no multiple of 4 has no more places.
        for table in [&table[..], &[&table[..], &[55; 3]].concat()] {
            let fits = 2 * count <= places(table);
            for engine in engines() {
                for to in [1, SCALE] {
                    let (answer, left) = given(engine, (head, table), to, count as u32);
                    assert_eq!(
                        answer.number,
                        if fits { 0 } else { FULL },
                        "{count} {table_places}"
                    );
                    if fits {
                        assert_eq!(left, [vec![1; count], vec![1; count]]);
                        assert_eq!((answer.whole, answer.split as usize), (0, count));
                        assert_eq!(
                            (answer.head.accepted, answer.head.pieces as usize),
                            (1, 2 * count)
                        );
                    }
                    counts[usize::from(fits)] += 1;
                }
            }
        }
    }
    assert!(counts.iter().all(|&count| count > 150), "{counts:?}");
}

/// A full table of 4,096 pieces: gifts of nothing and of all go, a single split does not. By another rule
/// whole pieces go, and stirred again the single split still finds no place.
#[test]
fn full_table() {
    let mut weights = vec![1; PLACES];
    weights[PLACES - 1] = 5;
    let (head, table) = stirred_book(&weights, PLACES);
    for engine in engines() {
        let asked = |weight| engine.lift(head, &mut table.clone(), Lift::new([0, 7, weight]));
        // The crumbs give 4,095 / 4,100 of the weight: of 1 g nothing, of 4,098 and 4,099 g all but 5.
        let numbers = [1, 4_098, 4_099, 4_100, 4_101].map(|weight| asked(weight).number);
        assert_eq!(numbers, [FULL, 0, 0, 0, FULL], "{}", engine.label());
        assert_eq!(asked(4_099).whole as usize, PLACES - 1);
        let mut table = table.clone();
        let first = engine.set_rule(head, &table, 0, 0).head;
        let moved = engine.transfer(first, &mut table, Transfer::new([0, 1, 7, 3]));
        assert_eq!((moved.number, moved.whole, moved.split), (0, 3, 0));
        let again = engine.set_rule(moved.head, &table, 0, STIRRED).head;
        let refused = engine.transfer(again, &mut table, Transfer::new([0, 1, 7, 1]));
        assert_eq!((refused.number, refused.head), (FULL, again));
    }
}
