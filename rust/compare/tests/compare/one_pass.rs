//! Which of the library's two whole reports is which, by the time that they take.

use crate::whole::full_book;
use calls::{PLACES, VESSELS};
use compare::Random;
use lumchaki::raw;
use std::time::{Duration, Instant};

/// The least time of a hundred that such a report takes.
fn least(whole: impl Fn(&mut [u32]) -> bool) -> Duration {
    let mut report = vec![0; VESSELS * VESSELS];
    let timed = |_| {
        let begun = Instant::now();
        assert!(whole(&mut report));
        begun.elapsed()
    };
    (0..100).map(timed).min().expect("a hundred of them")
}

/// No number tells the two ways apart. Row by row a full table is gone over 64 times, which takes some
/// thirteen times as long as once; twice is asked here, of the library's calls and of their typed face.
#[test]
fn one_pass_is_ahead() {
    let (head, table) = full_book(
        &mut Random::new(106),
        VESSELS as u32,
        PLACES,
        [false, false],
    );
    let (head, table) = (&head, &table[..]);
    let times = [
        (
            least(|report| raw::whole(*head, table, report).number == 0),
            least(|report| raw::whole_by_rows(*head, table, report).number == 0),
        ),
        (
            least(|report| lumchaki::whole(head, table, report).is_ok()),
            least(|report| lumchaki::whole_by_rows(head, table, report).is_ok()),
        ),
    ];
    for (one_pass, by_rows) in times {
        println!("whole, full table: {one_pass:?} in one pass, {by_rows:?} row by row");
        assert!(2 * one_pass < by_rows);
    }
}
