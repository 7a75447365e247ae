//! Compares implementations of the documents call by call: answers, lent memory, and what lies
//! around it. The tests are in `tests/`; here is what they share.

mod ages;
mod books;
mod foul;
#[cfg(feature = "library")]
mod library;
mod long;
mod make;
mod pair;
mod random;
mod sheets;
mod stirs;
mod tally;

pub use ages::Ages;
pub use books::{balance_of, book, held_by, loaded_book, mixed_rules, room};
pub use foul::{foul_book, FOUL_CLAUSES};
#[cfg(feature = "library")]
pub use library::Library;
pub use long::{
    aged_day, aged_heaviest, fed_by_the_gram, heaviest, random_pairs, two_big, working_day,
};
pub use make::{
    call_list, lift_for, near, report_room, tip_for, transfer_for, with_settings, Call,
};
pub use pair::{tipped, Pair};
pub use random::Random;
pub use sheets::{damage, names, sheet};
pub use stirs::{shares, stirred, Share, Stirs};
pub use tally::Tally;

use calls::Engine;
use plain::Plain;

/// What is compared with the second implementation.
pub fn subjects() -> Vec<&'static dyn Engine> {
    vec![
        #[cfg(feature = "library")]
        &Library,
        &Plain,
    ]
}
