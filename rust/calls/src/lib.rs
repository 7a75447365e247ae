//! The calls of documents 01 and 02 as data: the records that go in and come out, laid out as in
//! `include/lumchaki.h`, the refusals, and the trait that each implementation fulfils.

#![no_std]

mod asked;
mod engine;
mod records;
mod refusal;

pub use asked::{Lift, Tip, Transfer};
pub use engine::Engine;
pub use records::{
    places, Head, Movement, Opened, Piece, Ran, Reading, Reported, RuleSet, Tipped, Transferred,
    MOVEMENTS, MOVEMENT_BYTES, MOVEMENT_NUMBERS, NAME_BYTES, PLACES, SCALE, SHEET_HEADER, STIRRED,
    TOP, VESSELS,
};
pub use refusal::Refusal;
