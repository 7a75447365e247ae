//! Traces lots of flour through vessels: whose flour lies in which vessel, and since when.
//!
//! The book and the sheet are a proved library (`crates/lumchaki/out/liblumchaki.a`); this crate lends
//! it slices and turns its numbers into a `Result`. A book is a [`Head`], handed along by the
//! caller, and a table, lent to each call: four numbers for a piece. Nothing is allocated.
//!
//! ```
//! use lumchaki::{
//!     held, lift, open, set_rule, tip, transfer, Lift, Piece, Refusal, Tip, Transfer, STIRRED,
//! };
//!
//! // Two suppliers deliver to a silo; each vessel gives its oldest flour first (rule 2). The farm's
//! // comes last and was milled first: it is 60 minutes old.
//! const MILL: u32 = 0;
//! const FARM: u32 = 1;
//! const SILO: u32 = 2;
//! const MIXER: u32 = 3;
//! let mut table = [0; 4 * 100];
//! let mut head = open(2, 4)?;
//! transfer(&mut head, &mut table, Transfer::new([MILL, SILO, 480, 500]))?;
//! transfer(&mut head, &mut table, Transfer::new([FARM, SILO, 490, 300]).aged(60))?;
//! let moved = transfer(&mut head, &mut table, Transfer::new([SILO, MIXER, 500, 600]))?;
//! assert_eq!((moved.whole, moved.split, moved.born), (1, 1, 0));
//!
//! let mut report = [0; 4];
//! assert_eq!(held(&head, &table, MIXER, &mut report)?, [300, 300, 0, 0]);
//!
//! let oldest = Piece::all(&head, &table).min_by_key(|p| p.birth);
//! assert_eq!(oldest.map(|p| (p.holder, p.origin, p.birth)), Some((MIXER, FARM, 430)));
//!
//! // A baker may weigh first and decide on the vessel afterwards. What is on the scale is in no vessel.
//! // Until it is tipped another lift has to wait; transfers and reports go on.
//! lift(&mut head, &mut table, Lift::new([SILO, 510, 150]))?;
//! let second = lift(&mut head, &mut table, Lift::new([SILO, 511, 50]));
//! assert_eq!(second, Err(Refusal::ScaleLoaded));
//! transfer(&mut head, &mut table, Transfer::new([SILO, MIXER, 511, 50]))?;
//! assert_eq!(held(&head, &table, MIXER, &mut report)?, [350, 300, 0, 0]);
//! tip(&mut head, &mut table, Tip::new([MIXER, 512]))?;
//! assert_eq!(held(&head, &table, MIXER, &mut report)?, [500, 300, 0, 0]);
//!
//! // A vessel may get another rule at any moment. The mixer gives first what it received last (rule 1).
//! set_rule(&mut head, &table, MIXER, 1)?;
//! transfer(&mut head, &mut table, Transfer::new([MIXER, SILO, 520, 150]))?;
//! assert_eq!(held(&head, &table, MIXER, &mut report)?, [350, 300, 0, 0]);
//! assert_eq!(set_rule(&mut head, &table, MIXER, 5), Err(Refusal::RuleUnknown));
//!
//! // A liquid leaven that is stirred gives from everything in it: of pieces of 300, 300 and 50 grams, in
//! // the order in which they were received, 200 grams are 92, 92 and 16.
//! set_rule(&mut head, &table, MIXER, STIRRED)?;
//! let moved = transfer(&mut head, &mut table, Transfer::new([MIXER, SILO, 530, 200]))?;
//! assert_eq!((moved.whole, moved.split, moved.born), (0, 3, 0));
//! assert_eq!(held(&head, &table, MIXER, &mut report)?, [242, 208, 0, 0]);
//!
//! // A refusal changes nothing and has its number and word in document 01 or 02.
//! let back = transfer(&mut head, &mut table, Transfer::new([SILO, MIXER, 499, 1]));
//! assert_eq!(back, Err(Refusal::ClockBack));
//! assert_eq!(Refusal::ClockBack.to_string(), "clock back (8)");
//! # Ok::<(), Refusal>(())
//! ```

#![deny(unsafe_code)]

mod book;
mod ffi;
pub mod raw;
mod sheet;

pub use book::{held, lift, open, set_rule, spread, tip, transfer, whole, whole_by_rows, Moved};
pub use calls::{
    places, Head, Lift, Piece, Refusal, Tip, Transfer, MOVEMENTS, MOVEMENT_BYTES, NAME_BYTES,
    PLACES, SCALE, SHEET_HEADER, STIRRED, VESSELS,
};
pub use sheet::{movement, name, read, run, write, Run, Stop, Summary};

/// Turns an answer's number into a result.
fn accept(number: u32) -> Result<(), Refusal> {
    if number == 0 {
        return Ok(());
    }
    Err(Refusal::of(number).expect("the library gives the numbers of documents 01 and 02"))
}
