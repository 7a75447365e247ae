//! A second implementation of document 01 and of the ages, the scale and the rules of document 02,
//! written from those documents alone and in another way than the proved one: each vessel has a queue
//! or a heap of its own, as in Algorithm 2 of the source, which is turned over when the vessel's rule
//! is set, and a stirred one gives exact fractions; the scale has a list, and a receipt number for each
//! piece gives the order of the table. It is there to doubt the first one by.

mod book;
mod buffer;
mod flat;
mod listing;
mod sheet;
mod stirred;
mod weigh;

pub use book::{Book, Moved};
pub use flat::Second;
pub use listing::listing;
pub use sheet::Sheet;
pub use weigh::WeighBook;
