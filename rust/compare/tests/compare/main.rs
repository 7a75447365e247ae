//! Comparisons of the library and of its plain form with the second implementation. Seeds are
//! fixed; every test counts what it covered and fails if that is too little.

mod ages;
mod books;
mod demand3;
mod desk;
mod divided;
mod header;
mod listing;
mod no_movements;
#[cfg(feature = "library")]
mod one_pass;
mod order;
mod rule_books;
mod rule_order;
mod rules;
mod runs;
mod scale;
mod scale_beside;
mod scale_books;
mod scale_limits;
mod scale_order;
mod scale_rests;
mod second_scale;
mod sheet_order;
mod sheets;
mod stirred;
mod stirred_books;
mod stirred_limits;
mod stirred_lists;
mod stops;
mod vector_lines;
mod vectors;
mod whole;
#[cfg(feature = "library")]
mod wrapper;
mod written;
