//! Compares the proved functions of libmom_c.a with the original Rust, in one process.
//!
//! A kind of comparison is a file in `kinds/` that implements [`compare::Kind`], or a value of
//! [`lists`] or [`pairs`], and a line of [`kinds::KINDS`] for each of the [`widths`] that it has.

pub mod cells;
pub mod compare;
pub mod floats;
pub mod kinds;
pub mod lists;
pub mod maps;
pub mod pairs;
pub mod protected;
pub mod quads;
pub mod random;
pub mod reach;
pub mod widths;
