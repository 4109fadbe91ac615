//! The independent test side of Tonschnecke's reading, retyping and inserting.
//!
//! `model` answers in another style than the library does, `library` calls the archive under test,
//! `sides` gives them one form, `compare` makes the same call on both and looks at every word and
//! byte. `cases` holds what the paper states by hand; `generate` and `enumerate` make the plans and
//! insertions nobody thought of.

pub mod call;
pub mod campaign;
pub mod cases;
pub mod circumstances;
pub mod compare;
pub mod enumerate;
pub mod generate;
pub mod lengths;
pub mod library;
pub mod memory;
pub mod model;
pub mod oddities;
pub mod random;
pub mod shrink;
pub mod sides;
pub mod signs;
pub mod statistics;
