//! Random and damaged inputs for the calls of the book, and the outcomes of each: the
//! archive's, raw and through the safe crate, and the reference's.

pub mod books;
pub mod calls;
pub mod case;
pub mod counts;
pub mod files;
pub mod random;
pub mod show;
pub mod shrink;
pub mod tables;
pub mod wrapped;
