//! The book of the clearing house, implemented from the rules document ("01"), with `docs/BOOK.md` for the layout and
//! `include/wickdamson.h` for what that document leaves to the build. Nothing here was taken from the proved code; the two
//! are compared by `rust/check`.
//!
//! A call on lent bytes reads them into a [`Book`] (which tests them for soundness), works on the book, and writes
//! back what it changed. A whole call file works on one [`Book`] from its create to its end.
//!
//! | module | section of document 01 |
//! |---|---|
//! | [`refusal`] | Refusal numbers |
//! | [`units`] | Money is whole mils, quantities are whole shares; parts |
//! | [`book`], [`sound`], [`layout`] | A sound book |
//! | [`trading`], [`holdings`], [`roll`] | From trades to positions |
//! | [`run`] | Settlement run |
//! | [`marks`] | Marks |
//! | [`file`], [`lines`], [`sheet`] | Call file and sheet |
//! | [`calls`] | each public call, over lent bytes |

pub mod book;
pub mod calls;
pub mod file;
pub mod holdings;
pub mod layout;
pub mod lines;
pub mod marks;
pub mod refusal;
pub mod roll;
pub mod run;
pub mod sheet;
pub mod sound;
pub mod trading;
pub mod units;

pub use book::Book;
pub use refusal::Refusal;
