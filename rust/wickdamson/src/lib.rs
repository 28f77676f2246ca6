//! The book of a clearing house, proved, for programs in Rust.
//!
//! The archive `target/staticlib/libwickdamson.a` (`tools/archive wickdamson` builds it) holds the proved calls; this crate makes them
//! safe to use. [`Book`] keeps a book and makes the calls on it; [`bytes`] has the same calls over lent bytes of any
//! length and origin, for those who keep books elsewhere. [`Line`] and [`Tally`] write the lines of a sheet one by one.
//!
//! Shares, money, gains and prices are types of their own ([`Shares`], [`Mils`], [`Gain`], [`Price`]); a refused call answers a
//! [`Refusal`] and alters no byte. A number that is too large is refused, and never cut to another.
//!
//! ```
//! use wickdamson::{Account, Book, Currency, Number, Price, Quantity, Refusal, Security, Trade};
//!
//! let mut listing = [None; 32];
//! listing[0] = Some(Currency::Base);
//! let mut book = Book::create(&listing)?;
//! let (buyer, seller, security) = (Account(1), Account(2), Security(0));
//! book.enter(Number(1), &Trade { buyer, seller, security, quantity: Quantity(1_000), price: Price(10_500) })?;
//! book.deposit(seller, security, Quantity(250))?;
//! book.roll()?;
//! book.roll()?;
//! assert_eq!(book.run(security)?, Quantity(250));
//! assert_eq!(book.withdraw(buyer, security, Quantity(251)), Err(Refusal::NotHeld));
//! assert_eq!(book.as_bytes().len(), wickdamson::BOOK_BYTES); // to be kept where you like
//! # Ok::<(), Refusal>(())
//! ```

pub mod book;
pub mod bytes;
pub mod ffi;
pub mod lines;
pub mod refusal;
pub mod units;

pub use book::{play, price, sheet, Book, Currency, Played, Position};
pub use bytes::{Answer, Marks, Record, Trade};
pub use lines::{Line, Tally};
pub use refusal::Refusal;
pub use units::{
    Account, Closing, Gain, Haircut, Intraday, Mils, Number, Place, Price, Quantity, Rate, Security, Shares,
};

/// The version of the interface that this crate was written for; `ffi::wick_version` has the archive's.
pub const VERSION: u32 = 1;
/// The length of a book in bytes.
pub const BOOK_BYTES: usize = 42_278;
/// The longest call file.
pub const FILE_BYTES: usize = 65_535;
/// Enough for the answers of any file.
pub const ANSWERS_BYTES: usize = 196_614;
/// Enough for the sheet of any file.
pub const SHEET_BYTES: usize = 295_620;
/// Enough for any line of a sheet.
pub const LINE_BYTES: usize = 114;
