//! Every call over lent bytes, whatever their length and origin. `include/wickdamson.h` says of each what it alters and
//! in which order it is refused.
//!
//! Safety of the foreign calls, here and in [`lines`](crate::lines): each buffer is a Rust slice, so its pointer is not
//! null and its length is right; what is lent to be altered is lent by `&mut`, so that nothing overlaps it; and the
//! functions keep nothing of what they were lent.

use crate::ffi;
use crate::refusal::Refusal;
use crate::units::{Account, Gain, Mils, Number, Place, Price, Quantity, Security};

/// The fields of a trade, all but its number.
#[derive(Clone, Copy, Debug, PartialEq, Eq, Hash)]
pub struct Trade {
    pub buyer: Account,
    pub seller: Account,
    pub security: Security,
    /// 1 to 1,000,000 shares.
    pub quantity: Quantity,
    /// 1 to 9,999,999 mils for one share.
    pub price: Price,
}

/// A traded quantity as the archive takes it. What is wider than 32 bits is above 1,000,000 all the same, and is refused.
fn traded(quantity: Quantity) -> u32 {
    u32::try_from(quantity.0).unwrap_or(u32::MAX)
}

/// Whether the bytes are a sound book. A sound book may still be a damaged one.
pub fn is_sound(book: &[u8]) -> bool {
    // SAFETY: see the head of this module; the book is only read.
    unsafe { ffi::wick_sound(book.as_ptr(), book.len()) == 1 }
}

/// Makes an empty book: `codes` are the 32 currency codes, 0 to 3, or 255 for unlisted.
pub fn create(book: &mut [u8], codes: &[u8]) -> Result<(), Refusal> {
    // SAFETY: see the head of this module.
    Refusal::check(unsafe { ffi::wick_create(book.as_mut_ptr(), book.len(), codes.as_ptr(), codes.len()) })
}

/// Enters a trade at the end of today's list.
pub fn enter(book: &mut [u8], number: Number, trade: &Trade) -> Result<(), Refusal> {
    // SAFETY: see the head of this module.
    Refusal::check(unsafe {
        ffi::wick_enter(
            book.as_mut_ptr(),
            book.len(),
            number.0,
            trade.buyer.0,
            trade.seller.0,
            trade.security.0,
            traded(trade.quantity),
            trade.price.0,
        )
    })
}

/// Replaces every field of today's trade of that number; it keeps its place.
pub fn amend(book: &mut [u8], number: Number, trade: &Trade) -> Result<(), Refusal> {
    // SAFETY: see the head of this module.
    Refusal::check(unsafe {
        ffi::wick_amend(
            book.as_mut_ptr(),
            book.len(),
            number.0,
            trade.buyer.0,
            trade.seller.0,
            trade.security.0,
            traded(trade.quantity),
            trade.price.0,
        )
    })
}

/// Excludes today's trade of that number; the number stays used today.
pub fn exclude(book: &mut [u8], number: Number) -> Result<(), Refusal> {
    // SAFETY: see the head of this module.
    Refusal::check(unsafe { ffi::wick_exclude(book.as_mut_ptr(), book.len(), number.0) })
}

/// Adds shares to what an account holds.
pub fn deposit(
    book: &mut [u8],
    account: Account,
    security: Security,
    quantity: Quantity,
) -> Result<(), Refusal> {
    // SAFETY: see the head of this module.
    Refusal::check(unsafe {
        ffi::wick_deposit(book.as_mut_ptr(), book.len(), account.0, security.0, quantity.0)
    })
}

/// Takes shares from what an account holds.
pub fn withdraw(
    book: &mut [u8],
    account: Account,
    security: Security,
    quantity: Quantity,
) -> Result<(), Refusal> {
    // SAFETY: see the head of this module.
    Refusal::check(unsafe {
        ffi::wick_withdraw(book.as_mut_ptr(), book.len(), account.0, security.0, quantity.0)
    })
}

/// The day roll.
pub fn roll(book: &mut [u8]) -> Result<(), Refusal> {
    // SAFETY: see the head of this module.
    Refusal::check(unsafe { ffi::wick_roll(book.as_mut_ptr(), book.len()) })
}

/// The settlement run for one security; the shares moved.
pub fn run(book: &mut [u8], security: Security) -> Result<Quantity, Refusal> {
    let mut moved = 0;
    // SAFETY: see the head of this module; `moved` is a variable of its own.
    let number = unsafe { ffi::wick_run(book.as_mut_ptr(), book.len(), security.0, &mut moved) };
    Refusal::check(number).map(|()| Quantity(moved))
}

/// The price of a security: the intraday table's entry, or, if that is 0, the closing table's.
pub fn price(intraday: &[u8], closing: &[u8], security: Security) -> Result<Price, Refusal> {
    let mut price = 0;
    // SAFETY: see the head of this module; both tables are only read.
    let number = unsafe {
        ffi::wick_price(
            intraday.as_ptr(),
            intraday.len(),
            closing.as_ptr(),
            closing.len(),
            security.0,
            &mut price,
        )
    };
    Refusal::check(number).map(|()| Price(price))
}

/// What an account would lose at some prices.
#[derive(Clone, Copy, Debug, Default, PartialEq, Eq)]
pub struct Marks {
    /// The net loss in the base currency; 0 if the net is a gain.
    pub due: Mils,
    /// The sum of marks in each currency, not converted.
    pub sums: [Gain; 4],
}

/// The marks of an account: price tables of 128 bytes, `rates` in millionths of a base unit, `haircuts` in basis points, four
/// of each, one for each currency.
pub fn marks(
    book: &[u8],
    account: Account,
    intraday: &[u8],
    closing: &[u8],
    rates: &[u32],
    haircuts: &[u32],
) -> Result<Marks, Refusal> {
    let (mut due, mut sum0, mut sum1, mut sum2, mut sum3) = (0, 0, 0, 0, 0);
    // SAFETY: see the head of this module; each figure is a variable of its own.
    let number = unsafe {
        ffi::wick_marks(
            book.as_ptr(),
            book.len(),
            account.0,
            intraday.as_ptr(),
            intraday.len(),
            closing.as_ptr(),
            closing.len(),
            rates.as_ptr(),
            rates.len(),
            haircuts.as_ptr(),
            haircuts.len(),
            &mut due,
            &mut sum0,
            &mut sum1,
            &mut sum2,
            &mut sum3,
        )
    };
    Refusal::check(number).map(|()| Marks { due: Mils(due), sums: [sum0, sum1, sum2, sum3].map(Gain) })
}

/// The answer of one record of a call file.
#[derive(Clone, Copy, Debug, PartialEq, Eq)]
pub enum Answer {
    /// Its call was accepted; the shares that it moved if it was a run, else 0.
    Accepted(Quantity),
    /// Its call was refused and altered nothing.
    Refused(Refusal),
    /// It cannot be read (19): where it begins. Nothing behind it is read.
    Unreadable(Place),
}

impl Answer {
    fn of(number: u8, figure: u64) -> Answer {
        match Refusal::check(number) {
            Ok(()) => Answer::Accepted(Quantity(figure)),
            // a place is below 65,535
            Err(Refusal::Unreadable) => Answer::Unreadable(Place(figure as u32)),
            Err(refusal) => Answer::Refused(refusal),
        }
    }
}

/// What stands at a place of a call file, played.
#[derive(Clone, Copy, Debug, PartialEq, Eq)]
pub enum Record {
    /// A record, and the place behind it, where the next begins.
    Played(Answer, Place),
    /// The file's end: there is no record.
    End,
    /// A 19, at its place. Nothing behind it is to be read.
    Unreadable(Place),
    /// 18: the file is too long, or the book has another length. Nothing was read.
    Refused,
}

/// The record that begins at a place of a call file, as a call of its own. Begin with [`FIRST`], and go on with the place that
/// each answer gives: **any place is played as it stands**, and one inside a record may read as another record.
pub fn record(book: &mut [u8], file: &[u8], place: Place) -> Record {
    let (mut figure, mut next) = (0, 0);
    // SAFETY: see the head of this module; each figure is a variable of its own.
    let number = unsafe {
        ffi::wick_record(
            book.as_mut_ptr(),
            book.len(),
            file.as_ptr(),
            file.len(),
            place.0,
            &mut figure,
            &mut next,
        )
    };
    match (Answer::of(number, figure), next) {
        (Answer::Unreadable(place), _) => Record::Unreadable(place),
        (Answer::Accepted(_), 0) => Record::End,
        (Answer::Refused(_), 0) => Record::Refused,
        (answer, next) => Record::Played(answer, Place(next)),
    }
}

/// Where the first record of a file begins, its create.
pub const FIRST: Place = Place(1);
/// Where the record behind the create begins: from here a file is played on a book that there is.
pub const AFTER_CREATE: Place = Place(36);

/// A whole call file; how many bytes its answers take, 9 for each record. [`answers`] reads them.
pub fn play(book: &mut [u8], file: &[u8], answers: &mut [u8]) -> Result<usize, Refusal> {
    let mut size = 0;
    // SAFETY: see the head of this module; `size` is a variable of its own.
    let number = unsafe {
        ffi::wick_play(
            book.as_mut_ptr(),
            book.len(),
            file.as_ptr(),
            file.len(),
            answers.as_mut_ptr(),
            answers.len(),
            &mut size,
        )
    };
    Refusal::check(number).map(|()| size)
}

/// The answers that [`play`] wrote.
pub fn answers(bytes: &[u8]) -> impl Iterator<Item = Answer> + '_ {
    bytes
        .as_chunks::<9>()
        .0
        .iter()
        .map(|&[number, ref figure @ ..]| Answer::of(number, u64::from_be_bytes(*figure)))
}

/// The sheet of a whole call file, as text; how long it is.
pub fn sheet(book: &mut [u8], file: &[u8], buffer: &mut [u8]) -> Result<usize, Refusal> {
    let mut size = 0;
    // SAFETY: see the head of this module; `size` is a variable of its own.
    let number = unsafe {
        ffi::wick_sheet(
            book.as_mut_ptr(),
            book.len(),
            file.as_ptr(),
            file.len(),
            buffer.as_mut_ptr(),
            buffer.len(),
            &mut size,
        )
    };
    Refusal::check(number).map(|()| size)
}
