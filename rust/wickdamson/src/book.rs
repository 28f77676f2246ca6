//! A book that owns its bytes.

use crate::bytes::{self, Answer, Marks, Record, Trade};
use crate::refusal::Refusal;
use crate::units::{
    Account, Closing, Haircut, Intraday, Mils, Number, Place, Price, Quantity, Rate, Security, Shares,
};
use crate::{ANSWERS_BYTES, BOOK_BYTES, SHEET_BYTES};
use std::fmt;

/// A currency of the house.
#[derive(Clone, Copy, Debug, PartialEq, Eq, Hash)]
#[repr(u8)]
pub enum Currency {
    Base = 0,
    Second = 1,
    Third = 2,
    Fourth = 3,
}

/// A record of the position table.
#[derive(Clone, Copy, Debug, PartialEq, Eq)]
pub struct Position {
    /// due day * 2,048 + account * 32 + security
    pub number: u32,
    pub shares: Shares,
    pub money: Mils,
}

impl Position {
    pub fn due_day(&self) -> u32 {
        self.number / 2_048
    }

    pub fn account(&self) -> Account {
        Account(self.number / 32 % 64)
    }

    pub fn security(&self) -> Security {
        Security(self.number % 32)
    }
}

/// The book of one clearing house: 42,278 bytes, laid out as `docs/BOOK.md` says.
///
/// A `Book` is sound: it is created, played, or made of bytes that were tested, and every call leaves it sound. (The calls
/// test it all the same, before anything else.)
#[derive(Clone, PartialEq, Eq)]
pub struct Book {
    bytes: Box<[u8]>,
}

impl Book {
    /// An empty book, with the currency of each security, or `None` for one that is not listed.
    pub fn create(currencies: &[Option<Currency>; 32]) -> Result<Book, Refusal> {
        let mut bytes = room();
        let codes = currencies.map(|currency| currency.map_or(255, |currency| currency as u8));
        bytes::create(&mut bytes, &codes)?;
        Ok(Book { bytes })
    }

    /// The book that the bytes are. Bytes that are no sound book are refused by [`Refusal::NotSound`], another length than
    /// [`BOOK_BYTES`] among them. (A sound book may still be a damaged one: keep a hash of what you keep.)
    pub fn from_bytes(bytes: impl Into<Box<[u8]>>) -> Result<Book, Refusal> {
        let bytes = bytes.into();
        if bytes::is_sound(&bytes) {
            Ok(Book { bytes })
        } else {
            Err(Refusal::NotSound)
        }
    }

    /// Whether the book is sound, tested anew.
    pub fn is_sound(&self) -> bool {
        bytes::is_sound(&self.bytes)
    }

    pub fn as_bytes(&self) -> &[u8] {
        &self.bytes
    }

    pub fn into_bytes(self) -> Box<[u8]> {
        self.bytes
    }

    /// Enters a trade at the end of today's list.
    pub fn enter(&mut self, number: Number, trade: &Trade) -> Result<(), Refusal> {
        bytes::enter(&mut self.bytes, number, trade)
    }

    /// Replaces every field of today's trade of that number; it keeps its place.
    pub fn amend(&mut self, number: Number, trade: &Trade) -> Result<(), Refusal> {
        bytes::amend(&mut self.bytes, number, trade)
    }

    /// Excludes today's trade of that number; the number stays used today.
    pub fn exclude(&mut self, number: Number) -> Result<(), Refusal> {
        bytes::exclude(&mut self.bytes, number)
    }

    /// Adds shares to what an account holds.
    pub fn deposit(
        &mut self,
        account: Account,
        security: Security,
        quantity: Quantity,
    ) -> Result<(), Refusal> {
        bytes::deposit(&mut self.bytes, account, security, quantity)
    }

    /// Takes shares from what an account holds.
    pub fn withdraw(
        &mut self,
        account: Account,
        security: Security,
        quantity: Quantity,
    ) -> Result<(), Refusal> {
        bytes::withdraw(&mut self.bytes, account, security, quantity)
    }

    /// The day roll.
    pub fn roll(&mut self) -> Result<(), Refusal> {
        bytes::roll(&mut self.bytes)
    }

    /// The settlement run for one security; the shares moved.
    pub fn run(&mut self, security: Security) -> Result<Quantity, Refusal> {
        bytes::run(&mut self.bytes, security)
    }

    /// The marks of an account; a rate and a haircut for each currency, used or not.
    pub fn marks(
        &self,
        account: Account,
        intraday: &Intraday,
        closing: &Closing,
        rates: &[Rate; 4],
        haircuts: &[Haircut; 4],
    ) -> Result<Marks, Refusal> {
        let (rates, haircuts) = (rates.map(|rate| rate.0), haircuts.map(|haircut| haircut.0));
        bytes::marks(&self.bytes, account, &intraday.table(), &closing.table(), &rates, &haircuts)
    }

    /// The record that begins at a place of a call file, as a call of its own (see [`bytes::record`]). The create at
    /// [`bytes::FIRST`] makes this book a new one; [`bytes::AFTER_CREATE`] goes on with the book as it is.
    pub fn record(&mut self, file: &[u8], place: Place) -> Record {
        bytes::record(&mut self.bytes, file, place)
    }

    /// The book's day.
    pub fn day(&self) -> u16 {
        u16::from_be_bytes(self.field(0))
    }

    /// The records of the position table, by ascending number.
    pub fn positions(&self) -> impl Iterator<Item = Position> + '_ {
        let count = usize::from(u16::from_be_bytes(self.field(34)));
        (0..count.min(1_024)).map(|row| 36 + row * 20).map(|at| Position {
            number: u32::from_be_bytes(self.field(at)),
            shares: Shares(i64::from_be_bytes(self.field(at + 4))),
            money: Mils(i64::from_be_bytes(self.field(at + 12))),
        })
    }

    /// What an account holds of a security; `None` for one that there is not.
    pub fn holding(&self, account: Account, security: Security) -> Option<Quantity> {
        let (account, security) = (account.0 as usize, security.0 as usize);
        (account < 64 && security < 32)
            .then(|| Quantity(u64::from_be_bytes(self.field(20_516 + (account * 32 + security) * 8))))
    }

    /// What an account is charged today in a currency; `None` for an account that there is not.
    pub fn charge(&self, account: Account, currency: Currency) -> Option<Mils> {
        let account = account.0 as usize;
        (account < 64)
            .then(|| Mils(i64::from_be_bytes(self.field(36_900 + (account * 4 + currency as usize) * 8))))
    }

    fn field<const N: usize>(&self, at: usize) -> [u8; N] {
        std::array::from_fn(|place| self.bytes[at + place])
    }
}

impl fmt::Debug for Book {
    fn fmt(&self, f: &mut fmt::Formatter<'_>) -> fmt::Result {
        let positions: Vec<Position> = self.positions().collect();
        f.debug_struct("Book")
            .field("day", &self.day())
            .field("positions", &positions)
            .finish_non_exhaustive()
    }
}

/// Room for a book that is yet to be made.
fn room() -> Box<[u8]> {
    vec![0; BOOK_BYTES].into()
}

/// The price of a security: the intraday entry, or, if that is 0, the closing one.
pub fn price(intraday: &Intraday, closing: &Closing, security: Security) -> Result<Price, Refusal> {
    bytes::price(&intraday.table(), &closing.table(), security)
}

/// What a whole call file leaves.
#[derive(Clone, Debug, PartialEq, Eq)]
pub struct Played {
    /// There if the file's create was read.
    pub book: Option<Book>,
    /// One for each record; the last is a 19 if the file could not be read to its end.
    pub answers: Vec<Answer>,
}

/// Plays a whole call file.
pub fn play(file: &[u8]) -> Result<Played, Refusal> {
    let (mut bytes, mut answers) = (room(), vec![0; ANSWERS_BYTES]);
    let size = bytes::play(&mut bytes, file, &mut answers)?;
    let answers: Vec<Answer> = bytes::answers(&answers[..size]).collect();
    let created = matches!(answers.first(), Some(Answer::Accepted(_)));
    Ok(Played { book: created.then_some(Book { bytes }), answers })
}

/// The sheet of a whole call file, as text.
pub fn sheet(file: &[u8]) -> Result<Vec<u8>, Refusal> {
    let (mut book, mut text) = (room(), vec![0; SHEET_BYTES]);
    let size = bytes::sheet(&mut book, file, &mut text)?;
    text.truncate(size);
    Ok(text)
}
