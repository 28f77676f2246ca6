//! Each public call over lent bytes: the same calls, answers and bytes as `include/wickdamson.h` has. "A refusal returns
//! its number, zero in each figure (but 19 its byte place), an empty part where a part is returned; book, tally and output
//! buffers keep their bytes."

use crate::book::{Book, Trade};
use crate::file::{item, play as play_file, Answer, Call, Item, MAX_FILE};
use crate::layout::BOOK;
use crate::marks::Marks;
use crate::refusal::Refusal;
use crate::sheet::sheet as sheet_of;

pub use crate::lines::{write_line, Line, Tally};
pub use crate::marks::price;

/// Reads a sound book, makes a call on it and writes back what the call altered.
fn on_book<T, U>(
    bytes: &mut [u8],
    call: impl FnOnce(&mut Book) -> Result<T, Refusal>,
    store: impl FnOnce(&Book, &mut [u8; BOOK], T) -> U,
) -> Result<U, Refusal> {
    let bytes = room(bytes).ok_or(Refusal::NotSound)?;
    let mut book = Book::decode(bytes)?;
    let done = call(&mut book)?;
    Ok(store(&book, bytes, done))
}

/// The bytes, if they are as many as a book has.
fn room(bytes: &mut [u8]) -> Option<&mut [u8; BOOK]> {
    bytes.try_into().ok()
}

/// "Creation: 18, 3; it begins a new history."
pub fn create(book: &mut [u8], codes: &[u8]) -> Result<(), Refusal> {
    let book = room(book).ok_or(Refusal::Length)?;
    let codes = codes.try_into().map_err(|_| Refusal::Length)?;
    Book::create(codes)?.encode(book);
    Ok(())
}

pub fn enter(book: &mut [u8], number: u32, trade: Trade) -> Result<(), Refusal> {
    on_book(book, |book| book.enter(number, trade), Book::encode_entry)
}

pub fn amend(book: &mut [u8], number: u32, trade: Trade) -> Result<(), Refusal> {
    on_book(book, |book| book.amend(number, trade), Book::encode_entry)
}

pub fn exclude(book: &mut [u8], number: u32) -> Result<(), Refusal> {
    on_book(book, |book| book.exclude(number), Book::encode_entry)
}

pub fn deposit(book: &mut [u8], account: u32, security: u32, quantity: u64) -> Result<(), Refusal> {
    on_book(
        book,
        |book| book.deposit(account, security, quantity),
        |book, bytes, (account, security)| book.encode_holding(bytes, account, security),
    )
}

pub fn withdraw(book: &mut [u8], account: u32, security: u32, quantity: u64) -> Result<(), Refusal> {
    on_book(
        book,
        |book| book.withdraw(account, security, quantity),
        |book, bytes, (account, security)| book.encode_holding(bytes, account, security),
    )
}

pub fn roll(book: &mut [u8]) -> Result<(), Refusal> {
    on_book(book, Book::roll, |book, bytes, ()| book.encode_day(bytes))
}

/// The shares moved.
pub fn run(book: &mut [u8], security: u32) -> Result<u64, Refusal> {
    on_book(
        book,
        |book| book.run(security),
        |book, bytes, moved| {
            if moved > 0 {
                book.encode_run(bytes, security);
            }
            moved
        },
    )
}

pub fn marks(
    book: &[u8],
    account: u32,
    intraday: &[u8],
    closing: &[u8],
    rates: &[u32],
    haircuts: &[u32],
) -> Result<Marks, Refusal> {
    Book::decode(book)?.marks(account, intraday, closing, rates, haircuts)
}

/// What one record of a file answers.
#[derive(Clone, Copy, Debug, PartialEq, Eq)]
pub struct Record {
    pub answer: Answer,
    /// The place behind the record, or 0 where nothing is to follow.
    pub next: u32,
}

/// The record that begins at a place of a file, as a call of its own.
pub fn record(book: &mut [u8], file: &[u8], place: u32) -> Record {
    let last = |answer| Record { answer, next: 0 };
    let Some(bytes) = room(book).filter(|_| file.len() <= MAX_FILE) else {
        return last(Answer::of(Err(Refusal::Length)));
    };
    match item(file, place as usize) {
        Item::Record(call, next) => {
            let answer = Answer::of(make(bytes, call));
            Record { answer, next: next as u32 }
        }
        Item::Unreadable(place) => last(Answer::unreadable(place)),
        Item::End => last(Answer::of(Ok(0))),
    }
}

/// The call of a record, on lent bytes.
fn make(book: &mut [u8; BOOK], call: Call) -> Result<u64, Refusal> {
    match call {
        Call::Create(codes) => create(book, &codes).map(|()| 0),
        Call::Enter(number, trade) => enter(book, number, trade).map(|()| 0),
        Call::Amend(number, trade) => amend(book, number, trade).map(|()| 0),
        Call::Exclude(number) => exclude(book, number).map(|()| 0),
        Call::Roll => roll(book).map(|()| 0),
        Call::Deposit { account, security, quantity } => {
            deposit(book, account, security, quantity).map(|()| 0)
        }
        Call::Withdraw { account, security, quantity } => {
            withdraw(book, account, security, quantity).map(|()| 0)
        }
        Call::Run(security) => run(book, security),
    }
}

/// Bytes of one answer of a whole file: its number, and its figure, big-endian.
pub const ANSWER: usize = 9;

/// A whole file; how many bytes its answers take. Refused by 18 for a file past 65,535 bytes, for a book of wrong length
/// and for answers that do not fit.
pub fn play(book: &mut [u8], file: &[u8], answers: &mut [u8]) -> Result<usize, Refusal> {
    let bytes = room(book).filter(|_| file.len() <= MAX_FILE).ok_or(Refusal::Length)?;
    let mut all = Vec::with_capacity(answers.len().min(ANSWER * (file.len() / 3 + 1)));
    let played = play_file(file, |answer| {
        all.push(answer.number);
        all.extend_from_slice(&answer.figure.to_be_bytes());
    });
    let part = answers.get_mut(..all.len()).ok_or(Refusal::Length)?;
    part.copy_from_slice(&all);
    if let Some(played) = played {
        played.encode(bytes);
    }
    Ok(all.len())
}

/// The sheet of a whole file; how long it is. Refused by 18 for a book of wrong length and for a sheet that does not fit.
pub fn sheet(book: &mut [u8], file: &[u8], buffer: &mut [u8]) -> Result<usize, Refusal> {
    let bytes = room(book).ok_or(Refusal::Length)?;
    let (text, played) = sheet_of(file);
    let part = buffer.get_mut(..text.len()).ok_or(Refusal::Length)?;
    part.copy_from_slice(&text);
    if let Some(played) = played {
        played.encode(bytes);
    }
    Ok(text.len())
}
