//! "Call file": its records, each a call of its own, and the whole file.

use crate::book::{is_code, Book, Trade};
use crate::layout::SECURITIES;
use crate::refusal::Refusal;
use crate::units::Price;

/// "the file exceeds 65,535 bytes"
pub const MAX_FILE: usize = 65_535;
/// "One version byte, 1."
const VERSION: u8 = 1;
/// Where the first record begins, and only a create may.
pub const FIRST: usize = 1;

/// What a record asks for.
#[derive(Clone, Copy, Debug, PartialEq, Eq)]
pub enum Call {
    Create([u8; SECURITIES]),
    Enter(u32, Trade),
    Amend(u32, Trade),
    Exclude(u32),
    Roll,
    Deposit { account: u32, security: u32, quantity: u64 },
    Withdraw { account: u32, security: u32, quantity: u64 },
    Run(u32),
}

/// What stands at a place of a file.
#[derive(Clone, Copy, Debug, PartialEq, Eq)]
pub enum Item {
    /// A record, and the place behind it.
    Record(Call, usize),
    /// A 19, with "the byte place where the record begins (0 for the version)".
    Unreadable(usize),
    /// Nothing: the place is at the file's end or behind it.
    End,
}

/// What begins at `place` of a file. "an empty file, a version with no record after it (place 1)" are unreadable.
pub fn item(file: &[u8], place: usize) -> Item {
    if file.first() != Some(&VERSION) {
        return Item::Unreadable(0);
    }
    if place >= file.len() && place != FIRST {
        return Item::End;
    }
    // A file with records ends at a place other than 1.
    match record(file, place) {
        Some((call, next)) => Item::Record(call, next),
        None => Item::Unreadable(place),
    }
}

/// "records, each with a 2-byte big-endian length of what follows it, a kind byte and fields, all big-endian [...].
/// Create stands first and only there."
fn record(file: &[u8], place: usize) -> Option<(Call, usize)> {
    let (length, rest) = file.get(place..)?.split_first_chunk()?;
    let length = usize::from(u16::from_be_bytes(*length));
    let call = call(rest.get(..length)?)?;
    let first = matches!(call, Call::Create(_));
    (first == (place == FIRST)).then_some((call, place + 2 + length))
}

fn call(body: &[u8]) -> Option<Call> {
    let (&kind, fields) = body.split_first()?;
    Some(match (kind, fields) {
        (0, codes) => {
            let codes: [u8; SECURITIES] = codes.try_into().ok()?;
            if !codes.iter().all(|&code| is_code(code)) {
                return None; // "a bad currency code in create"
            }
            Call::Create(codes)
        }
        (1, fields) => {
            let (number, trade) = trade(fields)?;
            Call::Enter(number, trade)
        }
        (2, fields) => {
            let (number, trade) = trade(fields)?;
            Call::Amend(number, trade)
        }
        (3, &[n0, n1]) => Call::Exclude(u16::from_be_bytes([n0, n1]).into()),
        (4, []) => Call::Roll,
        (5, &[account, security, ref quantity @ ..]) => {
            Call::Deposit { account: account.into(), security: security.into(), quantity: u64_of(quantity)? }
        }
        (6, &[account, security, ref quantity @ ..]) => {
            Call::Withdraw { account: account.into(), security: security.into(), quantity: u64_of(quantity)? }
        }
        (7, &[security]) => Call::Run(security.into()),
        _ => return None,
    })
}

/// "number 2 bytes, buyer, seller, security 1 each, quantity 4, price 4"
fn trade(fields: &[u8]) -> Option<(u32, Trade)> {
    let &[n0, n1, buyer, seller, security, q0, q1, q2, q3, p0, p1, p2, p3] = fields else {
        return None;
    };
    let quantity = u32::from_be_bytes([q0, q1, q2, q3]);
    let price = Price(u32::from_be_bytes([p0, p1, p2, p3]));
    let [buyer, seller, security] = [buyer, seller, security].map(u32::from);
    Some((u16::from_be_bytes([n0, n1]).into(), Trade { buyer, seller, security, quantity, price }))
}

fn u64_of(field: &[u8]) -> Option<u64> {
    Some(u64::from_be_bytes(field.try_into().ok()?))
}

/// The answer of one record, as one call.
#[derive(Clone, Copy, Debug, PartialEq, Eq)]
pub struct Answer {
    /// 0 for an accepted call, or the refusal.
    pub number: u8,
    /// The shares a run moved, or the place of a 19.
    pub figure: u64,
}

impl Answer {
    pub(crate) fn of(result: Result<u64, Refusal>) -> Answer {
        match result {
            Ok(figure) => Answer { number: 0, figure },
            Err(refusal) => Answer { number: refusal.number(), figure: 0 },
        }
    }

    pub(crate) fn unreadable(place: usize) -> Answer {
        Answer { number: Refusal::Unreadable.number(), figure: place as u64 }
    }
}

impl Book {
    /// Makes the call of a record; the shares that a run moved, else 0.
    pub fn call(&mut self, call: Call) -> Result<u64, Refusal> {
        match call {
            Call::Create(codes) => Book::create(codes).map(|created| *self = created).map(|()| 0),
            Call::Enter(number, trade) => self.enter(number, trade).map(|_| 0),
            Call::Amend(number, trade) => self.amend(number, trade).map(|_| 0),
            Call::Exclude(number) => self.exclude(number).map(|_| 0),
            Call::Roll => self.roll().map(|()| 0),
            Call::Deposit { account, security, quantity } => {
                self.deposit(account, security, quantity).map(|_| 0)
            }
            Call::Withdraw { account, security, quantity } => {
                self.withdraw(account, security, quantity).map(|_| 0)
            }
            Call::Run(security) => self.run(security),
        }
    }
}

/// A file of at most [`MAX_FILE`] bytes, played: "records in order; each record is a call of its own, and those before
/// a 19 stand". Every answer is handed to `answered`; the book is there if its create was read.
pub fn play(file: &[u8], mut answered: impl FnMut(Answer)) -> Option<Book> {
    let mut book: Option<Book> = None;
    let mut place = FIRST;
    loop {
        match item(file, place) {
            Item::Record(call, next) => {
                answered(Answer::of(match (&mut book, call) {
                    (Some(book), call) => book.call(call),
                    (none, Call::Create(codes)) => {
                        Book::create(codes).map(|created| *none = Some(created)).map(|()| 0)
                    }
                    (None, _) => unreachable!("the record at place 1 is a create"),
                }));
                place = next;
            }
            Item::Unreadable(at) => {
                answered(Answer::unreadable(at));
                return book;
            }
            Item::End => return book,
        }
    }
}

#[cfg(test)]
mod tests {
    use super::*;

    /// Version and create with security 0 in currency 0, and then `rest`.
    fn created(rest: &[u8]) -> Vec<u8> {
        let mut file = vec![1, 0, 33, 0, 0];
        file.resize(36, 255);
        file.extend(rest);
        file
    }

    fn place_of_19(file: &[u8]) -> Option<u64> {
        let mut last = None;
        play(file, |answer| last = Some(answer));
        last.filter(|answer| answer.number == 19).map(|answer| answer.figure)
    }

    #[test]
    fn every_sort_of_damage() {
        assert_eq!(place_of_19(&[]), Some(0));
        assert_eq!(place_of_19(&[2]), Some(0));
        assert_eq!(place_of_19(&[1]), Some(1));
        assert_eq!(place_of_19(&[1, 0]), Some(1));
        assert_eq!(place_of_19(&[1, 0, 1, 4]), Some(1));
        assert_eq!(place_of_19(&created(&[])), None);
        let mut bad_code = created(&[]);
        bad_code[4] = 4;
        assert_eq!(place_of_19(&bad_code), Some(1));
        assert_eq!(place_of_19(&created(&[])[..35]), Some(1));
        let second_create = created(&created(&[])[1..]);
        assert_eq!(place_of_19(&second_create), Some(36));
        for rest in [&[0, 1, 8][..], &[0, 2, 4, 0], &[0], &[0, 0], &[0, 1], &[0, 3, 3, 0]] {
            assert_eq!(place_of_19(&created(rest)), Some(36), "{rest:?}");
        }
        assert_eq!(place_of_19(&created(&[0, 1, 4, 0, 14, 1, 0, 1])), Some(39));
    }

    /// The ladder of refusals after a create.
    #[test]
    fn ladder() {
        let enter = |number: u8, buyer, seller, security, quantity: u8, price: u8| {
            [0, 14, 1, 0, number, buyer, seller, security, 0, 0, 0, quantity, 0, 0, 0, price].to_vec()
        };
        let moved = |kind, quantity: u64| {
            let mut record = vec![0, 11, kind, 1, 0];
            record.extend(quantity.to_be_bytes());
            record
        };
        let records = [
            (enter(0, 64, 64, 99, 0, 0), 2),
            (enter(0, 1, 1, 99, 0, 0), 3),
            (enter(0, 1, 1, 0, 0, 0), 4),
            (enter(0, 1, 1, 0, 1, 0), 5),
            (enter(0, 1, 1, 0, 1, 1), 6),
            (enter(0, 1, 2, 0, 1, 1), 7),
            (vec![0, 3, 3, 0, 5], 8),
            (moved(5, 0), 4),
            (moved(6, 1), 11),
            (moved(5, 1_000_000_000_000), 0),
            (moved(5, 1), 12),
            (vec![0, 2, 7, 1], 3),
            (vec![0, 2, 7, 0], 0),
        ];
        let file = created(&records.iter().flat_map(|(record, _)| record.clone()).collect::<Vec<_>>());
        let mut numbers = Vec::new();
        play(&file, |answer| numbers.push(answer.number));
        let expected: Vec<u8> = std::iter::once(0).chain(records.iter().map(|r| r.1)).collect();
        assert_eq!(numbers, expected);
    }
}
