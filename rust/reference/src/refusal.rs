//! "Refusal numbers": why a call was refused, by the number of document 01's table.

use std::fmt;

/// A refusal; its number is its value as `u8`.
#[derive(Clone, Copy, Debug, PartialEq, Eq, Hash, PartialOrd, Ord)]
#[repr(u8)]
pub enum Refusal {
    /// "book not sound"
    NotSound = 1,
    /// "account above 63"
    Account = 2,
    /// "security above 31 or unlisted; at creation, a currency code other than 0 to 3 or 255"
    Security = 3,
    /// "trade quantity outside 1 to 1,000,000; deposit or withdrawal outside 1 to 10^12"
    Quantity = 4,
    /// "price outside 1 to 9,999,999; in a price table, any entry above 9,999,999"
    Price = 5,
    /// "buyer and seller the same account"
    SameAccount = 6,
    /// "enter: trade number 0, or used today, excluded ones too"
    NumberUsed = 7,
    /// "amend or exclude: number not in today's list, or excluded"
    NumberUnknown = 8,
    /// "enter: today's list already has 256 numbers, excluded ones counted"
    ListFull = 9,
    /// "roll: open positions plus today's nets, counted before any offset, pass 1,024"
    TableFull = 10,
    /// "withdrawal above what the account holds"
    NotHeld = 11,
    /// "deposit takes the security's total over all accounts past 10^12"
    TotalPast = 12,
    /// "run: deliverable shares exceed the receivers' total"
    Undeliverable = 13,
    /// "roll on day 60,000"
    LastDay = 14,
    /// "rate outside 1 to 100,000,000; haircut above 10,000; base not rate 1,000,000 with haircut 0"
    Rate = 15,
    /// "either converted mark total passes 9*10^18"
    MarkPast = 16,
    /// "neither price table has a price (0 means none)"
    NoPrice = 17,
    /// "a buffer or table has the wrong length, or the line doesn't fit, or the file exceeds 65,535 bytes"
    Length = 18,
    /// "file record unreadable"
    Unreadable = 19,
}

impl Refusal {
    /// The number of document 01's table.
    pub fn number(self) -> u8 {
        self as u8
    }
}

impl fmt::Display for Refusal {
    fn fmt(&self, f: &mut fmt::Formatter<'_>) -> fmt::Result {
        write!(f, "refusal {}: {:?}", self.number(), self)
    }
}

impl std::error::Error for Refusal {}

/// The number of an answer: 0 for an accepted call.
pub fn number<T>(answer: &Result<T, Refusal>) -> u8 {
    match answer {
        Ok(_) => 0,
        Err(refusal) => refusal.number(),
    }
}
