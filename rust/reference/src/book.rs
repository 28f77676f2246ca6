//! The book as a value.

use crate::layout::{ACCOUNTS, CURRENCIES, MAX_POSITIONS, MAX_TRADES, SECURITIES, UNLISTED};
use crate::refusal::Refusal;
use crate::units::{part, Mils, Price, Shares};

/// "One book for one clearing house". A value of this type is a sound book: [`Book::decode`](crate::sound) makes one
/// only of sound bytes, and every call keeps it sound.
#[derive(Clone, Debug, PartialEq, Eq)]
pub struct Book {
    pub(crate) day: u16,
    /// The currency of each security, or 255 for unlisted.
    pub(crate) codes: [u8; SECURITIES],
    /// By ascending number.
    pub(crate) positions: Vec<Position>,
    /// By account, then security.
    pub(crate) holdings: Box<[[u64; SECURITIES]; ACCOUNTS]>,
    /// The day's charges, by account, then currency.
    pub(crate) charges: [[Mils; CURRENCIES]; ACCOUNTS],
    /// Today's list, in the order of entry.
    pub(crate) trades: Vec<Entry>,
}

/// A record of the position table.
#[derive(Clone, Copy, Debug, PartialEq, Eq)]
pub struct Position {
    pub number: u32,
    pub shares: Shares,
    pub money: Mils,
}

/// One number of today's list: "an excluded one keeps its number and order, other fields zero".
#[derive(Clone, Copy, Debug, PartialEq, Eq)]
pub struct Entry {
    pub number: u32,
    /// `None` for an excluded one.
    pub trade: Option<Trade>,
}

/// The fields of a trade, all but its number.
#[derive(Clone, Copy, Debug, PartialEq, Eq)]
pub struct Trade {
    pub buyer: u32,
    pub seller: u32,
    pub security: u32,
    pub quantity: u32,
    pub price: Price,
}

impl Position {
    /// "Position number = due day * 2,048 + account * 32 + security"
    pub fn numbered(due: u32, pair: usize) -> u32 {
        due * 2_048 + pair as u32
    }

    pub fn due(&self) -> u32 {
        self.number / 2_048
    }

    /// account * 32 + security
    pub fn pair(&self) -> usize {
        (self.number % 2_048) as usize
    }

    pub fn account(&self) -> usize {
        self.pair() / SECURITIES
    }

    pub fn security(&self) -> usize {
        self.pair() % SECURITIES
    }

    /// Takes a part of `k` shares from the record; its money is handed back, "the rest stays on the record".
    pub fn take(&mut self, k: u64) -> Mils {
        let carried = part(self.money, self.shares, k);
        self.money -= carried;
        self.shares = self.shares.without(k);
        carried
    }
}

impl Book {
    /// "An empty book has day 0 and nothing but its currency table." Refused by 3 for "a currency code other than 0 to 3
    /// or 255".
    pub fn create(codes: [u8; SECURITIES]) -> Result<Book, Refusal> {
        if !codes.iter().all(|&code| is_code(code)) {
            return Err(Refusal::Security);
        }
        Ok(Book {
            day: 0,
            codes,
            positions: Vec::with_capacity(MAX_POSITIONS),
            holdings: Box::new([[0; SECURITIES]; ACCOUNTS]),
            charges: [[Mils::ZERO; CURRENCIES]; ACCOUNTS],
            trades: Vec::with_capacity(MAX_TRADES),
        })
    }

    pub fn day(&self) -> u16 {
        self.day
    }

    pub fn positions(&self) -> &[Position] {
        &self.positions
    }

    pub fn charges(&self) -> &[[Mils; CURRENCIES]; ACCOUNTS] {
        &self.charges
    }

    /// "security above 31 or unlisted" is refused by 3.
    pub(crate) fn listed(&self, security: u32) -> Result<usize, Refusal> {
        match self.codes.get(security as usize) {
            None | Some(&UNLISTED) => Err(Refusal::Security),
            Some(_) => Ok(security as usize),
        }
    }

    /// The records "due by the book's day": those with the smaller numbers.
    pub(crate) fn due_count(&self) -> usize {
        let first_later = Position::numbered(u32::from(self.day) + 1, 0);
        self.positions.partition_point(|p| p.number < first_later)
    }

    /// Records at 0 shares go, of those that are due.
    pub(crate) fn drop_settled(&mut self) {
        let first_later = Position::numbered(u32::from(self.day) + 1, 0);
        self.positions.retain(|p| !p.shares.is_zero() || p.number >= first_later);
    }
}

/// "account above 63" is refused by 2.
pub(crate) fn account(account: u32) -> Result<usize, Refusal> {
    if (account as usize) < ACCOUNTS {
        Ok(account as usize)
    } else {
        Err(Refusal::Account)
    }
}

/// "Each security has a currency, or 255 for unlisted."
pub(crate) fn is_code(code: u8) -> bool {
    usize::from(code) < CURRENCIES || code == UNLISTED
}
