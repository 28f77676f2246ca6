//! "entry, amendment and exclusion of trades"

use crate::book::{account, Book, Entry, Trade};
use crate::layout::{ACCOUNTS, MAX_TRADES};
use crate::refusal::Refusal;

/// The largest trade number: it has two bytes. The header refuses a wider one by 7 at entry, and by 8 elsewhere.
const MAX_NUMBER: u32 = 65_535;
/// "trade quantity outside 1 to 1,000,000"
const MAX_QUANTITY: u32 = 1_000_000;
/// "price outside 1 to 9,999,999"
pub const MAX_PRICE: u32 = 9_999_999;

/// What enter checks by 2, 4, 5 and 6; whether the security is listed is the book's to say.
pub(crate) fn valid_fields(trade: &Trade) -> bool {
    (trade.buyer as usize) < ACCOUNTS
        && (trade.seller as usize) < ACCOUNTS
        && (1..=MAX_QUANTITY).contains(&trade.quantity)
        && (1..=MAX_PRICE).contains(&trade.price.0)
        && trade.buyer != trade.seller
}

impl Book {
    /// The checks of a trade's fields, "by ascending number": 2, 3, 4, 5, 6.
    fn check_trade(&self, trade: &Trade) -> Result<(), Refusal> {
        account(trade.buyer)?;
        account(trade.seller)?;
        self.listed(trade.security)?;
        if !(1..=MAX_QUANTITY).contains(&trade.quantity) {
            return Err(Refusal::Quantity);
        }
        if !(1..=MAX_PRICE).contains(&trade.price.0) {
            return Err(Refusal::Price);
        }
        if trade.buyer == trade.seller {
            return Err(Refusal::SameAccount);
        }
        Ok(())
    }

    /// Where a number stands in today's list and is not excluded; else 8.
    fn standing(&self, number: u32) -> Result<usize, Refusal> {
        self.trades
            .iter()
            .position(|entry| entry.number == number && entry.trade.is_some())
            .ok_or(Refusal::NumberUnknown)
    }

    /// Enters a trade; its place in today's list is handed back.
    pub fn enter(&mut self, number: u32, trade: Trade) -> Result<usize, Refusal> {
        self.check_trade(&trade)?;
        if number == 0 || number > MAX_NUMBER || self.trades.iter().any(|entry| entry.number == number) {
            return Err(Refusal::NumberUsed);
        }
        if self.trades.len() == MAX_TRADES {
            return Err(Refusal::ListFull);
        }
        self.trades.push(Entry { number, trade: Some(trade) });
        Ok(self.trades.len() - 1)
    }

    /// "An amendment replaces every field but the number; the trade keeps its place."
    pub fn amend(&mut self, number: u32, trade: Trade) -> Result<usize, Refusal> {
        self.check_trade(&trade)?;
        let place = self.standing(number)?;
        self.trades[place].trade = Some(trade);
        Ok(place)
    }

    /// "an excluded one keeps its number and order, other fields zero"
    pub fn exclude(&mut self, number: u32) -> Result<usize, Refusal> {
        let place = self.standing(number)?;
        self.trades[place].trade = None;
        Ok(place)
    }
}
