//! Deposits and withdrawals.

use crate::book::{account, Book};
use crate::refusal::Refusal;
use crate::sound::MAX_HOLDING;

/// The pair that a deposit or withdrawal alters.
pub type Pair = (usize, usize);

impl Book {
    /// The checks that deposit and withdrawal share: 2, 3, 4.
    fn check_movement(&self, a: u32, security: u32, quantity: u64) -> Result<Pair, Refusal> {
        let pair = (account(a)?, self.listed(security)?);
        if !(1..=MAX_HOLDING).contains(&quantity) {
            return Err(Refusal::Quantity);
        }
        Ok(pair)
    }

    /// Refused by 12 if it "takes the security's total over all accounts past 10^12".
    pub fn deposit(&mut self, a: u32, security: u32, quantity: u64) -> Result<Pair, Refusal> {
        let (a, s) = self.check_movement(a, security, quantity)?;
        let total: u64 = self.holdings.iter().map(|account| account[s]).sum();
        if total + quantity > MAX_HOLDING {
            return Err(Refusal::TotalPast);
        }
        self.holdings[a][s] += quantity;
        Ok((a, s))
    }

    /// Refused by 11 if it is "above what the account holds".
    pub fn withdraw(&mut self, a: u32, security: u32, quantity: u64) -> Result<Pair, Refusal> {
        let (a, s) = self.check_movement(a, security, quantity)?;
        let held = &mut self.holdings[a][s];
        *held = held.checked_sub(quantity).ok_or(Refusal::NotHeld)?;
        Ok((a, s))
    }
}
