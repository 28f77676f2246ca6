//! "Marks": what an account would owe if its records were priced now; and the price question.

use crate::book::{account, Book};
use crate::layout::{CURRENCIES, SECURITIES};
use crate::refusal::Refusal;
use crate::trading::MAX_PRICE;
use crate::units::{Mils, Price};

/// "either converted mark total passes 9*10^18"
pub const MAX_TOTAL: u128 = 9_000_000_000_000_000_000;
/// "rate outside 1 to 100,000,000"
const MAX_RATE: u32 = 100_000_000;
/// "haircut above 10,000"
const MAX_HAIRCUT: u32 = 10_000;
/// "base not rate 1,000,000 with haircut 0"
const BASE_RATE: u32 = 1_000_000;

/// "each is 32 entries of 4 bytes, big-endian"
type Table = [[u8; 4]; SECURITIES];

/// "The answer has the due and four signed sums."
#[derive(Clone, Copy, Debug, Default, PartialEq, Eq)]
pub struct Marks {
    pub due: Mils,
    pub sums: [Mils; CURRENCIES],
}

/// The two price tables.
#[derive(Clone, Copy)]
pub struct Prices<'a> {
    intraday: &'a Table,
    closing: &'a Table,
}

impl<'a> Prices<'a> {
    /// Refused by 18 for another length.
    pub fn new(intraday: &'a [u8], closing: &'a [u8]) -> Result<Self, Refusal> {
        Ok(Prices { intraday: table(intraday)?, closing: table(closing)? })
    }

    /// "in a price table, any entry above 9,999,999" is refused by 5.
    fn check(&self) -> Result<(), Refusal> {
        let above = |bad, entry: &[u8; 4]| bad | (u32::from_be_bytes(*entry) > MAX_PRICE);
        if self.intraday.iter().fold(false, above) | self.closing.iter().fold(false, above) {
            return Err(Refusal::Price);
        }
        Ok(())
    }

    /// "The price is the intraday table's entry, or, if that is 0, the closing table's"; neither is 17.
    fn entry(&self, security: usize) -> Result<&'a [u8; 4], Refusal> {
        [&self.intraday[security], &self.closing[security]]
            .into_iter()
            .find(|entry| **entry != [0; 4])
            .ok_or(Refusal::NoPrice)
    }
}

fn table(bytes: &[u8]) -> Result<&Table, Refusal> {
    match bytes.as_chunks::<4>() {
        (entries, []) => entries.try_into().map_err(|_| Refusal::Length),
        _ => Err(Refusal::Length),
    }
}

/// "Finding it is a public question whose answer is the 4-byte entry itself, as it stands in whichever table it came
/// from." "Price question: 18, 3 (above 31 only), 5, 17."
pub fn price<'a>(intraday: &'a [u8], closing: &'a [u8], security: u32) -> Result<&'a [u8; 4], Refusal> {
    let prices = Prices::new(intraday, closing)?;
    let security = security as usize;
    if security >= SECURITIES {
        return Err(Refusal::Security);
    }
    prices.check()?;
    prices.entry(security)
}

/// Rates "in millionths of the base" and haircuts "in basis points", one for each currency.
#[derive(Clone, Copy)]
struct Terms<'a> {
    rates: &'a [u32; CURRENCIES],
    haircuts: &'a [u32; CURRENCIES],
}

impl<'a> Terms<'a> {
    fn new(rates: &'a [u32], haircuts: &'a [u32]) -> Result<Self, Refusal> {
        match (rates.try_into(), haircuts.try_into()) {
            (Ok(rates), Ok(haircuts)) => Ok(Terms { rates, haircuts }),
            _ => Err(Refusal::Length),
        }
    }

    fn check(&self) -> Result<(), Refusal> {
        let fits = self.rates.iter().all(|rate| (1..=MAX_RATE).contains(rate))
            && self.haircuts.iter().all(|&haircut| haircut <= MAX_HAIRCUT)
            && self.rates[0] == BASE_RATE
            && self.haircuts[0] == 0;
        if fits {
            Ok(())
        } else {
            Err(Refusal::Rate)
        }
    }

    /// The favourable and the unfavourable total, each over the four currencies.
    fn convert(&self, sums: &[Mils; CURRENCIES]) -> (u128, u128) {
        let (mut favourable_total, mut unfavourable_total) = (0, 0);
        for ((sum, &rate), &haircut) in sums.iter().zip(self.rates).zip(self.haircuts) {
            if sum.0 > 0 {
                favourable_total += favourable(sum.size(), rate, haircut);
            } else {
                unfavourable_total += unfavourable(sum.size(), rate, haircut);
            }
        }
        (favourable_total, unfavourable_total)
    }
}

/// "a favourable sum counts sum*r*(10,000-h)/10^10 rounded down"
pub fn favourable(sum: u64, rate: u32, haircut: u32) -> u128 {
    u128::from(sum) * u128::from(rate) * u128::from(10_000 - haircut) / 10_000_000_000
}

/// "an unfavourable one |sum|*r*(10,000+h)/10^10 rounded up"
pub fn unfavourable(sum: u64, rate: u32, haircut: u32) -> u128 {
    (u128::from(sum) * u128::from(rate) * u128::from(10_000 + haircut)).div_ceil(10_000_000_000)
}

impl Book {
    /// What an account owes. "Marks: 1, 2, 18, 5, 15, 17, 16"; 1 is looked at where the book is read.
    pub fn marks(
        &self,
        a: u32,
        intraday: &[u8],
        closing: &[u8],
        rates: &[u32],
        haircuts: &[u32],
    ) -> Result<Marks, Refusal> {
        let account = account(a)?;
        let prices = Prices::new(intraday, closing)?;
        let terms = Terms::new(rates, haircuts)?;
        prices.check()?;
        terms.check()?;
        let sums = self.sums(account, &prices)?;
        let (favourable, unfavourable) = terms.convert(&sums);
        if favourable > MAX_TOTAL || unfavourable > MAX_TOTAL {
            return Err(Refusal::MarkPast);
        }
        // "Due: unfavourable total less favourable total, or 0."
        let due = Mils(unfavourable.saturating_sub(favourable) as i64);
        Ok(Marks { due, sums })
    }

    /// "A record's mark is quantity * price less its money [...]. A record of 0 shares wants no price. Marks are summed
    /// per currency."
    fn sums(&self, account: usize, prices: &Prices) -> Result<[Mils; CURRENCIES], Refusal> {
        let mut sums = [Mils::ZERO; CURRENCIES];
        for position in self.positions.iter().filter(|p| p.account() == account) {
            let security = position.security();
            let sum = &mut sums[usize::from(self.codes[security])];
            if !position.shares.is_zero() {
                let entry = prices.entry(security)?;
                *sum += position.shares * Price(u32::from_be_bytes(*entry));
            }
            *sum -= position.money;
        }
        Ok(sums)
    }
}

#[cfg(test)]
mod tests {
    use super::*;
    use crate::units::Shares;

    /// The conversions and the mark of "Figures to be proved, as one table", and those at the limit.
    #[test]
    fn figures() {
        assert_eq!(unfavourable(190_000, 1_080_000, 100), 207_252);
        assert_eq!(favourable(190_000, 1_080_000, 100), 203_148);
        assert_eq!(unfavourable(1, 1_080_000, 100), 2);
        assert_eq!(favourable(1, 1_080_000, 100), 1);
        assert_eq!(favourable(5_000_000_000_000_000_000, 100_000_000, 10_000), 0);
        assert_eq!(favourable(90_000_000_000_000_000, 100_000_000, 0), MAX_TOTAL);
        assert_eq!(unfavourable(45_000_000_000_000_000, 100_000_000, 10_000), MAX_TOTAL);
        assert!(unfavourable(45_000_000_000_000_001, 100_000_000, 10_000) > MAX_TOTAL);
        let mut mark = Shares(350) * Price(9_900);
        mark -= Mils(3_675_000);
        assert_eq!(mark, Mils(-210_000));
    }
}
