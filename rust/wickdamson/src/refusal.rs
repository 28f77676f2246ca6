//! Why a call was refused.

use std::error::Error;
use std::fmt;

/// A refusal of the book, by the numbers of the rules document.
#[derive(Clone, Copy, Debug, PartialEq, Eq, Hash, PartialOrd, Ord)]
#[repr(u8)]
#[non_exhaustive]
pub enum Refusal {
    NotSound = 1,
    NoAccount = 2,
    NoSecurity = 3,
    BadQuantity = 4,
    BadPrice = 5,
    SameAccount = 6,
    BadNumber = 7,
    NoTrade = 8,
    ListFull = 9,
    TableFull = 10,
    NotHeld = 11,
    TooMuchHeld = 12,
    TooMuchDelivered = 13,
    LastDay = 14,
    BadRate = 15,
    TotalTooLarge = 16,
    NoPrice = 17,
    WrongLength = 18,
    Unreadable = 19,
}

impl Refusal {
    /// All refusals, by ascending number.
    pub const ALL: [Refusal; 19] = [
        Refusal::NotSound,
        Refusal::NoAccount,
        Refusal::NoSecurity,
        Refusal::BadQuantity,
        Refusal::BadPrice,
        Refusal::SameAccount,
        Refusal::BadNumber,
        Refusal::NoTrade,
        Refusal::ListFull,
        Refusal::TableFull,
        Refusal::NotHeld,
        Refusal::TooMuchHeld,
        Refusal::TooMuchDelivered,
        Refusal::LastDay,
        Refusal::BadRate,
        Refusal::TotalTooLarge,
        Refusal::NoPrice,
        Refusal::WrongLength,
        Refusal::Unreadable,
    ];

    /// Its number, 1 to 19.
    pub fn number(self) -> u8 {
        self as u8
    }

    /// The refusal of a number from 1 to 19.
    pub fn from_number(number: u8) -> Option<Refusal> {
        Refusal::ALL.get(usize::from(number).checked_sub(1)?).copied()
    }

    /// What an exported function returned.
    ///
    /// # Panics
    ///
    /// If the number is none of the header's: then the archive is another than this crate was written for.
    pub(crate) fn check(number: u8) -> Result<(), Refusal> {
        match (number, Refusal::from_number(number)) {
            (0, _) => Ok(()),
            (_, Some(refusal)) => Err(refusal),
            (_, None) => panic!("the archive answered {number}, which is no refusal of wickdamson.h"),
        }
    }

    fn text(self) -> &'static str {
        match self {
            Refusal::NotSound => "the book is not sound, or has another length",
            Refusal::NoAccount => "account above 63",
            Refusal::NoSecurity => {
                "security above 31 or unlisted, or a currency code other than 0 to 3 or 255"
            }
            Refusal::BadQuantity => "quantity outside its range",
            Refusal::BadPrice => "price outside 1 to 9,999,999, or an entry of a price table above it",
            Refusal::SameAccount => "buyer and seller are the same account",
            Refusal::BadNumber => "trade number 0, above 65,535, or used today",
            Refusal::NoTrade => "the number is not in today's list, or its trade is excluded",
            Refusal::ListFull => "today's list already has 256 numbers",
            Refusal::TableFull => "open positions plus today's nets pass 1,024",
            Refusal::NotHeld => "withdrawal above what the account holds",
            Refusal::TooMuchHeld => "the security's total over all accounts would pass 10^12",
            Refusal::TooMuchDelivered => "deliverable shares exceed the receivers' total",
            Refusal::LastDay => "day 60,000 is the last",
            Refusal::BadRate => "a rate or haircut outside its range, or the base not at par",
            Refusal::TotalTooLarge => "a converted mark total passes 9*10^18",
            Refusal::NoPrice => "neither price table has a price",
            Refusal::WrongLength => {
                "a buffer, table or file has the wrong length, or a line or sheet does not fit"
            }
            Refusal::Unreadable => "the file's record is unreadable",
        }
    }
}

impl fmt::Display for Refusal {
    fn fmt(&self, f: &mut fmt::Formatter<'_>) -> fmt::Result {
        write!(f, "{} (refusal {})", self.text(), self.number())
    }
}

impl Error for Refusal {}

#[cfg(test)]
mod tests {
    use super::*;

    #[test]
    fn numbers() {
        assert!(Refusal::ALL.iter().zip(1..).all(|(refusal, number)| refusal.number() == number));
        assert_eq!(Refusal::from_number(0), None);
        assert_eq!(Refusal::from_number(20), None);
        assert_eq!(Refusal::LastDay.to_string(), "day 60,000 is the last (refusal 14)");
    }
}
