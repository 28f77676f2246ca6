//! What the numbers count, each a type of its own: one handed over where another is due does not compile. (The functions of
//! [`bytes`](crate::bytes) take price tables, rates and haircuts as they are kept, in bytes and plain numbers.)
//!
//! A number that is too large (account 258, say) is no error of these types: the call that gets it refuses it.

use std::fmt;

/// Whole shares; above zero to be received, below zero to be delivered.
#[derive(Clone, Copy, Debug, Default, PartialEq, Eq, Hash, PartialOrd, Ord)]
pub struct Shares(pub i64);

/// Whole mils, thousandths of a currency unit; above zero to be paid by the account, below zero to be received.
#[derive(Clone, Copy, Debug, Default, PartialEq, Eq, Hash, PartialOrd, Ord)]
pub struct Mils(pub i64);

/// Whole mils in an account's favour: above zero a gain, below zero a loss.
#[derive(Clone, Copy, Debug, Default, PartialEq, Eq, Hash, PartialOrd, Ord)]
pub struct Gain(pub i64);

/// Mils for one share; 0 in a price table is none.
#[derive(Clone, Copy, Debug, Default, PartialEq, Eq, Hash, PartialOrd, Ord)]
pub struct Price(pub u32);

/// A number of shares without a direction: what is traded, held, deposited, withdrawn or moved.
#[derive(Clone, Copy, Debug, Default, PartialEq, Eq, Hash, PartialOrd, Ord)]
pub struct Quantity(pub u64);

/// An account, 0 to 63.
#[derive(Clone, Copy, Debug, PartialEq, Eq, Hash, PartialOrd, Ord)]
pub struct Account(pub u32);

/// A security, 0 to 31.
#[derive(Clone, Copy, Debug, PartialEq, Eq, Hash, PartialOrd, Ord)]
pub struct Security(pub u32);

/// A trade number, 1 to 65,535.
#[derive(Clone, Copy, Debug, PartialEq, Eq, Hash, PartialOrd, Ord)]
pub struct Number(pub u32);

/// A place in a call file: how many bytes stand before it.
#[derive(Clone, Copy, Debug, PartialEq, Eq, Hash, PartialOrd, Ord)]
pub struct Place(pub u32);

/// The worth of one unit of a currency in millionths of a base unit: 7,800,000 is 7.8. The base has 1,000,000.
#[derive(Clone, Copy, Debug, PartialEq, Eq, Hash, PartialOrd, Ord)]
pub struct Rate(pub u32);

/// Basis points: 150 is 1.5 percent. The base has 0.
#[derive(Clone, Copy, Debug, PartialEq, Eq, Hash, PartialOrd, Ord)]
pub struct Haircut(pub u32);

/// The prices of the day so far, security 0 first; 0 for none.
#[derive(Clone, Copy, Debug, Default, PartialEq, Eq)]
pub struct Intraday(pub [Price; 32]);

/// The last closing prices, security 0 first; 0 for none.
#[derive(Clone, Copy, Debug, Default, PartialEq, Eq)]
pub struct Closing(pub [Price; 32]);

impl Intraday {
    /// The table in bytes: 32 entries of 4 bytes, big-endian.
    pub fn table(&self) -> [u8; 128] {
        table(&self.0)
    }
}

impl Closing {
    /// The table in bytes: 32 entries of 4 bytes, big-endian.
    pub fn table(&self) -> [u8; 128] {
        table(&self.0)
    }
}

fn table(prices: &[Price; 32]) -> [u8; 128] {
    let mut table = [0; 128];
    for (entry, price) in table.as_chunks_mut::<4>().0.iter_mut().zip(prices) {
        *entry = price.0.to_be_bytes();
    }
    table
}

macro_rules! displayed {
    ($($unit:ident)*) => {$(
        impl fmt::Display for $unit {
            fn fmt(&self, f: &mut fmt::Formatter<'_>) -> fmt::Result {
                self.0.fmt(f)
            }
        }
    )*};
}

displayed!(Shares Mils Gain Price Quantity Account Security Number Place Rate Haircut);
