//! The books that are measured, each made by calls.

use reference::book::Trade;
use reference::calls;
use reference::layout::BOOK;
use reference::refusal::Refusal;
use reference::units::Price;

type Made = Result<Vec<u8>, Refusal>;

/// A book with all securities listed, in the four currencies by turns.
fn created() -> Made {
    let mut book = vec![0; BOOK];
    let codes: [u8; 32] = std::array::from_fn(|security| (security % 4) as u8);
    calls::create(&mut book, &codes)?;
    Ok(book)
}

/// Trade `n` of a list in which no account and security comes twice (there are 1,024 such trades).
fn apart(n: usize) -> (u32, u32, u32) {
    let (account, security) = (n % 32 * 2, n / 32);
    (account as u32, account as u32 + 1, security as u32)
}

fn trade(sides: (u32, u32, u32), n: usize) -> Trade {
    let (buyer, seller, security) = sides;
    let quantity = 1_000 + n as u32 * 37 % 1_000;
    Trade { buyer, seller, security, quantity, price: Price(10_000 + n as u32 * 101 % 5_000) }
}

/// Enters trades, numbered from 1.
fn enter(book: &mut [u8], trades: impl IntoIterator<Item = Trade>) -> Result<(), Refusal> {
    (1..).zip(trades).try_for_each(|(number, trade)| calls::enter(book, number, trade))
}

/// Shares for every account in every security.
fn deposit_all(book: &mut [u8], quantity: u64) -> Result<(), Refusal> {
    for account in 0..64 {
        for security in 0..32 {
            calls::deposit(book, account, security, quantity)?;
        }
    }
    Ok(())
}

/// 1,024 positions of all accounts and securities, 255 trades in the list, something held everywhere.
pub fn full() -> Made {
    let mut book = created()?;
    deposit_all(&mut book, 500)?;
    for day in 0..2 {
        enter(&mut book, (0..256).map(|n| trade(apart(n + day * 256), n)))?;
        calls::roll(&mut book)?;
    }
    enter(&mut book, (0..255).map(|n| trade(apart(n), n)))?;
    Ok(book)
}

/// 1,020 positions, half of which fall due against the other half, and 256 trades that net to four: 1,024 before any
/// offset.
pub fn facing() -> Made {
    let mut book = created()?;
    enter(&mut book, (0..255).map(|n| trade(apart(n), n)))?;
    calls::roll(&mut book)?;
    let turned = |(buyer, seller, security)| (seller, buyer, security);
    enter(&mut book, (0..255).map(|n| trade(turned(apart(n)), n * 3 + 1)))?;
    calls::roll(&mut book)?;
    enter(&mut book, (0..256).map(|n| trade((4, 9, (n % 2) as u32), n)))?;
    Ok(book)
}

/// 512 positions and 256 trades that net to 512: 1,024, and nothing to offset.
pub fn spread() -> Made {
    let mut book = created()?;
    enter(&mut book, (0..256).map(|n| trade(apart(n), n)))?;
    calls::roll(&mut book)?;
    enter(&mut book, (0..256).map(|n| trade(apart(n + 256), n)))?;
    Ok(book)
}

/// 1,024 due positions of one security, of which the deliverers hold half.
pub fn one_security() -> Made {
    let mut book = created()?;
    for day in 0..16 {
        enter(&mut book, (0..32).map(|n| trade((n as u32 * 2, (n as u32 * 2 + 7) % 64, 0), n + day * 32)))?;
        calls::roll(&mut book)?;
    }
    calls::roll(&mut book)?;
    for account in 0..32 {
        calls::deposit(&mut book, account * 2 + 1, 0, 12_000)?;
    }
    Ok(book)
}
