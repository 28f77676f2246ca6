//! Books that break one sentence of "A sound book" alone, and books that go just as far as one allows.

use reference::book::Trade;
use reference::layout::*;
use reference::units::Price;
use reference::{calls, Book};

/// Day 2: account 1 receives 1,000 shares of security 0, account 2 delivers 600 and account 3 400, all due today; the same
/// due tomorrow; two trades in the list, one excluded; account 2 holds 250.
fn sound() -> Vec<u8> {
    let mut codes = [255; 32];
    codes[..2].copy_from_slice(&[0, 1]);
    let mut book = vec![0; BOOK];
    let trade =
        |buyer, seller, quantity| Trade { buyer, seller, security: 0, quantity, price: Price(10_000) };
    assert_eq!(calls::create(&mut book, &codes), Ok(()));
    for _ in 0..2 {
        assert_eq!(calls::enter(&mut book, 1, trade(1, 2, 600)), Ok(()));
        assert_eq!(calls::enter(&mut book, 2, trade(1, 3, 400)), Ok(()));
        assert_eq!(calls::roll(&mut book), Ok(()));
    }
    assert_eq!(calls::deposit(&mut book, 2, 0, 250), Ok(()));
    for number in [7, 9] {
        assert_eq!(calls::enter(&mut book, number, trade(4, 5, 1)), Ok(()));
    }
    assert_eq!(calls::exclude(&mut book, 7), Ok(()));
    book
}

/// Where shares and money of a row of the position table begin.
fn shares(row: usize) -> usize {
    POSITIONS + row * POSITION + 4
}

fn money(row: usize) -> usize {
    shares(row) + 8
}

fn number(row: usize) -> usize {
    POSITIONS + row * POSITION
}

fn trade(row: usize) -> usize {
    TRADES + row * TRADE
}

fn charge(account: usize, currency: usize) -> usize {
    CHARGES + (account * CURRENCIES + currency) * 8
}

/// The sound book with some fields written over it.
fn with(fields: &[(usize, &[u8])]) -> Result<Book, reference::Refusal> {
    let mut book = sound();
    for (at, bytes) in fields {
        book[*at..*at + bytes.len()].copy_from_slice(bytes);
    }
    Book::decode(&book)
}

fn wide(number: i64) -> [u8; 8] {
    number.to_be_bytes()
}

#[test]
fn as_far_as_allowed() {
    let most_money = wide(2_560_000_000_000_000);
    let least_money = wide(-2_560_000_000_000_000);
    let most_shares =
        [(shares(3), wide(256_000_000)), (shares(4), wide(-255_999_600)), (shares(5), wide(-400))];
    let shares_of_three: Vec<(usize, &[u8])> =
        most_shares.iter().map(|(at, bytes)| (*at, &bytes[..])).collect();
    for fields in [
        &[][..],
        &[(money(0), &most_money[..])],
        &[(money(1), &least_money)],
        &[(money(1), &[0; 8])],
        &shares_of_three,
        &[(holding_at(1, 0), &wide(1_000_000_000_000 - 250))],
        &[(charge(63, 3), &wide(2_621_440_000_000_000_000))],
        &[(charge(63, 3), &wide(-2_621_440_000_000_000_000))],
        &[(DAY, &[0, 2])],
        &[(trade(0), &[255, 255])],
        &[(trade(1) + 5, &1_000_000u32.to_be_bytes()), (trade(1) + 9, &9_999_999u32.to_be_bytes())],
    ] {
        let book = with(fields);
        assert!(book.is_ok(), "{fields:?}");
        let (mut bytes, mut again) = (sound(), [0; BOOK]);
        for (at, field) in fields {
            bytes[*at..*at + field.len()].copy_from_slice(field);
        }
        book.expect("just seen").encode(&mut again);
        assert!(bytes == again, "written back it is the same: {fields:?}");
    }
}

#[test]
fn each_sentence_broken_alone() {
    let past_money = wide(2_560_000_000_000_001);
    let number_of =
        |due: u32, account: u32, security: u32| (due * 2_048 + account * 32 + security).to_be_bytes();
    for (sentence, fields) in [
        ("day 60,001", &[(DAY, &60_001u16.to_be_bytes()[..])][..]),
        ("a currency 4", &[(CODES + 1, &[4])]),
        ("1,025 records", &[(POSITION_COUNT, &1_025u16.to_be_bytes())]),
        ("a record of zeros", &[(POSITION_COUNT, &[0, 7])]),
        ("unused room not zero", &[(POSITIONS + 6 * POSITION + 19, &[1])]),
        ("the last byte of unused room", &[(HOLDINGS - 1, &[1])]),
        ("numbers equal", &[(number(1), &number_of(2, 1, 0))]),
        ("numbers descend", &[(number(0), &number_of(2, 2, 1))]),
        ("quantity past its bound", &[(shares(3), &wide(256_000_001)), (shares(4), &wide(-255_999_601))]),
        ("least quantity", &[(shares(0), &wide(i64::MIN))]),
        ("money past its bound", &[(money(0), &past_money)]),
        ("least money", &[(money(0), &wide(i64::MIN))]),
        ("due beyond day + 1", &[(number(5), &number_of(4, 3, 0))]),
        ("due beyond, by the day", &[(DAY, &[0, 1])]),
        ("due with no shares", &[(shares(0), &wide(600)), (shares(2), &wide(0))]),
        ("neither shares nor money", &[(shares(3), &wide(600)), (shares(5), &wide(0)), (money(5), &wide(0))]),
        (
            "two signs of one account",
            &[(DAY, &[0, 3]), (shares(3), &wide(-1_000)), (shares(4), &wide(600)), (shares(5), &wide(400))],
        ),
        ("due shares not balanced", &[(shares(0), &wide(999))]),
        ("tomorrow's shares not balanced", &[(shares(3), &wide(999))]),
        ("balanced only together", &[(shares(0), &wide(999)), (shares(3), &wide(1_001))]),
        ("a holding past 10^12", &[(holding_at(1, 1), &wide(1_000_000_000_001))]),
        ("a total past 10^12", &[(holding_at(1, 0), &wide(1_000_000_000_000 - 249))]),
        (
            "a total that wraps",
            &[(holding_at(1, 1), &[128, 0, 0, 0, 0, 0, 0, 0]), (holding_at(2, 1), &wide(i64::MIN))],
        ),
        (
            "a record of an unlisted security",
            &[(CODES, &[255]), (holding_at(2, 0), &wide(0)), (TRADE_COUNT, &[0, 0])],
        ),
        ("a holding of an unlisted security", &[(holding_at(0, 2), &wide(1))]),
        ("a charge past the bound", &[(charge(63, 3), &wide(2_621_440_000_000_000_001))]),
        ("least charge", &[(charge(63, 3), &wide(i64::MIN))]),
        (
            "charge and open money past the bound",
            &[(charge(1, 0), &wide(2_621_440_000_000_000_000 - 19_999_999))],
        ),
        ("257 trades", &[(TRADE_COUNT, &257u16.to_be_bytes())]),
        ("an unused row of the list", &[(trade(2) + 12, &[1])]),
        ("number 0", &[(trade(0), &[0, 0])]),
        ("a number twice", &[(trade(0), &[0, 9])]),
        ("an account 64", &[(trade(1) + 2, &[64])]),
        ("buyer and seller the same", &[(trade(1) + 2, &[5])]),
        ("an unlisted security", &[(trade(1) + 4, &[2])]),
        ("a security 32", &[(trade(1) + 4, &[32])]),
        ("quantity 0", &[(trade(1) + 5, &[0; 4])]),
        ("quantity 1,000,001", &[(trade(1) + 5, &1_000_001u32.to_be_bytes())]),
        ("price 0", &[(trade(1) + 9, &[0; 4])]),
        ("price 10,000,000", &[(trade(1) + 9, &10_000_000u32.to_be_bytes())]),
        ("an excluded one with a price", &[(trade(0) + 12, &[1])]),
    ] {
        assert!(with(fields).is_err(), "{sentence}");
    }
    assert!(Book::decode(&sound()[1..]).is_err() && Book::decode(&[]).is_err());
}
