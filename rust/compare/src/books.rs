//! Random books: made up in bytes, sound by their making and beyond what histories reach; and damaged ones.

use crate::calls::Style;
use crate::case::Ask;
use crate::random::Random;
use reference::layout::*;
use reference::sound::{MAX_HOLDING, MAX_MONEY, MAX_SHARES, MAX_STAKE};
use std::collections::BTreeMap;

fn put(book: &mut [u8], at: usize, bytes: &[u8]) {
    book[at..at + bytes.len()].copy_from_slice(bytes);
}

fn put_signed(book: &mut [u8], at: usize, number: i64) {
    put(book, at, &number.to_be_bytes());
}

fn signed(random: &mut Random, size: u64) -> i64 {
    if random.once_in(2) {
        size as i64
    } else {
        -(size as i64)
    }
}

/// A made-up sound book.
pub fn sound(random: &mut Random) -> Vec<u8> {
    let listed = random.pick(&[0, 1, 2, 4, 32]);
    let size = random.pick(&[0, 2, 6, 20, 60, 1_100]);
    sound_of(random, listed, size)
}

/// One with so many listed securities and about so many records.
pub fn sound_of(random: &mut Random, listed: usize, size: usize) -> Vec<u8> {
    let mut book = vec![0; BOOK];
    let day = match random.below(8) {
        0 => 60_000,
        1 => 59_999,
        2 => 0,
        3 => random.within(0, 60_000),
        _ => random.within(1, 6),
    };
    put(&mut book, DAY, &(day as u16).to_be_bytes());
    let few = random.once_in(2);
    for security in 0..SECURITIES {
        let code = if security < listed { random.below(if few { 1 } else { 4 }) as u8 } else { UNLISTED };
        book[CODES + security] = code;
    }
    if listed > 0 {
        put_positions(random, &mut book, day, listed, size);
        put_holdings(random, &mut book, listed);
        put_trades(random, &mut book, listed);
    }
    put_charges(random, &mut book);
    book
}

/// Records in pairs of a receiver and a deliverer, so that quantities balance; among due records an account keeps to one
/// side of a security.
fn put_positions(random: &mut Random, book: &mut [u8], day: u64, listed: usize, size: usize) {
    let mut records: BTreeMap<u64, i64> = BTreeMap::new();
    let oldest = day.saturating_sub(random.pick(&[0, 1, 3, 40]));
    let receiver = |account: u64, security: u64| (account * 31 + security * 17) % 5 < 2;
    let quantity_bits = random.pick(&[3, 12, 28]);
    let accounts = random.pick(&[3, 10, 64]);
    for _ in 0..size * 2 {
        if records.len() + 2 > size.min(MAX_POSITIONS) {
            break;
        }
        let security = random.index(listed) as u64;
        let (long, short) = (random.below(accounts), random.below(accounts));
        let tomorrow = random.once_in(3);
        let sides = receiver(long, security) && !receiver(short, security);
        if long == short || !tomorrow && !sides {
            continue;
        }
        let mut due = || if tomorrow { day + 1 } else { random.within(oldest, day) };
        let give = due() * 2_048 + long * 32 + security;
        let take = due() * 2_048 + short * 32 + security;
        let most = MAX_SHARES as i64;
        let k = (random.sized(quantity_bits) as i64).clamp(1, most);
        let fits = |held: Option<&i64>, k: i64| held.is_none_or(|q| (q + k).abs() <= most);
        if fits(records.get(&give), k) && fits(records.get(&take), -k) {
            *records.entry(give).or_default() += k;
            *records.entry(take).or_default() -= k;
        }
    }
    let money_bits = random.pick(&[4, 20, 40, 52]);
    let one_sided = random.once_in(4);
    put(book, POSITION_COUNT, &(records.len() as u16).to_be_bytes());
    for (row, (number, shares)) in records.into_iter().enumerate() {
        let at = POSITIONS + row * POSITION;
        let size = if random.once_in(20) { MAX_MONEY } else { random.sized(money_bits).min(MAX_MONEY) };
        let size = size.max(u64::from(shares == 0));
        let money = if one_sided { size as i64 } else { signed(random, size) };
        put(book, at, &(number as u32).to_be_bytes());
        put_signed(book, at + 4, shares);
        put_signed(book, at + 12, money);
    }
}

fn put_holdings(random: &mut Random, book: &mut [u8], listed: usize) {
    let bits = random.pick(&[4, 16, 30]);
    for security in 0..listed {
        let mut left = MAX_HOLDING;
        let to_the_brim = random.once_in(4);
        for account in 0..ACCOUNTS {
            if random.once_in(3) {
                let holding = random.sized(bits).min(left);
                left -= holding;
                put(book, holding_at(account, security), &holding.to_be_bytes());
            }
        }
        if to_the_brim {
            let at = holding_at(random.index(ACCOUNTS), security);
            let mut holding = u64::from_be_bytes(book[at..at + 8].try_into().expect("8 bytes"));
            holding += left - random.below(2).min(left);
            put(book, at, &holding.to_be_bytes());
        }
    }
}

fn put_trades(random: &mut Random, book: &mut [u8], listed: usize) {
    let count = random.pick(&[0, 0, 1, 4, 20, 255, 256]);
    let (first, step) = (random.within(1, 60_000), random.within(1, 15));
    put(book, TRADE_COUNT, &(count as u16).to_be_bytes());
    let accounts = random.pick(&[2, 5, 64]);
    for row in 0..count {
        let at = TRADES + row as usize * TRADE;
        put(book, at, &((first + row * step) as u16).to_be_bytes());
        if random.once_in(6) {
            continue; // excluded
        }
        let buyer = random.below(accounts);
        let seller = (buyer + random.within(1, accounts - 1)) % accounts;
        put(book, at + 2, &[buyer as u8, seller as u8, random.index(listed) as u8]);
        put(book, at + 5, &(random.sized(20) as u32).clamp(1, 1_000_000).to_be_bytes());
        put(book, at + 9, &(random.sized(24) as u32).clamp(1, 9_999_999).to_be_bytes());
    }
    if first + count * step > 65_535 {
        put(book, TRADE_COUNT, &[0, 0]);
        book[TRADES..].fill(0);
    }
}

/// Charges, some up to what the records leave of the bound.
fn put_charges(random: &mut Random, book: &mut [u8]) {
    if random.once_in(3) {
        return;
    }
    let mut stakes = [0; ACCOUNTS * CURRENCIES];
    let count = usize::from(u16::from_be_bytes([book[POSITION_COUNT], book[POSITION_COUNT + 1]]));
    for row in book[POSITIONS..].chunks_exact(POSITION).take(count) {
        let number = u32::from_be_bytes([row[0], row[1], row[2], row[3]]) as usize;
        let money = i64::from_be_bytes(row[12..].try_into().expect("8 bytes"));
        let code = book[CODES + number % 32];
        stakes[number / 32 % 64 * 4 + usize::from(code)] += money.unsigned_abs();
    }
    for (place, stake) in stakes.into_iter().enumerate() {
        if random.once_in(8) {
            let left = MAX_STAKE - stake;
            let size = if random.once_in(3) { left } else { random.sized(50).min(left) };
            put_signed(book, CHARGES + place * 8, signed(random, size));
        }
    }
}

/// The book with one byte or one field changed; it may still be sound.
pub fn damaged(random: &mut Random, book: &[u8]) -> Vec<u8> {
    let mut book = book.to_vec();
    match random.below(10) {
        0 => book[random.index(36)] = random.byte(),
        1 => {
            let at = random.index(BOOK);
            book[at] ^= 1 << random.below(8);
        }
        2 => {
            book.resize(random.pick(&[0, 1, BOOK - 1, BOOK + 1, 2 * BOOK]), 0);
        }
        3..=6 => damage_position(random, &mut book),
        7 => damage_holding(random, &mut book),
        8 => damage_charge(random, &mut book),
        _ => damage_trade(random, &mut book),
    }
    book
}

fn damage_position(random: &mut Random, book: &mut [u8]) {
    let count = usize::from(u16::from_be_bytes([book[POSITION_COUNT], book[POSITION_COUNT + 1]]));
    let row = random.index((count + 1).min(MAX_POSITIONS));
    let at = POSITIONS + row * POSITION;
    match random.below(9) {
        0 => {
            let count = random.pick(&[count + 1, count.saturating_sub(1), 1_024, 1_025, 65_535]);
            put(book, POSITION_COUNT, &(count as u16).to_be_bytes());
        }
        1 => {
            let shares = random.pick(&[0, 1, MAX_SHARES, MAX_SHARES + 1, 1 << 62]);
            let shares = signed(random, shares);
            put_signed(book, at + 4, shares);
        }
        2 => put_signed(book, at + 4, random.pick(&[i64::MIN, i64::MAX, i64::MIN + 1])),
        3 => {
            let money = random.pick(&[0, 1, MAX_MONEY, MAX_MONEY + 1, MAX_STAKE]);
            let money = signed(random, money);
            put_signed(book, at + 12, money);
        }
        4 => put_signed(book, at + 12, random.pick(&[i64::MIN, i64::MAX])),
        5 => {
            // Another number: beside it, a day later, another account.
            let number = u32::from_be_bytes([book[at], book[at + 1], book[at + 2], book[at + 3]]);
            let step = random.pick(&[1, 32, 2_048, 4_096]);
            let number =
                if random.once_in(2) { number.wrapping_add(step) } else { number.wrapping_sub(step) };
            put(book, at, &number.to_be_bytes());
        }
        6 if row + 1 < count => {
            let rows = &mut book[at..at + 2 * POSITION];
            rows.rotate_left(POSITION);
        }
        7 if row + 1 < count => {
            // The same shares from one record to the next: balances may hold.
            let k = signed(random, 1);
            for (at, k) in [(at + 4, k), (at + POSITION + 4, -k)] {
                let shares = i64::from_be_bytes(book[at..at + 8].try_into().expect("8 bytes"));
                put_signed(book, at, shares.wrapping_add(k));
            }
        }
        _ => book[at + random.index(POSITION)] = random.byte(),
    }
}

fn damage_holding(random: &mut Random, book: &mut [u8]) {
    let at = holding_at(random.index(ACCOUNTS), random.index(SECURITIES));
    let holding = random.pick(&[0, 1, MAX_HOLDING, MAX_HOLDING + 1, 1 << 40, 1 << 63, u64::MAX]);
    put(book, at, &holding.to_be_bytes());
    if random.once_in(2) {
        let other = holding_at(random.index(ACCOUNTS), random.index(SECURITIES));
        put(book, other, &random.pick(&[1, 1 << 63, u64::MAX, MAX_HOLDING]).to_be_bytes());
    }
}

fn damage_charge(random: &mut Random, book: &mut [u8]) {
    let at = CHARGES + random.index(ACCOUNTS * CURRENCIES) * 8;
    let charge =
        random.pick(&[i64::MIN, i64::MAX, MAX_STAKE as i64, MAX_STAKE as i64 + 1, -(MAX_STAKE as i64), 5]);
    put_signed(book, at, charge);
}

fn damage_trade(random: &mut Random, book: &mut [u8]) {
    let count = usize::from(u16::from_be_bytes([book[TRADE_COUNT], book[TRADE_COUNT + 1]]));
    let at = TRADES + random.index((count + 1).min(MAX_TRADES)) * TRADE;
    match random.below(7) {
        0 => {
            let count = random.pick(&[count + 1, count.saturating_sub(1), 256, 257]);
            put(book, TRADE_COUNT, &(count as u16).to_be_bytes());
        }
        1 => put(book, at, &random.pick(&[[0, 0], [0, 1], [255, 255]])),
        2 => {
            let other = TRADES + random.index(MAX_TRADES) * TRADE;
            book.copy_within(other..other + 2, at);
        }
        3 => book[at + 2 + random.index(3)] = random.pick(&[0, 31, 32, 63, 64, 255]),
        4 => put(book, at + 5, &random.pick(&[0, 1, 1_000_000, 1_000_001u32]).to_be_bytes()),
        5 => put(book, at + 9, &random.pick(&[0, 1, 9_999_999, 10_000_000u32]).to_be_bytes()),
        _ => book[at + random.index(TRADE)] = random.byte(),
    }
}

/// Calls that fit a made-up book: its listed securities, and a number of its list.
pub fn style(random: &mut Random, book: &[u8]) -> Style {
    let codes = &book[CODES..POSITION_COUNT];
    let listed = (0..32).filter(|&security| codes[security as usize] != UNLISTED);
    let count = usize::from(u16::from_be_bytes([book[TRADE_COUNT], book[TRADE_COUNT + 1]]));
    let row = TRADES + random.index(count.max(1)) * TRADE;
    let number = u16::from_be_bytes([book[row], book[row + 1]]);
    Style::new(random).over(listed.collect(), number.into())
}

/// A book in which the marks of account 0 are so many mils in currency 1 that their converted total is the limit, or a
/// mil or two beside it; and the question.
pub fn at_the_mark_limit(random: &mut Random) -> (Vec<u8>, Ask) {
    const SHARES: i64 = 256_000_000;
    const PRICE: u32 = 9_999_999;
    let mut book = vec![0; BOOK];
    book[CODES..POSITION_COUNT].fill(1);
    let rate = random.within(70_000_000, 100_000_000) as u32;
    let rate = random.pick(&[100_000_000, rate]);
    let haircut = random.pick(&[0, 1, 50, 9_999, 10_000, 4_999]);
    let favourable = random.once_in(2);
    let haircut = if favourable { haircut.min(1_000) } else { haircut };
    let factor = if favourable { 10_000 - haircut } else { 10_000 + haircut };
    let sum = 9_000_000_000_000_000_000 * 10_000_000_000 / (u128::from(rate) * u128::from(factor));
    let mut left = sum as i64 + random.within(0, 4) as i64 - 2;
    put(&mut book, POSITION_COUNT, &64u16.to_be_bytes());
    for row in 0..64 {
        let (account, security) = (row / 32, row % 32);
        let at = POSITIONS + row * POSITION;
        // Due on day 1; the first account has the marks, the second what balances the shares.
        put(&mut book, at, &(2_048 + account as u32 * 32 + security as u32).to_be_bytes());
        let sign = if favourable == (account == 0) { 1 } else { -1 };
        put_signed(&mut book, at + 4, sign * SHARES);
        if account == 0 {
            let mark = left / (32 - security as i64);
            left -= mark;
            put_signed(&mut book, at + 12, sign * (SHARES * i64::from(PRICE) - mark));
        }
    }
    let intraday = vec![0; 128];
    let closing = PRICE.to_be_bytes().repeat(32);
    let (rates, haircuts) = (vec![1_000_000, rate, 1, 1], vec![0, haircut, 0, 0]);
    (book, Ask::Marks { account: 0, intraday, closing, rates, haircuts })
}
