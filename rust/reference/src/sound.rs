//! "A sound book": bytes are read into a [`Book`] exactly if they are one, each table in one pass; and written back.

use crate::book::{is_code, Book, Entry, Position, Trade};
use crate::layout::{
    holding_at, put, u16_at, ACCOUNTS, BOOK, CHARGES, CODES, CURRENCIES, DAY, HOLDINGS, MAX_POSITIONS,
    MAX_TRADES, PAIRS, POSITION, POSITIONS, POSITION_COUNT, SECURITIES, TRADE, TRADES, TRADE_COUNT, UNLISTED,
};
use crate::refusal::Refusal;
use crate::trading::valid_fields;
use crate::units::{Mils, Price, Shares};

/// "Day 0 to 60,000."
pub const LAST_DAY: u16 = 60_000;
/// "Quantity within 256,000,000 [...] either side of zero"
pub const MAX_SHARES: u64 = 256_000_000;
/// "money within 2,560,000,000,000,000 either side of zero"
pub const MAX_MONEY: u64 = 2_560_000_000_000_000;
/// "Holdings 0 to 10^12, each security's total too"
pub const MAX_HOLDING: u64 = 1_000_000_000_000;
/// "the size of the day's charge plus the sizes of open money is at most 2,621,440,000,000,000,000"
pub const MAX_STAKE: u64 = 2_621_440_000_000_000_000;

type Codes = [u8; SECURITIES];
type Holdings = [[u64; SECURITIES]; ACCOUNTS];
type Charges = [[Mils; CURRENCIES]; ACCOUNTS];

impl Book {
    /// The book that the bytes are, if it is sound; else refusal 1, "book not sound". "Elsewhere a book of wrong length
    /// is 1".
    pub fn decode(bytes: &[u8]) -> Result<Book, Refusal> {
        <&[u8; BOOK]>::try_from(bytes).ok().and_then(read).ok_or(Refusal::NotSound)
    }

    /// Every byte of the book.
    pub fn encode(&self, bytes: &mut [u8; BOOK]) {
        put(bytes, CODES, &self.codes);
        self.encode_day(bytes);
        self.encode_holdings(bytes);
    }

    /// What a roll alters: all but the currency table and the holdings.
    pub(crate) fn encode_day(&self, bytes: &mut [u8; BOOK]) {
        put(bytes, DAY, &self.day.to_be_bytes());
        self.encode_positions(bytes);
        self.encode_charges(bytes);
        self.encode_trades(bytes);
    }

    fn encode_positions(&self, bytes: &mut [u8; BOOK]) {
        put(bytes, POSITION_COUNT, &(self.positions.len() as u16).to_be_bytes());
        let (rows, _) = bytes[POSITIONS..HOLDINGS].as_chunks_mut::<POSITION>();
        let (used, unused) = rows.split_at_mut(self.positions.len());
        for (row, position) in used.iter_mut().zip(&self.positions) {
            row[..4].copy_from_slice(&position.number.to_be_bytes());
            row[4..12].copy_from_slice(&position.shares.0.to_be_bytes());
            row[12..].copy_from_slice(&position.money.0.to_be_bytes());
        }
        unused.as_flattened_mut().fill(0);
    }

    fn encode_holdings(&self, bytes: &mut [u8; BOOK]) {
        let (fields, _) = bytes[HOLDINGS..CHARGES].as_chunks_mut::<8>();
        for (field, holding) in fields.iter_mut().zip(self.holdings.as_flattened()) {
            *field = holding.to_be_bytes();
        }
    }

    /// One holding alone.
    pub(crate) fn encode_holding(&self, bytes: &mut [u8; BOOK], account: usize, security: usize) {
        let holding = self.holdings[account][security];
        put(bytes, holding_at(account, security), &holding.to_be_bytes());
    }

    /// What a run of one security alters.
    pub(crate) fn encode_run(&self, bytes: &mut [u8; BOOK], security: u32) {
        self.encode_positions(bytes);
        self.encode_charges(bytes);
        for account in 0..ACCOUNTS {
            self.encode_holding(bytes, account, security as usize);
        }
    }

    fn encode_charges(&self, bytes: &mut [u8; BOOK]) {
        let (fields, _) = bytes[CHARGES..TRADE_COUNT].as_chunks_mut::<8>();
        for (field, charge) in fields.iter_mut().zip(self.charges.as_flattened()) {
            *field = charge.0.to_be_bytes();
        }
    }

    fn encode_trades(&self, bytes: &mut [u8; BOOK]) {
        put(bytes, TRADE_COUNT, &(self.trades.len() as u16).to_be_bytes());
        let (rows, _) = bytes[TRADES..].as_chunks_mut::<TRADE>();
        let (used, unused) = rows.split_at_mut(self.trades.len());
        for (row, entry) in used.iter_mut().zip(&self.trades) {
            *row = trade_row(entry);
        }
        unused.as_flattened_mut().fill(0);
    }

    /// The row of one number of today's list alone, and the count.
    pub(crate) fn encode_entry(&self, bytes: &mut [u8; BOOK], place: usize) {
        put(bytes, TRADE_COUNT, &(self.trades.len() as u16).to_be_bytes());
        put(bytes, TRADES + place * TRADE, &trade_row(&self.trades[place]));
    }
}

fn trade_row(entry: &Entry) -> [u8; TRADE] {
    let mut row = [0; TRADE];
    row[..2].copy_from_slice(&(entry.number as u16).to_be_bytes());
    if let Some(trade) = &entry.trade {
        row[2] = trade.buyer as u8;
        row[3] = trade.seller as u8;
        row[4] = trade.security as u8;
        row[5..9].copy_from_slice(&trade.quantity.to_be_bytes());
        row[9..].copy_from_slice(&trade.price.0.to_be_bytes());
    }
    row
}

fn read(bytes: &[u8; BOOK]) -> Option<Book> {
    let day = u16_at(bytes, DAY);
    let codes: Codes = *bytes[CODES..].first_chunk()?;
    if day > LAST_DAY || !codes.iter().all(|&code| is_code(code)) {
        return None;
    }
    let charges = read_charges(bytes);
    let positions = read_positions(bytes, day, &codes, &charges)?;
    let holdings = read_holdings(bytes, &codes)?;
    let trades = read_trades(bytes, &codes)?;
    Some(Book { day, codes, positions, holdings, charges, trades })
}

fn read_charges(bytes: &[u8; BOOK]) -> Charges {
    let mut charges = [[Mils::ZERO; CURRENCIES]; ACCOUNTS];
    let (fields, _) = bytes[CHARGES..TRADE_COUNT].as_chunks::<8>();
    for (charge, field) in charges.as_flattened_mut().iter_mut().zip(fields) {
        *charge = Mils(i64::from_be_bytes(*field));
    }
    charges
}

/// What the sentences about the position table sum up and remember from one record to the next.
struct Tables {
    /// Bit 0 if the pair has due records that receive, bit 1 if it has such that deliver.
    directions: [u8; PAIRS],
    /// Quantities per security: of the records due by the day, and of those due on day + 1.
    totals: [[i64; SECURITIES]; 2],
    /// Sizes of the day's charge and of open money, by account, then currency.
    stakes: [[u64; CURRENCIES]; ACCOUNTS],
}

fn read_positions(bytes: &[u8; BOOK], day: u16, codes: &Codes, charges: &Charges) -> Option<Vec<Position>> {
    let count = usize::from(u16_at(bytes, POSITION_COUNT));
    let (rows, _) = bytes[POSITIONS..HOLDINGS].as_chunks::<POSITION>();
    let (used, unused) = rows.split_at_checked(count)?;
    if !is_zero(unused.as_flattened()) {
        return None;
    }
    let mut tables = Tables {
        directions: [0; PAIRS],
        totals: [[0; SECURITIES]; 2],
        stakes: charges.map(|account| account.map(Mils::size)),
    };
    let mut positions = Vec::with_capacity(MAX_POSITIONS);
    let mut least = 0; // "records ascend strictly": the next number is at least this
    for row in used {
        let position = read_position(row);
        if position.number < least || !tables.admit(&position, day, codes) {
            return None;
        }
        least = position.number + 1;
        positions.push(position);
    }
    tables.balance().then_some(positions)
}

fn read_position(row: &[u8; POSITION]) -> Position {
    let [n0, n1, n2, n3, s0, s1, s2, s3, s4, s5, s6, s7, m0, m1, m2, m3, m4, m5, m6, m7] = *row;
    Position {
        number: u32::from_be_bytes([n0, n1, n2, n3]),
        shares: Shares(i64::from_be_bytes([s0, s1, s2, s3, s4, s5, s6, s7])),
        money: Mils(i64::from_be_bytes([m0, m1, m2, m3, m4, m5, m6, m7])),
    }
}

impl Tables {
    /// Whether the record is sound by itself and beside those before it.
    fn admit(&mut self, position: &Position, day: u16, codes: &Codes) -> bool {
        let tomorrow = u32::from(day) + 1;
        let due = position.due();
        let code = codes[position.security()];
        // "No due day beyond day + 1." "An unlisted security has no records and no holdings."
        if due > tomorrow || code == UNLISTED {
            return false;
        }
        if position.shares.size() > MAX_SHARES || position.money.size() > MAX_MONEY {
            return false;
        }
        if due < tomorrow {
            // "A record due by the book's day has nonzero quantity, and an account's due records in one security have
            // one sign."
            let directions = &mut self.directions[position.pair()];
            *directions |= if position.shares.0 > 0 { 1 } else { 2 };
            if position.shares.is_zero() || *directions == 3 {
                return false;
            }
        } else if position.shares.is_zero() && position.money.is_zero() {
            return false; // "not both zero"
        }
        self.totals[usize::from(due == tomorrow)][position.security()] += position.shares.0;
        // At most 2^63 for the charge and 1,024 * MAX_MONEY for the records: no sum leaves 64 bits.
        self.stakes[position.account()][usize::from(code)] += position.money.size();
        true
    }

    /// "Per security, quantities due by the day total zero, as do those due on day + 1", and the bound on charges and
    /// open money.
    fn balance(&self) -> bool {
        self.totals.as_flattened().iter().all(|&total| total == 0)
            && self.stakes.as_flattened().iter().all(|&stake| stake <= MAX_STAKE)
    }
}

fn read_holdings(bytes: &[u8; BOOK], codes: &Codes) -> Option<Box<Holdings>> {
    let mut holdings = Box::new([[0; SECURITIES]; ACCOUNTS]);
    let mut totals = [0u64; SECURITIES];
    let mut bits = 0;
    let (rows, _) = bytes[HOLDINGS..CHARGES].as_chunks::<{ SECURITIES * 8 }>();
    for (account, row) in holdings.iter_mut().zip(rows) {
        let (fields, _) = row.as_chunks::<8>();
        for ((holding, total), field) in account.iter_mut().zip(&mut totals).zip(fields) {
            *holding = u64::from_be_bytes(*field);
            *total = total.wrapping_add(*holding);
            bits |= *holding;
        }
    }
    // A holding of 2^40 or more is above 10^12. With smaller ones no total wraps, and one that is at most 10^12 has no
    // holding above it.
    let sound = bits < 1 << 40
        && totals.iter().zip(codes).all(|(&total, &code)| match code {
            UNLISTED => total == 0, // "An unlisted security has no records and no holdings."
            _ => total <= MAX_HOLDING,
        });
    sound.then_some(holdings)
}

/// "Trades: at most 256, numbers distinct and nonzero, fields valid; an excluded one keeps its number and order, other
/// fields zero."
fn read_trades(bytes: &[u8; BOOK], codes: &Codes) -> Option<Vec<Entry>> {
    let count = usize::from(u16_at(bytes, TRADE_COUNT));
    let (rows, _) = bytes[TRADES..].as_chunks::<TRADE>();
    let (used, unused) = rows.split_at_checked(count)?;
    if !is_zero(unused.as_flattened()) {
        return None;
    }
    let mut met = [0u64; 1 << 10]; // a bit for each number; 0 is no number
    met[0] = 1;
    let mut trades = Vec::with_capacity(MAX_TRADES);
    for row in used {
        let entry = read_entry(row);
        let (word, bit) = ((entry.number / 64) as usize, 1 << (entry.number % 64));
        let listed = |security: u32| codes.get(security as usize).is_some_and(|&c| c != UNLISTED);
        let valid = |trade: &Trade| listed(trade.security) && valid_fields(trade);
        if met[word] & bit != 0 || !entry.trade.as_ref().is_none_or(valid) {
            return None;
        }
        met[word] |= bit;
        trades.push(entry);
    }
    Some(trades)
}

fn read_entry(row: &[u8; TRADE]) -> Entry {
    let [n0, n1, buyer, seller, security, q0, q1, q2, q3, p0, p1, p2, p3] = *row;
    let excluded = is_zero(&row[2..]);
    Entry {
        number: u16::from_be_bytes([n0, n1]).into(),
        trade: (!excluded).then_some(Trade {
            buyer: buyer.into(),
            seller: seller.into(),
            security: security.into(),
            quantity: u32::from_be_bytes([q0, q1, q2, q3]),
            price: Price(u32::from_be_bytes([p0, p1, p2, p3])),
        }),
    }
}

/// "unused room is zero" (no early way out: whole words at a time are faster).
fn is_zero(bytes: &[u8]) -> bool {
    bytes.iter().fold(0, |bits, byte| bits | byte) == 0
}
