//! The book in bytes, as `docs/BOOK.md` lays it out: where each table begins, and big-endian numbers.

/// "64 accounts (0 to 63)"
pub const ACCOUNTS: usize = 64;
/// "32 securities (0 to 31)"
pub const SECURITIES: usize = 32;
/// "4 currencies (0 to 3, 0 is the base)"
pub const CURRENCIES: usize = 4;
/// One pair of account and security: account * 32 + security.
pub const PAIRS: usize = ACCOUNTS * SECURITIES;
/// The code of a security that is not listed.
pub const UNLISTED: u8 = 255;

/// Records of the position table at most.
pub const MAX_POSITIONS: usize = 1_024;
/// Numbers of today's list at most.
pub const MAX_TRADES: usize = 256;
/// Bytes of a row of the position table.
pub const POSITION: usize = 20;
/// Bytes of a row of today's list.
pub const TRADE: usize = 13;

pub const DAY: usize = 0;
pub const CODES: usize = DAY + 2;
pub const POSITION_COUNT: usize = CODES + SECURITIES;
pub const POSITIONS: usize = POSITION_COUNT + 2;
pub const HOLDINGS: usize = POSITIONS + MAX_POSITIONS * POSITION;
pub const CHARGES: usize = HOLDINGS + PAIRS * 8;
pub const TRADE_COUNT: usize = CHARGES + ACCOUNTS * CURRENCIES * 8;
pub const TRADES: usize = TRADE_COUNT + 2;
/// Bytes of a book.
pub const BOOK: usize = TRADES + MAX_TRADES * TRADE;

/// Where the holding of an account in a security begins.
pub fn holding_at(account: usize, security: usize) -> usize {
    HOLDINGS + (account * SECURITIES + security) * 8
}

/// The 2-byte number that begins at `at`.
pub(crate) fn u16_at(bytes: &[u8; BOOK], at: usize) -> u16 {
    u16::from_be_bytes([bytes[at], bytes[at + 1]])
}

pub(crate) fn put(bytes: &mut [u8; BOOK], at: usize, field: &[u8]) {
    bytes[at..at + field.len()].copy_from_slice(field);
}

#[cfg(test)]
mod tests {
    use super::*;

    #[test]
    fn the_table_of_docs_book() {
        assert_eq!((POSITIONS, HOLDINGS, CHARGES), (36, 20_516, 36_900));
        assert_eq!((TRADE_COUNT, TRADES, BOOK), (38_948, 38_950, 42_278));
        assert_eq!(holding_at(1, 0) + 7, 20_779);
    }
}
