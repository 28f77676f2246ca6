//! The smallest case found that still differs: records, rows, entries and bytes are cut while it does.

use crate::case::{Ask, Case};
use crate::files::places;
use reference::layout::*;

struct Shrinker {
    best: Case,
    tries: usize,
}

/// Cuts what can be cut, within some thousand tries.
pub fn shrink(case: Case) -> Case {
    let mut shrinker = Shrinker { best: case, tries: 20_000 };
    for _ in 0..4 {
        let before = shrinker.tries;
        let cut = shrinker.files() | shrinker.buffers() | shrinker.books();
        if !cut || before == 0 {
            break;
        }
    }
    shrinker.best
}

impl Shrinker {
    /// Takes the candidate if it differs too.
    fn attempt(&mut self, candidate: Case) -> bool {
        if self.tries == 0 {
            return false;
        }
        self.tries -= 1;
        let differs = candidate.difference().is_some();
        if differs {
            self.best = candidate;
        }
        differs
    }

    /// Tries `cut(case, first, n)` for runs of n of `count(case)` things, from long runs to single ones.
    fn runs(&mut self, count: impl Fn(&Case) -> usize, cut: impl Fn(&mut Case, usize, usize)) -> bool {
        let mut any = false;
        let mut length = count(&self.best);
        while length > 0 {
            let mut first = 0;
            while first + length <= count(&self.best) {
                let mut candidate = self.best.clone();
                let before = count(&candidate);
                cut(&mut candidate, first, length);
                let shorter = count(&candidate) < before;
                if self.attempt(candidate) {
                    any = true;
                    first += if shorter { 0 } else { length };
                } else {
                    first += length.div_ceil(2);
                }
                if self.tries == 0 {
                    return any;
                }
            }
            length /= 2;
        }
        any
    }

    fn files(&mut self) -> bool {
        if file(&mut self.best.clone()).is_none() {
            return false;
        }
        let records = |case: &Case| file(&mut case.clone()).map_or(0, |file| places(file).len());
        let cut = self.runs(records, |case, first, n| {
            if let Some(file) = file(case) {
                let places = places(file);
                let end = places.get(first + n).copied().unwrap_or(file.len());
                file.drain(places[first]..end);
            }
        });
        let bytes = |case: &Case| file(&mut case.clone()).map_or(0, |file| file.len());
        cut | self.runs(bytes, |case, first, n| {
            if let Some(file) = file(case) {
                file.drain(first..first + n);
            }
        })
    }

    fn buffers(&mut self) -> bool {
        let mut candidate = self.best.clone();
        match &mut candidate.ask {
            Ask::Play { answers: buffer, .. } | Ask::Sheet { buffer, .. } | Ask::Line { buffer, .. }
                if buffer.iter().any(|&byte| byte != 0) =>
            {
                buffer.fill(0);
                self.attempt(candidate)
            }
            _ => false,
        }
    }

    fn books(&mut self) -> bool {
        let mut blank = self.best.clone();
        if blank.book.iter().all(|&byte| byte == 0) {
            return false;
        }
        blank.book.fill(0);
        if self.attempt(blank) {
            return true;
        }
        if self.best.book.len() != BOOK {
            return false;
        }
        let mut cut = self.rows(POSITION_COUNT, POSITIONS, POSITION, MAX_POSITIONS);
        cut |= self.rows(TRADE_COUNT, TRADES, TRADE, MAX_TRADES);
        cut |= self.securities();
        cut |= self.joined_positions();
        cut |= self.moneys();
        cut |= self.entries(HOLDINGS, PAIRS);
        cut | self.entries(CHARGES, ACCOUNTS * CURRENCIES)
    }

    /// Rows of a table are taken out.
    fn rows(&mut self, count_at: usize, table: usize, width: usize, most: usize) -> bool {
        let count = move |case: &Case| rows(&case.book, count_at).min(most);
        self.runs(count, move |case, first, n| {
            for _ in 0..n {
                take_row(&mut case.book, count_at, table, width, most, first);
            }
        })
    }

    /// All records of a security are taken out, so that quantities still balance.
    fn securities(&mut self) -> bool {
        (0..SECURITIES).fold(false, |any, security| {
            let mut candidate = self.best.clone();
            let count = rows(&candidate.book, POSITION_COUNT).min(MAX_POSITIONS);
            let mut taken = false;
            for row in (0..count).rev().filter(|&row| number(&self.best.book, row) as usize % 32 == security)
            {
                take_position(&mut candidate.book, row);
                taken = true;
            }
            any | (taken && self.attempt(candidate))
        })
    }

    /// A record is taken out and another one of the security gets its shares, so that quantities still balance.
    fn joined_positions(&mut self) -> bool {
        let (mut any, mut row) = (false, 0);
        let count = |book: &[u8]| rows(book, POSITION_COUNT).min(MAX_POSITIONS);
        while row < count(&self.best.book) && self.tries > 0 {
            let joined = (0..count(&self.best.book)).any(|other| {
                let book = &self.best.book;
                if other == row || number(book, other) % 32 != number(book, row) % 32 {
                    return false;
                }
                let sum = eight(book, shares_at(row)).wrapping_add(eight(book, shares_at(other)));
                let mut candidate = self.best.clone();
                put_eight(&mut candidate.book, shares_at(other), sum);
                take_position(&mut candidate.book, row);
                if sum == 0 {
                    take_position(&mut candidate.book, other - usize::from(other > row));
                }
                self.attempt(candidate)
            });
            any |= joined;
            row += usize::from(!joined);
        }
        any
    }

    /// The money of a record is made zero.
    fn moneys(&mut self) -> bool {
        (0..rows(&self.best.book, POSITION_COUNT).min(MAX_POSITIONS)).fold(false, |any, row| {
            let at = shares_at(row) + 8;
            let mut candidate = self.best.clone();
            put_eight(&mut candidate.book, at, 0);
            any | (eight(&self.best.book, at) != 0 && self.attempt(candidate))
        })
    }

    /// Entries of 8 bytes are made zero.
    fn entries(&mut self, table: usize, most: usize) -> bool {
        let used = move |case: &Case| -> Vec<usize> {
            let entry = |place: &usize| &case.book[table + place * 8..table + place * 8 + 8];
            (0..most).filter(|place| entry(place).iter().any(|&byte| byte != 0)).collect()
        };
        self.runs(
            move |case| used(case).len(),
            move |case, first, n| {
                for place in &used(case)[first..first + n] {
                    case.book[table + place * 8..table + place * 8 + 8].fill(0);
                }
            },
        )
    }
}

/// The file of a case, if it has one.
fn file(case: &mut Case) -> Option<&mut Vec<u8>> {
    match &mut case.ask {
        Ask::Record { file, .. } | Ask::Play { file, .. } | Ask::Sheet { file, .. } => Some(file),
        _ => None,
    }
}

fn rows(book: &[u8], count_at: usize) -> usize {
    usize::from(u16::from_be_bytes([book[count_at], book[count_at + 1]]))
}

fn take_row(book: &mut [u8], count_at: usize, table: usize, width: usize, most: usize, row: usize) {
    let count = rows(book, count_at).saturating_sub(1);
    book[count_at..count_at + 2].copy_from_slice(&(count as u16).to_be_bytes());
    let end = table + most * width;
    book.copy_within(table + (row + 1) * width..end, table + row * width);
    book[end - width..end].fill(0);
}

fn take_position(book: &mut [u8], row: usize) {
    take_row(book, POSITION_COUNT, POSITIONS, POSITION, MAX_POSITIONS, row);
}

/// The position number of a row.
fn number(book: &[u8], row: usize) -> u32 {
    let at = POSITIONS + row * POSITION;
    u32::from_be_bytes([book[at], book[at + 1], book[at + 2], book[at + 3]])
}

fn shares_at(row: usize) -> usize {
    POSITIONS + row * POSITION + 4
}

fn eight(book: &[u8], at: usize) -> i64 {
    i64::from_be_bytes(std::array::from_fn(|place| book[at + place]))
}

fn put_eight(book: &mut [u8], at: usize, number: i64) {
    book[at..at + 8].copy_from_slice(&number.to_be_bytes());
}
