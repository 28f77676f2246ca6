//! The lines of the sheet: "One space between, newline after each, minus for negatives, no leading zeros."

use crate::refusal::Refusal;
use crate::units::{Mils, Shares};

/// "neither passes 1,000,000"
const MAX_TALLY: u32 = 1_000_000;

/// A line of the sheet.
#[derive(Clone, Copy, Debug, PartialEq, Eq)]
pub enum Line {
    /// `R` record index from 0, refusal
    Refusal { index: u32, refusal: u32 },
    /// `X` place
    Place(u32),
    /// `DAY` day
    Day(u32),
    /// `P` number account security quantity money
    Open { number: u32, account: u32, security: u32, quantity: Shares, money: Mils },
    /// `C` account currency charge
    Charge { account: u32, currency: u32, charge: Mils },
    /// `E` and the lines above it
    End(u32),
}

impl Line {
    /// Whether each field has its width: one byte for account, security, currency and refusal, two for the day. A line whose
    /// fields are wider is refused as one that does not fit (`include/wickdamson.h`).
    fn is_narrow(&self) -> bool {
        match *self {
            Line::Refusal { refusal, .. } => refusal <= 255,
            Line::Day(day) => day <= 65_535,
            Line::Open { account, security, .. } => account <= 255 && security <= 255,
            Line::Charge { account, currency, .. } => account <= 255 && currency <= 255,
            Line::Place(_) | Line::End(_) => true,
        }
    }

    /// The line's text, with its newline.
    pub fn text(&self) -> Text {
        match *self {
            Line::Refusal { index, refusal } => Text::new("R").count(index).count(refusal),
            Line::Place(place) => Text::new("X").count(place),
            Line::Day(day) => Text::new("DAY").count(day),
            Line::Open { number, account, security, quantity, money } => {
                Text::new("P").count(number).count(account).count(security).signed(quantity.0).signed(money.0)
            }
            Line::Charge { account, currency, charge } => {
                Text::new("C").count(account).count(currency).signed(charge.0)
            }
            Line::End(above) => Text::new("E").count(above),
        }
        .newline()
    }
}

/// The text of one line; the longest, of an open position, has 63 bytes, and 77 if its account and security are 32 bits wide.
#[derive(Clone, Copy)]
pub struct Text {
    bytes: [u8; 80],
    length: usize,
}

impl Text {
    fn new(word: &str) -> Text {
        Text { bytes: [0; 80], length: 0 }.put(word.as_bytes())
    }

    pub fn as_bytes(&self) -> &[u8] {
        &self.bytes[..self.length]
    }

    #[inline]
    fn put(mut self, bytes: &[u8]) -> Text {
        self.bytes[self.length..self.length + bytes.len()].copy_from_slice(bytes);
        self.length += bytes.len();
        self
    }

    fn newline(self) -> Text {
        self.put(b"\n")
    }

    /// One space and a number.
    fn count(self, number: impl Into<u64>) -> Text {
        self.put(b" ").digits(number.into())
    }

    /// One space and a number, with a minus if it is below zero.
    fn signed(self, number: i64) -> Text {
        let sign: &[u8] = if number < 0 { b" -" } else { b" " };
        self.put(sign).digits(number.unsigned_abs())
    }

    /// "Digits come most significant first."
    fn digits(mut self, mut number: u64) -> Text {
        let width = number.checked_ilog10().map_or(1, |log| log as usize + 1);
        for place in (self.length..self.length + width).rev() {
            self.bytes[place] = b'0' + (number % 10) as u8;
            number /= 10;
        }
        self.length += width;
        self
    }
}

/// "A tally of lines and bytes is lent along and moved on by every line".
#[derive(Clone, Copy, Debug, Default, PartialEq, Eq)]
pub struct Tally {
    pub lines: u32,
    pub bytes: u32,
}

impl Tally {
    /// The tally with one line more; "a line that would take one past it is refused by 18".
    fn moved_on(self, width: usize) -> Result<Tally, Refusal> {
        let lines = self.lines.checked_add(1);
        let bytes = self.bytes.checked_add(width as u32);
        match (lines, bytes) {
            (Some(lines), Some(bytes)) if lines <= MAX_TALLY && bytes <= MAX_TALLY => {
                Ok(Tally { lines, bytes })
            }
            _ => Err(Refusal::Length),
        }
    }
}

/// "A line is written into a lent buffer and the written part is handed back; bytes beyond it stay."
pub fn write_line<'a>(buffer: &'a mut [u8], line: &Line, tally: &mut Tally) -> Result<&'a mut [u8], Refusal> {
    if !line.is_narrow() {
        return Err(Refusal::Length);
    }
    let text = line.text();
    let part = buffer.get_mut(..text.length).ok_or(Refusal::Length)?;
    *tally = tally.moved_on(text.length)?;
    part.copy_from_slice(text.as_bytes());
    Ok(part)
}

#[cfg(test)]
mod tests {
    use super::*;

    fn text(line: Line) -> String {
        String::from_utf8_lossy(line.text().as_bytes()).into_owned()
    }

    #[test]
    fn texts() {
        let (least, most) = (i64::MIN, i64::MAX);
        let open = |quantity, money| Line::Open {
            number: u32::MAX,
            account: 255,
            security: 255,
            quantity: Shares(quantity),
            money: Mils(money),
        };
        assert_eq!(
            text(open(least, least)),
            "P 4294967295 255 255 -9223372036854775808 -9223372036854775808\n"
        );
        assert_eq!(text(open(most, 0)), "P 4294967295 255 255 9223372036854775807 0\n");
        assert_eq!(text(Line::Refusal { index: 0, refusal: 10 }), "R 0 10\n");
        assert_eq!(text(Line::Place(99)), "X 99\n");
        assert_eq!(text(Line::Day(60_000)), "DAY 60000\n");
        assert_eq!(text(Line::Charge { account: 2, currency: 0, charge: Mils(-1) }), "C 2 0 -1\n");
        assert_eq!(text(Line::End(100)), "E 100\n");
    }

    #[test]
    fn the_tally_bounds_lines_and_bytes() {
        let line = Line::End(6); // 4 bytes
        for (lines, bytes, fits) in [
            (0, 0, true),
            (999_999, 999_996, true),
            (1_000_000, 0, false),
            (0, 999_997, false),
            (u32::MAX, u32::MAX, false),
        ] {
            let (mut buffer, mut tally) = ([7; 5], Tally { lines, bytes });
            let written = write_line(&mut buffer, &line, &mut tally).map(|part| part.to_vec());
            if fits {
                assert_eq!(written, Ok(b"E 6\n".to_vec()));
                assert_eq!((buffer, tally), (*b"E 6\n\x07", Tally { lines: lines + 1, bytes: bytes + 4 }));
            } else {
                assert_eq!(written, Err(Refusal::Length));
                assert_eq!((buffer, tally), ([7; 5], Tally { lines, bytes }));
            }
        }
        let (mut short, mut tally) = ([7; 3], Tally::default());
        assert_eq!(write_line(&mut short, &line, &mut tally), Err(Refusal::Length));
        assert_eq!((short, tally), ([7; 3], Tally::default()));
    }
}
