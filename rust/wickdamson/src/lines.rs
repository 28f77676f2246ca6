//! The lines of a sheet, one by one.

use crate::book::Currency;
use crate::ffi;
use crate::refusal::Refusal;
use crate::units::{Account, Mils, Place, Security, Shares};

/// A line of the sheet.
#[derive(Clone, Copy, Debug, PartialEq, Eq)]
pub enum Line {
    /// `R` index refusal
    Refusal { index: u32, refusal: Refusal },
    /// `X` place
    Place(Place),
    /// `DAY` day
    Day(u16),
    /// `P` number account security quantity money
    Open { number: u32, account: Account, security: Security, quantity: Shares, money: Mils },
    /// `C` account currency charge
    Charge { account: Account, currency: Currency, charge: Mils },
    /// `E` lines above it
    End(u32),
}

/// Lines and bytes written so far; neither passes 1,000,000.
#[derive(Clone, Copy, Debug, Default, PartialEq, Eq)]
pub struct Tally {
    pub lines: u32,
    pub bytes: u32,
}

/// Writes a line at the front of the buffer and moves the tally on; the written part is handed back, bytes beyond it
/// stay. [`LINE_BYTES`](crate::LINE_BYTES) are enough for any line.
pub fn write_line<'a>(buffer: &'a mut [u8], line: &Line, tally: &mut Tally) -> Result<&'a mut [u8], Refusal> {
    let (at, room) = (buffer.as_mut_ptr(), buffer.len());
    let Tally { lines, bytes } = tally;
    let mut size = 0;
    // SAFETY: the buffer is a slice lent by `&mut`; lines, bytes and size are variables of their own.
    let number = unsafe {
        match *line {
            Line::Refusal { index, refusal } => {
                ffi::wick_line_refusal(at, room, index, refusal.number().into(), lines, bytes, &mut size)
            }
            Line::Place(place) => ffi::wick_line_place(at, room, place.0, lines, bytes, &mut size),
            Line::Day(day) => ffi::wick_line_day(at, room, day.into(), lines, bytes, &mut size),
            Line::Open { number, account, security, quantity, money } => ffi::wick_line_open(
                at, room, number, account.0, security.0, quantity.0, money.0, lines, bytes, &mut size,
            ),
            Line::Charge { account, currency, charge } => {
                ffi::wick_line_charge(at, room, account.0, currency as u32, charge.0, lines, bytes, &mut size)
            }
            Line::End(above) => ffi::wick_line_end(at, room, above, lines, bytes, &mut size),
        }
    };
    Refusal::check(number).map(|()| &mut buffer[..size])
}
