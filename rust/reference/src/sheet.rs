//! The sheet of a whole call file.

use crate::book::Book;
use crate::file::{play, MAX_FILE};
use crate::lines::Line;
use crate::refusal::Refusal;

/// Lines one after another, counted.
#[derive(Default)]
struct Sheet {
    text: Vec<u8>,
    lines: u32,
}

impl Sheet {
    fn line(&mut self, line: &Line) {
        self.text.extend_from_slice(line.text().as_bytes());
        self.lines += 1;
    }

    /// "`DAY` day; `P` number account security quantity money, by number; `C` account currency charge, by account then
    /// currency, zero charges omitted".
    fn book(&mut self, book: &Book) {
        self.line(&Line::Day(book.day().into()));
        for position in book.positions() {
            self.line(&Line::Open {
                number: position.number,
                account: position.account() as u32,
                security: position.security() as u32,
                quantity: position.shares,
                money: position.money,
            });
        }
        for (account, charges) in (0..).zip(book.charges()) {
            for (currency, &charge) in (0..).zip(charges) {
                if !charge.is_zero() {
                    self.line(&Line::Charge { account, currency, charge });
                }
            }
        }
    }

    /// "last in every sheet `E` and the lines above it".
    fn end(mut self) -> Vec<u8> {
        self.line(&Line::End(self.lines));
        self.text
    }
}

/// The sheet's text and, if the file's create was read, the book that it leaves. "It prints, for each refused call, `R`
/// record index from 0, refusal; for 19, `X` place; then, if a book exists", the book. "A file refused by 18 gives
/// `R 0 18` and `E 1`."
pub fn sheet(file: &[u8]) -> (Vec<u8>, Option<Book>) {
    let mut sheet = Sheet::default();
    if file.len() > MAX_FILE {
        sheet.line(&Line::Refusal { index: 0, refusal: Refusal::Length.number().into() });
        return (sheet.end(), None);
    }
    let mut index = 0;
    let book = play(file, |answer| {
        const UNREADABLE: u8 = Refusal::Unreadable as u8;
        match answer.number {
            0 => {}
            UNREADABLE => sheet.line(&Line::Place(answer.figure as u32)),
            refusal => sheet.line(&Line::Refusal { index, refusal: refusal.into() }),
        }
        index += 1;
    });
    if let Some(book) = &book {
        sheet.book(book);
    }
    (sheet.end(), book)
}
