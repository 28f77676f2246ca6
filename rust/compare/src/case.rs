//! One case: what a call is given; and its outcome, everything that the call gives back or may alter.

use crate::wrapped;
use reference::book::Trade;
use reference::calls;
use reference::file::Answer;
use reference::lines::{Line, Tally};
use reference::refusal::{number, Refusal};
use wickdamson::ffi;

/// What is asked; the book is lent along.
#[derive(Clone, Debug)]
pub enum Ask {
    Create(Vec<u8>),
    Sound,
    Enter(u32, Trade),
    Amend(u32, Trade),
    Exclude(u32),
    Deposit(u32, u32, u64),
    Withdraw(u32, u32, u64),
    Roll,
    Run(u32),
    Price { intraday: Vec<u8>, closing: Vec<u8>, security: u32 },
    Marks { account: u32, intraday: Vec<u8>, closing: Vec<u8>, rates: Vec<u32>, haircuts: Vec<u32> },
    Record { file: Vec<u8>, place: u32 },
    Play { file: Vec<u8>, answers: Vec<u8> },
    Sheet { file: Vec<u8>, buffer: Vec<u8> },
    Line { buffer: Vec<u8>, line: Line, tally: Tally },
}

#[derive(Clone, Debug)]
pub struct Case {
    pub book: Vec<u8>,
    pub ask: Ask,
}

/// The answer's number, its figures, and every byte of book, buffer and tally behind the call.
#[derive(Clone, Debug, PartialEq, Eq)]
pub struct Outcome {
    pub number: u8,
    pub figures: Vec<i128>,
    pub book: Vec<u8>,
    pub buffer: Vec<u8>,
}

impl Ask {
    /// The name of the call, as the header has it.
    pub fn name(&self) -> &'static str {
        match self {
            Ask::Create(_) => "create",
            Ask::Sound => "sound",
            Ask::Enter(..) => "enter",
            Ask::Amend(..) => "amend",
            Ask::Exclude(_) => "exclude",
            Ask::Deposit(..) => "deposit",
            Ask::Withdraw(..) => "withdraw",
            Ask::Roll => "roll",
            Ask::Run(_) => "run",
            Ask::Price { .. } => "price",
            Ask::Marks { .. } => "marks",
            Ask::Record { .. } => "record",
            Ask::Play { .. } => "play",
            Ask::Sheet { .. } => "sheet",
            Ask::Line { .. } => "line",
        }
    }

    /// The output buffer that is lent, if one is.
    fn buffer(&self) -> Vec<u8> {
        match self {
            Ask::Play { answers: buffer, .. } | Ask::Sheet { buffer, .. } | Ask::Line { buffer, .. } => {
                buffer.clone()
            }
            _ => Vec::new(),
        }
    }
}

impl Case {
    /// What the reference gives.
    pub fn by_reference(&self) -> Outcome {
        let (mut book, mut buffer) = (self.book.clone(), self.ask.buffer());
        let (number, figures) = ask_reference(&self.ask, &mut book, &mut buffer);
        Outcome { number, figures, book, buffer }
    }

    /// What the safe crate gives.
    pub fn by_wrapper(&self) -> Outcome {
        let (mut book, mut buffer) = (self.book.clone(), self.ask.buffer());
        let (number, figures) = wrapped::ask(&self.ask, &mut book, &mut buffer);
        Outcome { number, figures, book, buffer }
    }

    /// What the archive gives.
    pub fn by_archive(&self) -> Outcome {
        let (mut book, mut buffer) = (self.book.clone(), self.ask.buffer());
        let (number, figures) = ask_archive(&self.ask, &mut book, &mut buffer);
        Outcome { number, figures, book, buffer }
    }

    /// The outcome, if all three are the same; else the archive's, or the safe crate's, and the reference's.
    pub fn outcome(&self) -> Result<Outcome, (Outcome, Outcome)> {
        let reference = self.by_reference();
        match [self.by_archive(), self.by_wrapper()].into_iter().find(|outcome| *outcome != reference) {
            Some(other) => Err((other, reference)),
            None => Ok(reference),
        }
    }

    /// Two outcomes that differ, if some do.
    pub fn difference(&self) -> Option<(Outcome, Outcome)> {
        self.outcome().err()
    }
}

/// An answer with one figure, which is zero where it is refused.
fn figured<T: Into<i128>>(answer: Result<T, Refusal>) -> (u8, Vec<i128>) {
    let number = number(&answer);
    (number, vec![answer.map_or(0, Into::into)])
}

fn plain(answer: Result<(), Refusal>) -> (u8, Vec<i128>) {
    (number(&answer), Vec::new())
}

fn sized(answer: Result<usize, Refusal>) -> (u8, Vec<i128>) {
    figured(answer.map(|size| size as u64))
}

fn ask_reference(ask: &Ask, book: &mut [u8], buffer: &mut [u8]) -> (u8, Vec<i128>) {
    match ask {
        Ask::Create(codes) => plain(calls::create(book, codes)),
        Ask::Sound => (0, vec![reference::Book::decode(book).is_ok().into()]),
        Ask::Enter(number, trade) => plain(calls::enter(book, *number, *trade)),
        Ask::Amend(number, trade) => plain(calls::amend(book, *number, *trade)),
        Ask::Exclude(number) => plain(calls::exclude(book, *number)),
        Ask::Deposit(account, security, quantity) => {
            plain(calls::deposit(book, *account, *security, *quantity))
        }
        Ask::Withdraw(account, security, quantity) => {
            plain(calls::withdraw(book, *account, *security, *quantity))
        }
        Ask::Roll => plain(calls::roll(book)),
        Ask::Run(security) => figured(calls::run(book, *security)),
        Ask::Price { intraday, closing, security } => {
            figured(calls::price(intraday, closing, *security).map(|entry| u32::from_be_bytes(*entry)))
        }
        Ask::Marks { account, intraday, closing, rates, haircuts } => {
            let answer = calls::marks(book, *account, intraday, closing, rates, haircuts);
            let marks = answer.unwrap_or_default();
            let figures = std::iter::once(marks.due).chain(marks.sums).map(|sum| sum.0.into());
            (number(&answer), figures.collect())
        }
        Ask::Record { file, place } => {
            let record = calls::record(book, file, *place);
            let Answer { number, figure } = record.answer;
            (number, vec![figure.into(), record.next.into()])
        }
        Ask::Play { file, .. } => sized(calls::play(book, file, buffer)),
        Ask::Sheet { file, .. } => sized(calls::sheet(book, file, buffer)),
        Ask::Line { line, tally, .. } => {
            let mut tally = *tally;
            let answer = calls::write_line(buffer, line, &mut tally).map(|part| part.len());
            let (number, mut figures) = sized(answer);
            figures.extend([i128::from(tally.lines), i128::from(tally.bytes)]);
            (number, figures)
        }
    }
}

/// Every figure is written by the archive, also where it refuses: none of these is an answer.
const UNWRITTEN: u32 = 0xdead_beef;

fn ask_archive(ask: &Ask, book: &mut [u8], buffer: &mut [u8]) -> (u8, Vec<i128>) {
    let (at, room) = (book.as_mut_ptr(), book.len());
    let (out, out_room) = (buffer.as_mut_ptr(), buffer.len());
    let mut size = UNWRITTEN as usize;
    // SAFETY: all buffers are vectors of their own, lent with their lengths; all figures are variables of their own.
    unsafe {
        match ask {
            Ask::Create(codes) => (ffi::wick_create(at, room, codes.as_ptr(), codes.len()), vec![]),
            Ask::Sound => (0, vec![ffi::wick_sound(at, room).into()]),
            Ask::Enter(number, t) => {
                let number =
                    ffi::wick_enter(at, room, *number, t.buyer, t.seller, t.security, t.quantity, t.price.0);
                (number, vec![])
            }
            Ask::Amend(number, t) => {
                let number =
                    ffi::wick_amend(at, room, *number, t.buyer, t.seller, t.security, t.quantity, t.price.0);
                (number, vec![])
            }
            Ask::Exclude(number) => (ffi::wick_exclude(at, room, *number), vec![]),
            Ask::Deposit(account, security, quantity) => {
                (ffi::wick_deposit(at, room, *account, *security, *quantity), vec![])
            }
            Ask::Withdraw(account, security, quantity) => {
                (ffi::wick_withdraw(at, room, *account, *security, *quantity), vec![])
            }
            Ask::Roll => (ffi::wick_roll(at, room), vec![]),
            Ask::Run(security) => {
                let mut moved = UNWRITTEN.into();
                let number = ffi::wick_run(at, room, *security, &mut moved);
                (number, vec![moved.into()])
            }
            Ask::Price { intraday, closing, security } => {
                let mut price = UNWRITTEN;
                let number = ffi::wick_price(
                    intraday.as_ptr(),
                    intraday.len(),
                    closing.as_ptr(),
                    closing.len(),
                    *security,
                    &mut price,
                );
                (number, vec![price.into()])
            }
            Ask::Marks { account, intraday, closing, rates, haircuts } => {
                let [mut due, mut sum0, mut sum1, mut sum2, mut sum3] = [i64::from(UNWRITTEN); 5];
                let number = ffi::wick_marks(
                    at,
                    room,
                    *account,
                    intraday.as_ptr(),
                    intraday.len(),
                    closing.as_ptr(),
                    closing.len(),
                    rates.as_ptr(),
                    rates.len(),
                    haircuts.as_ptr(),
                    haircuts.len(),
                    &mut due,
                    &mut sum0,
                    &mut sum1,
                    &mut sum2,
                    &mut sum3,
                );
                (number, [due, sum0, sum1, sum2, sum3].map(i128::from).to_vec())
            }
            Ask::Record { file, place } => {
                let (mut figure, mut next) = (UNWRITTEN.into(), UNWRITTEN);
                let (file, length) = (file.as_ptr(), file.len());
                let number = ffi::wick_record(at, room, file, length, *place, &mut figure, &mut next);
                (number, vec![figure.into(), next.into()])
            }
            Ask::Play { file, .. } => {
                let (file, length) = (file.as_ptr(), file.len());
                let number = ffi::wick_play(at, room, file, length, out, out_room, &mut size);
                (number, vec![size as i128])
            }
            Ask::Sheet { file, .. } => {
                let (file, length) = (file.as_ptr(), file.len());
                let number = ffi::wick_sheet(at, room, file, length, out, out_room, &mut size);
                (number, vec![size as i128])
            }
            Ask::Line { line, tally, .. } => {
                let mut tally = *tally;
                let number = archive_line(buffer, line, &mut tally, &mut size);
                (number, vec![size as i128, tally.lines.into(), tally.bytes.into()])
            }
        }
    }
}

/// A line through the archive, with a tally of the safe crate; the answer and the size.
pub fn raw_line(buffer: &mut [u8], line: &Line, tally: &mut wickdamson::Tally) -> (u8, usize) {
    let mut moved = Tally { lines: tally.lines, bytes: tally.bytes };
    let mut size = UNWRITTEN as usize;
    // SAFETY: nothing is asked of the caller.
    let number = unsafe { archive_line(buffer, line, &mut moved, &mut size) };
    *tally = wickdamson::Tally { lines: moved.lines, bytes: moved.bytes };
    (number, size)
}

/// # Safety
///
/// None is asked of the caller: the references are enough.
unsafe fn archive_line(buffer: &mut [u8], line: &Line, tally: &mut Tally, size: &mut usize) -> u8 {
    let (at, room) = (buffer.as_mut_ptr(), buffer.len());
    let Tally { lines, bytes } = tally;
    match *line {
        Line::Refusal { index, refusal } => {
            ffi::wick_line_refusal(at, room, index, refusal, lines, bytes, size)
        }
        Line::Place(place) => ffi::wick_line_place(at, room, place, lines, bytes, size),
        Line::Day(day) => ffi::wick_line_day(at, room, day, lines, bytes, size),
        Line::Open { number, account, security, quantity, money } => {
            ffi::wick_line_open(at, room, number, account, security, quantity.0, money.0, lines, bytes, size)
        }
        Line::Charge { account, currency, charge } => {
            ffi::wick_line_charge(at, room, account, currency, charge.0, lines, bytes, size)
        }
        Line::End(above) => ffi::wick_line_end(at, room, above, lines, bytes, size),
    }
}
