//! The same asks through the safe crate's own types: its functions over lent bytes, and, where the bytes are a sound book, the
//! methods of its `Book` too, which must agree with them.

use crate::case::Ask;
use reference::book::Trade;
use reference::lines::{Line, Tally};
use wickdamson::{
    bytes, lines, Account, Answer, Book, Closing, Currency, Haircut, Intraday, Marks, Mils, Number, Place,
    Price, Quantity, Rate, Record, Refusal, Security, Shares,
};

type Told = (u8, Vec<i128>);

fn number<T>(answer: &Result<T, Refusal>) -> u8 {
    answer.as_ref().map_or_else(|refusal| refusal.number(), |_| 0)
}

fn plain(answer: Result<(), Refusal>) -> Told {
    (number(&answer), vec![])
}

fn figured<T>(answer: Result<T, Refusal>, figure: impl FnOnce(T) -> i128) -> Told {
    (number(&answer), vec![answer.map_or(0, figure)])
}

fn trade(trade: &Trade) -> bytes::Trade {
    bytes::Trade {
        buyer: Account(trade.buyer),
        seller: Account(trade.seller),
        security: Security(trade.security),
        quantity: Quantity(trade.quantity.into()),
        price: Price(trade.price.0),
    }
}

/// What the functions over lent bytes give; a `Book` of the same bytes must give the same.
pub fn ask(ask: &Ask, book: &mut [u8], buffer: &mut [u8]) -> Told {
    let owned = Book::from_bytes(book.to_vec());
    assert_eq!(owned.is_ok(), bytes::is_sound(book), "from_bytes and is_sound differ");
    let told = over_bytes(ask, book, buffer);
    if let Ok(mut owned) = owned {
        if let Some(same) = over_book(ask, &mut owned) {
            assert!(same == told && owned.as_bytes() == book, "Book and bytes differ: {ask:?}");
        }
    }
    told
}

fn over_bytes(ask: &Ask, book: &mut [u8], buffer: &mut [u8]) -> Told {
    match ask {
        Ask::Create(codes) => plain(bytes::create(book, codes)),
        Ask::Sound => (0, vec![bytes::is_sound(book).into()]),
        Ask::Enter(number, t) => plain(bytes::enter(book, Number(*number), &trade(t))),
        Ask::Amend(number, t) => plain(bytes::amend(book, Number(*number), &trade(t))),
        Ask::Exclude(number) => plain(bytes::exclude(book, Number(*number))),
        Ask::Deposit(account, security, quantity) => {
            plain(bytes::deposit(book, Account(*account), Security(*security), Quantity(*quantity)))
        }
        Ask::Withdraw(account, security, quantity) => {
            plain(bytes::withdraw(book, Account(*account), Security(*security), Quantity(*quantity)))
        }
        Ask::Roll => plain(bytes::roll(book)),
        Ask::Run(security) => figured(bytes::run(book, Security(*security)), |moved| moved.0.into()),
        Ask::Price { intraday, closing, security } => {
            figured(bytes::price(intraday, closing, Security(*security)), |price| price.0.into())
        }
        Ask::Marks { account, intraday, closing, rates, haircuts } => {
            marked(bytes::marks(book, Account(*account), intraday, closing, rates, haircuts))
        }
        Ask::Record { file, place } => record(bytes::record(book, file, Place(*place))),
        Ask::Play { file, .. } => {
            let told = figured(bytes::play(book, file, buffer), |size| size as i128);
            let size = told.1[0] as usize;
            assert!(answers(&buffer[..size]) == buffer[..size], "the answers read otherwise than they stand");
            told
        }
        Ask::Sheet { file, .. } => figured(bytes::sheet(book, file, buffer), |size| size as i128),
        Ask::Line { line, tally, .. } => written(buffer, line, *tally),
    }
}

/// The methods of `Book`; `None` where it has none for the ask.
fn over_book(ask: &Ask, book: &mut Book) -> Option<Told> {
    Some(match ask {
        Ask::Sound => (0, vec![book.is_sound().into()]),
        Ask::Enter(number, t) => plain(book.enter(Number(*number), &trade(t))),
        Ask::Amend(number, t) => plain(book.amend(Number(*number), &trade(t))),
        Ask::Exclude(number) => plain(book.exclude(Number(*number))),
        Ask::Deposit(account, security, quantity) => {
            plain(book.deposit(Account(*account), Security(*security), Quantity(*quantity)))
        }
        Ask::Withdraw(account, security, quantity) => {
            plain(book.withdraw(Account(*account), Security(*security), Quantity(*quantity)))
        }
        Ask::Roll => plain(book.roll()),
        Ask::Run(security) => figured(book.run(Security(*security)), |moved| moved.0.into()),
        Ask::Marks { account, intraday, closing, rates, haircuts } => {
            let (intraday, closing) = (Intraday(prices(intraday)?), Closing(prices(closing)?));
            let rates: [u32; 4] = rates.as_slice().try_into().ok()?;
            let haircuts: [u32; 4] = haircuts.as_slice().try_into().ok()?;
            let (rates, haircuts) = (rates.map(Rate), haircuts.map(Haircut));
            marked(book.marks(Account(*account), &intraday, &closing, &rates, &haircuts))
        }
        Ask::Record { file, place } => record(book.record(file, Place(*place))),
        _ => return None,
    })
}

/// The prices of a table that is as long as it should be.
fn prices(table: &[u8]) -> Option<[Price; 32]> {
    let (entries, []) = table.as_chunks::<4>() else {
        return None;
    };
    let entries: [[u8; 4]; 32] = entries.try_into().ok()?;
    Some(entries.map(|entry| Price(u32::from_be_bytes(entry))))
}

fn marked(answer: Result<Marks, Refusal>) -> Told {
    let marks = answer.unwrap_or_default();
    let figures = std::iter::once(marks.due.0).chain(marks.sums.map(|sum| sum.0));
    (number(&answer), figures.map(i128::from).collect())
}

/// An answer as its number and figure.
fn answer(answer: Answer) -> (u8, u64) {
    match answer {
        Answer::Accepted(moved) => (0, moved.0),
        Answer::Refused(refusal) => (refusal.number(), 0),
        Answer::Unreadable(place) => (19, place.0.into()),
    }
}

fn record(record: Record) -> Told {
    let ((number, figure), next) = match record {
        Record::Played(played, next) => (answer(played), next.0),
        Record::End => ((0, 0), 0),
        Record::Unreadable(place) => ((19, place.0.into()), 0),
        Record::Refused => ((18, 0), 0),
    };
    (number, vec![figure.into(), next.into()])
}

/// The answers of a file, read and put together again.
fn answers(bytes: &[u8]) -> Vec<u8> {
    bytes::answers(bytes)
        .map(answer)
        .flat_map(|(number, figure)| std::iter::once(number).chain(figure.to_be_bytes()))
        .collect()
}

fn written(buffer: &mut [u8], line: &Line, tally: Tally) -> Told {
    let mut moved = lines::Tally { lines: tally.lines, bytes: tally.bytes };
    let Some(line) = typed(line) else {
        // No line of the safe crate has these fields: what the archive refuses, or writes of numbers that no book has.
        let (number, size) = crate::case::raw_line(buffer, line, &mut moved);
        return (number, vec![size as i128, moved.lines.into(), moved.bytes.into()]);
    };
    let written = lines::write_line(buffer, &line, &mut moved).map(|part| part.len());
    let (number, mut figures) = figured(written, |size| size as i128);
    figures.extend([i128::from(moved.lines), i128::from(moved.bytes)]);
    (number, figures)
}

/// The line in the safe crate's types, if its refusal, day and currency are some of theirs.
fn typed(line: &Line) -> Option<lines::Line> {
    Some(match *line {
        Line::Refusal { index, refusal } => {
            let refusal = Refusal::from_number(u8::try_from(refusal).ok()?)?;
            lines::Line::Refusal { index, refusal }
        }
        Line::Place(place) => lines::Line::Place(Place(place)),
        Line::Day(day) => lines::Line::Day(u16::try_from(day).ok()?),
        Line::Open { number, account, security, quantity, money } => lines::Line::Open {
            number,
            account: Account(account),
            security: Security(security),
            quantity: Shares(quantity.0),
            money: Mils(money.0),
        },
        Line::Charge { account, currency, charge } => {
            let all = [Currency::Base, Currency::Second, Currency::Third, Currency::Fourth];
            let currency = *all.get(currency as usize)?;
            lines::Line::Charge { account: Account(account), currency, charge: Mils(charge.0) }
        }
        Line::End(above) => lines::Line::End(above),
    })
}
