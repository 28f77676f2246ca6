//! The whole example of the rules document through the archive, call by call and as a file.

use wickdamson::*;

fn file() -> Vec<u8> {
    std::fs::read(concat!(env!("CARGO_MANIFEST_DIR"), "/../../tests/vectors/v01_example.bin"))
        .expect("the example's call file")
}

fn played_by_calls() -> Result<(Book, Quantity), Refusal> {
    let mut listing = [None; 32];
    listing[0] = Some(Currency::Base);
    let mut book = Book::create(&listing)?;
    let security = Security(0);
    let trade = |buyer, seller, quantity, price| Trade {
        buyer: Account(buyer),
        seller: Account(seller),
        security,
        quantity: Quantity(quantity),
        price: Price(price),
    };
    book.enter(Number(1), &trade(1, 2, 1_000, 10_500))?;
    book.enter(Number(2), &trade(2, 3, 400, 10_600))?;
    book.deposit(Account(2), security, Quantity(250))?;
    book.deposit(Account(3), security, Quantity(400))?;
    book.roll()?;
    book.roll()?;
    let moved = book.run(security)?;
    Ok((book, moved))
}

#[test]
fn call_by_call() {
    let (book, moved) = played_by_calls().expect("every call of the example is accepted");
    assert_eq!((moved, book.day()), (Quantity(650), 2));
    let open: Vec<Position> = book.positions().collect();
    assert_eq!(
        open,
        [
            Position { number: 4128, shares: Shares(350), money: Mils(3_675_000) },
            Position { number: 4160, shares: Shares(-350), money: Mils(-3_651_667) },
        ]
    );
    assert_eq!(open[1].account(), Account(2));
    assert_eq!(book.charge(Account(2), Currency::Base), Some(Mils(-2_608_333)));
    assert_eq!(book.holding(Account(1), Security(0)), Some(Quantity(650)));
    let mut prices = [Price(0); 32];
    prices[0] = Price(9_900);
    let (none, closing) = (Intraday::default(), Closing(prices));
    let marks = book.marks(Account(1), &none, &closing, &[Rate(1_000_000); 4], &[Haircut(0); 4]);
    let sums = [Gain(-210_000), Gain(0), Gain(0), Gain(0)];
    assert_eq!(marks, Ok(Marks { due: Mils(210_000), sums }));
    assert_eq!(price(&none, &closing, Security(0)), Ok(Price(9_900)));
    assert_eq!(price(&none, &closing, Security(1)), Err(Refusal::NoPrice));
    assert_eq!(price(&none, &closing, Security(256)), Err(Refusal::NoSecurity));
}

#[test]
fn as_a_file() {
    let (book, _) = played_by_calls().expect("every call of the example is accepted");
    let played = play(&file()).expect("a file that is not too long");
    assert_eq!(played.book.as_ref(), Some(&book));
    assert_eq!(played.answers.len(), 8);
    assert_eq!(played.answers[7], Answer::Accepted(Quantity(650)));
    let text = sheet(&file()).expect("a sheet");
    assert!(text.starts_with(b"DAY 2\nP 4128 1 0 350 3675000\n") && text.ends_with(b"\nE 6\n"));

    let (mut single, mut place, mut records) = (book.clone(), bytes::FIRST, 0);
    while let Record::Played(answer, next) = single.record(&file(), place) {
        assert!(matches!(answer, Answer::Accepted(_)));
        (place, records) = (next, records + 1);
    }
    assert_eq!((single, records), (book, 8));
}

#[test]
fn refusals() {
    let (mut book, _) = played_by_calls().expect("every call of the example is accepted");
    let before = book.clone();
    assert_eq!(book.withdraw(Account(1), Security(0), Quantity(651)), Err(Refusal::NotHeld));
    assert_eq!(book.exclude(Number(1)), Err(Refusal::NoTrade));
    assert_eq!(book.deposit(Account(258), Security(0), Quantity(1)), Err(Refusal::NoAccount));
    assert_eq!(book.run(Security(256)), Err(Refusal::NoSecurity));
    assert_eq!(book.exclude(Number(65_537)), Err(Refusal::NoTrade));
    assert_eq!(book.run(Security(1)), Err(Refusal::NoSecurity));
    assert_eq!(book, before);
    assert!(book.is_sound());
    let mut bytes = book.into_bytes();
    bytes[0] = 255;
    assert_eq!(Book::from_bytes(bytes.clone()), Err(Refusal::NotSound));
    assert_eq!(wickdamson::bytes::roll(&mut bytes), Err(Refusal::NotSound));
    assert!(Book::from_bytes(vec![0; 1]).is_err());
    assert!(play(&[]).is_ok_and(|played| played.book.is_none() && played.answers.len() == 1));
}

#[test]
fn lines_with_a_tally() {
    let (mut buffer, mut tally) = ([7; LINE_BYTES], Tally::default());
    let line = Line::Charge { account: Account(2), currency: Currency::Base, charge: Mils(-1) };
    let part = lines::write_line(&mut buffer, &line, &mut tally).map(|part| part.to_vec());
    assert_eq!(part, Ok(b"C 2 0 -1\n".to_vec()));
    assert_eq!((buffer[9], tally), (7, Tally { lines: 1, bytes: 9 }));
    let mut full = Tally { lines: 1_000_000, bytes: 0 };
    assert_eq!(lines::write_line(&mut buffer, &Line::End(0), &mut full), Err(Refusal::WrongLength));
    let wide = Line::Charge { account: Account(258), currency: Currency::Base, charge: Mils(-1) };
    assert_eq!(lines::write_line(&mut buffer, &wide, &mut tally), Err(Refusal::WrongLength));
    assert_eq!(tally, Tally { lines: 1, bytes: 9 });
    // SAFETY: the functions take nothing.
    assert_eq!(unsafe { (ffi::wick_book_bytes(), ffi::wick_version()) }, (BOOK_BYTES, VERSION));
}
