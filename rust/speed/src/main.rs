//! Measures the archive of the proved book and the reference in one run: the same inputs, both built for release.
//!
//!     speed [SCALE]
//!
//! SCALE is 100 if nothing else is said; 10 takes a tenth of the samples.

mod books;
mod clock;
mod table;

use compare::calls::Style;
use compare::files::{readable_of, rolls};
use compare::random::Random;
use reference::book::Trade;
use reference::calls;
use reference::refusal::{number, Refusal};
use reference::units::Price;
use std::process::exit;
use table::{Room, Table};
use wickdamson::{bytes, Account, Number, Quantity, Security};

/// The number of an answer of the archive, 0 for an accepted call.
fn answered<T>(answer: Result<T, wickdamson::Refusal>) -> u8 {
    answer.map_or_else(wickdamson::Refusal::number, |_| 0)
}

fn main() {
    let scale = match std::env::args().nth(1).map(|argument| argument.parse()) {
        None => 100,
        Some(Ok(scale)) => scale,
        Some(Err(_)) => {
            eprintln!("speed [SCALE], a whole number");
            exit(2);
        }
    };
    println!("Medians of CPU time. Ours is the archive of the proved book, Rust's the reference; both for release.");
    println!("Before each sample, outside its time, the book is copied afresh and the buffers are cleared (zeroed).");
    println!("Every call makes its checks, the test for soundness too; a whole file begins with its create.");
    let mut table = Table::new(scale);
    sheets(&mut table);
    if let Err(refusal) = direct_calls(&mut table) {
        eprintln!("a book to be measured cannot be made: {refusal}");
        exit(1);
    }
}

fn sheets(table: &mut Table) {
    let heavy = std::fs::read(concat!(env!("CARGO_MANIFEST_DIR"), "/../../tests/vectors/heavy.bin"));
    let mixed = readable_of(Style::everyday(), &mut Random::new(7), 65_535);
    for (name, file) in [
        ("21,833 rolls", rolls()),
        ("heavy, mostly rolls refused", heavy.unwrap_or_default()),
        ("mixed calls", mixed),
    ] {
        let name = format!("sheet of a file, {name} ({} bytes)", file.len());
        let room = Room::new(vec![0; wickdamson::BOOK_BYTES], wickdamson::SHEET_BYTES);
        table.row(
            &name,
            (15, 1),
            room,
            |room| answered(bytes::sheet(&mut room.book, &file, &mut room.buffer)),
            |room| number(&calls::sheet(&mut room.book, &file, &mut room.buffer)),
        );
    }
}

fn direct_calls(table: &mut Table) -> Result<(), Refusal> {
    let full = Room::new(books::full()?, 0);
    let trade = Trade { buyer: 3, seller: 8, security: 5, quantity: 1_000, price: Price(10_500) };
    let same = bytes::Trade {
        buyer: Account(3),
        seller: Account(8),
        security: Security(5),
        quantity: Quantity(1_000),
        price: wickdamson::Price(10_500),
    };
    table.row(
        "enter, full book (1,024 positions, the 256th trade)",
        (4_000, 1),
        full.clone(),
        |room| answered(bytes::enter(&mut room.book, Number(256), &same)),
        |room| number(&calls::enter(&mut room.book, 256, trade)),
    );
    table.row(
        "deposit, full book",
        (4_000, 1),
        full.clone(),
        |room| answered(bytes::deposit(&mut room.book, Account(3), Security(5), Quantity(100))),
        |room| number(&calls::deposit(&mut room.book, 3, 5, 100)),
    );
    table.row(
        "withdraw, full book",
        (4_000, 1),
        full.clone(),
        |room| answered(bytes::withdraw(&mut room.book, Account(3), Security(5), Quantity(100))),
        |room| number(&calls::withdraw(&mut room.book, 3, 5, 100)),
    );
    rolls_and_runs(table, &full)?;
    questions(table, &full);
    Ok(())
}

fn rolls_and_runs(table: &mut Table, full: &Room) -> Result<(), Refusal> {
    for (name, book) in [
        ("roll, 1,020 positions, half against half, 256 trades", books::facing()?),
        ("roll, 512 positions, 256 trades that net to 512", books::spread()?),
    ] {
        table.row(
            name,
            (1_000, 1),
            Room::new(book, 0),
            |room| answered(bytes::roll(&mut room.book)),
            |room| number(&calls::roll(&mut room.book)),
        );
    }
    for (name, room) in [
        ("run, 1,024 positions of one security, half delivered", Room::new(books::one_security()?, 0)),
        ("run, 1,024 positions of 32 securities", full.clone()),
    ] {
        table.row(
            name,
            (1_000, 1),
            room,
            |room| answered(bytes::run(&mut room.book, Security(0))),
            |room| number(&calls::run(&mut room.book, 0)),
        );
    }
    Ok(())
}

fn questions(table: &mut Table, full: &Room) {
    let closing: Vec<u8> = (0..32u32).flat_map(|security| (9_000 + security * 100).to_be_bytes()).collect();
    let intraday: Vec<u8> = (0..32u32).flat_map(|security| (security % 2 * 9_500).to_be_bytes()).collect();
    let (rates, haircuts) = ([1_000_000, 7_800_000, 1_080_000, 900_000], [0, 50, 100, 300]);
    table.row(
        "marks, all 64 accounts of a full book (64 calls)",
        (200, 1),
        full.clone(),
        |room| {
            let of =
                |account| bytes::marks(&room.book, Account(account), &intraday, &closing, &rates, &haircuts);
            (0..64).map(|account| answered(of(account))).sum()
        },
        |room| {
            let of = |account| calls::marks(&room.book, account, &intraday, &closing, &rates, &haircuts);
            (0..64).map(|account| number(&of(account))).sum()
        },
    );
    table.row(
        "price question",
        (1_000, 1_000),
        Room::new(Vec::new(), 0),
        |_| answered(bytes::price(&intraday, &closing, Security(30))),
        |_| number(&calls::price(&intraday, &closing, 30)),
    );
}
