//! The call files of `tests/vectors` with the sheets that a model apart from this repository gives, and the marks of the
//! source documents.

use reference::book::Trade;
use reference::calls;
use reference::layout::BOOK;
use reference::marks::Marks;
use reference::units::{Mils, Price};
use std::fs;
use std::path::{Path, PathBuf};

fn vectors() -> Vec<PathBuf> {
    let folder = Path::new(env!("CARGO_MANIFEST_DIR")).join("../../tests/vectors");
    let mut files: Vec<PathBuf> = fs::read_dir(folder)
        .expect("tests/vectors of the repository")
        .map(|entry| entry.expect("an entry of it").path())
        .filter(|path| path.extension().is_some_and(|e| e == "bin"))
        .collect();
    files.sort();
    files
}

/// Every sheet; and every file record by record, on lent bytes, leaves the book and gives the answers of the whole.
#[test]
fn sheets_of_all_vectors() {
    let files = vectors();
    assert!(files.len() >= 18);
    for path in files {
        let file = fs::read(&path).expect("a call file");
        let expected = fs::read(path.with_extension("sheet")).expect("its sheet");
        let (mut book, mut buffer) = (vec![7; BOOK], vec![7; 295_620]);
        let size = calls::sheet(&mut book, &file, &mut buffer).expect("a sheet");
        assert_eq!(buffer[..size], expected, "{}", path.display());
        assert!(buffer[size..].iter().all(|&byte| byte == 7));

        let (mut whole, mut answers) = (vec![7; BOOK], vec![7; 200_000]);
        let size = calls::play(&mut whole, &file, &mut answers).expect("answers");
        assert!(whole == book);
        if file.len() > 20_000 {
            continue;
        }
        let (mut single, mut place, mut joined) = (vec![7; BOOK], 1, Vec::new());
        while place != 0 {
            let record = calls::record(&mut single, &file, place);
            if place < file.len() as u32 {
                joined.push(record.answer.number);
                joined.extend(record.answer.figure.to_be_bytes());
            }
            place = record.next;
        }
        assert!(single == whole && joined == answers[..size], "{}", path.display());
    }
}

/// A table with one price for each of the first securities.
fn table(prices: &[u32]) -> Vec<u8> {
    let mut table: Vec<u8> = prices.iter().flat_map(|price| price.to_be_bytes()).collect();
    table.resize(128, 0);
    table
}

/// V12, 001 and 000, 10.10.4: two currencies.
#[test]
fn marks_of_two_currencies() {
    let mut codes = [255; 32];
    codes[..4].copy_from_slice(&[0, 0, 1, 1]);
    let mut book = vec![0; BOOK];
    assert_eq!(calls::create(&mut book, &codes), Ok(()));
    let trades = [(2, 1, 0, 100, 1000), (1, 2, 1, 200, 1100), (2, 1, 2, 200, 1000), (1, 2, 3, 100, 1000)];
    for (number, (buyer, seller, security, quantity, price)) in (1..).zip(trades) {
        let trade = Trade { buyer, seller, security, quantity, price: Price(price) };
        assert_eq!(calls::enter(&mut book, number, trade), Ok(()));
    }
    assert_eq!(calls::roll(&mut book), Ok(()));
    let (intraday, closing) = (table(&[1100, 0, 1200]), table(&[9, 1200, 9, 1100]));
    let (rates, haircuts) = ([1_000_000, 7_800_000, 1, 1], [0, 50, 0, 0]);
    let marks = |account| calls::marks(&book, account, &intraday, &closing, &rates, &haircuts);
    let sums = [10_000, -30_000, 0, 0];
    assert_eq!(marks(1), Ok(Marks { due: Mils(225_170), sums: sums.map(Mils) }));
    assert_eq!(marks(2), Ok(Marks { due: Mils(0), sums: sums.map(|sum| Mils(-sum)) }));
    assert_eq!(calls::price(&intraday, &closing, 1), Ok(&[0, 0, 4, 176]));
}

/// V14, 001, 10.10.8B.
#[test]
fn marks_of_three_records() {
    let mut codes = [255; 32];
    codes[..3].fill(0);
    let mut book = vec![0; BOOK];
    assert_eq!(calls::create(&mut book, &codes), Ok(()));
    for (number, (buyer, seller, security, quantity, price)) in
        (1..).zip([(2, 1, 0, 100, 1000), (1, 2, 1, 200, 1500), (1, 2, 2, 200, 1000), (1, 2, 2, 100, 1500)])
    {
        let trade = Trade { buyer, seller, security, quantity, price: Price(price) };
        assert_eq!(calls::enter(&mut book, number, trade), Ok(()));
    }
    assert_eq!(calls::roll(&mut book), Ok(()));
    let (prices, none) = (table(&[1100, 1200, 1300]), table(&[]));
    let marks = calls::marks(&book, 1, &none, &prices, &[1_000_000; 4], &[0; 4]);
    assert_eq!(marks, Ok(Marks { due: Mils(30_000), sums: [Mils(-30_000), Mils(0), Mils(0), Mils(0)] }));
}
