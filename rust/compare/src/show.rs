//! A case and its two outcomes, for people.

use crate::case::{Ask, Case, Outcome};
use crate::files::places;
use reference::layout::*;

fn hex(bytes: &[u8]) -> String {
    bytes.iter().map(|byte| format!("{byte:02x}")).collect::<Vec<_>>().join(" ")
}

/// The case, and where the archive's outcome (raw, or through the safe crate) and the reference's part.
pub fn difference(case: &Case, archive: &Outcome, reference: &Outcome) -> String {
    let mut text = format!("call: {}\n{}", case.ask.name(), arguments(&case.ask));
    text += &book(&case.book);
    text += &format!("archive:   answer {}, figures {:?}\n", archive.number, archive.figures);
    text += &format!("reference: answer {}, figures {:?}\n", reference.number, reference.figures);
    text += &bytes("book", &archive.book, &reference.book);
    text += &bytes("buffer", &archive.buffer, &reference.buffer);
    text
}

fn arguments(ask: &Ask) -> String {
    match ask {
        Ask::Record { file, place } => format!("place {place}\n{}", records(file)),
        Ask::Play { file, answers } => format!("room for answers: {}\n{}", answers.len(), records(file)),
        Ask::Sheet { file, buffer } => format!("room for the sheet: {}\n{}", buffer.len(), records(file)),
        Ask::Line { buffer, line, tally } => format!("{line:?}, {tally:?}, room {}\n", buffer.len()),
        other => format!("{other:?}\n"),
    }
}

fn records(file: &[u8]) -> String {
    let places = places(file);
    let mut text = format!("file of {} bytes:\n", file.len());
    let ends = places.iter().skip(1).copied().chain([file.len()]);
    if let Some(version) = file.first() {
        text += &format!("  0: {version:02x}\n");
    }
    for (&place, end) in places.iter().zip(ends).take(300) {
        text += &format!("  {place}: {}\n", hex(&file[place..end.min(file.len())]));
    }
    text
}

fn book(bytes: &[u8]) -> String {
    if bytes.len() != BOOK {
        return format!("book of {} bytes\n", bytes.len());
    }
    let count = |at: usize| usize::from(u16::from_be_bytes([bytes[at], bytes[at + 1]]));
    let number = |at: usize| i64::from_be_bytes(bytes[at..at + 8].try_into().expect("8 bytes"));
    let mut text = format!("book: day {}, codes {}\n", count(DAY), hex(&bytes[CODES..POSITION_COUNT]));
    text += &format!("  positions: {}\n", count(POSITION_COUNT));
    for (row, at) in (POSITIONS..HOLDINGS).step_by(POSITION).enumerate().take(1_024) {
        let n = u32::from_be_bytes([bytes[at], bytes[at + 1], bytes[at + 2], bytes[at + 3]]);
        let (shares, money) = (number(at + 4), number(at + 12));
        if (n, shares, money) != (0, 0, 0) {
            let (due, account, security) = (n / 2_048, n / 32 % 64, n % 32);
            text += &format!(
                "    row {row}: {n} (due {due}, account {account}, security {security}) {shares} shares {money} mils\n"
            );
        }
    }
    for place in 0..PAIRS {
        let at = HOLDINGS + place * 8;
        if number(at) != 0 {
            text += &format!("  holding {}/{}: {}\n", place / 32, place % 32, number(at) as u64);
        }
    }
    for place in 0..ACCOUNTS * CURRENCIES {
        let at = CHARGES + place * 8;
        if number(at) != 0 {
            text += &format!("  charge {}/{}: {}\n", place / 4, place % 4, number(at));
        }
    }
    text += &format!("  trades: {}\n", count(TRADE_COUNT));
    for (row, entry) in bytes[TRADES..].chunks_exact(TRADE).enumerate() {
        if entry.iter().any(|&byte| byte != 0) {
            text += &format!("    row {row}: {}\n", hex(entry));
        }
    }
    text
}

fn bytes(what: &str, archive: &[u8], reference: &[u8]) -> String {
    let places: Vec<usize> =
        (0..archive.len().max(reference.len())).filter(|&at| archive.get(at) != reference.get(at)).collect();
    let Some(&first) = places.first() else {
        return String::new();
    };
    let part = |bytes: &[u8]| hex(&bytes[first.min(bytes.len())..(first + 24).min(bytes.len())]);
    format!(
        "{what}: {} bytes differ, the first at {first}\n  archive:   {}\n  reference: {}\n",
        places.len(),
        part(archive),
        part(reference)
    )
}
