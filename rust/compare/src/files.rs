//! Random call files, good and damaged.

use crate::calls::Style;
use crate::case::Ask;
use crate::random::Random;
use reference::book::Trade;

/// A record of a file.
pub fn record(kind: u8, fields: &[&[u8]]) -> Vec<u8> {
    let body: Vec<u8> = std::iter::once(kind).chain(fields.iter().copied().flatten().copied()).collect();
    let mut record = (body.len() as u16).to_be_bytes().to_vec();
    record.extend(body);
    record
}

/// An account or security, or a trade number, as a record has it; a wider one as one that there is not.
fn byte(number: u32) -> u8 {
    u8::try_from(number).unwrap_or(255)
}

fn trade_number(number: u32) -> [u8; 2] {
    u16::try_from(number).unwrap_or(0).to_be_bytes()
}

fn trade_record(kind: u8, number: u32, trade: &Trade) -> Vec<u8> {
    let Trade { buyer, seller, security, quantity, price } = trade;
    record(
        kind,
        &[
            &trade_number(number),
            &[byte(*buyer), byte(*seller), byte(*security)],
            &quantity.to_be_bytes(),
            &price.0.to_be_bytes(),
        ],
    )
}

/// The record that asks for a call; `None` if no record does.
pub fn record_of(ask: &Ask) -> Option<Vec<u8>> {
    Some(match ask {
        Ask::Create(codes) => record(0, &[codes]),
        Ask::Enter(number, trade) => trade_record(1, *number, trade),
        Ask::Amend(number, trade) => trade_record(2, *number, trade),
        Ask::Exclude(number) => record(3, &[&trade_number(*number)]),
        Ask::Roll => record(4, &[]),
        Ask::Deposit(account, security, quantity) => {
            record(5, &[&[byte(*account), byte(*security)], &quantity.to_be_bytes()])
        }
        Ask::Withdraw(account, security, quantity) => {
            record(6, &[&[byte(*account), byte(*security)], &quantity.to_be_bytes()])
        }
        Ask::Run(security) => record(7, &[&[byte(*security)]]),
        _ => return None,
    })
}

/// Version and create.
pub fn beginning(codes: &[u8; 32]) -> Vec<u8> {
    let mut file = vec![1];
    file.extend(record(0, &[codes]));
    file
}

/// A readable file of about `size` bytes, which it does not pass.
pub fn readable(random: &mut Random, size: usize) -> Vec<u8> {
    let style = Style::new(random);
    readable_of(style, random, size)
}

/// The same, of calls of one style.
pub fn readable_of(mut style: Style, random: &mut Random, size: usize) -> Vec<u8> {
    let mut file = beginning(&style.codes(random));
    while let Some(record) = record_of(&style.call(random)) {
        if file.len() + record.len() > size {
            break;
        }
        file.extend(record);
    }
    file
}

/// A file with every kind of record and with rolls and runs that move shares, filled up to 65,535 bytes.
pub fn longest(random: &mut Random) -> Vec<u8> {
    let mut file = readable(random, 65_535);
    while file.len() + 3 <= 65_535 {
        file.extend(record(4, &[]));
    }
    // One or two bytes are left: the record before them is made an unreadable one, or they are.
    file.resize(random.pick(&[65_535, 65_535, file.len()]), 0);
    file
}

/// A create and 21,833 rolls: 65,535 bytes, and as many records as a file can hold.
pub fn rolls() -> Vec<u8> {
    let mut file = beginning(&[0; 32]);
    while file.len() + 3 <= 65_535 {
        file.extend(record(4, &[]));
    }
    file
}

/// A fill of the position table to its brim: rolls after days of 256 trades between pairs that do not meet again.
pub fn brim(random: &mut Random) -> Vec<u8> {
    let mut file = beginning(&[random.below(4) as u8; 32]);
    let shift = random.below(64);
    for day in 0..3 {
        for n in 0..random.within(250, 256) {
            let place = n + day * 300 + shift;
            let trade = Trade {
                buyer: (place % 64) as u32,
                seller: ((place + 1 + place / 64) % 64) as u32,
                security: (place / 16 % 32) as u32,
                quantity: random.within(1, 1_000_000) as u32,
                price: reference::units::Price(random.within(1, 9_999_999) as u32),
            };
            file.extend(trade_record(1, n as u32 + 1, &trade));
        }
        file.extend(record(4, &[]));
    }
    for _ in 0..30 {
        file.extend(match random.below(4) {
            0 => record(4, &[]),
            1 => record(7, &[&[random.below(32) as u8]]),
            _ => record(
                5,
                &[&[random.below(64) as u8, random.below(32) as u8], &random.sized(22).to_be_bytes()],
            ),
        });
    }
    file
}

/// The file with one sort of damage.
pub fn damaged(random: &mut Random, file: &[u8]) -> Vec<u8> {
    let mut file = file.to_vec();
    let place = random.index(file.len());
    match random.below(7) {
        0 => file.truncate(place),
        1 => file.insert(place, random.byte()),
        2 => drop(file.remove(place)),
        3 => {
            let rest = file.split_off(place);
            let mut again = file.clone();
            file.extend(rest);
            file.append(&mut again);
            file.truncate(65_540);
        }
        4 => file[place] ^= 1 << random.below(8),
        5 => file[place] = random.pick(&[0, 1, 2, 3, 4, 31, 32, 33, 63, 64, 255]),
        _ => file[place] = random.byte(),
    }
    file
}

/// The places where the records of a file begin, as far as their lengths go.
pub fn places(file: &[u8]) -> Vec<usize> {
    let (mut places, mut place) = (Vec::new(), 1);
    while place < file.len() {
        places.push(place);
        let length = match file.get(place..place + 2) {
            Some(&[high, low]) => usize::from(u16::from_be_bytes([high, low])),
            _ => break,
        };
        place += 2 + length;
    }
    places
}
