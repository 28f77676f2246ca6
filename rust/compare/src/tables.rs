//! Random price tables, rates and haircuts; random lines and tallies.

use crate::case::Ask;
use crate::random::Random;
use reference::lines::{Line, Tally};
use reference::units::{Mils, Shares};

/// A table of prices: `none` of a hundred entries are 0.
fn table(random: &mut Random, none: u64, fault: bool) -> Vec<u8> {
    let mut table: Vec<u8> = (0..32)
        .flat_map(|_| {
            match random.below(100) {
                n if n < none => 0,
                99 => 9_999_999,
                _ => (random.sized(24) as u32).clamp(1, 9_999_999),
            }
            .to_be_bytes()
        })
        .collect();
    if fault {
        match random.below(4) {
            0 => table.resize(random.pick(&[0, 124, 127, 129, 132, 256]), 0),
            _ => {
                let entry: u32 = random.pick(&[10_000_000, 9_999_999, u32::MAX, 1 << 24]);
                let any = random.index(32) * 4;
                let at = random.pick(&[0, 4, 124, any]);
                table[at..at + 4].copy_from_slice(&entry.to_be_bytes());
            }
        }
    }
    table
}

fn tables(random: &mut Random) -> (Vec<u8>, Vec<u8>) {
    let none = random.pick(&[0, 20, 60, 100]);
    let (intraday_fault, closing_fault) = (random.once_in(10), random.once_in(10));
    let closing = random.pick(&[0, 0, none]);
    (table(random, none, intraday_fault), table(random, closing, closing_fault))
}

pub fn price(random: &mut Random) -> Ask {
    let (intraday, closing) = tables(random);
    let any = random.below(32) as u32;
    let security = random.pick(&[0, 31, 32, 255, 256, 287, any, any, any, any]);
    Ask::Price { intraday, closing, security }
}

fn numbers(random: &mut Random, most: u32, base: u32, edges: &[u32], fault: bool) -> Vec<u32> {
    let mut numbers: Vec<u32> = (0..4)
        .map(|_| match random.below(3) {
            0 => most,
            1 => random.pick(edges),
            _ => random.within(u64::from(base > 0), u64::from(most)) as u32,
        })
        .collect();
    numbers[0] = base;
    if fault {
        match random.below(3) {
            0 => numbers.resize(random.pick(&[0, 1, 3, 5]), base),
            1 => numbers[0] = base + random.pick(&[1, u32::MAX - base]),
            _ => numbers[random.index(4)] = random.pick(&[0, most + 1, u32::MAX]),
        }
    }
    numbers
}

pub fn marks(random: &mut Random, account: u32) -> Ask {
    let (intraday, closing) = tables(random);
    let (rate_fault, haircut_fault) = (random.once_in(12), random.once_in(12));
    let rates = numbers(random, 100_000_000, 1_000_000, &[1, 999_999, 1_080_000, 7_800_000], rate_fault);
    let haircuts = numbers(random, 10_000, 0, &[0, 1, 50, 9_999], haircut_fault);
    Ask::Marks { account, intraday, closing, rates, haircuts }
}

fn count(random: &mut Random) -> u32 {
    match random.below(4) {
        0 => random.pick(&[0, 9, 10, 99, 100, 999_999_999, 1_000_000_000, u32::MAX]),
        _ => random.sized(32) as u32,
    }
}

fn whole(random: &mut Random) -> i64 {
    match random.below(4) {
        0 => random.pick(&[0, -1, 9, 10, -10, i64::MAX, i64::MIN, i64::MIN + 1, 1_000_000_000_000_000_000]),
        1 => random.word() as i64,
        _ => {
            let size = random.sized(63) as i64;
            random.pick(&[size, -size])
        }
    }
}

/// A field of one byte, now and then a wider number.
fn narrow(random: &mut Random) -> u32 {
    match random.below(40) {
        0 => random.pick(&[255, 256, 258, 65_536, u32::MAX]),
        n if n < 20 => random.below(20) as u32,
        _ => random.byte().into(),
    }
}

pub fn line(random: &mut Random) -> Ask {
    let line = match random.below(6) {
        0 => Line::Refusal { index: count(random), refusal: narrow(random) },
        1 => Line::Place(count(random)),
        2 => Line::Day(random.word() as u32 % 65_540),
        3 => Line::Open {
            number: count(random),
            account: narrow(random),
            security: narrow(random),
            quantity: Shares(whole(random)),
            money: Mils(whole(random)),
        },
        4 => Line::Charge { account: narrow(random), currency: narrow(random), charge: Mils(whole(random)) },
        _ => Line::End(count(random)),
    };
    let width = line.text().as_bytes().len();
    let any = random.index(70);
    let room = random.pick(&[width, width, width - 1, width + 1, 114, 0, any]);
    let tally = Tally {
        lines: random.pick(&[0, 7, 999_998, 999_999, 1_000_000, 1_000_001, u32::MAX]),
        bytes: match random.below(3) {
            0 => random.pick(&[0, 1_000_000, 1_000_001, u32::MAX, u32::MAX - width as u32]),
            1 => random.below(900_000) as u32,
            _ => 1_000_000 - width as u32 + random.below(4) as u32 - 2,
        },
    };
    Ask::Line { buffer: random.bytes(room), line, tally }
}
