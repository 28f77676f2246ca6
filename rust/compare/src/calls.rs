//! Random calls: mostly good ones, over few accounts and securities so that positions meet; some with one fault or
//! several.

use crate::case::Ask;
use crate::random::Random;
use reference::book::Trade;
use reference::units::Price;

/// What the calls of one history are like.
#[derive(Clone, Debug)]
pub struct Style {
    accounts: Vec<u32>,
    securities: Vec<u32>,
    /// Bits of a trade's quantity, 1 to 20.
    quantity_bits: u64,
    price_bits: u64,
    /// One field in this many is a bad one.
    fault: u64,
    /// Trades for each roll, about.
    trades: u64,
    /// Trade numbers used so far, guessed: those below have been.
    last_number: u32,
}

impl Style {
    pub fn new(random: &mut Random) -> Style {
        let accounts = random.pick(&[2, 3, 5, 8, 64]);
        let securities = random.pick(&[1, 2, 3, 32]);
        let first = random.below(64);
        Style {
            accounts: (0..accounts).map(|a| ((first + a * 7) % 64) as u32).collect(),
            securities: (0..securities).map(|s| ((first + s * 5) % 32) as u32).collect(),
            quantity_bits: random.within(2, 20),
            price_bits: random.within(1, 24),
            fault: random.pick(&[20, 60, 200, 100_000]),
            trades: random.pick(&[1, 3, 6, 12]),
            last_number: 0,
        }
    }

    /// Every account and security, few faults, twelve trades or so for each roll.
    pub fn everyday() -> Style {
        Style {
            accounts: (0..64).collect(),
            securities: (0..32).collect(),
            quantity_bits: 12,
            price_bits: 16,
            fault: 500,
            trades: 12,
            last_number: 0,
        }
    }

    /// The same over the securities and a trade number of some book.
    pub fn over(mut self, securities: Vec<u32>, number: u32) -> Style {
        if !securities.is_empty() {
            self.securities = securities;
        }
        self.last_number = number;
        self
    }

    /// Currency codes with the style's securities listed.
    pub fn codes(&self, random: &mut Random) -> [u8; 32] {
        let mut codes = [255; 32];
        for &security in &self.securities {
            codes[security as usize] = random.below(4) as u8;
        }
        if random.once_in(4) {
            codes.fill_with(|| random.pick(&[0, 1, 2, 3, 255]));
        }
        codes
    }

    fn faulty(&self, random: &mut Random) -> bool {
        random.once_in(self.fault)
    }

    pub fn account(&self, random: &mut Random) -> u32 {
        if self.faulty(random) {
            random.pick(&[63, 64, 65, 128, 255, 256, 258, 319, 65_536, u32::MAX])
        } else {
            random.pick(&self.accounts)
        }
    }

    pub fn security(&self, random: &mut Random) -> u32 {
        if self.faulty(random) {
            random.pick(&[0, 1, 30, 31, 32, 33, 64, 255, 256, 257, 65_536, u32::MAX])
        } else {
            random.pick(&self.securities)
        }
    }

    fn quantity(&self, random: &mut Random) -> u32 {
        if self.faulty(random) {
            random.pick(&[0, 1, 999_999, 1_000_000, 1_000_001, 1 << 24, u32::MAX])
        } else {
            (random.sized(self.quantity_bits) as u32).clamp(1, 1_000_000)
        }
    }

    fn price(&self, random: &mut Random) -> Price {
        Price(if self.faulty(random) {
            random.pick(&[0, 1, 9_999_998, 9_999_999, 10_000_000, 1 << 24, u32::MAX])
        } else {
            (random.sized(self.price_bits) as u32).clamp(1, 9_999_999)
        })
    }

    pub fn trade(&self, random: &mut Random) -> Trade {
        let buyer = self.account(random);
        let mut seller = self.account(random);
        for _ in 0..4 {
            if seller == buyer && !self.faulty(random) {
                seller = self.account(random);
            }
        }
        let security = self.security(random);
        Trade { buyer, seller, security, quantity: self.quantity(random), price: self.price(random) }
    }

    /// A number that is likely in today's list.
    fn used_number(&self, random: &mut Random) -> u32 {
        let back = random.below(self.trades + 1) as u32;
        let wide = if self.faulty(random) { 65_536 } else { 0 };
        self.last_number.saturating_sub(back) + wide
    }

    fn fresh_number(&mut self, random: &mut Random) -> u32 {
        if self.faulty(random) || random.once_in(40) {
            let used = self.used_number(random);
            return random.pick(&[0, 1, self.last_number, used, 65_535, 65_536, 65_537, 65_539, u32::MAX]);
        }
        self.last_number =
            if random.once_in(50) { random.byte().into() } else { self.last_number % 65_535 + 1 };
        self.last_number
    }

    fn moved(&self, random: &mut Random) -> u64 {
        const MOST: u64 = 1_000_000_000_000;
        match random.below(40) {
            0 => random.pick(&[0, 1, MOST - 1, MOST, MOST + 1, 1 << 63, u64::MAX]),
            1 => random.within(1, MOST),
            2 => random.within(1, MOST / 64),
            _ => random.sized(self.quantity_bits + 1).max(1),
        }
    }

    /// A call on a book that is there.
    pub fn call(&mut self, random: &mut Random) -> Ask {
        let trades = self.trades;
        match random.below(trades + 8) {
            n if n < trades => Ask::Enter(self.fresh_number(random), self.trade(random)),
            n => match n - trades {
                0 if random.once_in(2) => Ask::Exclude(self.used_number(random)),
                0 | 1 => Ask::Amend(self.used_number(random), self.trade(random)),
                2 | 3 => Ask::Deposit(self.account(random), self.security(random), self.moved(random)),
                4 => Ask::Withdraw(self.account(random), self.security(random), self.moved(random)),
                5 => Ask::Roll,
                _ => Ask::Run(self.security(random)),
            },
        }
    }
}
