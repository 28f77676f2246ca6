//! The day roll: "charges are set to zero; today's nets become positions due in two days; the list is emptied; the day
//! goes up by one; due positions are offset."

use crate::book::{Book, Entry, Position};
use crate::layout::{ACCOUNTS, CURRENCIES, MAX_POSITIONS, PAIRS, SECURITIES};
use crate::refusal::Refusal;
use crate::sound::LAST_DAY;
use crate::units::{Mils, Shares};

/// "Today's net for an account and security: bought less sold shares, and paid less received amounts." Of the 2,048 pairs
/// a list names 512 at most, so each pair has a place among the named ones.
struct Nets {
    /// For each pair its place in `named`, or [`Nets::NONE`].
    place: [u16; PAIRS],
    /// For each account one bit for each security that a trade names.
    bits: [u32; ACCOUNTS],
    named: Vec<(Shares, Mils)>,
}

impl Nets {
    const NONE: u16 = u16::MAX;

    /// One walk over the list.
    fn of(trades: &[Entry]) -> Nets {
        let named = Vec::with_capacity(2 * trades.len());
        let mut nets = Nets { place: [Nets::NONE; PAIRS], bits: [0; ACCOUNTS], named };
        for trade in trades.iter().filter_map(|entry| entry.trade.as_ref()) {
            let shares = Shares(i64::from(trade.quantity));
            let amount = shares * trade.price;
            let (q, m) = nets.at(trade.buyer, trade.security);
            *q += shares;
            *m += amount;
            let (q, m) = nets.at(trade.seller, trade.security);
            *q -= shares;
            *m -= amount;
        }
        nets
    }

    fn at(&mut self, account: u32, security: u32) -> &mut (Shares, Mils) {
        let (account, security) = (account as usize, security as usize);
        let place = &mut self.place[account * SECURITIES + security];
        if *place == Nets::NONE {
            *place = self.named.len() as u16;
            self.named.push((Shares::ZERO, Mils::ZERO));
            self.bits[account] |= 1 << security;
        }
        &mut self.named[usize::from(*place)]
    }

    /// "A net of 0 shares with money is a position; 0 and 0 is none."
    fn is_position(&(shares, money): &(Shares, Mils)) -> bool {
        !shares.is_zero() || !money.is_zero()
    }

    /// How many of them are positions.
    fn count(&self) -> usize {
        self.named.iter().filter(|net| Nets::is_position(net)).count()
    }

    /// The positions that they become, by ascending number.
    fn positions(&self, due: u32) -> impl Iterator<Item = Position> + '_ {
        let pairs = self.bits.iter().enumerate().flat_map(|(account, &securities)| {
            bits(securities).map(move |security| account * SECURITIES + security)
        });
        pairs.filter_map(move |pair| {
            let net = &self.named[usize::from(self.place[pair])];
            let &(shares, money) = net;
            Nets::is_position(net).then(|| Position { number: Position::numbered(due, pair), shares, money })
        })
    }
}

/// The places of the bits that are set, from the least.
fn bits(mut word: u32) -> impl Iterator<Item = usize> {
    std::iter::from_fn(move || {
        let place = word.trailing_zeros() as usize;
        (word != 0).then(|| {
            word &= word - 1;
            place
        })
    })
}

impl Book {
    /// Refused by 10 where "open positions plus today's nets, counted before any offset, pass 1,024", and by 14 on day
    /// 60,000.
    pub fn roll(&mut self) -> Result<(), Refusal> {
        let nets = (!self.trades.is_empty()).then(|| Nets::of(&self.trades));
        if self.positions.len() + nets.as_ref().map_or(0, Nets::count) > MAX_POSITIONS {
            return Err(Refusal::TableFull);
        }
        if self.day == LAST_DAY {
            return Err(Refusal::LastDay);
        }
        self.charges = [[Mils::ZERO; CURRENCIES]; ACCOUNTS];
        if let Some(nets) = nets {
            // Every open record is due on day + 1 at the latest, so the nets' numbers ascend behind theirs.
            self.positions.extend(nets.positions(u32::from(self.day) + 2));
        }
        self.trades.clear();
        self.day += 1;
        self.offset();
        Ok(())
    }

    /// "Offsetting, per account and security: a newly due record of 0 shares charges all its money and goes. Otherwise,
    /// while it faces opposite older records, take them by ascending number; the smaller remaining quantity is taken
    /// from both, each part's money is charged, a record at 0 shares goes."
    fn offset(&mut self) {
        let today = Position::numbered(u32::from(self.day), 0);
        let due = self.due_count();
        let (older, newly) = {
            let first = self.positions[..due].partition_point(|p| p.number < today);
            self.positions[..due].split_at_mut(first)
        };
        if newly.is_empty() {
            return;
        }
        let mut chains = Chains::of(older);
        for new in newly.iter_mut() {
            let charge = &mut self.charges[new.account()][usize::from(self.codes[new.security()])];
            if new.shares.is_zero() {
                *charge += std::mem::take(&mut new.money);
                continue;
            }
            while let Some(old) = chains.first(new.pair()).map(|at| &mut older[at]) {
                if !new.shares.opposite(old.shares) {
                    break;
                }
                let k = new.shares.size().min(old.shares.size());
                *charge += new.take(k);
                *charge += old.take(k);
                if old.shares.is_zero() {
                    chains.drop_first(new.pair());
                }
            }
        }
        self.drop_settled();
    }
}

/// The older records of each pair of account and security, by ascending number.
struct Chains {
    /// For each pair the place of its first record, or [`Chains::END`].
    first: [u16; PAIRS],
    /// For each record the place of the next one of its pair.
    next: [u16; MAX_POSITIONS],
}

impl Chains {
    const END: u16 = u16::MAX;

    fn of(positions: &[Position]) -> Chains {
        let mut chains = Chains { first: [Chains::END; PAIRS], next: [Chains::END; MAX_POSITIONS] };
        for (place, position) in positions.iter().enumerate().rev() {
            let first = &mut chains.first[position.pair()];
            chains.next[place] = std::mem::replace(first, place as u16);
        }
        chains
    }

    fn first(&self, pair: usize) -> Option<usize> {
        let place = self.first[pair];
        (place != Chains::END).then_some(usize::from(place))
    }

    fn drop_first(&mut self, pair: usize) {
        if let Some(place) = self.first(pair) {
            self.first[pair] = self.next[place];
        }
    }
}

#[cfg(test)]
mod tests {
    use super::*;
    use crate::book::Trade;
    use crate::units::Price;

    fn entry(number: u32, buyer: u32, seller: u32, quantity: u32, price: u32) -> Entry {
        let trade = Trade { buyer, seller, security: 0, quantity, price: Price(price) };
        Entry { number, trade: Some(trade) }
    }

    /// "Nets: bought 100 at 10,000 and sold 100 at 11,000 is 0 shares, -100000."
    #[test]
    fn a_net_of_no_shares_is_a_position() {
        let list =
            [entry(1, 1, 2, 100, 10_000), Entry { number: 2, trade: None }, entry(3, 3, 1, 100, 11_000)];
        let nets = Nets::of(&list);
        let found: Vec<_> = nets.positions(2).map(|p| (p.number, p.shares.0, p.money.0)).collect();
        assert_eq!(
            found,
            [(4128, 0, -100_000), (4160, -100, -1_000_000), (4192, 100, 1_100_000)],
            "account 1, 2 and 3"
        );
        assert_eq!(nets.count(), 3);
        let none = Nets::of(&[entry(1, 1, 2, 5, 7), entry(2, 2, 1, 5, 7)]);
        assert_eq!((none.count(), none.positions(2).count()), (0, 0));
    }
}
