//! "Settlement run": one security's due deliverers and receivers meet.

use crate::book::{Book, Position};
use crate::layout::ACCOUNTS;
use crate::refusal::Refusal;
use crate::units::Mils;

/// One side of a run: the place of a record, and the shares that it has left to give or still wants.
struct Side {
    place: usize,
    shares: u64,
}

impl Book {
    /// The shares moved, "0 included". Refused by 13 where "deliverable shares exceed the receivers' total".
    pub fn run(&mut self, security: u32) -> Result<u64, Refusal> {
        let security = self.listed(security)?;
        let (givers, receivers) = self.sides(security);
        let deliverable: u64 = givers.iter().map(|giver| giver.shares).sum();
        if deliverable > receivers.iter().map(|receiver| receiver.shares).sum() {
            return Err(Refusal::Undeliverable);
        }
        self.meet(security, &givers, receivers);
        if deliverable > 0 {
            self.drop_settled();
        }
        Ok(deliverable)
    }

    /// "Due deliverers, by ascending number, give the smaller of their shares and what the account still holds", and
    /// the receivers by ascending number.
    fn sides(&self, security: usize) -> (Vec<Side>, Vec<Side>) {
        let mut held: [u64; ACCOUNTS] = self.holdings.each_ref().map(|account| account[security]);
        let (mut givers, mut receivers) = (Vec::new(), Vec::new());
        let due = &self.positions[..self.due_count()];
        for (place, position) in due.iter().enumerate() {
            if position.security() != security {
                continue;
            }
            let size = position.shares.size();
            if position.shares.0 > 0 {
                receivers.push(Side { place, shares: size });
            } else {
                let held = &mut held[position.account()];
                let shares = size.min(*held);
                *held -= shares;
                if shares > 0 {
                    givers.push(Side { place, shares });
                }
            }
        }
        (givers, receivers)
    }

    /// "a part is one meeting of a giver and a receiver, of the smaller of what the one has left to give and the other
    /// still wants, taken from both records; the search [...] stops at once when nothing is left to give."
    fn meet(&mut self, security: usize, givers: &[Side], receivers: Vec<Side>) {
        let mut receivers = receivers.into_iter();
        let mut receiver = Side { place: 0, shares: 0 };
        for giver in givers {
            let mut left = giver.shares;
            while left > 0 {
                if receiver.shares == 0 {
                    match receivers.next() {
                        Some(next) => receiver = next,
                        None => return, // refusal 13 has kept this out
                    }
                }
                let k = left.min(receiver.shares);
                left -= k;
                receiver.shares -= k;
                let from = self.settle(giver.place, k);
                let to = self.settle(receiver.place, k);
                self.holdings[from][security] -= k;
                self.holdings[to][security] += k;
            }
        }
    }

    /// "Each part's money is charged"; the record's account is handed back.
    fn settle(&mut self, place: usize, k: u64) -> usize {
        let position: &mut Position = &mut self.positions[place];
        let carried: Mils = position.take(k);
        let (account, code) = (position.account(), self.codes[position.security()]);
        self.charges[account][usize::from(code)] += carried;
        account
    }
}
