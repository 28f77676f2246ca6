//! "Money is whole mils (thousandths of a currency unit), prices are mils per share, quantities are whole shares.
//! [...] a quantity handed over where an amount is due is a fault the compiler reports."

use std::ops::{AddAssign, Mul, SubAssign};

/// Shares with a direction. "Positive quantity: the account receives shares."
#[derive(Clone, Copy, Debug, Default, PartialEq, Eq, PartialOrd, Ord)]
pub struct Shares(pub i64);

/// Money with a direction. "Positive money: the account pays."
#[derive(Clone, Copy, Debug, Default, PartialEq, Eq, PartialOrd, Ord)]
pub struct Mils(pub i64);

/// Mils for one share.
#[derive(Clone, Copy, Debug, Default, PartialEq, Eq, PartialOrd, Ord)]
pub struct Price(pub u32);

impl Shares {
    pub const ZERO: Shares = Shares(0);

    pub fn is_zero(self) -> bool {
        self.0 == 0
    }

    /// How many shares, whatever their direction.
    pub fn size(self) -> u64 {
        self.0.unsigned_abs()
    }

    /// One receives and the other delivers.
    pub fn opposite(self, other: Shares) -> bool {
        (self.0 ^ other.0) < 0 && !self.is_zero() && !other.is_zero()
    }

    /// What is left when `k` shares, at most [`Shares::size`], are taken.
    #[must_use]
    pub fn without(self, k: u64) -> Shares {
        debug_assert!(k <= self.size());
        Shares(if self.0 < 0 { self.0 + k as i64 } else { self.0 - k as i64 })
    }
}

impl Mils {
    pub const ZERO: Mils = Mils(0);

    pub fn is_zero(self) -> bool {
        self.0 == 0
    }

    /// How many mils, whatever their direction.
    pub fn size(self) -> u64 {
        self.0.unsigned_abs()
    }
}

impl AddAssign for Shares {
    fn add_assign(&mut self, other: Shares) {
        self.0 += other.0;
    }
}

impl SubAssign for Shares {
    fn sub_assign(&mut self, other: Shares) {
        self.0 -= other.0;
    }
}

impl AddAssign for Mils {
    fn add_assign(&mut self, other: Mils) {
        self.0 += other.0;
    }
}

impl SubAssign for Mils {
    fn sub_assign(&mut self, other: Mils) {
        self.0 -= other.0;
    }
}

/// "A trade's amount is quantity * price."
impl Mul<Price> for Shares {
    type Output = Mils;

    fn mul(self, price: Price) -> Mils {
        Mils(self.0 * i64::from(price.0))
    }
}

/// "A part of k shares from a position of q shares and money m carries m*k/|q| truncated towards zero [...]. The part
/// for all shares carries m exactly. The product passes 64 bits; the answer must still be exact."
///
/// For `1 <= k <= |q|`; the result is at most as large as `m`.
pub fn part(money: Mils, shares: Shares, k: u64) -> Mils {
    let size = shares.size();
    debug_assert!((1..=size).contains(&k));
    if k == size {
        return money;
    }
    let (m, k, q) = (money.0, k as i64, size as i64);
    Mils(match m.checked_mul(k) {
        Some(product) => product / q,
        None => (i128::from(m) * i128::from(k) / i128::from(q)) as i64,
    })
}

#[cfg(test)]
mod tests {
    use super::*;

    /// The parts of "Figures to be proved, as one table", and those at the bounds.
    #[test]
    fn parts() {
        for (m, q, k, carried) in [
            (1000, 3, 1, 333),
            (1000, 3, 2, 666),
            (1000, 3, 3, 1000),
            (-1000, 3, 1, -333),
            (6_260_000, 600, 250, 2_608_333),
            (3_675_000, 350, 200, 2_100_000),
            (-3_651_667, 350, 200, -2_086_666),
            (2_560_000_000_000_000, 256_000_000, 255_999_999, 2_559_999_990_000_000),
            (2_559_999_999_999_999, 255_999_999, 255_999_998, 2_559_999_989_999_998),
            (-2_559_999_999_999_999, 255_999_999, 128_000_000, -1_280_000_004_999_999),
            (1, 256_000_000, 255_999_999, 0),
            (-1, 2, 1, 0),
            (-3, 2, 1, -1),
            (2_559_999_744_000_000, 255_999_744, 7, 70_000_063),
        ] {
            assert_eq!(part(Mils(m), Shares(q), k), Mils(carried), "({m}, {q}, {k})");
            assert_eq!(part(Mils(m), Shares(-q), k), Mils(carried), "({m}, -{q}, {k})");
        }
    }

    /// "Giving back the part's rounding at each step" is wrong: a part is of what the record has at that moment.
    #[test]
    fn one_share_after_another() {
        let (mut money, mut shares, mut parts) = (Mils(-3_651_667), Shares(-350), Vec::new());
        for k in [200, 100, 49, 1] {
            let carried = part(money, shares, k);
            money -= carried;
            shares = shares.without(k);
            parts.push(carried.0);
        }
        assert_eq!(parts, [-2_086_666, -1_043_334, -511_233, -10_434]);
        assert_eq!((money, shares), (Mils::ZERO, Shares::ZERO));
    }
}
