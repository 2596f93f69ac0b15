//! Fractions in lowest terms, each part in 64 bits.

use std::cmp::Ordering;

/// Why an operation has no result.
#[derive(Clone, Copy, Debug, PartialEq, Eq)]
pub enum Trap {
    Overflow,
    DivZero,
}

/// A fraction: its denominator is positive.
#[derive(Clone, Copy, Debug, PartialEq, Eq)]
pub struct Frac {
    pub num: i64,
    pub den: i64,
}

impl Frac {
    /// The reduced quotient, or None if it doesn't fit.
    pub fn reduced(num: u128, den: u128) -> Option<Frac> {
        if den == 0 {
            return None;
        }
        let divisor = if den == 1 { 1 } else { gcd(num, den) };
        let num = i64::try_from(num / divisor).ok()?;
        let den = i64::try_from(den / divisor).ok()?;
        Some(Frac { num, den })
    }

    /// It is 0.
    pub fn is_zero(self) -> bool {
        self.num == 0
    }

    fn whole(n: i128) -> Result<Frac, Trap> {
        match i64::try_from(n) {
            Ok(num) if num != i64::MIN => Ok(Frac { num, den: 1 }),
            _ => Err(Trap::Overflow),
        }
    }

    fn signed(negative: bool, num: u128, den: u128) -> Result<Frac, Trap> {
        let Frac { num, den } = Frac::reduced(num, den).ok_or(Trap::Overflow)?;
        Ok(Frac { num: if negative { -num } else { num }, den })
    }

    /// The sum.
    pub fn add(self, other: Frac) -> Result<Frac, Trap> {
        if self.den == 1 && other.den == 1 {
            return Frac::whole(self.num as i128 + other.num as i128);
        }
        let sum = self.num as i128 * other.den as i128 + other.num as i128 * self.den as i128;
        Frac::signed(sum < 0, sum.unsigned_abs(), self.den as u128 * other.den as u128)
    }

    /// The difference.
    pub fn sub(self, other: Frac) -> Result<Frac, Trap> {
        self.add(other.neg())
    }

    /// The product.
    pub fn mul(self, other: Frac) -> Result<Frac, Trap> {
        let num = self.num as i128 * other.num as i128;
        if self.den == 1 && other.den == 1 {
            return Frac::whole(num);
        }
        Frac::signed(num < 0, num.unsigned_abs(), self.den as u128 * other.den as u128)
    }

    /// The quotient.
    pub fn div(self, other: Frac) -> Result<Frac, Trap> {
        if other.num == 0 {
            return Err(Trap::DivZero);
        }
        let (num, den) = (self.num as i128 * other.den as i128, self.den as i128 * other.num as i128);
        Frac::signed((num < 0) != (den < 0), num.unsigned_abs(), den.unsigned_abs())
    }

    /// Powers of a fraction in lowest terms are in lowest terms.
    pub fn pow(self, power: i32) -> Result<Frac, Trap> {
        let (num, den) = match power {
            0.. => (self.num, self.den),
            _ if self.num == 0 => return Err(Trap::DivZero),
            _ => (self.num.signum() * self.den, self.num.abs()),
        };
        let times = power.unsigned_abs();
        let num = num.checked_pow(times).filter(|n| *n != i64::MIN).ok_or(Trap::Overflow)?;
        let den = den.checked_pow(times).ok_or(Trap::Overflow)?;
        Ok(Frac { num, den })
    }

    /// The number with the other sign.
    pub fn neg(self) -> Frac {
        Frac { num: -self.num, den: self.den }
    }

    /// Which of the two is greater.
    pub fn compare(self, other: Frac) -> Ordering {
        if self.den == other.den {
            return self.num.cmp(&other.num);
        }
        (self.num as i128 * other.den as i128).cmp(&(other.num as i128 * self.den as i128))
    }
}

fn gcd(mut a: u128, mut b: u128) -> u128 {
    while b > u64::MAX as u128 {
        (a, b) = (b, a % b);
    }
    if b == 0 {
        return a;
    }
    let (mut a, mut b) = (b as u64, (a % b) as u64);
    while b != 0 {
        (a, b) = (b, a % b);
    }
    a as u128
}
