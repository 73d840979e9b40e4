//! Exact fractions, for the check by brute force.

use std::cmp::Ordering;
use std::ops::{Add, Mul, Sub};

#[derive(Clone, Copy, Debug)]
pub struct Fraction {
    num: i128,
    den: i128,
}

impl Fraction {
    pub fn new(num: i128, den: i128) -> Fraction {
        let d = gcd(num.unsigned_abs(), den.unsigned_abs()) as i128 * den.signum();
        Fraction {
            num: num / d,
            den: den / d,
        }
    }

    pub fn sign(self) -> i128 {
        self.num.signum()
    }

    pub fn min(self, other: Fraction) -> Fraction {
        match (self - other).num.cmp(&0) {
            Ordering::Greater => other,
            _ => self,
        }
    }

    pub fn divided_by(self, other: Fraction) -> Fraction {
        Fraction::new(self.num * other.den, self.den * other.num)
    }

    /// The whole numbers i with i <= x <= i + 1: two of them where x is whole.
    pub fn unit_cells(self) -> std::ops::RangeInclusive<i128> {
        let floor = self.num.div_euclid(self.den);
        if self.num.rem_euclid(self.den) == 0 {
            floor - 1..=floor
        } else {
            floor..=floor
        }
    }
}

fn gcd(a: u128, b: u128) -> u128 {
    if b == 0 {
        a
    } else {
        gcd(b, a % b)
    }
}

impl Add for Fraction {
    type Output = Fraction;

    fn add(self, o: Fraction) -> Fraction {
        Fraction::new(self.num * o.den + o.num * self.den, self.den * o.den)
    }
}

impl Sub for Fraction {
    type Output = Fraction;

    fn sub(self, o: Fraction) -> Fraction {
        Fraction::new(self.num * o.den - o.num * self.den, self.den * o.den)
    }
}

impl Mul for Fraction {
    type Output = Fraction;

    fn mul(self, o: Fraction) -> Fraction {
        Fraction::new(self.num * o.num, self.den * o.den)
    }
}
