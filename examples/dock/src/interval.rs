//! Intervals with outward rounding: whatever the exact value of an expression at points of the operands is, it lies in the result. What is exact stays so.

use std::ops::{Add, Mul, Sub};

#[derive(Clone, Copy, Debug, PartialEq)]
pub struct Bounds {
    pub low: f64,
    pub high: f64,
}

impl Bounds {
    pub fn new(low: f64, high: f64) -> Bounds {
        Bounds { low, high }
    }

    pub fn point(x: f64) -> Bounds {
        Bounds { low: x, high: x }
    }

    /// The fraction n / d, enclosed.
    pub fn ratio(n: i32, d: i32) -> Bounds {
        let x = n as f64 / d as f64;
        let exact = x * d as f64 == n as f64 && x.mul_add(d as f64, -(n as f64)) == 0.0;
        if exact {
            Bounds::point(x)
        } else {
            Bounds {
                low: x.next_down(),
                high: x.next_up(),
            }
        }
    }

    /// The lesser of two values.
    pub fn min(self, other: Bounds) -> Bounds {
        Bounds {
            low: self.low.min(other.low),
            high: self.high.min(other.high),
        }
    }
}

/// A rounded result, and on which side of it the exact one lies: negative below, positive above, 0 where nothing was rounded.
struct Rounded {
    value: f64,
    error: f64,
}

impl Rounded {
    fn sum(a: f64, b: f64) -> Rounded {
        let value = a + b;
        let back = value - a;
        Rounded {
            value,
            error: (a - (value - back)) + (b - back),
        }
    }

    fn product(a: f64, b: f64) -> Rounded {
        let value = a * b;
        let error = a.mul_add(b, -value);
        // so near to 0 the error itself may have been rounded off
        let tiny = a != 0.0 && b != 0.0 && value.abs() < 1e-280;
        Rounded {
            value,
            error: if tiny { f64::NAN } else { error },
        }
    }

    /// The value or, unless it is known to be no larger than the exact one, the number below it.
    fn down(self) -> f64 {
        if self.error >= 0.0 {
            self.value
        } else {
            self.value.next_down()
        }
    }

    fn up(self) -> f64 {
        if self.error <= 0.0 {
            self.value
        } else {
            self.value.next_up()
        }
    }
}

impl Add for Bounds {
    type Output = Bounds;

    fn add(self, other: Bounds) -> Bounds {
        Bounds {
            low: Rounded::sum(self.low, other.low).down(),
            high: Rounded::sum(self.high, other.high).up(),
        }
    }
}

impl Sub for Bounds {
    type Output = Bounds;

    fn sub(self, other: Bounds) -> Bounds {
        self + Bounds {
            low: -other.high,
            high: -other.low,
        }
    }
}

impl Mul for Bounds {
    type Output = Bounds;

    /// Operands are finite here, so no product is 0 times infinity.
    fn mul(self, other: Bounds) -> Bounds {
        let pairs = [
            (self.low, other.low),
            (self.low, other.high),
            (self.high, other.low),
            (self.high, other.high),
        ];
        let low = pairs
            .map(|(a, b)| Rounded::product(a, b).down())
            .into_iter()
            .fold(f64::INFINITY, f64::min);
        let high = pairs
            .map(|(a, b)| Rounded::product(a, b).up())
            .into_iter()
            .fold(f64::NEG_INFINITY, f64::max);
        Bounds { low, high }
    }
}

#[cfg(test)]
mod tests {
    use super::*;

    #[test]
    fn exact_values_lie_inside() {
        let third = Bounds::ratio(1, 3);
        assert!(third.low < third.high);
        let one = third * Bounds::point(3.0);
        assert!(one.low <= 1.0 && 1.0 <= one.high);
        let zero = Bounds::new(-1.0, 2.0) * Bounds::new(0.0, 0.0);
        assert!(zero.low <= 0.0 && 0.0 <= zero.high);
        assert_eq!(
            Bounds::new(1.0, 2.0) - Bounds::new(0.5, 4.0),
            Bounds::new(-3.0, 1.5)
        );
        let tenth = Bounds::point(0.1) + Bounds::point(0.2);
        assert!(tenth.low < 0.30000000000000004 && tenth.high == 0.30000000000000004);
    }
}
