//! Stand-in for the crate `inari`: intervals of doubles as IEEE 1788-2015 has them, as far as the refinement asks.
//!
//! A zero lower bound is held as -0 and a zero upper bound as +0, whatever sign it came with. The empty interval is
//! [+inf, -inf]. Of the arithmetic there is what a picture's map asks for, each bound the exact result rounded outward
//! (`directed.rs`). A picture that is mapped to itself, as all but the boxes have it, is answered without a rounding.

mod directed;

use directed::{fused, quotient};
use std::ops::{Div, Neg, Sub};

/// How well a function is defined over a box, from not at all upwards.
#[derive(Clone, Copy, Debug, Eq, Ord, PartialEq, PartialOrd)]
pub enum Decoration {
    Ill,
    Trv,
    Def,
    Dac,
    Com,
}

/// Two numbers that bound no interval.
#[derive(Clone, Copy, Debug, Eq, PartialEq)]
pub struct IntervalError;

/// A closed interval; a zero bound counts as equal whatever its sign.
#[derive(Clone, Copy, Debug, PartialEq)]
pub struct Interval {
    lower: f64,
    upper: f64,
}

impl Eq for Interval {}

impl Interval {
    pub const EMPTY: Self = Self { lower: f64::INFINITY, upper: f64::NEG_INFINITY };
    pub const ENTIRE: Self = Self { lower: f64::NEG_INFINITY, upper: f64::INFINITY };
    const ZERO: Self = Self { lower: -0.0, upper: 0.0 };
    const ONE: Self = Self { lower: 1.0, upper: 1.0 };

    /// The interval from `a` to `b`, if there is one that is not empty.
    pub fn from_bounds(a: f64, b: f64) -> Result<Self, IntervalError> {
        if a <= b && a != f64::INFINITY && b != f64::NEG_INFINITY {
            Ok(Self::put(a, b))
        } else {
            Err(IntervalError)
        }
    }

    fn put(a: f64, b: f64) -> Self {
        Self { lower: if a == 0.0 { -0.0 } else { a }, upper: if b == 0.0 { 0.0 } else { b } }
    }

    pub fn inf(self) -> f64 {
        self.lower
    }

    pub fn sup(self) -> f64 {
        self.upper
    }

    pub fn is_empty(self) -> bool {
        self == Self::EMPTY
    }

    pub fn is_singleton(self) -> bool {
        self.lower == self.upper
    }

    /// The exact half sum, rounded once to nearest, ties to even; a zero is +0.
    /// An unbounded interval has a fixed answer for each of its three kinds.
    pub fn mid(self) -> f64 {
        let Self { lower: a, upper: b } = self;
        match (a.is_infinite(), b.is_infinite()) {
            _ if self.is_empty() => f64::NAN,
            (true, true) => 0.0,
            (true, false) => f64::MIN,
            (false, true) => f64::MAX,
            (false, false) => {
                // Of the sum and its half only one can be inexact; where the sum overflows, both halves are exact.
                let half = if (a + b).is_finite() { 0.5 * (a + b) } else { 0.5 * a + 0.5 * b };
                if half == 0.0 {
                    0.0
                } else {
                    half
                }
            }
        }
    }

    /// The exact width, rounded upward.
    pub fn wid(self) -> f64 {
        let Self { lower: a, upper: b } = self;
        if self.is_empty() {
            return f64::NAN;
        }
        let near = b - a;
        if !near.is_finite() {
            return near;
        }
        // What the subtraction rounded away, exactly.
        let a_part = near - b;
        let rest = (b - (near - a_part)) + (-a - a_part);
        if rest > 0.0 {
            f64::from_bits(near.to_bits() + 1)
        } else {
            near
        }
    }

    /// Both bounds cut to whole numbers, toward zero.
    pub fn trunc(self) -> Self {
        if self.is_empty() {
            self
        } else {
            Self::put(self.lower.trunc(), self.upper.trunc())
        }
    }

    pub fn to_be_bytes(self) -> [u8; 16] {
        let mut bytes = [0; 16];
        bytes[..8].copy_from_slice(&self.lower.to_be_bytes());
        bytes[8..].copy_from_slice(&self.upper.to_be_bytes());
        bytes
    }

    pub fn try_from_be_bytes(bytes: [u8; 16]) -> Result<Self, IntervalError> {
        let half = |at: usize| f64::from_be_bytes(bytes[at..at + 8].try_into().unwrap());
        Self::from_bounds(half(0), half(8))
    }

    pub fn intersection(self, other: Self) -> Self {
        let a = self.lower.max(other.lower);
        let b = self.upper.min(other.upper);
        if a <= b {
            Self::put(a, b)
        } else {
            Self::EMPTY
        }
    }

    pub fn convex_hull(self, other: Self) -> Self {
        Self::put(self.lower.min(other.lower), self.upper.max(other.upper))
    }

    pub fn subset(self, other: Self) -> bool {
        self.is_empty() || other.lower <= self.lower && self.upper <= other.upper
    }

    /// `self` times `factor` plus `rest`, rounded once.
    pub fn mul_add(self, factor: Self, rest: Self) -> Self {
        if factor == Self::ONE && rest == Self::ZERO {
            return self;
        }
        if self.is_empty() || factor.is_empty() || rest.is_empty() {
            return Self::EMPTY;
        }
        let corners = self.corners(factor);
        let low = corners.map(|(a, b)| sum_of_product(a, b, rest.lower, |a, b, c| fused(a, b, c).down()));
        let high = corners.map(|(a, b)| sum_of_product(a, b, rest.upper, |a, b, c| fused(a, b, c).up()));
        Self::around(low, high)
    }

    fn corners(self, other: Self) -> [(f64, f64); 4] {
        let (a, b) = ((self.lower, self.upper), (other.lower, other.upper));
        [(a.0, b.0), (a.0, b.1), (a.1, b.0), (a.1, b.1)]
    }

    fn around(low: [f64; 4], high: [f64; 4]) -> Self {
        Self::put(low.into_iter().fold(f64::INFINITY, f64::min), high.into_iter().fold(f64::NEG_INFINITY, f64::max))
    }
}

/// a times b plus c, where nought times an infinity is nought, and an infinite bound c stays what it is.
fn sum_of_product(a: f64, b: f64, c: f64, rounded: impl Fn(f64, f64, f64) -> f64) -> f64 {
    if c.is_infinite() || a == 0.0 || b == 0.0 {
        c
    } else if a.is_infinite() || b.is_infinite() {
        a * b
    } else {
        rounded(a, b, c)
    }
}

impl Sub for Interval {
    type Output = Self;

    fn sub(self, rhs: Self) -> Self {
        if rhs == Self::ZERO {
            return self;
        }
        Self::ONE.mul_add(self, -rhs)
    }
}

impl Neg for Interval {
    type Output = Self;

    fn neg(self) -> Self {
        Self::put(-self.upper, -self.lower)
    }
}

impl Div for Interval {
    type Output = Self;

    fn div(self, rhs: Self) -> Self {
        if self == rhs && self.is_singleton() && self != Self::ZERO {
            return Self::ONE;
        }
        let bounded = rhs.lower.is_finite() && rhs.upper.is_finite();
        assert!(bounded && (0.0 < rhs.lower || rhs.upper < 0.0), "a bounded divisor without zero is stood in for");
        if self.is_empty() {
            return self;
        }
        let corners = self.corners(rhs);
        let low = corners.map(|(a, b)| if a.is_infinite() { a * b } else { quotient(a, b).down() });
        let high = corners.map(|(a, b)| if a.is_infinite() { a * b } else { quotient(a, b).up() });
        Self::around(low, high)
    }
}

/// The interval between two numbers, or an error where there is none.
#[macro_export]
macro_rules! interval {
    ($a:expr, $b:expr) => {
        $crate::Interval::from_bounds($a, $b)
    };
}
