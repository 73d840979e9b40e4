//! Arithmetic on finite doubles with a single rounding, downward or upward, in whole numbers: no rounding of the machine
//! is used, so none of its directions has to be switched.

/// The least digit of a product of two doubles is 2^-2148, and with a third one added it stays below 2^2049.
const LEAST: i32 = -2148;
const WORDS: usize = 67;

/// A magnitude in units of 2^-2148, the more significant word last.
type Big = [u64; WORDS];

const INFINITY: u64 = 0x7ff0_0000_0000_0000;

/// An exact result: its leading digits times 2^exponent, and whether anything stands below them. There are at least 64
/// leading digits where something does.
pub struct Exact {
    negative: bool,
    digits: u128,
    exponent: i32,
    more: bool,
}

/// A finite double: whether it is below zero, and its digits times 2^exponent.
fn parts(x: f64) -> (bool, u64, i32) {
    let bits = x.to_bits();
    let (field, low) = ((bits >> 52 & 0x7ff) as i32, bits & ((1 << 52) - 1));
    let (digits, exponent) = if field == 0 { (low, -1074) } else { (low | 1 << 52, field - 1075) };
    (x.is_sign_negative(), digits, exponent)
}

/// Digits times 2^exponent as a magnitude.
fn placed(digits: u128, exponent: i32) -> Big {
    let shift = (exponent - LEAST) as usize;
    let (word, bit) = (shift / 64, shift % 64);
    let mut n = [0; WORDS];
    n[word] = (digits << bit) as u64;
    n[word + 1] = (digits << bit >> 64) as u64;
    if bit > 0 {
        n[word + 2] = (digits >> (128 - bit)) as u64;
    }
    n
}

fn sum(a: &Big, b: &Big) -> Big {
    let mut carry = 0;
    std::array::from_fn(|i| {
        let wide = a[i] as u128 + b[i] as u128 + carry;
        carry = wide >> 64;
        wide as u64
    })
}

/// The larger less the smaller.
fn difference(larger: &Big, smaller: &Big) -> Big {
    let mut borrow = false;
    std::array::from_fn(|i| {
        let (less, under) = larger[i].overflowing_sub(smaller[i]);
        let (less, under_too) = less.overflowing_sub(borrow as u64);
        borrow = under || under_too;
        less
    })
}

fn leading(negative: bool, n: &Big) -> Exact {
    let top = n.iter().rposition(|&word| word != 0).unwrap_or(0).max(1);
    let digits = (n[top] as u128) << 64 | n[top - 1] as u128;
    let more = n[..top - 1].iter().any(|&word| word != 0);
    Exact { negative, digits, exponent: LEAST + 64 * (top as i32 - 1), more }
}

/// a times b plus c.
pub fn fused(a: f64, b: f64, c: f64) -> Exact {
    let ((a_negative, a, a_exponent), (b_negative, b, b_exponent)) = (parts(a), parts(b));
    let (c_negative, c, c_exponent) = parts(c);
    let product = placed(a as u128 * b as u128, a_exponent + b_exponent);
    let rest = placed(c as u128, c_exponent);
    let negative = a_negative != b_negative;
    if negative == c_negative {
        leading(negative, &sum(&product, &rest))
    } else if rest.iter().rev().lt(product.iter().rev()) {
        leading(negative, &difference(&product, &rest))
    } else {
        leading(c_negative, &difference(&rest, &product))
    }
}

/// a over b, which is not zero.
pub fn quotient(a: f64, b: f64) -> Exact {
    let ((a_negative, a, a_exponent), (b_negative, b, b_exponent)) = (parts(a), parts(b));
    // with 53 digits each the quotient below has 64 or 65
    let (a_shift, b_shift) = (a.leading_zeros() as i32 - 11, b.leading_zeros() as i32 - 11);
    let (wide, divisor) = ((a as u128) << (64 + a_shift), (b as u128) << b_shift);
    let exponent = (a_exponent - a_shift) - (b_exponent - b_shift) - 64;
    Exact { negative: a_negative != b_negative, digits: wide / divisor, exponent, more: wide % divisor != 0 }
}

impl Exact {
    pub fn down(&self) -> f64 {
        self.signed(self.rounded(self.negative))
    }

    pub fn up(&self) -> f64 {
        self.signed(self.rounded(!self.negative))
    }

    fn signed(&self, size: f64) -> f64 {
        if self.negative {
            -size
        } else {
            size
        }
    }

    /// The magnitude as a double, away from zero or toward it.
    fn rounded(&self, away: bool) -> f64 {
        if self.digits == 0 {
            return 0.0;
        }
        let length = 128 - self.digits.leading_zeros() as i32;
        let least = (self.exponent + length - 53).max(-1074);
        let (kept, lost) = match least - self.exponent {
            shift @ 0..=127 => (self.digits >> shift, self.digits & ((1 << shift) - 1) != 0),
            shift if shift < 0 => (self.digits << -shift, false),
            _ => (0, true),
        };
        // a carry out of the digits goes on into the exponent
        let bits = ((least + 1074) as u64) << 52;
        let bits = bits + kept as u64 + (away && (lost || self.more)) as u64;
        match (bits < INFINITY, away) {
            (true, _) => f64::from_bits(bits),
            (false, true) => f64::INFINITY,
            (false, false) => f64::MAX,
        }
    }
}
