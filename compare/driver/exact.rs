//! Document 01's leaves written down a second time, from its words alone and in whole numbers: no rounding of a
//! machine is used where one is defined. They are what the original's leaves, which rest on a stand-in for `inari`,
//! are held against.

use crate::{engine::Bounds, leaves::Leaves};

/// A magnitude in units of 2^-1074, the more significant word last; room for a sum of two doubles.
type Big = [u64; 34];

fn big(x: f64) -> Big {
    let bits = x.to_bits();
    let (field, low) = (bits >> 52 & 0x7ff, bits & ((1 << 52) - 1));
    let (digits, shift) = if field == 0 { (low, 0) } else { (low | 1 << 52, field - 1) };
    let (word, bit) = ((shift / 64) as usize, shift % 64);
    let mut n = [0; 34];
    n[word] = digits << bit;
    if bit > 0 {
        n[word + 1] = digits >> (64 - bit);
    }
    n
}

fn sum(a: &Big, b: &Big) -> Big {
    let mut carry = 0;
    std::array::from_fn(|i| {
        let wide = a[i] as u128 + b[i] as u128 + carry;
        carry = wide >> 64;
        wide as u64
    })
}

fn is_less(a: &Big, b: &Big) -> bool {
    a.iter().rev().lt(b.iter().rev())
}

/// The larger less the smaller.
fn difference(a: &Big, b: &Big) -> Big {
    let (a, b) = if is_less(a, b) { (b, a) } else { (a, b) };
    let mut borrow = 0;
    std::array::from_fn(|i| {
        let wide = a[i] as i128 - b[i] as i128 - borrow;
        borrow = (wide < 0) as i128;
        wide as u64
    })
}

/// The sum of two finite doubles, exactly: whether it is below zero, and its magnitude.
fn exact_sum(a: f64, b: f64) -> (bool, Big) {
    let (x, y) = (big(a), big(b));
    if a.is_sign_negative() == b.is_sign_negative() {
        (a.is_sign_negative(), sum(&x, &y))
    } else {
        (if is_less(&x, &y) { b.is_sign_negative() } else { a.is_sign_negative() }, difference(&x, &y))
    }
}

/// The bits from `at` on, up to 64 of them.
fn window(n: &Big, at: u32) -> u64 {
    let (word, bit) = ((at / 64) as usize, at % 64);
    let high = if bit > 0 && word + 1 < n.len() { n[word + 1] << (64 - bit) } else { 0 };
    n[word] >> bit | high
}

/// Half of a magnitude as a double, to nearest, ties to even. The half is counted in units of 2^-1075.
fn rounded_half(n: &Big) -> f64 {
    let length =
        n.iter().enumerate().rev().find(|(_, &w)| w != 0).map_or(0, |(i, w)| 64 * i as u32 + 64 - w.leading_zeros());
    let shift = if length > 54 { length - 53 } else { 1 };
    let kept = window(n, shift) & ((1 << 53) - 1);
    let half = window(n, shift - 1) & 1 == 1;
    let (word, bit) = ((shift as usize - 1) / 64, (shift - 1) % 64);
    let rest = n[..word].iter().any(|&w| w != 0) || n[word] & ((1 << bit) - 1) != 0;
    let up = half && (rest || kept % 2 == 1);
    f64::from_bits(((shift as u64 - 1) << 52) + kept + up as u64)
}

/// Whether an interval is exactly so wide.
fn is_wide(x: Bounds, width: f64) -> bool {
    x.0.is_finite() && x.1.is_finite() && exact_sum(x.1, -x.0).1 == big(width)
}

/// Whether two numbers bound an interval, of an integer parameter or a real one.
pub fn is_legal((a, b): Bounds, integer: bool) -> bool {
    let is_whole = |x: f64| x.is_infinite() || x.fract() == 0.0;
    a <= b && a < f64::INFINITY && b > f64::NEG_INFINITY && (!integer || is_whole(a) && is_whole(b))
}

/// Zeros as they are kept: -0 below, +0 above.
pub fn put(x: Bounds) -> Bounds {
    (if x.0 == 0.0 { -0.0 } else { x.0 }, if x.1 == 0.0 { 0.0 } else { x.1 })
}

/// Half away from zero.
fn to_whole(x: f64) -> f64 {
    let size = x.abs();
    let low = size.floor();
    let whole = if size - low >= 0.5 { low + 1.0 } else { low };
    if x < 0.0 && whole > 0.0 {
        -whole
    } else {
        whole
    }
}

fn cut_below(b: f64) -> f64 {
    if b < 0.0 {
        (2.0 * b).max(f64::MIN)
    } else if b == 0.0 {
        -1.0
    } else {
        0.0
    }
}

/// The definitions of document 01.
pub struct Paper;

impl Leaves for Paper {
    fn midpoint(&self, (a, b): Bounds) -> f64 {
        match (a.is_finite(), b.is_finite()) {
            (false, false) => 0.0,
            (true, false) => f64::MAX,
            (false, true) => f64::MIN,
            (true, true) => {
                let (below, size) = exact_sum(a, b);
                let half = rounded_half(&size);
                if below && half > 0.0 {
                    -half
                } else {
                    half
                }
            }
        }
    }

    fn simple_fraction(&self, x: Bounds) -> f64 {
        let (a, b) = put(x);
        let same = (0..64).take_while(|i| (a.to_bits() ^ b.to_bits()) >> (63 - i) & 1 == 0).count();
        if same == 64 {
            return a;
        }
        let from = if a <= 0.0 { a } else { b };
        f64::from_bits(from.to_bits() >> (63 - same) << (63 - same))
    }

    fn subdivision_point(&self, (a, b): Bounds, integer: bool) -> f64 {
        match (a.is_finite(), b.is_finite()) {
            (false, false) => 0.0,
            (false, true) => cut_below(b),
            (true, false) if cut_below(-a) == 0.0 => 0.0,
            (true, false) => -cut_below(-a),
            (true, true) if integer => to_whole(self.midpoint((a, b))),
            (true, true) => self.midpoint((a, b)),
        }
    }

    fn is_subdivisible(&self, x: Bounds, integer: bool) -> bool {
        let middle = if integer { to_whole(self.midpoint(x)) } else { self.midpoint(x) };
        middle != x.0 && middle != x.1
    }

    fn first_cut(&self, x: Bounds, integer: bool) -> Vec<Bounds> {
        let mut pieces = vec![(x.0, x.0), x, (x.1, x.1)];
        pieces.retain(|p| !(p.0 == p.1 && p.0.is_infinite()));
        if integer {
            pieces.retain(|&p| !is_wide(p, 1.0));
            pieces.dedup();
        }
        pieces.into_iter().map(put).collect()
    }

    fn later_cut(&self, x: Bounds, integer: bool) -> Vec<Bounds> {
        let c = self.subdivision_point(x, integer);
        let mut pieces = vec![(x.0, c), (c, c), (c, x.1)];
        if integer {
            pieces.retain(|&p| !is_wide(p, 1.0));
            for p in &mut pieces {
                if is_wide(*p, 2.0) && self.is_subdivisible(*p, true) {
                    let middle = self.midpoint(*p);
                    *p = (middle, middle);
                }
            }
        }
        pieces.into_iter().map(put).collect()
    }

    fn write_small(&self, x: u64) -> Vec<u8> {
        let tail = (0..7).take_while(|z| x >> (7 * (z + 1)) > 0).count();
        let word = (2 * x as u128 + 1) << tail;
        word.to_le_bytes()[..=tail].to_vec()
    }

    fn read_small(&self, bytes: &[u8]) -> (u64, usize) {
        let tail = (0..8).take_while(|z| bytes[0] >> z & 1 == 0).count();
        let mut word = [0; 16];
        word[..=tail].copy_from_slice(&bytes[..=tail]);
        ((u128::from_le_bytes(word) >> (tail + 1)) as u64, tail + 1)
    }

    fn pixel_index(&self, index: u64, level: i8) -> u64 {
        if level >= 0 {
            index * (1 << level)
        } else {
            index / (1 << -level)
        }
    }

    fn halves(&self, index: u64, level: i8) -> ([u64; 2], i8) {
        ([2 * index, 2 * index + 1], level - 1)
    }

    fn is_halvable(&self, level: i8) -> bool {
        level > -32
    }
}
