//! The small functions side by side: the same intervals, numbers and coordinates to two makers of answers.
//! Asked is what both can answer: legal intervals, numbers below 2^56, whole codes, pixels below 2^32.

use crate::{
    engine::*,
    random::Random,
    setups::{above, parameter},
};
use oracle::leaf;
use std::{
    fmt::Debug,
    panic::{catch_unwind, AssertUnwindSafe},
};

/// Who answers. Every question is a legal one.
pub trait Leaves {
    fn midpoint(&self, x: Bounds) -> f64;
    fn simple_fraction(&self, x: Bounds) -> f64;
    fn subdivision_point(&self, x: Bounds, integer: bool) -> f64;
    fn is_subdivisible(&self, x: Bounds, integer: bool) -> bool;
    fn first_cut(&self, x: Bounds, integer: bool) -> Vec<Bounds>;
    fn later_cut(&self, x: Bounds, integer: bool) -> Vec<Bounds>;
    fn write_small(&self, x: u64) -> Vec<u8>;

    /// The number at the start of the bytes, and the length of its code.
    fn read_small(&self, bytes: &[u8]) -> (u64, usize);
    fn pixel_index(&self, index: u64, level: i8) -> u64;
    fn halves(&self, index: u64, level: i8) -> ([u64; 2], i8);
    fn is_halvable(&self, level: i8) -> bool;
}

/// The original's own. Where a code lies in the queue's storage changes with every question.
pub struct OriginalLeaves;

impl Leaves for OriginalLeaves {
    fn midpoint(&self, x: Bounds) -> f64 {
        leaf::midpoint(x)
    }

    fn simple_fraction(&self, x: Bounds) -> f64 {
        leaf::simple_fraction(x)
    }

    fn subdivision_point(&self, x: Bounds, integer: bool) -> f64 {
        leaf::subdivision_point(x, integer)
    }

    fn is_subdivisible(&self, x: Bounds, integer: bool) -> bool {
        leaf::is_subdivisible(x, integer)
    }

    fn first_cut(&self, x: Bounds, integer: bool) -> Vec<Bounds> {
        leaf::subdivide0(x, integer)
    }

    fn later_cut(&self, x: Bounds, integer: bool) -> Vec<Bounds> {
        leaf::subdivide1(x, integer)
    }

    fn write_small(&self, x: u64) -> Vec<u8> {
        leaf::write_small(x, (x % 16) as usize)
    }

    fn read_small(&self, bytes: &[u8]) -> (u64, usize) {
        let turn = bytes.iter().map(|&b| b as usize).sum::<usize>() % 16;
        leaf::read_small(bytes, turn)
    }

    fn pixel_index(&self, index: u64, level: i8) -> u64 {
        leaf::pixel_index(index, level) as u64
    }

    fn halves(&self, index: u64, level: i8) -> ([u64; 2], i8) {
        leaf::halves(index, level)
    }

    fn is_halvable(&self, level: i8) -> bool {
        leaf::is_subdivisible_coordinate(0, level)
    }
}

/// What a comparison of leaves asked and found.
#[derive(Debug, Default)]
pub struct Asked {
    pub intervals: u64,
    pub numbers: u64,
    pub coordinates: u64,
    pub differences: Vec<String>,
}

impl Asked {
    fn same<T: Debug + PartialEq>(&mut self, what: &str, question: impl Debug, left: T, right: T) {
        if left != right {
            self.differences.push(format!("{what} {question:x?}: {left:x?} and {right:x?}"));
        }
    }

    /// Asks, and takes an answer that does not come for a difference.
    fn try_asking(&mut self, question: impl Debug, ask: impl FnOnce(&mut Self)) {
        if catch_unwind(AssertUnwindSafe(|| ask(self))).is_err() {
            self.differences.push(format!("no answer to {question:x?}"));
        }
    }
}

fn all_bits(pieces: Vec<Bounds>) -> Vec<(u64, u64)> {
    pieces.into_iter().map(bits).collect()
}

/// Asks both about one interval.
pub fn ask_interval(left: &impl Leaves, right: &impl Leaves, x: Bounds, asked: &mut Asked) {
    asked.intervals += 1;
    asked.same("midpoint", bits(x), left.midpoint(x).to_bits(), right.midpoint(x).to_bits());
    asked.same("simple_fraction", bits(x), left.simple_fraction(x).to_bits(), right.simple_fraction(x).to_bits());
    for integer in [false, true].into_iter().filter(|&integer| leaf::is_legal(x, integer)) {
        let q = (bits(x), integer);
        let points = (left.subdivision_point(x, integer), right.subdivision_point(x, integer));
        asked.same("subdivision_point", q, points.0.to_bits(), points.1.to_bits());
        asked.same("is_subdivisible", q, left.is_subdivisible(x, integer), right.is_subdivisible(x, integer));
        asked.same("subdivide0", q, all_bits(left.first_cut(x, integer)), all_bits(right.first_cut(x, integer)));
        asked.same("subdivide1", q, all_bits(left.later_cut(x, integer)), all_bits(right.later_cut(x, integer)));
    }
}

/// Asks both about one number, both ways, and about a code of it that is longer than needed.
fn ask_number(left: &impl Leaves, right: &impl Leaves, x: u64, random: &mut Random, asked: &mut Asked) {
    asked.numbers += 1;
    let code = left.write_small(x);
    asked.same("write", x, code.clone(), right.write_small(x));
    let tail = code.len() - 1 + random.below(9 - code.len() as u64) as usize;
    let mut bytes = ((2 * x as u128 + 1) << tail).to_le_bytes()[..=tail].to_vec();
    bytes.extend((0..random.below(4)).map(|_| random.next() as u8));
    asked.same("read", &bytes, left.read_small(&bytes), right.read_small(&bytes));
    asked.same("read what was written", x, left.read_small(&code), (x, code.len()));
}

fn ask_coordinate(left: &impl Leaves, right: &impl Leaves, index: u64, level: i8, asked: &mut Asked) {
    asked.coordinates += 1;
    let q = (index, level);
    if index as u128 * (1u128 << (level as i32 + 32)) < 1 << 64 {
        asked.same("pixel_index", q, left.pixel_index(index, level), right.pixel_index(index, level));
    }
    asked.same("is_subdivisible", q, left.is_halvable(level), right.is_halvable(level));
    if level > -32 && index < 1 << 46 {
        asked.same("subdivide", q, left.halves(index, level), right.halves(index, level));
    }
}

/// An interval of any bits, near or far ones.
fn any_interval(random: &mut Random) -> Bounds {
    let a = f64::from_bits(random.next());
    let b = match random.below(4) {
        0 => f64::from_bits(random.next()),
        1 if a.is_finite() => above(a),
        _ => f64::from_bits(a.to_bits() ^ random.of_bits(60)),
    };
    (a.min(b), a.max(b))
}

/// Asks both `count` questions of each sort, unless some differences are enough.
pub fn ask(left: &impl Leaves, right: &impl Leaves, seed: u64, count: u64) -> Asked {
    let mut random = Random::new(seed);
    let mut asked = Asked::default();
    for i in 0..count {
        let x = match i % 3 {
            0 => parameter(&mut random, true),
            1 => parameter(&mut random, false),
            _ => any_interval(&mut random),
        };
        if leaf::is_legal(x, false) {
            asked.try_asking(bits(x), |asked| ask_interval(left, right, x, asked));
        }
        let near = (1u64 << (7 * random.below(9)).min(55)).wrapping_add(random.below(5)).wrapping_sub(2);
        let number = if random.once_in(4) { near } else { random.of_bits(56) } & ((1 << 56) - 1);
        asked.try_asking(number, |asked| ask_number(left, right, number, &mut random, asked));
        let (index, level) = (random.of_bits(47), random.below(48) as i8 - 32);
        asked.try_asking((index, level), |asked| ask_coordinate(left, right, index, level, asked));
        if asked.differences.len() >= 20 {
            break;
        }
    }
    asked
}
