//! Blocks, as an evaluator sees them.

use crate::{ffi, Interval};
use std::ops::Deref;

/// An index on a level: the square from `index` times 2 to the `level`, in pixels from the picture's left or lower edge.
#[derive(Clone, Copy, Debug, Default, PartialEq)]
pub struct Coordinate {
    pub index: u64,
    pub level: i32,
}

impl Coordinate {
    /// Its two ends in pixels. Both are exact: an index has at most 47 bits, and the level is one of a block, -32 to 15.
    pub fn span(&self) -> (f64, f64) {
        let unit = f64::from_bits(((1023 + self.level as i64) as u64) << 52);
        (self.index as f64 * unit, (self.index + 1) as f64 * unit)
    }
}

/// A part of the picture with an interval for each parameter; an unused parameter is the whole line.
#[derive(Clone, Copy, Debug, PartialEq)]
pub struct Block {
    pub x: Coordinate,
    pub y: Coordinate,
    pub m: Interval,
    pub n: Interval,
    pub theta: Interval,
    pub t: Interval,
}

impl Block {
    /// The level of both coordinates: below 0 the block is a part of a pixel.
    pub fn level(&self) -> i32 {
        self.x.level
    }

    pub(crate) fn from_library(b: &ffi::Child) -> Block {
        let coordinate = |c: ffi::Coordinate| Coordinate { index: c.index, level: c.level };
        Block { x: coordinate(b.x), y: coordinate(b.y), m: b.m, n: b.n, theta: b.theta, t: b.t }
    }
}

/// The children of the front block, at most four, in the order in which their verdicts are given.
#[derive(Clone, Copy, Debug)]
pub struct Children {
    at: [Block; 4],
    count: usize,
}

impl Children {
    pub(crate) fn from_library(l: &ffi::Listed) -> Children {
        Children { at: std::array::from_fn(|i| Block::from_library(&l.at[i])), count: l.count }
    }
}

impl Deref for Children {
    type Target = [Block];

    fn deref(&self) -> &[Block] {
        &self.at[..self.count]
    }
}
