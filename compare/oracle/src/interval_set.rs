//! Stand-in for sets of signs, and an empty shell for the interval sets of the other kinds of graph.

use crate::traits::BytesAllocated;
use inari::Decoration;
use std::ops::BitOr;

/// Which signs a value may have.
#[derive(Clone, Copy, Debug, Eq, PartialEq)]
pub struct SignSet(u8);

impl SignSet {
    pub const NEG: Self = Self(1);
    pub const ZERO: Self = Self(2);
    pub const POS: Self = Self(4);

    pub fn contains(self, other: Self) -> bool {
        self.0 & other.0 == other.0
    }
}

impl BitOr for SignSet {
    type Output = Self;

    fn bitor(self, rhs: Self) -> Self {
        Self(self.0 | rhs.0)
    }
}

/// The signs of a formula's value and how well it is defined.
#[derive(Clone, Copy, Debug)]
pub struct DecSignSet(pub SignSet, pub Decoration);

/// Never made here.
#[derive(Clone, Debug)]
pub struct TupperIntervalSet;

impl BytesAllocated for TupperIntervalSet {
    fn bytes_allocated(&self) -> usize {
        0
    }
}
