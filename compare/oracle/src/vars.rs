//! Stand-in for the set of variables. Its bits are document 01's, so a set is its number: x 32, y 16, m 8, n 4,
//! n_theta 2, t 1.

use std::ops::BitOr;

/// A variable's place among an evaluator's arguments.
pub type VarIndex = u8;

#[derive(Clone, Copy, Debug, Eq, Hash, PartialEq)]
pub struct VarSet(u8);

impl VarSet {
    pub const X: Self = Self(32);
    pub const Y: Self = Self(16);
    pub const M: Self = Self(8);
    pub const N: Self = Self(4);
    pub const N_THETA: Self = Self(2);
    pub const T: Self = Self(1);

    pub const fn from_bits(bits: u8) -> Self {
        Self(bits)
    }

    pub const fn bits(self) -> u8 {
        self.0
    }

    pub const fn contains(self, other: Self) -> bool {
        self.0 & other.0 == other.0
    }
}

impl BitOr for VarSet {
    type Output = Self;

    fn bitor(self, rhs: Self) -> Self {
        Self(self.0 | rhs.0)
    }
}

/// A union of sets as a constant.
#[macro_export]
macro_rules! vars {
    ($first:path $(| $more:path)*) => {
        $crate::vars::VarSet::from_bits($first.bits() $(| $more.bits())*)
    };
}
