//! What a picture is begun with.

use crate::{ffi, ffi::Interval, layout, Refusal};
use std::ops::BitOr;

/// A set of variables. Of x and y it only matters whether one of them is used.
#[derive(Clone, Copy, Debug, Default, PartialEq, Eq)]
pub struct Variables(pub u8);

impl Variables {
    pub const X: Variables = Variables(32);
    pub const Y: Variables = Variables(16);
    /// Integer parameters.
    pub const M: Variables = Variables(8);
    pub const N: Variables = Variables(4);
    pub const THETA: Variables = Variables(2);
    /// A real parameter.
    pub const T: Variables = Variables(1);
}

impl BitOr for Variables {
    type Output = Variables;

    fn bitor(self, other: Variables) -> Variables {
        Variables(self.0 | other.0)
    }
}

/// Sides in pixels, the variables that the relation uses, and the ranges of the parameters among them; other ranges are not looked at.
/// `uses` is the header's `set`.
#[derive(Clone, Copy, Debug, PartialEq)]
pub struct Setup {
    pub width: u32,
    pub height: u32,
    pub uses: Variables,
    pub m: Interval,
    pub n: Interval,
    pub theta: Interval,
    pub t: Interval,
}

impl Setup {
    /// A setup in which every parameter ranges over the whole line.
    pub fn new(width: u32, height: u32, uses: Variables) -> Setup {
        let whole = Interval::WHOLE;
        Setup { width, height, uses, m: whole, n: whole, theta: whole, t: whole }
    }

    pub(crate) fn of(chosen: ffi::Chosen, r: ffi::Ranges) -> Setup {
        let uses = Variables(chosen.set);
        Setup { width: chosen.width, height: chosen.height, uses, m: r.m, n: r.n, theta: r.theta, t: r.t }
    }

    /// What crosses first, with the ranges: so here the library is asked whether its records are the ones of this crate.
    pub(crate) fn chosen(&self) -> ffi::Chosen {
        layout::is_the_librarys();
        ffi::Chosen { width: self.width, height: self.height, set: self.uses.0, ..ffi::Chosen::default() }
    }

    pub(crate) fn ranges(&self) -> ffi::Ranges {
        ffi::Ranges { m: self.m, n: self.n, theta: self.theta, t: self.t }
    }

    /// The ranges with the whole line for each parameter that is not used: its range is not looked at.
    pub(crate) fn used_ranges(&self) -> ffi::Ranges {
        let used = |bit: Variables, range| if self.uses.0 & bit.0 != 0 { range } else { Interval::WHOLE };
        ffi::Ranges {
            m: used(Variables::M, self.m),
            n: used(Variables::N, self.n),
            theta: used(Variables::THETA, self.theta),
            t: used(Variables::T, self.t),
        }
    }

    /// How many cells the picture needs: one for each pixel.
    pub fn cells(&self) -> Result<usize, Refusal> {
        let n = unsafe { ffi::smyrilox_cells(self.width, self.height) };
        Refusal::check(n.refusal)?;
        Ok(n.value as usize)
    }

    /// The least ring, in bytes, with which the picture can begin. What later steps need is `enough_ring`.
    pub fn least_ring(&self) -> Result<usize, Refusal> {
        let n = unsafe { ffi::smyrilox_least_ring(self.chosen(), self.ranges()) };
        Refusal::check(n.refusal)?;
        Ok(n.value as usize)
    }

    /// A ring, in bytes, with which none of the first steps, so many of them, is refused by 6, whatever the verdicts.
    pub fn enough_ring(&self, steps: u32) -> Result<usize, Refusal> {
        let n = unsafe { ffi::smyrilox_enough_ring(self.chosen(), self.ranges(), steps) };
        Refusal::check(n.refusal)?;
        usize::try_from(n.value).map_err(|_| Refusal::NoMemory { bytes: n.value })
    }
}
