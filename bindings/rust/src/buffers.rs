//! The memory of a chart.

use crate::{ffi, Refusal};

/// A ring and cells that a chart has to itself.
pub trait Buffers: sealed::Sealed {
    fn ring(&self) -> &[u8];
    fn cells(&self) -> &[u64];
    #[doc(hidden)]
    fn both(&mut self) -> (&mut [u8], &mut [u64]);
}

/// Memory of the chart's own.
#[derive(Clone)]
pub struct Owned {
    pub(crate) ring: Vec<u8>,
    pub(crate) cells: Vec<u64>,
}

/// Memory lent to the chart for as long as it lives; a step allocates nothing.
pub struct Lent<'a> {
    pub(crate) ring: &'a mut [u8],
    pub(crate) cells: &'a mut [u64],
}

impl Buffers for Owned {
    fn ring(&self) -> &[u8] {
        &self.ring
    }

    fn cells(&self) -> &[u64] {
        &self.cells
    }

    fn both(&mut self) -> (&mut [u8], &mut [u64]) {
        (&mut self.ring, &mut self.cells)
    }
}

impl Buffers for Lent<'_> {
    fn ring(&self) -> &[u8] {
        self.ring
    }

    fn cells(&self) -> &[u64] {
        self.cells
    }

    fn both(&mut self) -> (&mut [u8], &mut [u64]) {
        (self.ring, self.cells)
    }
}

impl sealed::Sealed for Owned {
    fn double(&mut self, state: ffi::State) -> Result<ffi::State, Refusal> {
        let twice = state.len.checked_mul(2).ok_or(Refusal::NoMemory { bytes: u64::MAX })?;
        self.resize(state, twice)
    }
}

impl sealed::Sealed for Lent<'_> {
    /// What was lent is all there is.
    fn double(&mut self, _: ffi::State) -> Result<ffi::State, Refusal> {
        Err(Refusal::Room)
    }
}

mod sealed {
    use crate::{ffi, Refusal};

    pub trait Sealed {
        /// The record after a move to a ring twice as long, which replaces the old one.
        fn double(&mut self, state: ffi::State) -> Result<ffi::State, Refusal>;
    }
}
