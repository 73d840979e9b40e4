//! Room for the queue: memory for rings and cells, and a move to another ring.

use crate::{ffi, Chart, Lent, Owned, Refusal, Setup};
use std::alloc::{alloc_zeroed, Layout};

impl Chart<Owned> {
    /// Begins a picture with a ring that is enough for so many steps: none of them is refused by 6, whatever the verdicts.
    pub fn for_steps(setup: &Setup, steps: u32) -> Result<Chart<Owned>, Refusal> {
        Chart::new(setup, setup.enough_ring(steps)?)
    }

    /// The same chart, which from now on grows by itself: where a step finds no room, the ring is doubled and the step is taken.
    pub fn growing(mut self) -> Chart<Owned> {
        self.grows = true;
        self
    }

    /// Moves the queue to a ring of so many bytes, longer or shorter. Refused by 6 where the queue's bytes are more, or where there is no
    /// memory for them; then nothing has changed.
    pub fn grow(&mut self, ring: usize) -> Result<(), Refusal> {
        self.state = self.buffers.resize(self.state, ring)?;
        Ok(())
    }
}

impl<'a> Chart<Lent<'a>> {
    /// Moves the queue to another lent ring, longer or shorter. Refused by 6 where the queue's bytes are more; then nothing has changed.
    pub fn grow_into(&mut self, ring: &'a mut [u8]) -> Result<(), Refusal> {
        self.state = moved(self.state, self.buffers.ring, ring)?;
        self.buffers.ring = ring;
        Ok(())
    }
}

impl Owned {
    /// Memory of its own, all zero.
    pub(crate) fn new(ring: usize, cells: usize) -> Result<Owned, Refusal> {
        Ok(Owned { ring: zeros(ring)?, cells: zeros(cells)? })
    }

    /// The record after a move to a ring of so many bytes, which replaces the old one.
    pub(crate) fn resize(&mut self, state: ffi::State, ring: usize) -> Result<ffi::State, Refusal> {
        if ring < state.used {
            return Err(Refusal::Room);
        }
        let mut other = zeros(ring)?;
        let state = moved(state, &self.ring, &mut other)?;
        self.ring = other;
        Ok(state)
    }
}

fn moved(state: ffi::State, ring: &[u8], other: &mut [u8]) -> Result<ffi::State, Refusal> {
    let moved =
        unsafe { ffi::smyrilox_move_queue(state, ring.as_ptr(), ring.len(), other.as_mut_ptr(), other.len()) };
    Refusal::check(moved.refusal)?;
    Ok(moved.state)
}

/// The ring's bytes in use, from the head on, in two parts.
pub(crate) fn queue<'a>(state: &ffi::State, ring: &'a [u8]) -> [&'a [u8]; 2] {
    let before_the_end = state.used.min(ring.len() - state.head);
    [&ring[state.head..state.head + before_the_end], &ring[..state.used - before_the_end]]
}

/// A number of which all bytes may be 0.
pub(crate) trait Number: Copy {}
impl Number for u8 {}
impl Number for u32 {}
impl Number for u64 {}

/// So many zeros, or a refusal that names the bytes. The system gives their memory when they are first written.
pub(crate) fn zeros<T: Number>(count: usize) -> Result<Vec<T>, Refusal> {
    if count == 0 {
        return Ok(Vec::new());
    }
    let no_memory = Refusal::NoMemory { bytes: count as u64 * std::mem::size_of::<T>() as u64 };
    let layout = Layout::array::<T>(count).map_err(|_| no_memory)?;
    // the layout has the alignment of T and is not empty; zeros are numbers, and the vector frees what it was made of
    let start = unsafe { alloc_zeroed(layout) }.cast::<T>();
    if start.is_null() {
        return Err(no_memory);
    }
    Ok(unsafe { Vec::from_raw_parts(start, count, count) })
}
