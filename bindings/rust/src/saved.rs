//! A chart on disk: record, queue and cells together, so that a queue can wait. `bindings/SAVED.md` has the layouts; the Python module and
//! `bindings/c/saved.c` read and write the same.

mod check;
mod fields;
mod one;
mod two;

use crate::{ffi, layout, Buffers, Chart, Lent, Owned, Refusal, Setup};
use std::{error, fmt};

const NAME: &[u8; 8] = b"SMYRILOX";

/// Why bytes are not a saved chart.
#[derive(Clone, Copy, Debug, PartialEq, Eq)]
#[non_exhaustive]
pub enum NotLoaded {
    /// They do not begin as a saved chart does.
    Name,
    /// They were saved in a layout that this release does not know.
    Version(u32),
    /// There are more or fewer bytes than the head asks for, or a reserved byte is not 0.
    Length,
    /// The check at the end differs: a byte was changed.
    Check,
    /// A chart of a kind that this release does not have: which property has which value.
    Kind(&'static str, i32),
    /// The chart was saved with another tag than the one that was named.
    Tag,
    /// The lent memory is not as long as what was saved.
    Memory,
    /// The engine refuses the record, a cell, the front block, a range, or the number of cells; or there is no memory for the chart.
    Refused(Refusal),
}

impl fmt::Display for NotLoaded {
    fn fmt(&self, f: &mut fmt::Formatter) -> fmt::Result {
        match self {
            NotLoaded::Name => write!(f, "not a saved chart"),
            NotLoaded::Version(v) => write!(f, "a chart saved in layout {v}; this release reads 1 and 2"),
            NotLoaded::Length => write!(f, "a saved chart with bytes missing or left over"),
            NotLoaded::Check => write!(f, "a saved chart with changed bytes"),
            NotLoaded::Kind(what, value) => write!(f, "a saved chart whose {what} is {value}, which this release does not have"),
            NotLoaded::Tag => write!(f, "a chart saved with another tag"),
            NotLoaded::Memory => write!(f, "ring or cells of another length than those saved"),
            NotLoaded::Refused(why) => write!(f, "{why}"),
        }
    }
}

impl error::Error for NotLoaded {}

impl<B: Buffers> Chart<B> {
    /// The chart as bytes, to be loaded again: layout 2.
    pub fn save(&self) -> Vec<u8> {
        two::written(&self.state, self.ranges, &self.tag, self.buffers.ring(), self.buffers.cells())
    }

    /// The same chart with a tag: the caller's words for what it is of (the relation, the evaluator and its version). They are saved with
    /// it, and `load_tagged` must name them.
    pub fn tagged(mut self, tag: impl AsRef<[u8]>) -> Chart<B> {
        self.tag = tag.as_ref().to_vec();
        self
    }

    /// The tag, which is empty unless one was given.
    pub fn tag(&self) -> &[u8] {
        &self.tag
    }
}

impl Chart<Owned> {
    /// The chart that these bytes were saved from, without a tag.
    pub fn load(bytes: &[u8]) -> Result<Chart<Owned>, NotLoaded> {
        Chart::load_tagged(bytes, "")
    }

    /// The chart that these bytes were saved from, with this tag.
    pub fn load_tagged(bytes: &[u8], tag: impl AsRef<[u8]>) -> Result<Chart<Owned>, NotLoaded> {
        let saved = Saved::open(bytes, tag.as_ref())?;
        let buffers = Owned::new(saved.state.len, saved.cells().len()).map_err(NotLoaded::Refused)?;
        saved.into_memory(buffers)
    }

    /// The tag of a saved chart.
    pub fn saved_tag(bytes: &[u8]) -> Result<&[u8], NotLoaded> {
        Ok(Saved::read(bytes)?.tag)
    }
}

impl<'a> Chart<Lent<'a>> {
    /// The chart that these bytes were saved from, without a tag, in lent memory of the same lengths. Not loaded, it has changed nothing.
    pub fn load_lent(bytes: &[u8], ring: &'a mut [u8], cells: &'a mut [u64]) -> Result<Chart<Lent<'a>>, NotLoaded> {
        Chart::load_lent_tagged(bytes, "", ring, cells)
    }

    /// The same with this tag.
    pub fn load_lent_tagged(
        bytes: &[u8],
        tag: impl AsRef<[u8]>,
        ring: &'a mut [u8],
        cells: &'a mut [u64],
    ) -> Result<Chart<Lent<'a>>, NotLoaded> {
        let saved = Saved::open(bytes, tag.as_ref())?;
        if ring.len() != saved.state.len || cells.len() != saved.cells().len() {
            return Err(NotLoaded::Memory);
        }
        Chart::load_tagged(bytes, tag)?;
        saved.into_memory(Lent { ring, cells })
    }
}

/// Saved bytes that are whole. The queue begins at the ring's first byte in layout 2, and stands in the whole ring in layout 1.
struct Saved<'a> {
    state: ffi::State,
    ranges: Option<ffi::Ranges>,
    tag: &'a [u8],
    ring: &'a [u8],
    cells: &'a [u8],
}

impl<'a> Saved<'a> {
    fn read(bytes: &'a [u8]) -> Result<Saved<'a>, NotLoaded> {
        if bytes.get(..8) != Some(NAME) {
            return Err(NotLoaded::Name);
        }
        match bytes.get(8..12).map(|version| fields::half(version, 0)) {
            Some(1) => one::read(bytes),
            Some(2) => two::read(bytes),
            Some(other) => Err(NotLoaded::Version(other)),
            None => Err(NotLoaded::Length),
        }
    }

    fn open(bytes: &'a [u8], tag: &[u8]) -> Result<Saved<'a>, NotLoaded> {
        let saved = Saved::read(bytes)?;
        if saved.tag != tag {
            return Err(NotLoaded::Tag);
        }
        Ok(saved)
    }

    fn cells(&self) -> impl ExactSizeIterator<Item = u64> + 'a {
        self.cells.chunks_exact(8).map(|c| fields::word(c, 0))
    }

    /// The chart in this memory, which is as long as the chart's, if the engine takes it.
    fn into_memory<B: Buffers>(self, mut buffers: B) -> Result<Chart<B>, NotLoaded> {
        let (ring, cells) = buffers.both();
        ring.get_mut(..self.ring.len()).ok_or(NotLoaded::Length)?.copy_from_slice(self.ring);
        cells.iter_mut().zip(self.cells()).for_each(|(cell, n)| *cell = n);
        let tag = self.tag.to_vec();
        let chart = Chart { state: self.state, buffers, ranges: self.ranges, tag, grows: false, table: None, verdicts: None };
        is_sound(&chart).map_err(NotLoaded::Refused)?;
        Ok(chart)
    }
}

/// The engine takes the record and the cells, the front block, and the ranges that the chart was begun with.
fn is_sound<B: Buffers>(chart: &Chart<B>) -> Result<(), Refusal> {
    layout::is_the_librarys();
    chart.counts()?;
    if !chart.is_finished() {
        chart.children()?;
    }
    chart.setup().as_ref().map_or(Ok(0), Setup::least_ring)?;
    Ok(())
}
