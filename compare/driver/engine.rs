//! What a refinement engine shows to be compared: the entries of document 01 and the memory that they leave.
//! The original stands behind this trait (`original.rs`), and so can any other engine.

pub use oracle::{
    leaf::Bounds,
    oracle::{Child, Ending, Last, Setup, Standing},
};

/// A number of refusal.
pub type Refusal = u32;

/// An engine's record: what a picture is, and where its queue stands in the ring. A setup leaves the reserved bytes 0;
/// of a record handed in nobody looks at them, and every call hands them back as they were.
#[derive(Clone, Copy, Debug)]
pub struct Record {
    pub width: u32,
    pub height: u32,
    pub set: u8,
    pub reserved: [u8; 3],
    pub taken: u64,
    pub queued: u64,
    pub len: usize,
    pub head: usize,
    pub used: usize,
    /// Of the last block taken.
    pub front: Last,
    /// Of the last block queued.
    pub back: Last,
}

#[derive(Clone, Copy, Debug, Eq, PartialEq)]
pub struct Stepped {
    pub evaluations: u64,
    pub tape: u64,
}

/// How a run ended; a step's refusal stops it.
#[derive(Clone, Copy, Debug, Eq, PartialEq)]
pub enum RunEnd {
    Done,
    Limit,
    More,
    Stop(Refusal),
}

#[derive(Clone, Copy, Debug, Eq, PartialEq)]
pub struct Ran {
    pub end: RunEnd,
    pub steps: u64,
    pub evaluations: u64,
    pub tape: u64,
}

/// Pixels by reading; given-up ones are among the uncertain. `share` is the settled pixels in thousandths.
#[derive(Clone, Copy, Debug, Default, Eq, PartialEq)]
pub struct Counts {
    pub yes: u64,
    pub no: u64,
    pub uncertain: u64,
    pub given_up: u64,
    pub queued: u64,
    pub share: u64,
}

/// A picture under refinement, with its record and the memory lent to it.
pub trait Engine: Clone {
    fn record(&self) -> Record;
    fn ring(&self) -> &[u8];

    /// All cells lent, also those beyond the pixels.
    fn cells(&self) -> &[u64];

    fn children(&self) -> Result<Vec<Child>, Refusal>;
    fn step(&mut self, verdicts: &[u8]) -> Result<Stepped, Refusal>;
    fn run(&mut self, tape: &[u8], budget: u32) -> Result<Ran, Refusal>;

    /// Writes a byte a pixel.
    fn picture(&self, bytes: &mut [u8]) -> Result<(), Refusal>;
    fn counts(&self) -> Result<Counts, Refusal>;
}

/// Sets engines up, on a ring and cells that it takes over.
pub trait Maker {
    type Engine: Engine;

    fn setup(&self, setup: &Setup, ring: Vec<u8>, cells: Vec<u64>) -> Result<Self::Engine, Refusal>;

    /// An engine in the middle of a picture, which is not damaged.
    fn resume(&self, record: &Record, ring: Vec<u8>, cells: Vec<u64>) -> Self::Engine;
}

/// The queue's bytes in order, out of the ring; none where the record speaks of another ring.
pub fn queue_bytes(record: &Record, ring: &[u8]) -> Vec<u8> {
    if record.len != ring.len() || record.head >= record.len || record.used > record.len {
        return vec![];
    }
    let end = record.head + record.used;
    if end <= ring.len() {
        ring[record.head..end].to_vec()
    } else {
        [&ring[record.head..], &ring[..end - ring.len()]].concat()
    }
}

/// Whether a verdict byte is legal for a child of that level.
pub fn is_legal_verdict(verdict: u8, level: i8) -> bool {
    let (result, area, points) = (verdict >> 6, verdict >> 5 & 1, verdict & 31);
    result < 3 && if level >= 0 { area == 0 && points == 0 } else { points == 0 || result == 1 && area == 1 }
}

/// The bits of an interval, since its zeros have signs.
pub fn bits(x: Bounds) -> (u64, u64) {
    (x.0.to_bits(), x.1.to_bits())
}

/// Settled pixels in thousandths, rounded down.
pub fn share(settled: u64, pixels: u64) -> u64 {
    1000 * settled / pixels
}
