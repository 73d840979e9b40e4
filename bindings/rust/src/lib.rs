//! A safe interface to the proved refinement of implicit graphs.
//!
//! A [`Chart`] holds what belongs together: the record, the ring with the queued blocks, and a cell for each pixel. Nothing else can
//! write them while it lives, so what is promised of the engine (white means no: `docs/WHITE.md`) holds by construction of every chart
//! that was begun here; one that was loaded is as good as the bytes it came from. An evaluator is asked about blocks and answers with
//! [`Verdict`]s:
//!
//! ```
//! use smyrilox::{Chart, Ending, Reading, Setup, Variables, Verdict};
//!
//! // the relation x > 1: no solution up to 1, some in every pixel from 1 on, not known in between
//! let above_one = |block: &smyrilox::Block| match block.x.span() {
//!     (_, high) if high <= 1.0 => Verdict::NO,
//!     (low, _) if low >= 1.0 => Verdict::yes_for(block),
//!     _ => Verdict::UNDECIDED,
//! };
//! let setup = Setup::new(2, 1, Variables::X | Variables::Y);
//! let mut chart = Chart::for_steps(&setup, 100)?;
//! let run = chart.refine(above_one, 100)?;
//! assert_eq!(run.ending, Ending::Done);
//! let picture = chart.picture()?;
//! assert_eq!(picture.reading(0, 0), Reading::False);
//! assert_eq!(picture.reading(1, 0), Reading::True);
//! # Ok::<(), smyrilox::Refusal>(())
//! ```
//!
//! A chart's ring gets no second setup while it is in use, and nobody else writes it:
//!
//! ```compile_fail,E0499
//! use smyrilox::{Chart, Setup, Variables};
//!
//! let setup = Setup::new(2, 1, Variables::X | Variables::Y);
//! let (mut ring, mut cells) = ([0; 64], [0; 2]);
//! let first = Chart::lent(&setup, &mut ring, &mut cells);
//! let second = Chart::lent(&setup, &mut ring, &mut cells);
//! drop(first);
//! ```

mod block;
mod buffers;
mod chart;
// all that the header has, also what this crate does not call
#[allow(dead_code)]
mod ffi;
mod layout;
pub mod leaves;
mod picture;
mod plot;
mod reason;
mod refine;
mod refusal;
mod room;
mod saved;
mod setup;
mod table;
mod verdict;
mod view;

pub use block::{Block, Children, Coordinate};
pub use buffers::{Buffers, Lent, Owned};
pub use chart::{Chart, Ending, Run, Step};
pub use ffi::{Edges, Interval, Padding};
pub use picture::{Picture, Reading};
pub use plot::{BlockBox, MapKind, Plot};
pub use reason::{explain, Explanation, NotExplained, Reason, SamplePoint};
pub use refusal::Refusal;
pub use saved::NotLoaded;
pub use setup::{Setup, Variables};
pub use table::{Table, Tile};
pub use verdict::Verdict;
pub use view::{Counts, Grey};
