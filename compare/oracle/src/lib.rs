//! The original refinement as a library: its own files, copied and lightly edited by `prepare.py`, among stand-ins
//! for what it leans on. `original` names the copied files, everything else here is ours.
//! `oracle` is what callers use; `leaf` has the small functions one by one, `boxes` the real coordinates of blocks.
#![allow(dead_code, unused_imports)]

// The original.
pub mod block;
pub mod eval_result;
pub mod geom;
pub mod graph;
pub mod image;
pub mod region;
pub mod ternary;
pub mod traits;

// Stand-ins.
pub mod clock;
pub mod eval_cache;
pub mod interval_set;
pub mod ops;
pub mod relation;
pub mod vars;

// The way in.
pub mod boxes;
pub mod leaf;
pub mod oracle;

pub use ternary::Ternary;
