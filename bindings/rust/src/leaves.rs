//! What an evaluator may want of the engine's own arithmetic.

use crate::{ffi, Interval, Refusal};

/// The midpoint of an interval: exact, then rounded once to nearest, ties to even.
pub fn midpoint(x: Interval) -> Result<f64, Refusal> {
    point(unsafe { ffi::smyrilox_midpoint(x) })
}

/// A number of the interval with few bits: the first of the sample points.
pub fn simple_fraction(x: Interval) -> Result<f64, Refusal> {
    point(unsafe { ffi::smyrilox_simple_fraction(x) })
}

/// The pieces with which a parameter's range begins.
pub fn first_cut(x: Interval, integer: bool) -> Result<Vec<Interval>, Refusal> {
    pieces(unsafe { ffi::smyrilox_first_cut(x, integer) })
}

/// The pieces into which a step cuts a parameter.
pub fn later_cut(x: Interval, integer: bool) -> Result<Vec<Interval>, Refusal> {
    pieces(unsafe { ffi::smyrilox_later_cut(x, integer) })
}

fn point(p: ffi::Point) -> Result<f64, Refusal> {
    Refusal::check(p.refusal)?;
    Ok(p.value)
}

fn pieces(p: ffi::Pieces) -> Result<Vec<Interval>, Refusal> {
    Refusal::check(p.refusal)?;
    Ok(p.at[..p.count].to_vec())
}
