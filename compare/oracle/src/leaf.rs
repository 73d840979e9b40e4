//! The original's small functions one by one, on plain numbers. An interval is a pair of bounds that document 01
//! calls legal; a zero of the wrong sign is put right by the stand-in for `inari`.

use crate::{
    block::{peek, IntegerParameter, RealParameter},
    graph::implicit,
};
use inari::Interval;

pub type Bounds = (f64, f64);

fn interval(x: Bounds) -> Interval {
    Interval::from_bounds(x.0, x.1).expect("a legal interval")
}

pub fn bounds(x: Interval) -> Bounds {
    (x.inf(), x.sup())
}

/// Whether the original can hold the interval, as an integer parameter or a real one.
pub fn is_legal(x: Bounds, integer: bool) -> bool {
    Interval::from_bounds(x.0, x.1).map_or(false, |x| !integer || x == x.trunc())
}

/// The midpoint, which is the stand-in's own.
pub fn midpoint(x: Bounds) -> f64 {
    interval(x).mid()
}

/// The width, which is the stand-in's own.
pub fn width(x: Bounds) -> f64 {
    interval(x).wid()
}

/// The difference, the quotient, and a product and a sum rounded together, which are the stand-in's own.
pub fn minus(x: Bounds, y: Bounds) -> Bounds {
    bounds(interval(x) - interval(y))
}

pub fn over(x: Bounds, y: Bounds) -> Bounds {
    bounds(interval(x) / interval(y))
}

pub fn fused(x: Bounds, y: Bounds, z: Bounds) -> Bounds {
    bounds(interval(x).mul_add(interval(y), interval(z)))
}

pub fn simple_fraction(x: Bounds) -> f64 {
    implicit::peek::fraction(interval(x))
}

pub fn subdivision_point(x: Bounds, integer: bool) -> f64 {
    peek::cut_point(interval(x), integer)
}

pub fn is_subdivisible(x: Bounds, integer: bool) -> bool {
    if integer {
        IntegerParameter::new(interval(x)).is_subdivisible()
    } else {
        RealParameter::new(interval(x)).is_subdivisible()
    }
}

/// The first cut.
pub fn subdivide0(x: Bounds, integer: bool) -> Vec<Bounds> {
    if integer {
        IntegerParameter::new(interval(x)).subdivide0().into_iter().map(|p| bounds(p.interval())).collect()
    } else {
        RealParameter::new(interval(x)).subdivide0().into_iter().map(|p| bounds(p.interval())).collect()
    }
}

/// The later cut.
pub fn subdivide1(x: Bounds, integer: bool) -> Vec<Bounds> {
    if integer {
        IntegerParameter::new(interval(x)).subdivide1().into_iter().map(|p| bounds(p.interval())).collect()
    } else {
        RealParameter::new(interval(x)).subdivide1().into_iter().map(|p| bounds(p.interval())).collect()
    }
}

/// The code of a number below 2^56. `turn` is where in its storage the queue starts, which must not matter.
pub fn write_small(x: u64, turn: usize) -> Vec<u8> {
    peek::write_small(x, turn)
}

/// The number that the bytes start with and its code's length. They hold a whole code, and its head is not 0.
pub fn read_small(bytes: &[u8], turn: usize) -> (u64, usize) {
    peek::read_small(bytes, turn).expect("a whole code")
}

/// The pixel of a coordinate, cut to 32 bits as the original does.
pub fn pixel_index(index: u64, level: i8) -> u32 {
    peek::coordinate(index, level).pixel_index()
}

pub fn is_subdivisible_coordinate(index: u64, level: i8) -> bool {
    peek::coordinate(index, level).is_subdivisible()
}

/// The indices of a coordinate's halves, and their level.
pub fn halves(index: u64, level: i8) -> ([u64; 2], i8) {
    let [low, high] = peek::coordinate(index, level).subdivide();
    ([low.index(), high.index()], low.level())
}
