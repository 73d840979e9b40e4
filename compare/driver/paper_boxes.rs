//! Document 02's coordinate boxes, (ii), from its words alone: each operation rounds its four candidates to nearest, as
//! the machine does, and goes one double outward.

use crate::{engine::*, exact::is_legal, exact::put, setups::above};
use oracle::boxes::Plot;

/// A block of a plot, by either kind of map. Nothing of it need be legal.
#[derive(Clone, Copy, Debug)]
pub struct Question {
    pub plot: Plot,
    pub precise: bool,
    pub x: (u64, i32),
    pub y: (u64, i32),
}

/// Left, right, bottom and top, then x and y: from level 0 down narrowed, above it from end to end.
#[derive(Clone, Copy, Debug)]
pub struct Boxed {
    pub edges: [Bounds; 4],
    pub ends: [Bounds; 2],
}

/// Along one axis: pixels, padding before and after, and where the edges between stand.
#[derive(Clone, Copy)]
pub struct Axis {
    pub pixels: u32,
    pub before: u32,
    pub after: u32,
    pub first: Bounds,
    pub last: Bounds,
}

pub fn axes(plot: &Plot) -> [Axis; 2] {
    let &Plot { width, height, padding: [left, right, bottom, top], edges: [l, r, b, t] } = plot;
    [
        Axis { pixels: width, before: left, after: right, first: l, last: r },
        Axis { pixels: height, before: bottom, after: top, first: b, last: t },
    ]
}

pub fn below(x: f64) -> f64 {
    -above(-x)
}

/// An operation's interval, unless a bound is not finite.
fn operation(exact: impl Fn(f64, f64) -> f64, x: Bounds, y: Bounds) -> Option<Bounds> {
    let near = [exact(x.0, y.0), exact(x.0, y.1), exact(x.1, y.0), exact(x.1, y.1)];
    if near.iter().any(|n| !n.is_finite()) {
        return None;
    }
    let (least, greatest) = (near.into_iter().fold(f64::MAX, f64::min), near.into_iter().fold(f64::MIN, f64::max));
    let (lower, upper) = (below(least), above(greatest));
    (lower.is_finite() && upper.is_finite()).then(|| put((lower, upper)))
}

fn plus(x: Bounds, y: Bounds) -> Option<Bounds> {
    operation(|a, b| a + b, x, y)
}

fn minus(x: Bounds, y: Bounds) -> Option<Bounds> {
    operation(|a, b| a - b, x, y)
}

fn times(x: Bounds, y: Bounds) -> Option<Bounds> {
    operation(|a, b| a * b, x, y)
}

fn over(x: Bounds, y: Bounds) -> Option<Bounds> {
    operation(|a, b| a / b, x, y)
}

fn pixel(p: f64) -> Bounds {
    (p, p)
}

/// The image of a place along an axis. The map is made anew for each.
fn image(axis: &Axis, precise: bool, p: Bounds) -> Option<Bounds> {
    let (a0, a1) = (pixel(axis.before as f64), pixel((axis.pixels - axis.after) as f64));
    let (x01, a01) = (minus(axis.last, axis.first)?, minus(a1, a0)?);
    if precise {
        return plus(times(over(minus(p, a0)?, a01)?, x01)?, axis.first);
    }
    let slope = over(x01, a01)?;
    let offset = plus(times((-a0.1, -a0.0), slope)?, axis.first)?;
    plus(times(p, slope)?, offset)
}

fn middle(x: Bounds) -> f64 {
    crate::leaves::Leaves::midpoint(&crate::exact::Paper, x)
}

/// Both edges of a block along an axis, and what is narrowed between; nothing where that is refused by 15.
fn span(axis: &Axis, precise: bool, (index, level): (u64, i32)) -> Option<(Bounds, Bounds, Bounds)> {
    let width = 2f64.powi(level);
    let end = (index + 1) as f64 * width;
    let end = if level >= 0 { end.min(axis.pixels as f64) } else { end };
    let low = image(axis, precise, pixel(index as f64 * width))?;
    let high = image(axis, precise, pixel(end))?;
    let parts = 1u64 << (-level).max(0);
    let a = if index % parts == 0 { low.0 } else { middle(low) };
    let b = if (index + 1) % parts == 0 { high.1 } else { middle(high) };
    (low.0 <= high.1 && a <= b).then(|| (low, high, put((a, b))))
}

fn stands(axis: &Axis, (index, level): (u64, i32)) -> bool {
    let legal = index >> 47 == 0 && (-32..=15).contains(&level);
    legal && (index as u128) << (level + 32) < (axis.pixels as u128) << 32
}

/// A block's box, or its refusal.
pub fn block_box(q: &Question) -> Result<Boxed, Refusal> {
    let [across, up] = axes(&q.plot);
    let both = |test: fn(&Axis) -> bool| test(&across) && test(&up);
    if !both(|a| (1..=32768).contains(&a.pixels)) {
        return Err(1);
    }
    if !both(|a| (a.before as u64 + a.after as u64) < a.pixels as u64) {
        return Err(16);
    }
    if !both(|a| is_legal(a.first, false) && is_legal(a.last, false)) {
        return Err(3);
    }
    if !(stands(&across, q.x) && stands(&up, q.y) && q.x.1 == q.y.1) {
        return Err(8);
    }
    let (left, right, x) = span(&across, q.precise, q.x).ok_or(15u32)?;
    let (bottom, top, y) = span(&up, q.precise, q.y).ok_or(15u32)?;
    Ok(Boxed { edges: [left, right, bottom, top], ends: [x, y] })
}
