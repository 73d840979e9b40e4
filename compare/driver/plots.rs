//! Random plots and blocks for the series of boxes.

use crate::{
    engine::Bounds,
    paper_boxes::Question,
    random::Random,
    setups::{above, parameter},
};
use oracle::boxes::Plot;

/// What the figures are told apart by: plots as they are drawn, or of any kind.
#[derive(Clone, Copy, Debug, Eq, PartialEq)]
pub enum Family {
    /// Edges known exactly and in order, between 1e-3 and 1e6 in size or zero, no padding.
    Plain,
    Any,
}

/// A number between 0 and 1.
fn share(random: &mut Random) -> f64 {
    (random.next() >> 11) as f64 / (1u64 << 53) as f64
}

fn plain_number(random: &mut Random) -> f64 {
    let size = match random.below(4) {
        0 => random.below(21) as f64 - 10.0,
        1 => (random.below(2001) as f64 - 1000.0) / 10.0,
        2 => share(random) * 20.0 - 10.0,
        _ => 10f64.powf(share(random) * 9.0 - 3.0),
    };
    if random.once_in(3) {
        -size
    } else {
        size
    }
}

fn plain_edges(random: &mut Random) -> [Bounds; 2] {
    let (a, b) = (plain_number(random), plain_number(random));
    let (a, b) = if a == b { (a - 1.0, a + 1.0) } else { (a.min(b), a.max(b)) };
    [(a, a), (b, b)]
}

/// An interval from a number on, of no width, some doubles wide, or wide.
fn widened(random: &mut Random, x: f64) -> Bounds {
    match random.below(4) {
        0 | 1 => (x, x),
        2 => (x, (0..random.below(9)).fold(x, |y, _| above(y))),
        _ => (x, x + share(random) * x.abs().max(1e-3)),
    }
}

/// Two numbers in order, of a size between two.
fn sized(random: &mut Random, least: f64, most: f64) -> [f64; 2] {
    let (from, many) = (least.to_bits(), most.to_bits() - least.to_bits() + 1);
    let mut any = || f64::from_bits(from + random.below(many)) * random.pick(&[1.0, -1.0]);
    let (a, b) = (any(), any());
    [a.min(b), a.max(b)]
}

/// Any two edges: plain ones widened, close to each other or in the wrong order, huge and tiny ones, or of every kind that
/// document 01 knows.
fn any_edges(random: &mut Random) -> [Bounds; 2] {
    let [(a, _), (b, _)] = plain_edges(random);
    let [a, b] = match random.below(12) {
        0 => return [parameter(random, false), parameter(random, false)],
        1 => sized(random, 0.0, f64::MAX),
        2 => sized(random, 2f64.powi(1003), f64::MAX),
        3 => sized(random, 0.0, 1e-320),
        4 => [a, a + share(random) * 1e-12 * a.abs()],
        5 => [(0..random.below(9)).fold(a, |x, _| above(x)), a],
        6 => [b, a],
        _ => [a, b],
    };
    [widened(random, a), widened(random, b)]
}

fn sides(random: &mut Random) -> (u32, u32) {
    let mut side = |most: u64| 1 + random.below(most) as u32;
    match side(20) {
        1 => (32768, side(2)),
        2 => (side(2), 32768),
        3 | 4 => (side(300), side(100)),
        _ => (side(16), side(16)),
    }
}

fn padding(random: &mut Random, side: u32) -> (u32, u32) {
    let before = random.below(side as u64) as u32;
    match random.below(3) {
        0 => (0, 0),
        _ => (before, random.below((side - before) as u64) as u32),
    }
}

/// A plot that is refused for nothing but its boxes.
pub fn plot(random: &mut Random, family: Family) -> Plot {
    let (width, height) = sides(random);
    if family == Family::Plain {
        let ([l, r], [b, t]) = (plain_edges(random), plain_edges(random));
        return Plot { width, height, padding: [0; 4], edges: [l, r, b, t] };
    }
    let ((left, right), (bottom, top)) = (padding(random, width), padding(random, height));
    let ([l, r], [b, t]) = (any_edges(random), any_edges(random));
    Plot { width, height, padding: [left, right, bottom, top], edges: [l, r, b, t] }
}

/// A block inside a plot.
pub fn block(random: &mut Random, plot: &Plot) -> (u64, u64, i32) {
    let level = match random.below(4) {
        0 => random.below(48) as i32 - 32,
        1 => random.below(5) as i32,
        _ => -1 - random.below(8) as i32,
    };
    let mut index = |side: u32| {
        let places = (((side as u128) << 32) + (1 << (level + 32)) - 1) >> (level + 32);
        match random.below(6) {
            0 => 0,
            1 => places as u64 - 1,
            _ => random.below(places as u64),
        }
    };
    (index(plot.width), index(plot.height), level)
}

/// The same question with something wrong.
pub fn spoiled(random: &mut Random, mut q: Question) -> Question {
    for _ in 0..=random.below(2) {
        let (at, odd) = (random.below(4) as usize, [f64::NAN, f64::INFINITY, f64::NEG_INFINITY, -0.0, 1e308, -1e308]);
        match random.below(8) {
            0 => q.plot.width = random.pick(&[0, 1, 32768, 32769, u32::MAX]),
            1 => q.plot.height = random.pick(&[0, 1, 32768, 32769, u32::MAX]),
            2 => q.plot.padding[at] = random.pick(&[1, q.plot.width, q.plot.height, u32::MAX, u32::MAX - 3]),
            3 => q.plot.edges[at].0 = random.pick(&odd),
            4 => q.plot.edges[at].1 = random.pick(&odd),
            5 => q.x.0 = random.pick(&[q.x.0.wrapping_add(1), 1 << 46, 1 << 47, u64::MAX]),
            6 => q.y.1 = random.pick(&[i32::MIN, -49, -48, -33, -32, -1, 0, 1, 15, 16, 207, 208, i32::MAX]),
            _ => q.y.0 = random.pick(&[q.y.0.wrapping_add(1), 1 << 46, 1 << 47, u64::MAX]),
        }
        if random.once_in(2) {
            q.x.1 = q.y.1;
        }
    }
    q
}
