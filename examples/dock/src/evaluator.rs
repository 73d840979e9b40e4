//! The evaluator: a verdict for each block that the engine asks about.

use crate::interval::Bounds;
use crate::relations::{Asked, Edged, Relation, HEIGHT, PER_UNIT, WIDTH};
use smyrilox::{leaves, Block, Edges, Interval, Plot, Refusal, Verdict};

/// What is known of the relation on a block; nothing where it has no box.
pub fn verdict(relation: &Relation, block: &Block) -> Verdict {
    match edges(relation, block) {
        Ok(edges) => judged(relation, block, &edges),
        Err(_) => Verdict::UNDECIDED,
    }
}

/// Where the block's edges stand, in trailers and people. PER_UNIT is a power of two, so that nothing is rounded where they are exact;
/// then blocks that reach over the picture's edge are judged as a whole, which is stricter than needed.
fn edges(relation: &Relation, block: &Block) -> Result<Edges, Refusal> {
    let (width, height, per_unit) = (WIDTH as f64, HEIGHT as f64, PER_UNIT as f64);
    match relation.edged {
        Edged::Exactly => {
            let (x, y) = (block.x.span(), block.y.span());
            Ok(Edges::new(
                x.0 / per_unit,
                x.1 / per_unit,
                y.0 / per_unit,
                y.1 / per_unit,
            ))
        }
        Edged::ByBoxes => {
            let edges = Edges::new(0.0, width / per_unit, 0.0, height / per_unit);
            Ok(Plot::new(WIDTH, HEIGHT, edges).block_box(block)?.edges)
        }
    }
}

/// Judges all that may lie between the edges.
fn judged(relation: &Relation, block: &Block, edges: &Edges) -> Verdict {
    let (a, c) = (
        outer(edges.left, edges.right),
        outer(edges.bottom, edges.top),
    );
    let m = doors(block.m);
    let value = (relation.value)(a, c, m);
    match relation.asked {
        Asked::AtLeastZero if value.low >= 0.0 => Verdict::yes_for(block),
        Asked::AtLeastZero if value.high < 0.0 => Verdict::NO,
        Asked::Zero if value.high < 0.0 || value.low > 0.0 => Verdict::NO,
        _ if block.level() < 0 => sampled(relation, edges, m),
        _ => Verdict::UNDECIDED,
    }
}

/// Looks for a solution at the five points of a part of a pixel: the simple fraction, then the corners from the bottom left, each
/// somewhere in two of the edges' intervals. A continuous expression with values on both sides of 0 is 0 in between.
fn sampled(relation: &Relation, edges: &Edges, m: Bounds) -> Verdict {
    let (left, right) = (bounds(edges.left), bounds(edges.right));
    let (bottom, top) = (bounds(edges.bottom), bounds(edges.top));
    let points = [
        (
            simple(edges.left, edges.right),
            simple(edges.bottom, edges.top),
        ),
        (left, bottom),
        (right, bottom),
        (left, top),
        (right, top),
    ];
    let (mut below, mut above) = (false, false);
    for (place, (a, c)) in points.into_iter().enumerate() {
        let value = (relation.value)(a, c, m);
        below |= value.high <= 0.0;
        above |= value.low >= 0.0;
        let found = match relation.asked {
            Asked::AtLeastZero => value.low >= 0.0,
            Asked::Zero => below && above,
        };
        if found {
            return Verdict::found_at(place as u32);
        }
    }
    Verdict::UNDECIDED.with_area()
}

/// A parameter that is not used is the whole line: any number serves.
fn doors(m: Interval) -> Bounds {
    if m == Interval::WHOLE {
        Bounds::point(0.0)
    } else {
        bounds(m)
    }
}

fn bounds(x: Interval) -> Bounds {
    Bounds::new(x.lower, x.upper)
}

/// All that may lie between two edges.
fn outer(low: Interval, high: Interval) -> Bounds {
    Bounds::new(low.lower, high.upper)
}

/// A number with few bits that surely lies between two edges; where there is none, all that may lie between them.
fn simple(low: Interval, high: Interval) -> Bounds {
    if low.upper > high.lower {
        return outer(low, high);
    }
    let between = Interval::new(low.upper, high.lower);
    Bounds::point(leaves::simple_fraction(between).expect("bounds are in order"))
}
