//! The real coordinates of a plot's blocks, by the original's own map, regions and narrowing, over the stand-in's
//! outward rounding.

use crate::{
    block::{peek, Block},
    geom::{Box2D, Transformation2D, TransformationMode},
    graph::{implicit::Implicit, Padding},
    leaf::{bounds, Bounds},
    region::Region,
    relation::{Manner, Relation},
    vars::VarSet,
};
use inari::Interval;
use std::panic::{catch_unwind, AssertUnwindSafe};

/// A picture's sides, its padding, and the intervals that its edges stand in; left, right, bottom, top.
#[derive(Clone, Copy, Debug)]
pub struct Plot {
    pub width: u32,
    pub height: u32,
    pub padding: [u32; 4],
    pub edges: [Bounds; 4],
}

/// A picture of the original over a plot.
pub struct Picture(Implicit);

fn point(pixels: u32) -> Interval {
    Interval::from_bounds(pixels as f64, pixels as f64).unwrap()
}

impl Picture {
    /// Padding leaves something and the edges are legal. The original itself builds the quick map, unless the edges stand
    /// in the wrong order, where it stops; the precise map, and that one, are made of the same points.
    pub fn new(plot: &Plot, precise: bool) -> Self {
        let &Plot { width, height, padding: [left, right, bottom, top], edges } = plot;
        let [l, r, b, t] = edges.map(|(a, b)| Interval::from_bounds(a, b).expect("a legal edge"));
        let make = |region| {
            let relation = Relation::new(VarSet::from_bits(0), [Interval::ENTIRE; 4], Manner::Zero);
            Implicit::new(relation, region, width, height, Padding { bottom, left, right, top }, usize::MAX)
        };
        if !precise && is_ordered(plot) {
            return Self(make(Box2D::new(l, r, b, t)));
        }
        let mode = if precise { TransformationMode::Precise } else { TransformationMode::Fast };
        let points = |x, y| Region::new(point(x), point(y));
        let from = [points(left, bottom), points(width - right, height - top)];
        let map = Transformation2D::new(from, [Region::new(l, b), Region::new(r, t)], mode);
        Self(make(Box2D::new(point(0), point(1), point(0), point(1))).with_map(map))
    }

    /// The four edges of a block's box.
    pub fn edges(&self, x: u64, y: u64, level: i8) -> [Bounds; 4] {
        let made = self.0.block_box(&block(x, y, level));
        [made.left(), made.right(), made.bottom(), made.top()].map(bounds)
    }

    /// What an evaluation is given as x and y; nothing where the original stops, since ends cross.
    pub fn evaluated(&self, x: u64, y: u64, level: i8) -> Option<[Bounds; 2]> {
        let given = catch_unwind(AssertUnwindSafe(|| self.0.evaluated(&block(x, y, level))));
        given.ok().map(|region| [region.x(), region.y()].map(bounds))
    }
}

/// Whether the original takes a plot's edges.
pub fn is_ordered(plot: &Plot) -> bool {
    let [l, r, b, t] = plot.edges;
    l.0 <= r.1 && b.0 <= t.1
}

fn block(x: u64, y: u64, level: i8) -> Block {
    Block { x: peek::coordinate(x, level), y: peek::coordinate(y, level), ..Default::default() }
}
