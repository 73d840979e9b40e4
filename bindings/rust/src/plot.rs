//! Where a picture lies in the caller's units, and the boxes of its blocks there.

use crate::{ffi, layout, Block, Coordinate, Edges, Interval, Padding, Refusal};

/// The kind of map from pixels to units. Both enclose.
#[derive(Clone, Copy, Debug, Default, PartialEq, Eq)]
pub enum MapKind {
    /// By slope and offset, as graphest draws implicit graphs.
    #[default]
    Quick,
    /// From the left or the lower edge, by the part of the way.
    Precise,
}

/// A picture, and where it lies in the caller's units (arrivals, crew). Pixel `padding.left` stands at the left edge and pixel `width -
/// padding.right` at the right one, `padding.bottom` at the lower edge and `height - padding.top` at the upper one; the pixels between
/// share the way evenly, and those of the padding go on outside.
///
/// ```
/// use smyrilox::{Chart, Edges, Plot, Setup, Variables};
///
/// // 60 by 40 pixels stand for 110 arrivals and a crew of 29
/// let plot = Plot::new(60, 40, Edges::new(0.0, 110.0, 0.0, 29.0));
/// let chart = Chart::for_steps(&Setup::new(60, 40, Variables::X | Variables::Y), 100)?;
/// let (arrivals, crew) = plot.block_box(&chart.children()?[0])?.outer();
/// assert!(arrivals.lower <= 0.0 && 58.66 < arrivals.upper && arrivals.upper < 58.67);
/// assert!(crew.lower <= 0.0 && 23.2 <= crew.upper && crew.upper < 23.21);
/// # Ok::<(), smyrilox::Refusal>(())
/// ```
#[derive(Clone, Copy, Debug, PartialEq)]
pub struct Plot {
    pub width: u32,
    pub height: u32,
    pub padding: Padding,
    pub edges: Edges,
    pub kind: MapKind,
}

/// A block's box. `edges` enclose the exact places of the block's own edges, wherever in their intervals the plot's stand; a block that
/// reaches over the picture's right or upper edge is clipped to it. `x` and `y` are what graphest hands to its evaluator: above level 0 the
/// outer box; from level 0 down an end on a pixel's edge is the outer one too, and any other is the midpoint of its interval, which the
/// part beside it shares. Of the box narrowed so nothing is proved: judge `outer`.
#[derive(Clone, Copy, Debug, PartialEq)]
pub struct BlockBox {
    pub edges: Edges,
    pub x: Interval,
    pub y: Interval,
}

impl Edges {
    /// Each edge as a number, or as an `Interval` in which it stands. One that is no float, as 1/10 (0.1 is
    /// another number), needs an interval around it.
    pub fn new(
        left: impl Into<Interval>,
        right: impl Into<Interval>,
        bottom: impl Into<Interval>,
        top: impl Into<Interval>,
    ) -> Edges {
        Edges { left: left.into(), right: right.into(), bottom: bottom.into(), top: top.into() }
    }
}

impl Plot {
    /// A plot without padding, of the quick kind.
    pub fn new(width: u32, height: u32, edges: Edges) -> Plot {
        Plot { width, height, padding: Padding::default(), edges, kind: MapKind::Quick }
    }

    /// The box of a block, a child of a chart as it is listed. Refused by 1 for a side, 16 for the padding, 3 for an edge, 8 for a block
    /// outside the picture, 15 where a bound is not finite or ends cross, in this order.
    pub fn block_box(&self, block: &Block) -> Result<BlockBox, Refusal> {
        layout::is_the_librarys();
        let plot = ffi::Plot { width: self.width, height: self.height, padding: self.padding, edges: self.edges };
        let coordinate = |c: Coordinate| ffi::Coordinate { index: c.index, level: c.level };
        let boxed = unsafe { ffi::smyrilox_block_box(plot, self.kind as u8, coordinate(block.x), coordinate(block.y)) };
        Refusal::check(boxed.refusal)?;
        Ok(BlockBox { edges: boxed.edges, x: boxed.x, y: boxed.y })
    }
}

impl BlockBox {
    /// The outer box, x and y: from the least place of the one edge to the greatest of the other. If the plot's edges are in order, every
    /// point of the block lies in it: a `no` for all of it is a `no` for the block.
    pub fn outer(&self) -> (Interval, Interval) {
        let Edges { left, right, bottom, top } = self.edges;
        (Interval::new(left.lower, right.upper), Interval::new(bottom.lower, top.upper))
    }
}
