//! Boxes of blocks: worked values, a plot in which every field differs from its neighbours, and every refusal in its order. The C test has
//! the same plots.

use smyrilox::{
    Block, BlockBox, Chart, Coordinate, Edges, Interval, MapKind, Padding, Plot, Refusal, Setup, Variables,
};

fn block(x: u64, y: u64, level: i32) -> Block {
    let whole = Interval::WHOLE;
    Block {
        x: Coordinate { index: x, level },
        y: Coordinate { index: y, level },
        m: whole,
        n: whole,
        theta: whole,
        t: whole,
    }
}

/// 4 by 4 pixels, from 0 to 1 along x and from 0 to 2 along y.
fn four(kind: MapKind) -> Plot {
    Plot { kind, ..Plot::new(4, 4, Edges::new(0.0, 1.0, 0.0, 2.0)) }
}

/// So many of the least steps from x: the sign of x must not change on the way.
fn beside(x: f64, steps: i64) -> f64 {
    f64::from_bits((x.to_bits() as i64 + steps) as u64)
}

/// From so many steps below x to so many above.
fn around(x: f64, below: i64, above: i64) -> Interval {
    Interval::new(beside(x, -below), beside(x, above))
}

/// The sign of a zero counts.
fn bits(x: Interval) -> [u64; 2] {
    [x.lower.to_bits(), x.upper.to_bits()]
}

#[test]
fn above_a_pixel() {
    let tiny = Interval::new(-2e-323, 2e-323);
    let quick = four(MapKind::Quick).block_box(&block(1, 0, 1)).unwrap();
    let edges = Edges { left: around(0.5, 6, 5), right: around(1.0, 6, 5), bottom: tiny, top: around(1.0, 6, 5) };
    let (x, y) = (Interval::new(edges.left.lower, edges.right.upper), Interval::new(tiny.lower, edges.top.upper));
    assert_eq!((quick, quick.outer()), (BlockBox { edges, x, y }, (x, y)));
    let precise = four(MapKind::Precise).block_box(&block(1, 0, 1)).unwrap();
    let edges = Edges { left: around(0.5, 7, 6), right: around(1.0, 7, 6), bottom: tiny, top: around(1.0, 7, 6) };
    assert_eq!(precise.edges, edges);
}

/// An end on the pixel's edge is the outer one, the other the midpoint; the outer box is wider.
#[test]
fn below_a_pixel() {
    let quick = four(MapKind::Quick).block_box(&block(3, 4, -1)).unwrap();
    assert_eq!((quick.edges.left, quick.edges.top), (around(0.375, 5, 6), around(1.25, 4, 6)));
    assert_eq!(
        (quick.x, quick.y),
        (Interval::new(0.375, beside(0.5, 5)), Interval::new(beside(1.0, -6), beside(1.25, 1)))
    );
    let outer = (Interval::new(beside(0.375, -5), beside(0.5, 5)), Interval::new(beside(1.0, -6), beside(1.25, 6)));
    assert_eq!(quick.outer(), outer);
    let precise = four(MapKind::Precise).block_box(&block(3, 4, -1)).unwrap();
    assert_eq!((precise.x, precise.y), (Interval::new(0.375, beside(0.5, 6)), Interval::new(beside(1.0, -7), 1.25)));
}

#[test]
fn each_field_in_its_place() {
    let pair = Interval::new;
    let edges = Edges::new(pair(0.5, 0.75), pair(8.0, 9.0), pair(-3.0, -2.5), pair(4.0, 5.5));
    let plot = Plot { padding: Padding { left: 1, right: 3, bottom: 2, top: 1 }, ..Plot::new(12, 10, edges) };
    let wide = |lower: u64, upper: u64| pair(f64::from_bits(lower), f64::from_bits(upper));
    let quick = Edges {
        left: wide(0x401a_bfff_ffff_fff9, 0x4020_b000_0000_0005),
        right: wide(0x4024_9fff_ffff_fffa, 0x4029_3000_0000_0006),
        bottom: wide(0xc015_b6db_6db6_db72, 0xc011_6db6_db6d_b6d8),
        top: wide(0x3fff_ffff_ffff_ffe3, 0x4015_6db6_db6d_b6e6),
    };
    assert_eq!(plot.block_box(&block(1, 0, 3)).unwrap().edges, quick);
    let precise = Edges {
        left: wide(0x401b_5fff_ffff_fffa, 0x4020_6000_0000_0004),
        right: wide(0x4024_efff_ffff_fffb, 0x4028_e000_0000_0007),
        bottom: wide(0xc015_b6db_6db6_db71, 0xc011_6db6_db6d_b6d9),
        top: wide(0x4004_9249_2492_491b, 0x4013_2492_4924_9251),
    };
    assert_eq!(Plot { kind: MapKind::Precise, ..plot }.block_box(&block(1, 0, 3)).unwrap().edges, precise);
}

/// A plot and a block in which all is wrong; then one fault after the other is mended.
#[test]
fn refusals_in_their_order() {
    let mut plot = Plot::new(0, 4, Edges::new(Interval::new(0.0, f64::INFINITY), Interval::new(1.0, 0.0), 0.0, 2.0));
    plot.padding = Padding { left: 2, right: 2, bottom: 3, top: 1 };
    let refused = |plot: &Plot, x| plot.block_box(&block(x, 0, 0)).err();
    assert_eq!(refused(&plot, 4), Some(Refusal::Side));
    plot.width = 4;
    assert_eq!(refused(&plot, 4), Some(Refusal::Padding));
    plot.padding.right = 1;
    assert_eq!(refused(&plot, 4), Some(Refusal::Padding));
    plot.padding.top = 0;
    assert_eq!(refused(&plot, 4), Some(Refusal::Parameter));
    plot.edges.right.upper = 2.0;
    assert_eq!(refused(&plot, 4), Some(Refusal::Damaged));
    assert_eq!(refused(&plot, 3), Some(Refusal::Bounds));
    plot.edges.left.upper = 0.0;
    assert_eq!(refused(&plot, 3), None);
}

#[test]
fn blocks_of_another_picture() {
    let plot = four(MapKind::Quick);
    let two_levels = Block { y: Coordinate { index: 0, level: -1 }, ..block(0, 0, 0) };
    for wrong in [block(0, 0, -33), block(0, 0, 16), block(1 << 47, 0, -32), block(0, 8, -1), two_levels] {
        assert_eq!(plot.block_box(&wrong), Err(Refusal::Damaged), "{wrong:?}");
    }
    assert!(plot.block_box(&block((4 << 32) - 1, 0, -32)).is_ok() && plot.block_box(&block(0, 0, 15)).is_ok());
}

#[test]
fn ends_that_cross() {
    let least = Plot::new(1, 1, Edges::new(0.0, 5e-324, 0.0, 1.0));
    assert_eq!(least.block_box(&block(4, 0, -3)), Err(Refusal::Bounds));
    let equal = Plot { kind: MapKind::Precise, ..least }.block_box(&block(4, 0, -3)).unwrap();
    assert_eq!(bits(equal.x), bits(Interval::new(-0.0, 0.0)));
}

/// A chart's children as they are listed, each with the box of its part.
#[test]
fn a_childs_box_in_one_call() {
    let chart = Chart::new(&Setup::new(5, 3, Variables::X | Variables::Y), 64).unwrap();
    let plot = Plot::new(5, 3, Edges::new(10.0, 15.0, 0.0, 3.0));
    let lefts: Vec<_> =
        chart.children().unwrap().iter().map(|child| plot.block_box(child).unwrap().edges.left).collect();
    assert!(lefts.len() == 2 && lefts[0].lower < 10.0 && 10.0 < lefts[0].upper && lefts[0].upper < 10.1, "{lefts:?}");
    assert!(lefts[1].lower < 14.0 && 14.0 < lefts[1].upper && 13.9 < lefts[1].lower, "{lefts:?}");
}
