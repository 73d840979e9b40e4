//! A block's box: its time by the kind of map and the level, and the most stack that it takes.

use crate::{
    clock::timed,
    play::keep,
    port::{abi, calls::smyrilox_block_box},
    stack::Table,
    watch::watched,
    worlds::{LEVELS, WHOLE},
};

pub const KINDS: [(&str, u8); 2] = [("quick", 0), ("precise", 1)];
/// Above, at and below a pixel.
pub const TIMED: [i32; 3] = [3, 0, -8];

fn at(x: f64) -> abi::Interval {
    abi::Interval { lower: x, upper: x }
}

/// The customer's picture, with a rim, and with edges that are no power of two.
fn plot() -> abi::Plot {
    let padding = abi::Padding { left: 8, right: 2, bottom: 6, top: 1 };
    abi::Plot {
        width: 256,
        height: 160,
        padding,
        edges: abi::Edges { left: at(0.0), right: at(110.0), bottom: at(3.0), top: at(29.0) },
    }
}

/// Some places of a level, all in the picture.
fn places(level: i32) -> Vec<(abi::Coordinate, abi::Coordinate)> {
    let index = |pixel: u64| if level < 0 { (pixel << -level) + pixel % 200 } else { pixel >> level };
    let coordinate = |pixel| abi::Coordinate { index: index(pixel), level };
    (0..1000).map(|i| (coordinate(i * 37 % 256), coordinate(i * 53 % 160))).collect()
}

#[inline(never)]
#[no_mangle]
pub fn counted_boxes(plot: &abi::Plot, kind: u8, places: &[(abi::Coordinate, abi::Coordinate)]) {
    for &(x, y) in places {
        let boxed = unsafe { smyrilox_block_box(*plot, kind, x, y) };
        assert!(boxed.refusal == 0);
        keep(&boxed);
    }
}

/// Nanoseconds a box: the least over the rounds.
pub fn time(rounds: usize) {
    for (name, kind) in KINDS {
        for level in TIMED {
            let (plot, places) = (plot(), places(level));
            let round = |_| timed(|| (0..100).for_each(|_| counted_boxes(&plot, kind, &places))).0;
            let least = (0..rounds).map(round).fold(f64::INFINITY, f64::min);
            println!("{name} {level} {:.1}", least * 1e9 / (100 * places.len()) as f64);
        }
    }
}

/// For callgrind: so many boxes of one kind on one level.
pub fn count(kind: &str, level: i32) {
    let kind = KINDS.iter().find(|&&(name, _)| name == kind).expect("quick or precise").1;
    let places = places(level);
    counted_boxes(&plot(), kind, &places);
    println!("{}", places.len());
}

/// Every level with both kinds, and every refusal.
pub fn stack(table: &mut Table) {
    let good = plot();
    let edges = |left, right| abi::Plot { edges: abi::Edges { left, right, ..good.edges }, ..good };
    let plots = [
        ("a plot", good),
        ("no width", abi::Plot { width: 0, ..good }),
        ("all padding", abi::Plot { padding: abi::Padding { left: 256, ..good.padding }, ..good }),
        ("an edge upside down", edges(abi::Interval { lower: 1.0, upper: 0.0 }, at(1.0))),
        ("an infinite edge", edges(WHOLE, at(1.0))),
        ("wide edges", edges(abi::Interval { lower: -1.0, upper: 1.0 }, abi::Interval { lower: 9.0, upper: 11.0 })),
        ("edges in the wrong order", edges(at(1.0), at(0.0))),
        ("the largest edges", edges(at(-f64::MAX), at(f64::MAX))),
    ];
    for (name, plot) in plots {
        for level in LEVELS.into_iter().chain([-33]) {
            for (kind_name, kind) in KINDS {
                let c = abi::Coordinate { index: 1, level };
                table.note("block_box", &format!("{name}, {kind_name}, level {level}"), None, &mut || {
                    let call = watched(smyrilox_block_box as unsafe extern "C" fn(_, _, _, _) -> _);
                    let boxed: abi::Boxed = unsafe { call(plot, kind, c, c) };
                    boxed.refusal
                });
            }
        }
    }
}
