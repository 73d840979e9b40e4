//! A chart made small, as SVG: one square for each tile of 16 by 16 pixels, by the counts that the chart keeps of its tiles.

use smyrilox::Table;

/// The side of a square, and the paper around them, tinted since white means no.
const SQUARE: usize = 8;
const PAPER: &str = "#F2E6CC";
const MARGIN: usize = 6;

pub fn svg(title: &str, table: &Table) -> String {
    let (columns, rows) = (table.columns(), table.rows());
    let width = columns * SQUARE + 2 * MARGIN;
    let height = rows * SQUARE + 2 * MARGIN;
    let mut out = format!(
        "<svg xmlns=\"http://www.w3.org/2000/svg\" viewBox=\"0 0 {width} {height}\" width=\"{width}\" height=\"{height}\" role=\"img\">\n\
         <title>{title}, one square for 16 by 16 pixels</title>\n\
         <rect width=\"{width}\" height=\"{height}\" fill=\"{PAPER}\"/>\n\
         <g transform=\"translate({MARGIN} {MARGIN}) scale({SQUARE})\" shape-rendering=\"crispEdges\">\n"
    );
    for (place, shade) in table.thumbnail().into_iter().enumerate() {
        let (x, y) = (place % columns, place / columns);
        out += &format!(
            "<rect x=\"{x}\" y=\"{y}\" width=\"1\" height=\"1\" fill=\"#{shade:02X}{shade:02X}{shade:02X}\"/>\n"
        );
    }
    out + "</g>\n</svg>\n"
}
