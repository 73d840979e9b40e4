//! The original behind the C interface: a library to try the comparison's own side of that interface with, and an
//! example of what every function owes. It keeps nothing between calls; each call takes the picture up from its
//! record, ring and cells, and refuses by the few rules of `driver/original.rs`. What a caller owes is in the header.
#![allow(clippy::missing_safety_doc)]

#[path = "../driver/abi.rs"]
mod abi;
#[path = "../driver/engine.rs"]
#[allow(dead_code)]
mod engine;
#[path = "../driver/original.rs"]
#[allow(dead_code)]
mod original;

use engine::*;
use oracle::{
    boxes::{Picture, Plot},
    leaf,
    relation::Manner,
};
use original::{Original, OriginalMaker};
use std::slice::{from_raw_parts, from_raw_parts_mut};

const MAKER: OriginalMaker = OriginalMaker(Manner::Torn);

fn interval((lower, upper): Bounds) -> abi::Interval {
    abi::Interval { lower, upper }
}

fn bounds(x: abi::Interval) -> Bounds {
    (x.lower, x.upper)
}

fn record(s: &abi::State) -> Record {
    let last = |l: &abi::Last| Last { x: l.x, y: l.y, parameters: [l.m, l.n, l.theta, l.t].map(bounds) };
    let abi::Chosen { width, height, set, reserved1, reserved2, reserved3 } = s.chosen;
    let reserved = [reserved1, reserved2, reserved3];
    let abi::State { taken, queued, len, head, used, .. } = *s;
    let (front, back) = (last(&s.front), last(&s.back));
    Record { width, height, set, reserved, taken, queued, len, head, used, front, back }
}

fn state(r: &Record) -> abi::State {
    let last = |l: &Last| {
        let [m, n, theta, t] = l.parameters.map(interval);
        abi::Last { x: l.x, y: l.y, m, n, theta, t }
    };
    let Record {
        width, height, set, reserved: [reserved1, reserved2, reserved3], taken, queued, len, head, used, ..
    } = *r;
    let chosen = abi::Chosen { width, height, set, reserved1, reserved2, reserved3 };
    abi::State { chosen, taken, queued, len, head, used, front: last(&r.front), back: last(&r.back) }
}

/// The setup that is asked for.
fn asked(chosen: &abi::Chosen, ranges: &abi::Ranges) -> Setup {
    let abi::Ranges { m, n, theta, t } = *ranges;
    let reserved = [chosen.reserved1, chosen.reserved2, chosen.reserved3];
    let abi::Chosen { width, height, set, .. } = *chosen;
    Setup { width, height, set, reserved, parameters: [m, n, theta, t].map(bounds) }
}

fn taken_up(s: &abi::State, ring: &[u8], cells: &[u64]) -> Original {
    MAKER.resume(&record(s), ring.to_vec(), cells.to_vec())
}

/// Copies what an engine left into the lent memory.
fn left(engine: &Original, ring: &mut [u8], cells: &mut [u64]) -> abi::State {
    ring.copy_from_slice(engine.ring());
    cells.copy_from_slice(engine.cells());
    state(&engine.record())
}

#[no_mangle]
pub extern "C" fn smyrilox_cells(width: u32, height: u32) -> abi::Number {
    number(width as u64 * height as u64)
}

#[no_mangle]
pub extern "C" fn smyrilox_least_ring(chosen: abi::Chosen, ranges: abi::Ranges) -> abi::Number {
    number(oracle::oracle::Oracle::setup(&asked(&chosen, &ranges), Manner::Torn).byte_count() as u64)
}

#[no_mangle]
pub unsafe extern "C" fn smyrilox_setup(
    chosen: abi::Chosen,
    ranges: abi::Ranges,
    ring: *mut u8,
    ring_len: usize,
    cells: *mut u64,
    cells_len: usize,
) -> abi::Started {
    let (ring, cells) = (from_raw_parts_mut(ring, ring_len), from_raw_parts_mut(cells, cells_len));
    match MAKER.setup(&asked(&chosen, &ranges), ring.to_vec(), cells.to_vec()) {
        Err(refusal) => abi::Started { refusal: refusal as u64, ..Default::default() },
        Ok(engine) => abi::Started { refusal: 0, state: left(&engine, ring, cells) },
    }
}

#[no_mangle]
pub unsafe extern "C" fn smyrilox_children(state: abi::State, ring: *const u8, ring_len: usize) -> abi::Listed {
    let cells = vec![0; state.chosen.width as usize * state.chosen.height as usize];
    let engine = taken_up(&state, from_raw_parts(ring, ring_len), &cells);
    let mut listed = abi::Listed::default();
    match engine.children() {
        Err(refusal) => listed.refusal = refusal as u64,
        Ok(children) => {
            listed.count = children.len();
            for (place, child) in listed.at.iter_mut().zip(&children) {
                let [m, n, theta, t] = child.parameters.map(interval);
                let at = |index| abi::Coordinate { index, level: child.level as i32 };
                *place = abi::Child { x: at(child.x), y: at(child.y), m, n, theta, t };
            }
        }
    }
    listed
}

#[no_mangle]
pub unsafe extern "C" fn smyrilox_step(
    state: abi::State,
    ring: *mut u8,
    ring_len: usize,
    cells: *mut u64,
    cells_len: usize,
    verdicts: *const u8,
    verdicts_len: usize,
) -> abi::Stepped {
    let (ring, cells) = (from_raw_parts_mut(ring, ring_len), from_raw_parts_mut(cells, cells_len));
    let mut engine = taken_up(&state, ring, cells);
    match engine.step(from_raw_parts(verdicts, verdicts_len)) {
        Err(refusal) => abi::Stepped { refusal: refusal as u64, state, ..Default::default() },
        Ok(done) => {
            let Stepped { evaluations, tape } = done;
            abi::Stepped { refusal: 0, evaluations, tape: tape as usize, state: left(&engine, ring, cells) }
        }
    }
}

#[no_mangle]
pub unsafe extern "C" fn smyrilox_run(
    state: abi::State,
    ring: *mut u8,
    ring_len: usize,
    cells: *mut u64,
    cells_len: usize,
    tape: *const u8,
    tape_len: usize,
    budget: u32,
) -> abi::Ran {
    let (ring, cells) = (from_raw_parts_mut(ring, ring_len), from_raw_parts_mut(cells, cells_len));
    let mut engine = taken_up(&state, ring, cells);
    let ran = engine.run(from_raw_parts(tape, tape_len), budget).expect("a run on a sound record");
    let (ending, stop) = match ran.end {
        RunEnd::Done => (1, 0),
        RunEnd::Limit => (2, 0),
        RunEnd::More => (3, 0),
        RunEnd::Stop(number) => (4, number as u64),
    };
    let state = left(&engine, ring, cells);
    let Ran { steps, evaluations, tape, .. } = ran;
    abi::Ran { refusal: 0, ending, stop, steps, evaluations, tape: tape as usize, state }
}

#[no_mangle]
pub unsafe extern "C" fn smyrilox_picture(
    state: abi::State,
    cells: *const u64,
    cells_len: usize,
    picture: *mut u8,
    picture_len: usize,
) -> u64 {
    // A picture is read off the record's counts and the cells: any ring will do.
    let bare = abi::State { len: 1, head: 0, used: 0, ..state };
    let engine = taken_up(&bare, &[0], from_raw_parts(cells, cells_len));
    engine.picture(from_raw_parts_mut(picture, picture_len)).err().unwrap_or(0) as u64
}

#[no_mangle]
pub unsafe extern "C" fn smyrilox_counts(state: abi::State, cells: *const u64, cells_len: usize) -> abi::Counted {
    let bare = abi::State { len: 1, head: 0, used: 0, ..state };
    let engine = taken_up(&bare, &[0], from_raw_parts(cells, cells_len));
    let Counts { yes, no, uncertain, given_up, queued, share } = engine.counts().expect("counts of a sound record");
    let counts = abi::Tally { trues: yes, falses: no, uncertain, givenup: given_up, queued, share };
    abi::Counted { refusal: 0, counts }
}

#[no_mangle]
pub extern "C" fn smyrilox_tile_count(width: u32, height: u32) -> abi::Number {
    match [width, height].iter().all(|side| (1..=32768).contains(side)) {
        true => number(tiles(width, height) as u64),
        false => abi::Number { refusal: 1, value: 0 },
    }
}

fn tiles(width: u32, height: u32) -> usize {
    ((width as usize + 15) / 16) * ((height as usize + 15) / 16)
}

/// Whether a table has four numbers for each tile; else 17.
fn has_room(chosen: &abi::Chosen, table_len: usize) -> bool {
    4 * tiles(chosen.width, chosen.height) <= table_len
}

/// All tiles counted anew, pixel by pixel.
unsafe fn recount(state: &abi::State, cells: *const u64, table: *mut u32) {
    const GIVEN_UP: u64 = (1 << 32) + 1;
    let (width, height) = (state.chosen.width as usize, state.chosen.height as usize);
    let cells = from_raw_parts(cells, width * height);
    let table = from_raw_parts_mut(table, 4 * tiles(state.chosen.width, state.chosen.height));
    let mut picture = vec![1; cells.len()];
    smyrilox_picture(*state, cells.as_ptr(), cells.len(), picture.as_mut_ptr(), picture.len());
    table.fill(0);
    for (i, (&reading, &cell)) in picture.iter().zip(cells).enumerate() {
        let tile = 4 * (i / width / 16 * ((width + 15) / 16) + i % width / 16);
        table[tile + [1, 2, 0][reading as usize]] += 1;
        table[tile + 3] += (cell == GIVEN_UP) as u32;
    }
}

#[no_mangle]
pub unsafe extern "C" fn smyrilox_setup_with_table(
    chosen: abi::Chosen,
    ranges: abi::Ranges,
    ring: *mut u8,
    ring_len: usize,
    cells: *mut u64,
    cells_len: usize,
    table: *mut u32,
    table_len: usize,
) -> abi::Started {
    if !has_room(&chosen, table_len) {
        return abi::Started { refusal: 17, ..Default::default() };
    }
    let started = smyrilox_setup(chosen, ranges, ring, ring_len, cells, cells_len);
    if started.refusal == 0 {
        recount(&started.state, cells, table);
    }
    started
}

#[no_mangle]
pub unsafe extern "C" fn smyrilox_step_with_table(
    state: abi::State,
    ring: *mut u8,
    ring_len: usize,
    cells: *mut u64,
    cells_len: usize,
    table: *mut u32,
    table_len: usize,
    verdicts: *const u8,
    verdicts_len: usize,
) -> abi::Stepped {
    if !has_room(&state.chosen, table_len) {
        return abi::Stepped { refusal: 17, state, ..Default::default() };
    }
    let done = smyrilox_step(state, ring, ring_len, cells, cells_len, verdicts, verdicts_len);
    if done.refusal == 0 {
        recount(&done.state, cells, table);
    }
    done
}

#[no_mangle]
pub unsafe extern "C" fn smyrilox_run_with_table(
    state: abi::State,
    ring: *mut u8,
    ring_len: usize,
    cells: *mut u64,
    cells_len: usize,
    table: *mut u32,
    table_len: usize,
    tape: *const u8,
    tape_len: usize,
    budget: u32,
) -> abi::Ran {
    if !has_room(&state.chosen, table_len) {
        return abi::Ran { refusal: 17, state, ..Default::default() };
    }
    let ran = smyrilox_run(state, ring, ring_len, cells, cells_len, tape, tape_len, budget);
    recount(&ran.state, cells, table);
    ran
}

#[no_mangle]
pub unsafe extern "C" fn smyrilox_fill_table(
    state: abi::State,
    cells: *const u64,
    _cells_len: usize,
    table: *mut u32,
    table_len: usize,
) -> u64 {
    if !has_room(&state.chosen, table_len) {
        return 17;
    }
    recount(&state, cells, table);
    0
}

fn point(value: f64) -> abi::Point {
    abi::Point { refusal: 0, value }
}

fn number(value: u64) -> abi::Number {
    abi::Number { refusal: 0, value }
}

fn pieces(found: Vec<Bounds>) -> abi::Pieces {
    let at = std::array::from_fn(|i| found.get(i).map_or(abi::Interval::default(), |&x| interval(x)));
    abi::Pieces { refusal: 0, count: found.len(), at }
}

#[no_mangle]
pub extern "C" fn smyrilox_midpoint(x: abi::Interval) -> abi::Point {
    point(leaf::midpoint(bounds(x)))
}

#[no_mangle]
pub extern "C" fn smyrilox_simple_fraction(x: abi::Interval) -> abi::Point {
    point(leaf::simple_fraction(bounds(x)))
}

#[no_mangle]
pub extern "C" fn smyrilox_subdivision_point(x: abi::Interval, integer: bool) -> abi::Point {
    point(leaf::subdivision_point(bounds(x), integer))
}

#[no_mangle]
pub extern "C" fn smyrilox_is_subdivisible(x: abi::Interval, integer: bool) -> abi::Number {
    number(leaf::is_subdivisible(bounds(x), integer) as u64)
}

#[no_mangle]
pub extern "C" fn smyrilox_first_cut(x: abi::Interval, integer: bool) -> abi::Pieces {
    pieces(leaf::subdivide0(bounds(x), integer))
}

#[no_mangle]
pub extern "C" fn smyrilox_later_cut(x: abi::Interval, integer: bool) -> abi::Pieces {
    pieces(leaf::subdivide1(bounds(x), integer))
}

#[no_mangle]
pub extern "C" fn smyrilox_write_small(x: u64) -> abi::Code {
    let code = leaf::write_small(x, 0);
    let mut tail = [0; 8];
    tail[..code.len() - 1].copy_from_slice(&code[1..]);
    abi::Code { refusal: 0, head: code[0], tail: u64::from_le_bytes(tail), count: code.len() - 1 }
}

#[no_mangle]
pub unsafe extern "C" fn smyrilox_read_small(bytes: *const u8, bytes_len: usize) -> abi::Read {
    let (value, count) = leaf::read_small(from_raw_parts(bytes, bytes_len), 0);
    abi::Read { refusal: 0, value, count }
}

#[no_mangle]
pub extern "C" fn smyrilox_pixel_index(c: abi::Coordinate) -> abi::Number {
    number(leaf::pixel_index(c.index, c.level as i8) as u64)
}

#[no_mangle]
pub extern "C" fn smyrilox_halves(c: abi::Coordinate) -> abi::Halved {
    let ([low, high], level) = leaf::halves(c.index, c.level as i8);
    let at = |index| abi::Coordinate { index, level: level as i32 };
    abi::Halved { refusal: 0, low: at(low), high: at(high) }
}

#[no_mangle]
pub extern "C" fn smyrilox_is_halvable(c: abi::Coordinate) -> abi::Number {
    number(leaf::is_subdivisible_coordinate(c.index, c.level as i8) as u64)
}

/// The original's own box, of a plot and a block that are legal; where it stops, or has no bound, 15.
#[no_mangle]
pub extern "C" fn smyrilox_block_box(plot: abi::Plot, kind: u8, x: abi::Coordinate, y: abi::Coordinate) -> abi::Boxed {
    let abi::Padding { left, right, bottom, top } = plot.padding;
    let abi::Edges { left: l, right: r, bottom: b, top: t } = plot.edges;
    let asked = Plot {
        width: plot.width,
        height: plot.height,
        padding: [left, right, bottom, top],
        edges: [l, r, b, t].map(bounds),
    };
    let picture = Picture::new(&asked, kind != 0);
    let [left, right, bottom, top] = picture.edges(x.index, y.index, x.level as i8).map(interval);
    let line = abi::Interval::WHOLE;
    let none = abi::Boxed {
        refusal: 15,
        edges: abi::Edges { left: line, right: line, bottom: line, top: line },
        x: line,
        y: line,
    };
    picture.evaluated(x.index, y.index, x.level as i8).map_or(none, |ends| {
        let [x, y] = ends.map(interval);
        abi::Boxed { refusal: 0, edges: abi::Edges { left, right, bottom, top }, x, y }
    })
}
