//! What crosses to the library, in the order of its fields: `include/smyrilox.h` says the same in C, and `layout.rs` asks the library whether
//! each lies where it has it.

/// An interval; infinite ends are allowed.
#[repr(C)]
#[derive(Clone, Copy, Debug, Default, PartialEq)]
pub struct Interval {
    pub lower: f64,
    pub upper: f64,
}

impl Interval {
    /// From minus infinity to infinity.
    pub const WHOLE: Interval = Interval { lower: f64::NEG_INFINITY, upper: f64::INFINITY };

    pub const fn new(lower: f64, upper: f64) -> Interval {
        Interval { lower, upper }
    }
}

/// One number alone.
impl From<f64> for Interval {
    fn from(x: f64) -> Interval {
        Interval::new(x, x)
    }
}

#[repr(C)]
#[derive(Clone, Copy, Debug, Default, PartialEq)]
pub struct Ranges {
    pub m: Interval,
    pub n: Interval,
    pub theta: Interval,
    pub t: Interval,
}

#[repr(C)]
#[derive(Clone, Copy, Debug, Default, PartialEq)]
pub struct Coordinate {
    pub index: u64,
    pub level: i32,
}

#[repr(C)]
#[derive(Clone, Copy, Debug, Default, PartialEq)]
pub struct Child {
    pub x: Coordinate,
    pub y: Coordinate,
    pub m: Interval,
    pub n: Interval,
    pub theta: Interval,
    pub t: Interval,
}

#[repr(C)]
#[derive(Clone, Copy, Debug, Default, PartialEq)]
pub struct Last {
    pub x: u64,
    pub y: u64,
    pub m: Interval,
    pub n: Interval,
    pub theta: Interval,
    pub t: Interval,
}

/// What a setup chooses. The reserved bytes are for what later releases let it choose; they are 0, and nothing looks at them.
#[repr(C)]
#[derive(Clone, Copy, Debug, Default, PartialEq)]
pub struct Chosen {
    pub width: u32,
    pub height: u32,
    pub set: u8,
    pub reserved1: u8,
    pub reserved2: u8,
    pub reserved3: u8,
}

#[repr(C)]
#[derive(Clone, Copy, Debug, Default, PartialEq)]
pub struct State {
    pub chosen: Chosen,
    pub taken: u64,
    pub queued: u64,
    pub len: usize,
    pub head: usize,
    pub used: usize,
    pub front: Last,
    pub back: Last,
}

#[repr(C)]
#[derive(Clone, Copy, Default)]
pub struct Started {
    pub refusal: u64,
    pub state: State,
}

#[repr(C)]
#[derive(Clone, Copy, Default)]
pub struct Moved {
    pub refusal: u64,
    pub state: State,
}

#[repr(C)]
#[derive(Clone, Copy, Default)]
pub struct Listed {
    pub refusal: u64,
    pub count: usize,
    pub at: [Child; 4],
}

#[repr(C)]
#[derive(Clone, Copy, Default)]
pub struct Stepped {
    pub refusal: u64,
    pub evaluations: u64,
    pub tape: usize,
    pub state: State,
}

#[repr(C)]
#[derive(Clone, Copy, Default)]
pub struct Ran {
    pub refusal: u64,
    pub ending: u64,
    pub stop: u64,
    pub steps: u64,
    pub evaluations: u64,
    pub tape: usize,
    pub state: State,
}

#[repr(C)]
#[derive(Clone, Copy, Default)]
pub struct Explained {
    pub refusal: u64,
    pub reason: u64,
    pub step: u64,
    pub child: u64,
    pub point: u64,
    pub number: u64,
    pub before: u64,
    pub block: Child,
    pub direction: u64,
    pub ending: u64,
    pub steps: u64,
    pub evaluations: u64,
    pub tape: usize,
    pub state: State,
}

#[repr(C)]
#[derive(Clone, Copy, Default)]
pub struct Counted {
    pub refusal: u64,
    pub counts: Tally,
}

#[repr(C)]
#[derive(Clone, Copy, Default)]
pub struct Tally {
    pub trues: u64,
    pub falses: u64,
    pub uncertain: u64,
    pub givenup: u64,
    pub queued: u64,
    pub share: u64,
}

/// A number that is asked for, or the refusal.
#[repr(C)]
#[derive(Clone, Copy, Default)]
pub struct Number {
    pub refusal: u64,
    pub value: u64,
}

#[repr(C)]
#[derive(Clone, Copy, Default)]
pub struct Point {
    pub refusal: u64,
    pub value: f64,
}

#[repr(C)]
#[derive(Clone, Copy, Default)]
pub struct Pieces {
    pub refusal: u64,
    pub count: usize,
    pub at: [Interval; 3],
}

/// A small number's code: its head, and so many bytes of the tail, the least significant first.
#[repr(C)]
#[derive(Clone, Copy, Default)]
pub struct Code {
    pub refusal: u64,
    pub head: u8,
    pub tail: u64,
    pub count: usize,
}

#[repr(C)]
#[derive(Clone, Copy, Default)]
pub struct Read {
    pub refusal: u64,
    pub value: u64,
    pub count: usize,
}

#[repr(C)]
#[derive(Clone, Copy, Default)]
pub struct Halved {
    pub refusal: u64,
    pub low: Coordinate,
    pub high: Coordinate,
}

/// Pixels at the rim of a picture, outside of its edges.
#[repr(C)]
#[derive(Clone, Copy, Debug, Default, PartialEq, Eq)]
pub struct Padding {
    pub left: u32,
    pub right: u32,
    pub bottom: u32,
    pub top: u32,
}

/// Four intervals: somewhere in each stands the edge of that name, of a picture or of a block, in the caller's units.
#[repr(C)]
#[derive(Clone, Copy, Debug, Default, PartialEq)]
pub struct Edges {
    pub left: Interval,
    pub right: Interval,
    pub bottom: Interval,
    pub top: Interval,
}

#[repr(C)]
#[derive(Clone, Copy, Debug, Default, PartialEq)]
pub struct Plot {
    pub width: u32,
    pub height: u32,
    pub padding: Padding,
    pub edges: Edges,
}

#[repr(C)]
#[derive(Clone, Copy, Debug, Default, PartialEq)]
pub struct Boxed {
    pub refusal: u64,
    pub edges: Edges,
    pub x: Interval,
    pub y: Interval,
}

extern "C" {
    pub fn smyrilox_layout() -> u64;
    pub fn smyrilox_cells(width: u32, height: u32) -> Number;
    pub fn smyrilox_least_ring(chosen: Chosen, ranges: Ranges) -> Number;
    pub fn smyrilox_enough_ring(chosen: Chosen, ranges: Ranges, steps: u32) -> Number;
    pub fn smyrilox_setup(
        chosen: Chosen,
        ranges: Ranges,
        ring: *mut u8,
        ring_len: usize,
        cells: *mut u64,
        cells_len: usize,
    ) -> Started;
    pub fn smyrilox_children(state: State, ring: *const u8, ring_len: usize) -> Listed;
    pub fn smyrilox_step(
        state: State,
        ring: *mut u8,
        ring_len: usize,
        cells: *mut u64,
        cells_len: usize,
        verdicts: *const u8,
        verdicts_len: usize,
    ) -> Stepped;
    pub fn smyrilox_run(
        state: State,
        ring: *mut u8,
        ring_len: usize,
        cells: *mut u64,
        cells_len: usize,
        tape: *const u8,
        tape_len: usize,
        budget: u32,
    ) -> Ran;
    pub fn smyrilox_move_queue(state: State, ring: *const u8, ring_len: usize, other: *mut u8, other_len: usize) -> Moved;
    pub fn smyrilox_picture(state: State, cells: *const u64, cells_len: usize, picture: *mut u8, picture_len: usize) -> u64;
    pub fn smyrilox_counts(state: State, cells: *const u64, cells_len: usize) -> Counted;
    pub fn smyrilox_tile_count(width: u32, height: u32) -> Number;
    pub fn smyrilox_setup_with_table(
        chosen: Chosen,
        ranges: Ranges,
        ring: *mut u8,
        ring_len: usize,
        cells: *mut u64,
        cells_len: usize,
        table: *mut u32,
        table_len: usize,
    ) -> Started;
    pub fn smyrilox_step_with_table(
        state: State,
        ring: *mut u8,
        ring_len: usize,
        cells: *mut u64,
        cells_len: usize,
        table: *mut u32,
        table_len: usize,
        verdicts: *const u8,
        verdicts_len: usize,
    ) -> Stepped;
    pub fn smyrilox_run_with_table(
        state: State,
        ring: *mut u8,
        ring_len: usize,
        cells: *mut u64,
        cells_len: usize,
        table: *mut u32,
        table_len: usize,
        tape: *const u8,
        tape_len: usize,
        budget: u32,
    ) -> Ran;
    pub fn smyrilox_fill_table(state: State, cells: *const u64, cells_len: usize, table: *mut u32, table_len: usize) -> u64;
    pub fn smyrilox_explain(
        chosen: Chosen,
        ranges: Ranges,
        ring: *mut u8,
        ring_len: usize,
        cells: *mut u64,
        cells_len: usize,
        tape: *const u8,
        tape_len: usize,
        steps: u32,
        column: u32,
        row: u32,
    ) -> Explained;
    pub fn smyrilox_midpoint(x: Interval) -> Point;
    pub fn smyrilox_simple_fraction(x: Interval) -> Point;
    pub fn smyrilox_subdivision_point(x: Interval, integer: bool) -> Point;
    pub fn smyrilox_is_subdivisible(x: Interval, integer: bool) -> Number;
    pub fn smyrilox_first_cut(x: Interval, integer: bool) -> Pieces;
    pub fn smyrilox_later_cut(x: Interval, integer: bool) -> Pieces;
    pub fn smyrilox_write_small(x: u64) -> Code;
    pub fn smyrilox_read_small(bytes: *const u8, bytes_len: usize) -> Read;
    pub fn smyrilox_pixel_index(c: Coordinate) -> Number;
    pub fn smyrilox_halves(c: Coordinate) -> Halved;
    pub fn smyrilox_is_halvable(c: Coordinate) -> Number;
    pub fn smyrilox_block_box(plot: Plot, kind: u8, x: Coordinate, y: Coordinate) -> Boxed;
}
