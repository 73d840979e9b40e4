//! The calls with a table as the library has them: 17 in its place among the refusals, and nothing changed where a call is refused. A chart
//! of this crate has a table of the right length, so these go to the library's own functions.

// links the library
use smyrilox as _;

#[allow(dead_code)]
#[path = "../src/ffi.rs"]
mod ffi;

use ffi::*;

const LINE: Interval = Interval::WHOLE;
const RANGES: Ranges = Ranges { m: Interval { lower: 2.0, upper: 1.0 }, n: LINE, theta: LINE, t: LINE };

/// A chart of 20 by 18 pixels: four tiles.
#[derive(Clone, PartialEq, Debug)]
struct Memory {
    ring: [u8; 64],
    cells: [u64; 360],
    table: [u32; 18],
}

impl Memory {
    fn setup(&mut self, width: u32, set: u8, ring: usize, cells: usize, table: usize) -> Started {
        let chosen = Chosen { width, height: 18, set, ..Default::default() };
        let Memory { ring: r, cells: c, table: t } = self;
        unsafe { smyrilox_setup_with_table(chosen, RANGES, r.as_mut_ptr(), ring, c.as_mut_ptr(), cells, t.as_mut_ptr(), table) }
    }

    fn step(&mut self, state: State, cells: usize, table: usize, verdicts: &[u8]) -> Stepped {
        let Memory { ring: r, cells: c, table: t } = self;
        let (at, count) = (verdicts.as_ptr(), verdicts.len());
        unsafe { smyrilox_step_with_table(state, r.as_mut_ptr(), state.len, c.as_mut_ptr(), cells, t.as_mut_ptr(), table, at, count) }
    }

    fn run(&mut self, state: State, cells: usize, table: usize, tape: &[u8]) -> Ran {
        let Memory { ring: r, cells: c, table: t } = self;
        let (at, count) = (tape.as_ptr(), tape.len());
        unsafe { smyrilox_run_with_table(state, r.as_mut_ptr(), state.len, c.as_mut_ptr(), cells, t.as_mut_ptr(), table, at, count, 9) }
    }

    fn fill(&mut self, state: State, cells: usize, table: usize) -> u64 {
        unsafe { smyrilox_fill_table(state, self.cells.as_ptr(), cells, self.table.as_mut_ptr(), table) }
    }
}

fn begun() -> (State, Memory) {
    let mut memory = Memory { ring: [7; 64], cells: [7; 360], table: [9; 18] };
    let started = memory.setup(20, 48, 64, 360, 18);
    assert_eq!(started.refusal, 0);
    assert_eq!(memory.table, [0, 0, 256, 0, 0, 0, 64, 0, 0, 0, 32, 0, 0, 0, 8, 0, 9, 9]);
    (started.state, memory)
}

#[test]
fn setups() {
    // what each row is refused by, its width and set, and the lengths of ring, cells and table
    let rows = [
        (1, 0, 64, 0, 0, 0),
        (2, 20, 64, 0, 359, 0),
        (17, 20, 64, 0, 360, 15),
        (3, 20, 64, 0, 360, 16),
        (3, 20, 56, 0, 360, 16),
        (6, 20, 48, 4, 360, 16),
    ];
    let mut memory = begun().1;
    let before = memory.clone();
    for (due, width, set, ring, cells, table) in rows {
        assert_eq!(memory.setup(width, set, ring, cells, table).refusal, due);
        assert_eq!(memory, before);
    }
}

#[test]
fn steps() {
    let (state, mut memory) = begun();
    let damaged = State { taken: 9, ..state };
    let empty = State { taken: state.queued, used: 0, ..state };
    let full = State { taken: u32::MAX as u64, queued: 1 << 32, ..state };
    let before = memory.clone();
    let rows: [(u64, State, usize, usize, &[u8]); 7] = [
        (8, damaged, 0, 0, &[]),
        (2, empty, 359, 0, &[]),
        (17, empty, 360, 15, &[]),
        (13, empty, 360, 16, &[]),
        (4, state, 360, 16, &[0x41; 3]),
        (5, state, 360, 16, &[0x41; 4]),
        (7, full, 360, 16, &[0x40; 4]),
    ];
    for (due, given, cells, table, verdicts) in rows {
        let stepped = memory.step(given, cells, table, verdicts);
        assert_eq!((stepped.refusal, stepped.state), (due, given));
        assert_eq!(memory, before);
    }
}

/// The front block covers columns 0 to 15 and rows 2 to 17. It touches the tiles 0 and 2, so 8 speaks of rows 0 and 1 there too.
#[test]
fn a_cell_of_a_touched_tile() {
    let (state, mut memory) = begun();
    let state = memory.step(state, 360, 18, &[0x40, 0x80, 0, 0x40]).state;
    for (cell, table, due) in [(0, 15, 17), (0, 16, 8), (16, 16, 0)] {
        let mut memory = memory.clone();
        memory.cells[cell] = 1 << 33;
        let before = memory.clone();
        assert_eq!(memory.step(state, 360, table, &[0; 4]).refusal, due);
        assert_eq!(memory == before, due != 0);
    }
}

#[test]
fn runs_and_filling() {
    let (state, mut memory) = begun();
    let damaged = State { taken: 9, ..state };
    memory.cells[359] = 1 << 33;
    let before = memory.clone();
    for (due, given, cells, table) in [(8, damaged, 0, 0), (2, state, 359, 0), (17, state, 360, 15)] {
        let ran = memory.run(given, cells, table, &[0; 4]);
        assert_eq!((ran.refusal, ran.ending, ran.steps, ran.state), (due, 0, 0, given));
        assert_eq!(memory.fill(given, cells, table), due);
        assert_eq!(memory, before);
    }
    let ran = memory.run(state, 360, 16, &[0; 4]);
    assert_eq!((ran.refusal, ran.ending, ran.stop, memory.fill(state, 360, 16)), (0, 4, 8, 8));
    assert_eq!(memory, before);
}

#[test]
fn tiles() {
    let count = |width, height| unsafe { smyrilox_tile_count(width, height) };
    for (width, height, tiles) in [(1, 1, 1), (16, 16, 1), (17, 16, 2), (20, 18, 4), (32768, 32768, 1 << 22)] {
        assert_eq!((count(width, height).refusal, count(width, height).value), (0, tiles));
    }
    assert_eq!((count(0, 5).refusal, count(32769, 5).refusal, count(0, 5).value), (1, 1, 0));
}
