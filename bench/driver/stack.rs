//! How much stack each entry takes at most: over every cut, levels above, at and below a pixel, rings with and without room,
//! and every refusal that the entry can give.

use crate::{
    boxes, explains,
    port::{abi, asked, calls::*, Port},
    tables,
    watch::{taken, watched},
    worlds::*,
};
use oracle::oracle::Setup;
use std::collections::BTreeMap;

/// The most of one entry, with the case that took it, and of its refusals by number.
#[derive(Default)]
struct Row {
    most: usize,
    at: String,
    refusals: BTreeMap<u64, usize>,
}

/// The rows, in the order of the entries below.
pub struct Table(Vec<Row>);

/// Each entry with the numbers that it can give. A run gives its own, and stops by those of its steps.
const ENTRIES: [(&str, &[u64]); 27] = [
    ("run", &[2, 8]),
    ("run, by the number that stops it", &[4, 5, 6, 7, 8]),
    ("step", &[2, 4, 5, 6, 7, 8, 13]),
    ("setup", &[1, 2, 3, 6]),
    ("run_with_table", &[2, 8, 17]),
    ("run_with_table, by the number that stops it", &[4, 5, 6, 7, 8]),
    ("step_with_table", &[2, 4, 5, 6, 7, 8, 13, 17]),
    ("setup_with_table", &[1, 2, 3, 6, 17]),
    ("fill_table", &[2, 8, 17]),
    ("tile_count", &[1]),
    ("explain", &[1, 2, 3, 4, 5, 6, 18]),
    ("children", &[8, 13]),
    ("least_ring", &[1, 3]),
    ("picture", &[2, 8, 12]),
    ("counts", &[2, 8]),
    ("cells", &[1]),
    ("midpoint", &[3]),
    ("simple_fraction", &[3]),
    ("subdivision_point", &[3]),
    ("is_subdivisible", &[3]),
    ("first_cut", &[3]),
    ("later_cut", &[3]),
    ("write_small", &[9]),
    ("read_small", &[10, 11]),
    ("pixel_index and is_halvable", &[8]),
    ("halves", &[8]),
    ("block_box", &[1, 3, 8, 15, 16]),
];

impl Table {
    /// Watches a call that answers its refusal, and notes what it takes. `due` is the refusal that it must give, if known.
    pub fn note(&mut self, entry: &str, case: &str, due: Option<u64>, call: &mut dyn FnMut() -> u64) {
        let (refusal, bytes) = taken(call);
        assert!(due.unwrap_or(refusal) == refusal, "{entry}, {case}: refused by {refusal}");
        let place = ENTRIES.iter().position(|&(name, _)| name == entry).expect("an entry");
        let row = &mut self.0[place];
        if bytes > row.most {
            (row.most, row.at) = (bytes, case.to_string());
        }
        if refusal > 0 {
            let most = row.refusals.entry(refusal).or_default();
            *most = bytes.max(*most);
        }
    }

    fn print(&self) {
        println!("| call | bytes of stack, at most | where | of its refusals, by number |");
        println!("|---|---|---|---|");
        for (&(name, numbers), row) in ENTRIES.iter().zip(&self.0) {
            assert!(row.refusals.keys().eq(numbers), "{name}: refusals by {:?}", row.refusals.keys());
            let refusals: Vec<_> = row.refusals.iter().map(|(number, bytes)| format!("{number}: {bytes}")).collect();
            println!("| {name} | {} | {} | {} |", row.most, row.at, refusals.join(", "));
        }
    }
}

pub fn measure() {
    let mut table = Table(ENTRIES.iter().map(|_| Row::default()).collect());
    for front in Front::all() {
        for ring in RINGS {
            blocks(&mut table, &front, ring);
        }
    }
    for front in Front::all() {
        damage(&mut table, &front);
    }
    setups(&mut table);
    intervals(&mut table);
    small_numbers(&mut table);
    coordinates(&mut table);
    boxes::stack(&mut table);
    table.print();
}

/// With room; with so little that the new blocks are measured; without any; and each across the ring's end.
const RINGS: [Ring; 6] = [
    ROOMY,
    Ring { wraps: true, ..ROOMY },
    Ring { free: 331, wraps: false },
    Ring { free: 331, wraps: true },
    Ring { free: 0, wraps: false },
    Ring { free: 0, wraps: true },
];

fn children(table: &mut Table, case: &str, due: Option<u64>, world: &Port) -> abi::Listed {
    let mut listed = abi::Listed::default();
    table.note("children", case, due, &mut || {
        let call = watched(smyrilox_children as unsafe extern "C" fn(_, _, _) -> _);
        listed = unsafe { call(world.state, world.ring.as_ptr(), world.ring.len()) };
        listed.refusal
    });
    listed
}

fn step(table: &mut Table, case: &str, due: Option<u64>, world: &Port, verdicts: &[u8]) {
    table.note("step", case, due, &mut || {
        let Port { state, mut ring, mut cells } = world.clone();
        let call = watched(smyrilox_step as unsafe extern "C" fn(_, _, _, _, _, _, _) -> _);
        let (ring, cells) = (&mut ring[..], &mut cells[..]);
        let (at, count) = (verdicts.as_ptr(), verdicts.len());
        let answer: abi::Stepped =
            unsafe { call(state, ring.as_mut_ptr(), ring.len(), cells.as_mut_ptr(), cells.len(), at, count) };
        answer.refusal
    });
    tables::stack_step(table, case, due, world, verdicts);
}

fn ran(world: &Port, tape: &[u8], budget: u32) -> abi::Ran {
    let Port { state, mut ring, mut cells } = world.clone();
    let call = watched(smyrilox_run as unsafe extern "C" fn(_, _, _, _, _, _, _, _) -> _);
    let (ring, cells) = (&mut ring[..], &mut cells[..]);
    let (at, count) = (tape.as_ptr(), tape.len());
    unsafe { call(state, ring.as_mut_ptr(), ring.len(), cells.as_mut_ptr(), cells.len(), at, count, budget) }
}

/// A run; of one that is stopped the number is noted in a row of its own.
fn run(table: &mut Table, case: &str, world: &Port, tape: &[u8], budget: u32) {
    let mut stop = 0;
    table.note("run", case, None, &mut || {
        let answer = ran(world, tape, budget);
        stop = answer.stop;
        answer.refusal
    });
    if stop != 0 {
        table.note("run, by the number that stops it", case, Some(stop), &mut || ran(world, tape, budget).stop);
    }
    tables::stack_run(table, case, world, tape, budget);
}

fn picture(table: &mut Table, case: &str, due: Option<u64>, world: &Port, room: usize) {
    table.note("picture", case, due, &mut || {
        let mut bytes = vec![1; room];
        let call = watched(smyrilox_picture as unsafe extern "C" fn(_, _, _, *mut u8, _) -> _);
        unsafe { call(world.state, world.cells.as_ptr(), world.cells.len(), bytes.as_mut_ptr(), room) }
    });
}

fn counts(table: &mut Table, case: &str, due: Option<u64>, world: &Port) {
    table.note("counts", case, due, &mut || {
        let call = watched(smyrilox_counts as unsafe extern "C" fn(_, _, _) -> _);
        let answer: abi::Counted = unsafe { call(world.state, world.cells.as_ptr(), world.cells.len()) };
        answer.refusal
    });
    tables::stack_fill(table, case, world);
}

/// Every verdict on a block, as a step and as a run that goes on; and what a step refuses by 4, 5 and 7.
fn blocks(table: &mut Table, front: &Front, ring: Ring) {
    let (case, world) = (front.name(), front.world(ring));
    let listed = children(table, &case, Some(0), &world);
    let (count, level) = (listed.count, listed.at[0].x.level);
    let mut all_true = world.clone();
    all_true.cells.fill(TRUE);
    for verdicts in verdicts(count, level) {
        step(table, &case, None, &world, &verdicts);
        run(table, &case, &world, &verdicts, 1);
    }
    run(table, &case, &world, &[0x40; 24], 6);
    step(table, &case, None, &all_true, &vec![0x40; count]);
    run(table, &case, &all_true, &vec![0x40; count], 1);
    step(table, &case, Some(4), &world, &vec![0x40; count + 1]);
    run(table, &case, &world, &vec![0x40; count - 1], 1);
    let illegal: Vec<u8> = (0..count).map(|place| if place + 1 == count { 0xc0 } else { 0x40 }).collect();
    step(table, &case, Some(5), &world, &illegal);
    run(table, &case, &world, &illegal, 1);
    let mut last_number = world.clone();
    (last_number.state.taken, last_number.state.queued) = (u32::MAX as u64, 1 << 32);
    last_number.cells.fill(u32::MAX as u64);
    step(table, &case, None, &last_number, &vec![0x40; count]);
    run(table, &case, &last_number, &vec![0x40; count], 1);
    picture(table, &case, Some(0), &world, 15);
    counts(table, &case, Some(0), &all_true);
}

/// What is refused by 8, 2, 12 and 13.
fn damage(table: &mut Table, front: &Front) {
    let world = front.world(ROOMY);
    let of = |what: &str| format!("{}, damaged: {what}", front.name());
    for (what, world) in damaged_records(&world) {
        children(table, &of(what), Some(8), &world);
        step(table, &of(what), Some(8), &world, &[0x40]);
        run(table, &of(what), &world, &[0x40], 1);
        // The ring's length is not known to these two.
        let due = if what == "length" { None } else { Some(8) };
        picture(table, &of(what), due, &world, 15);
        counts(table, &of(what), due, &world);
    }
    for (what, world) in RINGS[..2].iter().flat_map(|&ring| damaged_blocks(front, ring)) {
        children(table, &of(what), Some(8), &world);
        step(table, &of(what), Some(8), &world, &[0x40]);
        run(table, &of(what), &world, &[0x40], 1);
    }
    let mut cell = world.clone();
    cell.cells[10] = 1 << 33;
    let mut few = world.clone();
    few.cells.truncate(14);
    let mut empty = world.clone();
    (empty.state.queued, empty.state.used) = (empty.state.taken, 0);
    for (what, world) in [("a cell", &cell), ("cells", &few), ("empty", &empty)] {
        children(table, &of(what), None, world);
        step(table, &of(what), None, world, &[0x40]);
        run(table, &of(what), world, &[0x40; 4], 1);
        picture(table, &of(what), None, world, 15);
        counts(table, &of(what), None, world);
    }
    picture(table, &of("the picture's bytes"), Some(12), &world, 14);
}

fn setups(table: &mut Table) {
    for set in SETS {
        for range in RANGES.into_iter().chain([(1.0, 0.0)]) {
            for side in [0, 1, 9, 32] {
                let case = format!("set {set}, {range:?}, {side} by {side}");
                let setup = Setup::new(side, side, set, [range; 4]);
                setup_of(table, &case, &setup, 1 << 13);
                setup_of(table, &case, &setup, 4);
            }
        }
    }
    setup_of(table, "set 64", &Setup::new(9, 9, 64, [(0.0, 9.0); 4]), 64);
    for (width, due) in [(0, 1), (9, 0)] {
        table.note("cells", "", Some(due), &mut || {
            let answer: abi::Number = unsafe { watched(smyrilox_cells as unsafe extern "C" fn(u32, u32) -> _)(width, 9) };
            answer.refusal
        });
    }
}

fn setup_of(table: &mut Table, case: &str, setup: &Setup, ring: usize) {
    let (chosen, ranges) = asked(setup);
    let pixels = setup.width as usize * setup.height as usize;
    table.note("least_ring", case, None, &mut || {
        let answer: abi::Number =
            unsafe { watched(smyrilox_least_ring as unsafe extern "C" fn(_, _) -> _)(chosen, ranges) };
        answer.refusal
    });
    for cells in [pixels, pixels.saturating_sub(1)] {
        table.note("setup", case, None, &mut || {
            let (mut ring, mut cells) = (vec![0; ring], vec![0; cells]);
            let call = watched(smyrilox_setup as unsafe extern "C" fn(_, _, *mut u8, _, *mut u64, _) -> _);
            let (ring, cells) = (&mut ring[..], &mut cells[..]);
            let answer: abi::Started =
                unsafe { call(chosen, ranges, ring.as_mut_ptr(), ring.len(), cells.as_mut_ptr(), cells.len()) };
            answer.refusal
        });
        tables::stack_setup(table, case, setup, ring, cells);
        explains::stack_explain(table, case, setup, ring, cells);
    }
}

type OfInterval<T> = unsafe extern "C" fn(abi::Interval) -> T;
type OfRange<T> = unsafe extern "C" fn(abi::Interval, bool) -> T;

fn intervals(table: &mut Table) {
    let odd = [(0.3, 0.4), (-0.0, 5e-324), (-f64::MAX, f64::MAX), (1.0, 0.0), (f64::NAN, 0.0)];
    for (lower, upper) in RANGES.into_iter().chain(odd) {
        let (case, x) = (format!("[{lower},{upper}]"), abi::Interval { lower, upper });
        let mut note = |entry, call: &mut dyn FnMut() -> u64| table.note(entry, &case, None, call);
        unsafe {
            note("midpoint", &mut || watched(smyrilox_midpoint as OfInterval<abi::Point>)(x).refusal);
            note("simple_fraction", &mut || watched(smyrilox_simple_fraction as OfInterval<abi::Point>)(x).refusal);
            for integer in [false, true] {
                note("subdivision_point", &mut || {
                    watched(smyrilox_subdivision_point as OfRange<abi::Point>)(x, integer).refusal
                });
                note("is_subdivisible", &mut || {
                    watched(smyrilox_is_subdivisible as OfRange<abi::Number>)(x, integer).refusal
                });
                note("first_cut", &mut || watched(smyrilox_first_cut as OfRange<abi::Pieces>)(x, integer).refusal);
                note("later_cut", &mut || watched(smyrilox_later_cut as OfRange<abi::Pieces>)(x, integer).refusal);
            }
        }
    }
}

fn small_numbers(table: &mut Table) {
    for bits in 0..=57 {
        let x = 1u64 << bits;
        table.note("write_small", &format!("2^{bits}"), None, &mut || {
            let answer: abi::Code = unsafe { watched(smyrilox_write_small as unsafe extern "C" fn(_) -> _)(x) };
            answer.refusal
        });
    }
    for head in (0..8).map(|z| 1u8 << z).chain([0]) {
        for count in 0..=8 {
            let bytes = vec![head; count];
            table.note("read_small", &format!("{count} bytes from {head}"), None, &mut || {
                let call = watched(smyrilox_read_small as unsafe extern "C" fn(_, _) -> _);
                let answer: abi::Read = unsafe { call(bytes.as_ptr(), count) };
                answer.refusal
            });
        }
    }
}

type OfCoordinate<T> = unsafe extern "C" fn(abi::Coordinate) -> T;

fn coordinates(table: &mut Table) {
    for level in LEVELS.into_iter().chain([16, -33]) {
        for index in [0, (1 << 47) - 1, 1 << 47] {
            let (case, c) = (format!("index {index} at level {level}"), abi::Coordinate { index, level });
            let mut note = |entry, call: &mut dyn FnMut() -> u64| table.note(entry, &case, None, call);
            let (pixel, halvable) = ("pixel_index and is_halvable", "pixel_index and is_halvable");
            unsafe {
                note(pixel, &mut || watched(smyrilox_pixel_index as OfCoordinate<abi::Number>)(c).refusal);
                note(halvable, &mut || watched(smyrilox_is_halvable as OfCoordinate<abi::Number>)(c).refusal);
                note("halves", &mut || watched(smyrilox_halves as OfCoordinate<abi::Halved>)(c).refusal);
            }
        }
    }
}
