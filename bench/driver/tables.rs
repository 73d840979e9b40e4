//! Runs with a table of tile counts: what the table costs beside the run without it, beside the recount of all pixels that it
//! spares, and in stack.

use crate::{
    clock::{milliseconds, timed, Measured},
    play::counted_port_run,
    port::{abi, asked, calls::*, Port},
    stack::Table,
    time::each_work,
    watch::watched,
    work::Work,
};
use oracle::oracle::Setup;

/// A picture with its table.
pub struct Tabled {
    port: Port,
    table: Vec<u32>,
}

impl Tabled {
    pub fn made(setup: &Setup, ring: usize) -> Tabled {
        let tiles = unsafe { smyrilox_tile_count(setup.width, setup.height) };
        assert!(tiles.refusal == 0, "a picture's tiles");
        let mut made = Tabled { port: Port::lent(setup, ring), table: vec![0; 4 * tiles.value as usize] };
        let ((chosen, ranges), Tabled { port, table }) = (asked(setup), &mut made);
        let (ring, ring_len, cells, cells_len) = port.memory();
        let (at, count) = (table.as_mut_ptr(), table.len());
        let answer = unsafe { smyrilox_setup_with_table(chosen, ranges, ring, ring_len, cells, cells_len, at, count) };
        assert!(answer.refusal == 0, "setup refused by {}", answer.refusal);
        port.state = answer.state;
        made
    }

    fn run(&mut self, tape: &[u8], steps: u64) -> abi::Ran {
        let state = self.port.state;
        let (ring, ring_len, cells, cells_len) = self.port.memory();
        let (table, table_len) = (self.table.as_mut_ptr(), self.table.len());
        let (at, count) = (tape.as_ptr(), tape.len());
        let answer = unsafe {
            smyrilox_run_with_table(state, ring, ring_len, cells, cells_len, table, table_len, at, count, steps as u32)
        };
        self.port.state = answer.state;
        answer
    }

    /// The recount's tiles, by the picture's bytes and the cells.
    fn recount(&self) -> Vec<u32> {
        const GIVEN_UP: u64 = (1 << 32) + 1;
        let width = self.port.state.chosen.width as usize;
        let columns = (width + 15) / 16;
        let (mut picture, mut due) = (vec![1; self.port.cells.len()], vec![0; self.table.len()]);
        assert!(self.port.picture(&mut picture) == 0);
        for (i, (&reading, &cell)) in picture.iter().zip(&self.port.cells).enumerate() {
            let tile = 4 * (i / width / 16 * columns + i % width / 16);
            due[tile + [1, 2, 0][reading as usize]] += 1;
            due[tile + 3] += (cell == GIVEN_UP) as u32;
        }
        due
    }
}

#[inline(never)]
#[no_mangle]
pub fn counted_table_run(tabled: &mut Tabled, tape: &[u8], steps: u64) {
    let ran = tabled.run(tape, steps);
    assert!(ran.refusal == 0 && ran.steps == steps, "the run stopped after {} steps by {}", ran.steps, ran.stop);
}

/// All pixels counted anew: what a thumbnail takes that has no table.
#[inline(never)]
#[no_mangle]
pub fn counted_recount(port: &Port, table: &mut [u32]) {
    let (cells, cells_len) = (port.cells.as_ptr(), port.cells.len());
    let answer = unsafe { smyrilox_fill_table(port.state, cells, cells_len, table.as_mut_ptr(), table.len()) };
    assert!(answer == 0, "refused by {answer}");
}

/// With and without the table a run comes to the same, and the table is a recount.
fn check(work: &Work) -> Tabled {
    let (mut port, mut tabled) = (Port::made(&work.setup, work.ring), Tabled::made(&work.setup, work.ring));
    counted_port_run(&mut port, &work.tape, work.steps);
    counted_table_run(&mut tabled, &work.tape, work.steps);
    assert!(port.state == tabled.port.state, "{}: the same record", work.name);
    assert!(port.queue_bytes().eq(tabled.port.queue_bytes()), "{}: the same queue", work.name);
    assert!(port.cells == tabled.port.cells, "{}: the same cells", work.name);
    assert!(tabled.table == tabled.recount(), "{}: the table is a recount", work.name);
    let mut filled = vec![0; tabled.table.len()];
    counted_recount(&port, &mut filled);
    assert!(filled == tabled.table, "{}: and so is a filled one", work.name);
    tabled
}

fn time_work(work: &Work, charts: usize, rounds: usize) {
    let Tabled { port, mut table } = check(work);
    let mean = |times: Vec<f64>| times.iter().sum::<f64>() / charts as f64;
    let with = || {
        let mut tabled = Tabled::made(&work.setup, work.ring);
        timed(|| counted_table_run(&mut tabled, &work.tape, work.steps)).0
    };
    let without = || {
        let mut port = Port::made(&work.setup, work.ring);
        timed(|| counted_port_run(&mut port, &work.tape, work.steps)).0
    };
    let measured = Measured::rounds(
        rounds,
        || mean((0..charts).map(|_| with()).collect()),
        || mean((0..charts).map(|_| without()).collect()),
    );
    let recounts = (0..rounds).map(|_| timed(|| counted_recount(&port, &mut table)).0);
    let recount = recounts.fold(f64::INFINITY, f64::min);
    let pays = measured.difference() / recount;
    println!(
        "| {} | {} steps | {} | {} | {pays:.1} |",
        work.name,
        work.steps,
        measured.columns(),
        milliseconds(recount)
    );
}

pub fn time(rounds: usize) {
    println!("| a run | size | with the table, least | without, least | ratio | ratio by rounds: median (least to most) | one recount of all pixels | so many recounts take as long as the table |");
    println!("|---|---|---|---|---|---|---|---|");
    each_work(|work, charts| time_work(work, charts, rounds));
}

/// For callgrind: a run with its table, or the one recount at its end. Answers the steps, or the cells.
pub fn count(work: &Work, part: &str) -> u64 {
    let mut tabled = Tabled::made(&work.setup, work.ring);
    if part == "table" {
        counted_table_run(&mut tabled, &work.tape, work.steps);
        return work.steps;
    }
    tabled.run(&work.tape, work.steps);
    counted_recount(&tabled.port, &mut tabled.table);
    tabled.port.cells.len() as u64
}

/// The numbers of the table of a picture made by hand, which is one tile, and one fewer.
const ROOMS: [usize; 2] = [4, 3];

fn lent<T>(memory: &mut [T]) -> (*mut T, usize) {
    (memory.as_mut_ptr(), memory.len())
}

/// A step and a run as they are noted without a table; and each with a table that is too short.
pub fn stack_step(table: &mut Table, case: &str, due: Option<u64>, world: &Port, verdicts: &[u8]) {
    for room in ROOMS {
        let due = if room < 4 { None } else { due };
        table.note("step_with_table", case, due, &mut || {
            let (Port { state, mut ring, mut cells }, mut numbers) = (world.clone(), vec![0_u32; room]);
            let call = watched(smyrilox_step_with_table as unsafe extern "C" fn(_, _, _, _, _, _, _, _, _) -> _);
            let (r, c, n) = (lent(&mut ring), lent(&mut cells), lent(&mut numbers));
            let answer: abi::Stepped =
                unsafe { call(state, r.0, r.1, c.0, c.1, n.0, n.1, verdicts.as_ptr(), verdicts.len()) };
            answer.refusal
        });
    }
}

fn ran(world: &Port, room: usize, tape: &[u8], budget: u32) -> abi::Ran {
    let (Port { state, mut ring, mut cells }, mut numbers) = (world.clone(), vec![0_u32; room]);
    let call = watched(smyrilox_run_with_table as unsafe extern "C" fn(_, _, _, _, _, _, _, _, _, _) -> _);
    let (r, c, n) = (lent(&mut ring), lent(&mut cells), lent(&mut numbers));
    unsafe { call(state, r.0, r.1, c.0, c.1, n.0, n.1, tape.as_ptr(), tape.len(), budget) }
}

pub fn stack_run(table: &mut Table, case: &str, world: &Port, tape: &[u8], budget: u32) {
    for room in ROOMS {
        let mut stop = 0;
        table.note("run_with_table", case, None, &mut || {
            let answer = ran(world, room, tape, budget);
            stop = answer.stop;
            answer.refusal
        });
        if stop != 0 {
            let entry = "run_with_table, by the number that stops it";
            table.note(entry, case, Some(stop), &mut || ran(world, room, tape, budget).stop);
        }
    }
}

pub fn stack_fill(table: &mut Table, case: &str, world: &Port) {
    for room in ROOMS {
        table.note("fill_table", case, None, &mut || {
            let mut numbers = vec![0_u32; room];
            let call = watched(smyrilox_fill_table as unsafe extern "C" fn(_, _, _, *mut u32, _) -> _);
            unsafe { call(world.state, world.cells.as_ptr(), world.cells.len(), numbers.as_mut_ptr(), room) }
        });
    }
}

/// A setup as it is noted without a table, and how many tiles it asks for.
pub fn stack_setup(table: &mut Table, case: &str, setup: &Setup, ring: usize, cells: usize) {
    let (chosen, ranges) = asked(setup);
    let mut tiles = 0;
    table.note("tile_count", case, None, &mut || {
        let call = watched(smyrilox_tile_count as unsafe extern "C" fn(u32, u32) -> _);
        let answer: abi::Number = unsafe { call(setup.width, setup.height) };
        tiles = answer.value as usize;
        answer.refusal
    });
    for room in [4 * tiles, (4 * tiles).saturating_sub(1)] {
        table.note("setup_with_table", case, None, &mut || {
            let (mut ring, mut cells, mut numbers) = (vec![0; ring], vec![0; cells], vec![0_u32; room]);
            let call = watched(
                smyrilox_setup_with_table as unsafe extern "C" fn(_, _, *mut u8, _, *mut u64, _, *mut u32, _) -> _,
            );
            let (r, c, n) = (lent(&mut ring), lent(&mut cells), lent(&mut numbers));
            let answer: abi::Started = unsafe { call(chosen, ranges, r.0, r.1, c.0, c.1, n.0, n.1) };
            answer.refusal
        });
    }
}
