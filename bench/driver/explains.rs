//! Why a pixel reads what it reads: the explainer, which sets up and repeats all steps, beside the setup and the run of the same
//! steps, and in stack.

use crate::{
    clock::{timed, Measured},
    play::counted_port_run,
    port::{abi, asked, calls::*, Port},
    stack::Table,
    time::each_work,
    watch::watched,
    work::Work,
};
use oracle::oracle::Setup;

/// The pixels that are asked about, as parts of the sides: few, many and the last of a run's blocks cover them.
const PLACES: [(u32, u32); 3] = [(0, 0), (1, 2), (2, 2)];

fn pixel(setup: &Setup, (across, down): (u32, u32)) -> (u32, u32) {
    (across * (setup.width - 1) / 2, down * (setup.height - 1) / 2)
}

fn explain(work: &Work, port: &mut Port, place: (u32, u32)) -> abi::Explained {
    let ((chosen, ranges), (column, row)) = (asked(&work.setup), pixel(&work.setup, place));
    let (ring, ring_len, cells, cells_len) = port.memory();
    let (tape, tape_len) = (work.tape.as_ptr(), work.tape.len());
    let steps = work.steps as u32;
    unsafe { smyrilox_explain(chosen, ranges, ring, ring_len, cells, cells_len, tape, tape_len, steps, column, row) }
}

#[inline(never)]
#[no_mangle]
pub fn counted_explain(work: &Work, port: &mut Port, place: (u32, u32)) {
    let answer = explain(work, port, place);
    assert!(answer.refusal == 0 && answer.steps == work.steps, "{}: refused by {}", work.name, answer.refusal);
    port.state = answer.state;
}

/// The setup and the run without an explanation.
#[inline(never)]
#[no_mangle]
pub fn counted_plain(work: &Work, port: &mut Port) {
    port.setup(&work.setup);
    counted_port_run(port, &work.tape, work.steps);
}

/// Both leave the same.
fn check(work: &Work, place: (u32, u32)) {
    let (mut plain, mut told) = (Port::lent(&work.setup, work.ring), Port::lent(&work.setup, work.ring));
    counted_plain(work, &mut plain);
    counted_explain(work, &mut told, place);
    assert!(plain.state == told.state, "{}: the same record", work.name);
    assert!(plain.queue_bytes().eq(told.queue_bytes()), "{}: the same queue", work.name);
    assert!(plain.cells == told.cells, "{}: the same cells", work.name);
}

fn time_work(work: &Work, charts: usize, rounds: usize) {
    for place in PLACES {
        check(work, place);
        let mean = |times: Vec<f64>| times.iter().sum::<f64>() / charts as f64;
        let explained = || {
            let mut port = Port::lent(&work.setup, work.ring);
            timed(|| counted_explain(work, &mut port, place)).0
        };
        let plain = || {
            let mut port = Port::lent(&work.setup, work.ring);
            timed(|| counted_plain(work, &mut port)).0
        };
        let measured = Measured::rounds(
            rounds,
            || mean((0..charts).map(|_| explained()).collect()),
            || mean((0..charts).map(|_| plain()).collect()),
        );
        let (column, row) = pixel(&work.setup, place);
        println!("| {} | {} steps | {column}, {row} | {} |", work.name, work.steps, measured.columns());
    }
}

pub fn time(rounds: usize) {
    println!("| setup and a run | size | column, row | explained, least | plain, least | ratio | ratio by rounds: median (least to most) |");
    println!("|---|---|---|---|---|---|---|");
    each_work(|work, charts| time_work(work, charts, rounds));
}

/// For callgrind: the middle of the lowest row explained, or the setup and the run alone. Answers the steps.
pub fn count(work: &Work, part: &str) -> u64 {
    let mut port = Port::lent(&work.setup, work.ring);
    match part {
        "explain" => counted_explain(work, &mut port, PLACES[1]),
        _ => counted_plain(work, &mut port),
    }
    work.steps
}

/// An explanation from a setup that is noted too: of a pixel inside after no step and after some, until the tape ends or a verdict is
/// not legal, and of one outside.
pub fn stack_explain(table: &mut Table, case: &str, setup: &Setup, ring: usize, cells: usize) {
    let (chosen, ranges) = asked(setup);
    for (steps, column, verdict) in [(0, 0, 0x40), (9, 0, 0x40), (9, 0, 0xc0), (9, setup.width, 0x40)] {
        let tape = [verdict; 14];
        table.note("explain", case, None, &mut || {
            let (mut ring, mut cells) = (vec![0; ring], vec![0; cells]);
            let call = watched(
                smyrilox_explain as unsafe extern "C" fn(_, _, *mut u8, _, *mut u64, _, *const u8, _, u32, u32, u32) -> _,
            );
            let (r, c) = ((ring.as_mut_ptr(), ring.len()), (cells.as_mut_ptr(), cells.len()));
            let answer: abi::Explained =
                unsafe { call(chosen, ranges, r.0, r.1, c.0, c.1, tape.as_ptr(), tape.len(), steps, column, 0) };
            answer.refusal
        });
    }
}
