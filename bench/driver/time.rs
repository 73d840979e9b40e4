//! Times of both engines: whole runs, steps one by one, setups and pictures, and the customer's charts.

use crate::{
    clock::{timed, Measured},
    dock,
    play::*,
    port::Port,
    work::{self, Work},
};
use oracle::{
    image::Image,
    oracle::{Oracle, Setup},
};

/// How the port goes through a tape.
type Way = fn(&mut Port, &[u8], u64);

/// So many fresh charts one after the other, the mean of them; the setups are not timed.
fn time_way(work: &Work, way: Way, charts: usize, rounds: usize) -> Measured {
    let mean = |times: Vec<f64>| times.iter().sum::<f64>() / charts as f64;
    let port = || {
        let mut port = Port::made(&work.setup, work.ring);
        timed(|| way(&mut port, &work.tape, work.steps)).0
    };
    let rust = || {
        let mut oracle = original(&work.setup);
        timed(|| counted_rust_run(&mut oracle, &work.tape, work.steps)).0
    };
    Measured::rounds(
        rounds,
        || mean((0..charts).map(|_| port()).collect()),
        || mean((0..charts).map(|_| rust()).collect()),
    )
}

/// Both come to the same on a task.
fn check(work: &Work, way: Way) {
    let (mut port, mut oracle) = (Port::made(&work.setup, work.ring), original(&work.setup));
    way(&mut port, &work.tape, work.steps);
    counted_rust_run(&mut oracle, &work.tape, work.steps);
    assert_same(&port, &oracle, &work.name);
}

pub fn time_run(work: &Work, rounds: usize) -> Measured {
    check(work, counted_port_run);
    time_way(work, counted_port_run, 1, rounds)
}

fn time_setup(setup: &Setup, rounds: usize) -> Measured {
    Measured::rounds(rounds, || timed(|| keep(&Port::made(setup, 64))).0, || timed(|| keep(&original(setup))).0)
}

/// A picture with something of everything in it.
pub fn drawn(side: u32) -> (Port, Oracle) {
    let work = work::third_answered(512);
    let setup = work::square(side);
    let mut port = Port::made(&setup, work.ring);
    let mut oracle = original(&setup);
    counted_port_run(&mut port, &work.tape, work.steps);
    counted_rust_run(&mut oracle, &work.tape, work.steps);
    assert_same(&port, &oracle, "the picture");
    (port, oracle)
}

fn time_picture(side: u32, rounds: usize) -> Measured {
    let (port, oracle) = drawn(side);
    let mut bytes = vec![0; port.cells.len()];
    let mut image = Image::new(side, side);
    assert!(port.picture(&mut bytes) == 0);
    assert!(bytes == oracle.picture(side, side), "the same picture");
    Measured::rounds(
        rounds,
        || timed(|| assert!(port.picture(&mut bytes) == 0)).0,
        || {
            let seconds = timed(|| oracle.draw(&mut image)).0;
            keep(&image);
            seconds
        },
    )
}

/// How many of the customer's charts are timed together.
const CHARTS: usize = 50;

fn works() -> Vec<Work> {
    vec![
        work::to_the_pixels(1024),
        work::third_answered(1024),
        work::to_the_floor(64),
        work::with_parameters(64, 200_000),
    ]
}

/// Every task, with how many of its charts are timed together.
pub fn each_work(time: impl Fn(&Work, usize)) {
    works().iter().for_each(|work| time(work, 1));
    dock::KINDS.into_iter().for_each(|kind| time(&dock::hour(kind, 8), CHARTS));
}

fn head() {
    println!("| what | size | the port, least | the Rust, least | ratio | ratio by rounds: median (least to most) |");
    println!("|---|---|---|---|---|---|");
}

pub fn time(rounds: usize) {
    head();
    for work in works() {
        time_run(&work, rounds).row(&work.name, format!("{} steps", work.steps));
    }
    let work = work::to_the_pixels(1024);
    check(&work, counted_port_steps);
    let stepwise = time_way(&work, counted_port_steps, 1, rounds);
    stepwise.row("the first again, children and step by step", format!("{} steps", work.steps));
    time_setup(&work::square(4096), rounds).row("setup of 4096 by 4096", "16777216 cells".into());
    time_picture(4096, rounds).row("picture of 4096 by 4096", "16777216 cells".into());
    time_picture(1024, rounds).row("picture of 1024 by 1024", "1048576 cells".into());
}

/// The customer's charts, a run and step by step.
pub fn time_customer(rounds: usize) {
    head();
    for kind in dock::KINDS {
        let work = dock::hour(kind, 8);
        for (name, way) in [("a run", counted_port_run as Way), ("children and step by step", counted_port_steps)] {
            check(&work, way);
            let measured = time_way(&work, way, CHARTS, rounds);
            measured.row(&format!("{}, {name}", work.name), format!("{} steps", work.steps));
        }
    }
}
