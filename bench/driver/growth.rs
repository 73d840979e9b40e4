//! How cost grows: steps a second by the side, and by the length of the queue.

use crate::{
    clock::{timed, Measured},
    play::*,
    port::Port,
    time::time_run,
    work,
};

pub fn growth() {
    println!("| side | steps | the port, steps/s | the Rust, steps/s | ratio |");
    println!("|---|---|---|---|---|");
    for side in [64, 128, 256, 512, 1024, 2048, 4096] {
        let work = work::to_the_pixels(side);
        let measured = time_run(&work, if side < 4096 { 5 } else { 2 });
        println!("| {side} | {} | {} |", work.steps, measured.speeds(work.steps));
    }
    println!();
    println!("| blocks in the queue | the port, steps/s | the Rust, steps/s | ratio |");
    println!("|---|---|---|---|");
    for side in [16, 64, 256, 1024, 2048] {
        let work = work::to_the_pixels(side);
        let (mut port, mut oracle) = (Port::made(&work.setup, work.ring), original(&work.setup));
        counted_port_run(&mut port, &work.tape, work.steps);
        counted_rust_run(&mut oracle, &work.tape, work.steps);
        let queue = port.state.queued - port.state.taken;
        let steps = 50_000.min(queue * 16);
        let tape: Vec<u8> = [0x40, 0, 0, 0].repeat(steps as usize);
        let measured = Measured::rounds(
            5,
            || {
                let mut port = port.clone();
                timed(|| counted_port_run(&mut port, &tape, steps)).0
            },
            || {
                let mut oracle = oracle.clone();
                timed(|| counted_rust_run(&mut oracle, &tape, steps)).0
            },
        );
        println!("| {queue} | {} |", measured.speeds(steps));
    }
}
