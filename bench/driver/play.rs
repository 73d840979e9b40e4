//! Both engines on one task. The functions `counted_..` are what callgrind counts.

use crate::port::Port;
use oracle::{
    image::Image,
    oracle::{Oracle, Setup},
    relation::Manner,
    Ternary,
};
use std::arch::asm;

pub fn original(setup: &Setup) -> Oracle {
    Oracle::setup(setup, Manner::Zero).unwatched()
}

#[inline(never)]
#[no_mangle]
pub fn counted_port_run(port: &mut Port, tape: &[u8], steps: u64) {
    let ran = port.run(tape, steps);
    assert!(ran.refusal == 0 && ran.steps == steps, "the port stopped after {} steps by {}", ran.steps, ran.stop);
}

/// Steps one by one: the children listed, a verdict for each, the step.
#[inline(never)]
#[no_mangle]
pub fn counted_port_steps(port: &mut Port, tape: &[u8], steps: u64) {
    let mut rest = tape;
    for _ in 0..steps {
        let listed = port.children();
        keep(&listed);
        let (verdicts, left) = rest.split_at(listed.count);
        assert!(port.step(verdicts).refusal == 0);
        rest = left;
    }
}

#[inline(never)]
#[no_mangle]
pub fn counted_rust_run(oracle: &mut Oracle, tape: &[u8], steps: u64) {
    oracle.run(tape, steps).expect("no overflow");
}

#[inline(never)]
#[no_mangle]
pub fn counted_port_other(port: &mut Port, setup: Option<&Setup>, bytes: &mut [u8]) {
    match setup {
        Some(setup) => port.setup(setup),
        None => assert!(port.picture(bytes) == 0),
    }
}

#[inline(never)]
#[no_mangle]
pub fn counted_rust_other(oracle: &mut Option<Oracle>, setup: Option<&Setup>, image: &mut Image<Ternary>) {
    match setup {
        Some(setup) => *oracle = Some(original(setup)),
        None => oracle.as_ref().expect("a picture").draw(image),
    }
}

/// Has the compiler make a value that nobody looks at.
pub fn keep<T>(value: &T) {
    unsafe { asm!("/* {0} */", in(reg) value, options(nostack, preserves_flags)) };
}

/// Both must have come to the same.
pub fn assert_same(port: &Port, oracle: &Oracle, name: &str) {
    assert!(port.state.used == oracle.byte_count(), "{name}: as many bytes in the queue");
    assert!(port.queue_bytes().eq(oracle.queue_bytes()), "{name}: the same bytes in the queue");
    assert!(port.cells.iter().copied().eq(oracle.cells()), "{name}: the same cells");
}
