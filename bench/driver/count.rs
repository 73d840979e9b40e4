//! One engine on one task, for callgrind.

use crate::{
    dock, explains,
    play::*,
    port::Port,
    tables,
    time::drawn,
    work::{self, Work},
};
use oracle::image::Image;

/// The tape of a task that is one.
fn tape(name: &str) -> Option<Work> {
    Some(match name {
        "pixels" => work::to_the_pixels(256),
        "third" => work::third_answered(256),
        "floor" => work::to_the_floor(16),
        "parameters" => work::with_parameters(64, 20_000),
        "dock" => dock::hour(dock::Kind::Plane, 8),
        "dock-m" => dock::hour(dock::Kind::Doors, 8),
        "dock-m-t" => dock::hour(dock::Kind::DoorsAndShare, 8),
        _ => return None,
    })
}

/// Plays a task on one engine, and tells its steps or cells. With `steps` the port goes step by step, with `table` it keeps a
/// table of tile counts, and with `recount` such a table is filled once at the end; with `explain` a pixel is explained, and `plain` is
/// the setup and the run of that.
pub fn count(name: &str, engine: &str, part: &str) {
    let size = match (tape(name), engine, part) {
        (Some(work), "port", "run") => {
            counted_port_run(&mut Port::made(&work.setup, work.ring), &work.tape, work.steps);
            work.steps
        }
        (Some(work), "port", "table" | "recount") => tables::count(&work, part),
        (Some(work), "port", "explain" | "plain") => explains::count(&work, part),
        (Some(work), "port", _) => {
            counted_port_steps(&mut Port::made(&work.setup, work.ring), &work.tape, work.steps);
            work.steps
        }
        (Some(work), ..) => {
            counted_rust_run(&mut original(&work.setup), &work.tape, work.steps);
            work.steps
        }
        (None, ..) => count_other(name, engine),
    };
    println!("{size}");
}

fn count_other(name: &str, engine: &str) -> u64 {
    const SIDE: u32 = 1024;
    let setup = work::square(SIDE);
    match (name, engine) {
        ("setup", "port") => counted_port_other(&mut Port::lent(&setup, 64), Some(&setup), &mut []),
        ("setup", _) => counted_rust_other(&mut None, Some(&setup), &mut Image::new(1, 1)),
        ("picture", "port") => counted_port_other(&mut drawn(SIDE).0, None, &mut vec![0; 1 << 20]),
        ("picture", _) => counted_rust_other(&mut Some(drawn(SIDE).1), None, &mut Image::new(SIDE, SIDE)),
        _ => panic!("no task {name}"),
    }
    SIDE as u64 * SIDE as u64
}
