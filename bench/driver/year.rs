//! A year of hours as one command: 8,760 of the customer's charts with m, each begun, refined by 700 steps and drawn, over
//! the same ring, cells and picture. Prints how many pixels were white, grey and black in all of them, which all engines
//! must agree in, and what the process took.

use crate::{
    clock::timed,
    dock::{self, Kind},
    play::original,
    port::Port,
    work::Work,
};
use oracle::{image::Image, Ternary};
use std::fs;

const KIND: Kind = Kind::Doors;

/// Pixels by their byte.
#[derive(Default)]
struct Tally([u64; 3]);

impl Tally {
    fn add(&mut self, picture: &[u8]) {
        picture.iter().for_each(|&byte| self.0[byte as usize] += 1);
    }
}

/// The tapes of a day, which the year repeats.
fn day() -> Vec<Work> {
    (0..24).map(|hour| dock::hour(KIND, hour)).collect()
}

/// The charts of the port on buffers that are lent once; `refine` has the chart of an hour refined.
fn by_port(hours: u64, mut refine: impl FnMut(&mut Port, u64)) -> Tally {
    let setup = KIND.setup();
    let mut port = Port::lent(&setup, dock::RING);
    let (mut tally, mut picture) = (Tally::default(), vec![1; port.cells.len()]);
    for hour in 0..hours {
        port.setup(&setup);
        refine(&mut port, hour);
        assert!(port.picture(&mut picture) == 0);
        tally.add(&picture);
    }
    tally
}

/// Each step's children are listed, and the evaluator is asked.
fn step_by_step(port: &mut Port, hour: u64) {
    for _ in 0..dock::STEPS {
        let listed = port.children();
        let mut verdicts = [0; 4];
        for (verdict, child) in verdicts.iter_mut().zip(&listed.at[..listed.count]) {
            *verdict = dock::verdict(KIND, hour, child);
        }
        assert!(port.step(&verdicts[..listed.count]).refusal == 0);
    }
}

fn by_rust(hours: u64, day: &[Work]) -> Tally {
    let setup = KIND.setup();
    let (mut tally, mut image) = (Tally::default(), Image::new(setup.width, setup.height));
    for hour in 0..hours {
        let work = &day[hour as usize % 24];
        let mut oracle = original(&setup);
        oracle.run(&work.tape, work.steps).expect("no overflow");
        oracle.draw(&mut image);
        for reading in image.pixels() {
            let byte = match reading {
                Ternary::False => 0,
                Ternary::Uncertain => 1,
                Ternary::True => 2,
            };
            tally.0[byte] += 1;
        }
    }
    tally
}

/// The most memory that the process has had, in kilobytes.
fn most_memory() -> u64 {
    let status = fs::read_to_string("/proc/self/status").expect("/proc");
    let line = status.lines().find_map(|line| line.strip_prefix("VmHWM:")).expect("VmHWM");
    line.trim().trim_end_matches(" kB").parse().expect("a number")
}

/// One engine: `steps` asks the evaluator as the charts are refined, `run` and `rust` take the tapes of a day.
pub fn year(engine: &str, hours: u64) {
    let tapes = if engine == "steps" { vec![] } else { day() };
    let (seconds, tally) = timed(|| match engine {
        "steps" => by_port(hours, step_by_step),
        "run" => by_port(hours, |port, hour| {
            let work = &tapes[hour as usize % 24];
            assert!(port.run(&work.tape, work.steps).steps == work.steps);
        }),
        _ => by_rust(hours, &tapes),
    });
    let [white, grey, black] = tally.0;
    println!("{white} {grey} {black} {seconds:.3} {}", most_memory());
}
