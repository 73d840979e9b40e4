//! Document 01's worked values: those marked P, 5 by 3, and 1 by 1.

use crate::{engine::*, leaves::*, list::hex, lockstep::*};
use std::fmt::Debug;

const INF: f64 = f64::INFINITY;
const GIVEN_UP: u64 = (1 << 32) + 1;

/// What was checked and what came out otherwise.
#[derive(Default)]
pub struct Worked {
    pub values: u64,
    pub differences: Vec<String>,
}

impl Worked {
    fn is<T: Debug + PartialEq>(&mut self, what: &str, got: T, due: T) {
        self.values += 1;
        if got != due {
            self.differences.push(format!("{what}: got {got:?}, due {due:?}"));
        }
    }
}

/// All worked values, by an engine and its leaves.
pub fn check(maker: &impl Maker, leaves: &impl Leaves) -> Worked {
    let mut worked = Worked::default();
    small_numbers(leaves, &mut worked);
    cuts(leaves, &mut worked);
    five_by_three(maker, &mut worked);
    one_by_one(maker, &mut worked);
    worked
}

fn small_numbers(leaves: &impl Leaves, worked: &mut Worked) {
    let rows: [(u64, &str); 6] = [
        (0, "01"),
        (127, "ff"),
        (128, "0202"),
        (16383, "feff"),
        (16384, "040002"),
        ((1 << 56) - 1, "80ffffffffffffff"),
    ];
    for (x, code) in rows {
        worked.is("code", hex(&leaves.write_small(x)), code.to_string());
        worked.is("code read", leaves.read_small(&crate::list::unhex(code)), (x, code.len() / 2));
    }
}

fn cuts(leaves: &impl Leaves, worked: &mut Worked) {
    worked.is("later cut [0,3]", leaves.later_cut((0.0, 3.0), true), vec![(1.0, 1.0), (2.0, 2.0)]);
    worked.is("later cut [0,+inf]", leaves.later_cut((0.0, INF), true), vec![(1.0, 1.0), (1.0, INF)]);
    worked.is("first cut of integers [5,5]", leaves.first_cut((5.0, 5.0), true), vec![(5.0, 5.0)]);
    worked.is("first cut of reals [5,5]", leaves.first_cut((5.0, 5.0), false), vec![(5.0, 5.0); 3]);
    worked.is("simple fraction [1,+inf]", leaves.simple_fraction((1.0, INF)), 2.0);
    worked.is("simple fraction [-inf,-1]", leaves.simple_fraction((-INF, -1.0)), -2.0);
    worked.is("simple fraction [0.3,0.4]", leaves.simple_fraction((0.3, 0.4)), 0.375);
}

fn five_by_three<M: Maker>(maker: &M, worked: &mut Worked) {
    let setup = Setup::new(5, 3, 48, [(-INF, INF); 4]);
    let mut picture = maker.setup(&setup, vec![FILLER; 64], vec![SPARE; 15]).expect("an accepted setup");
    let queue = |picture: &M::Engine| hex(&queue_bytes(&picture.record(), picture.ring()));
    worked.is("5 by 3 starts", queue(&picture), "0103010300".to_string());
    let answer = picture.step(&[0x40, 0x40]);
    worked.is("5 by 3 answers", answer, Ok(Stepped { evaluations: 2, tape: 2 }));
    worked.is("5 by 3 queue", queue(&picture), "01020102000302010200".to_string());
    worked.is("5 by 3 cells", picture.cells().to_vec(), [1, 1, 1, 1, 2].repeat(3));
}

fn one_by_one(maker: &impl Maker, worked: &mut Worked) {
    let setup = Setup::new(1, 1, 48, [(-INF, INF); 4]);
    let mut picture = maker.setup(&setup, vec![FILLER; 64], vec![SPARE; 1]).expect("an accepted setup");
    let mut whole = picture.clone();
    let mut tape = [0x40, 0, 0, 0].repeat(31);
    let mut evaluations = 0;
    tape.extend([0x40, 0xa0, 0, 0]);
    for verdicts in tape.chunks(4) {
        evaluations += picture.step(verdicts).map_or(0, |done| done.evaluations);
    }
    worked.is("1 by 1 evaluations", evaluations, 126);
    worked.is("1 by 1 cell", picture.cells().to_vec(), vec![GIVEN_UP]);
    let ran = whole.run(&tape, 100);
    worked.is("1 by 1 run", ran, Ok(Ran { end: RunEnd::Limit, steps: 32, evaluations: 126, tape: 128 }));
    worked.is("1 by 1 cell after the run", whole.cells().to_vec(), vec![GIVEN_UP]);
}
