//! Makes lists: cases played on one engine and written down, to be replayed where the original is not at hand.

use crate::{engine::*, list, lockstep::*, play::*, player::*, random::Random, setups::*};
use std::io::{Result, Write};

/// Plays random cases on one engine and writes them as a list.
pub fn record<M: Maker>(maker: &M, seed: u64, cases: u64, most_steps: u64, out: &mut impl Write) -> Result<()> {
    writeln!(out, "{}", list::HEADER)?;
    let mut case = 0;
    for turn in 0.. {
        if case == cases {
            break;
        }
        let mut random = Random::new(case_seed(seed, turn));
        let mut setup = random_setup(&mut random);
        (setup.width, setup.height) = (1 + setup.width % 6, 1 + setup.height % 6);
        let ring = vec![FILLER; 5 + random.of_bits(10) as usize];
        if let Ok(mut engine) = maker.setup(&setup, ring, vec![SPARE; cells_for(&setup, 1)]) {
            list::write_line(out, case, &list::setup_call(&setup), &[], Ok(0), &mut engine)?;
            let mut player = Player { style: random.pick(&STYLES), random: random.clone() };
            record_steps(out, case, &mut engine, &mut player, &mut random, most_steps)?;
            case += 1;
        }
    }
    Ok(())
}

fn record_steps<E: Engine>(
    out: &mut impl Write,
    case: u64,
    engine: &mut E,
    player: &mut Player,
    random: &mut Random,
    most_steps: u64,
) -> Result<()> {
    let mut is_full = false;
    for _ in 0..most_steps {
        let children = engine.children();
        let verdicts = match &children {
            Err(_) => vec![],
            Ok(children) if is_full => vec![0; children.len()],
            Ok(children) if random.once_in(15) => player.spoiled(children),
            Ok(children) => player.verdicts(children),
        };
        let answer = engine.step(&verdicts).map(|done| done.evaluations);
        list::write_line(out, case, "step", &verdicts, answer, engine)?;
        is_full = answer == Err(6);
        if children.is_err() {
            break;
        }
        if random.once_in(40) {
            player.style = random.pick(&STYLES);
        }
    }
    Ok(())
}

/// Every variable set, every pair of sides to `most_side`, and every tape of one step over three bytes a child.
/// Parameters go through the fixed rows from case to case; each case is its setup and its step.
pub fn record_all<M: Maker>(maker: &M, most_side: u32, out: &mut impl Write) -> Result<()> {
    writeln!(out, "{}", list::HEADER)?;
    let rows = fixed_parameters();
    let mut case = 0;
    for (turn, (width, height, set)) in small_pictures(most_side).enumerate() {
        let setup = Setup::new(width, height, set, rows[(turn + set as usize / 8) % rows.len()]);
        let cells = vec![SPARE; cells_for(&setup, 1)];
        let first = maker.setup(&setup, vec![FILLER; 6000], cells.clone()).expect("room for every first cut");
        // Just room for a step's four blocks at their longest.
        let ring = vec![FILLER; first.record().used + 3 * 83];
        let start = maker.setup(&setup, ring, cells).expect("the room of the first try");
        for verdicts in all_verdicts(&first.children().expect("a first block"), false) {
            let mut engine = start.clone();
            list::write_line(out, case, &list::setup_call(&setup), &[], Ok(0), &mut engine)?;
            let answer = engine.step(&verdicts).map(|done| done.evaluations);
            list::write_line(out, case, "step", &verdicts, answer, &mut engine)?;
            case += 1;
        }
    }
    Ok(())
}
