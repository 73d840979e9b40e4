//! Cases for two engines: random ones, each fixed by its own seed, long ones, and short ones exhaustively.

use crate::{engine::*, lockstep::*, player::*, random::Random, setups::*};

/// What a series of cases saw. A case that both engines refused at setup counts as a case.
#[derive(Debug, Default)]
pub struct Series {
    pub cases: u64,
    pub reached: Reached,
    pub differences: Vec<Difference>,
}

impl Series {
    pub fn take(&mut self, case: Result<Reached, Difference>) {
        self.cases += 1;
        match case {
            Ok(reached) => self.reached.add(&reached),
            Err(difference) => self.differences.push(difference),
        }
    }

    /// Some differences are enough.
    pub fn is_over(&self) -> bool {
        self.differences.len() >= 5
    }
}

/// The seed of one case of a series.
pub fn case_seed(seed: u64, case: u64) -> u64 {
    Random::new(seed.wrapping_mul(1_000_003).wrapping_add(case)).next()
}

/// Random cases.
pub fn random_cases<M: Maker, N: Maker>(left: &M, right: &N, seed: u64, cases: u64, most_steps: u64) -> Series {
    let mut series = Series::default();
    for case in 0..cases {
        let mut random = Random::new(case_seed(seed, case));
        let setup = random_setup(&mut random);
        let room = random_room(&mut random, &setup);
        series.take(play(left, right, &setup, room, &mut random, most_steps, &STYLES));
        if series.is_over() {
            break;
        }
    }
    series
}

/// Cases of thousands of steps on small pictures and a ring that takes a long queue: most stay open.
pub fn long_cases<M: Maker, N: Maker>(left: &M, right: &N, seed: u64, cases: u64, steps: u64) -> Series {
    let mut series = Series::default();
    for case in 0..cases {
        let mut random = Random::new(case_seed(seed, case));
        let mut setup = random_setup(&mut random);
        (setup.width, setup.height) = (1 + setup.width % 9, 1 + setup.height % 9);
        setup.set |= random.pick(&[16, 32, 48]);
        let room = Room { ring: 1 << 18, cells: cells_for(&setup, 1) };
        series.take(play(left, right, &setup, room, &mut random, steps, &[Style::Endless]));
        if series.is_over() {
            break;
        }
    }
    series
}

/// Half of the rings are so small that they are soon full, and go round often.
fn random_room(random: &mut Random, setup: &Setup) -> Room {
    let ring = if random.once_in(2) { 1 << 14 } else { 5 + random.of_bits(12) as usize };
    Room { ring, cells: cells_for(setup, random.below(3) as usize) }
}

/// One case: steps by a player who now and then changes style, spoils verdicts or hands in a tape.
fn play<M: Maker, N: Maker>(
    left: &M,
    right: &N,
    setup: &Setup,
    room: Room,
    random: &mut Random,
    most_steps: u64,
    styles: &[Style],
) -> Result<Reached, Difference> {
    let mut pair = match Pair::setup(left, right, setup, room)? {
        Ok(pair) => pair,
        Err(number) => return Ok(Reached::refused(number)),
    };
    if random.once_in(12) {
        pair = renumbered(left, right, &pair, random)?;
    }
    let pixels = setup.width as u64 * setup.height as u64;
    let most_steps = if pixels > 4096 { most_steps.min(25) } else { most_steps };
    let mut player = Player { style: random.pick(styles), random: random.clone() };
    while pair.reached.steps < most_steps {
        if random.once_in(60) {
            player.style = random.pick(styles);
        }
        if !turn(&mut pair, &mut player, random)? {
            break;
        }
    }
    Ok(pair.close())
}

/// The same picture with block numbers near their end, as if so many blocks had been queued and taken before.
fn renumbered<M: Maker, N: Maker>(
    left: &M,
    right: &N,
    pair: &Pair<M::Engine, N::Engine>,
    random: &mut Random,
) -> Result<Pair<M::Engine, N::Engine>, Difference> {
    // A setup has at most 81 blocks.
    let by = u32::MAX as u64 - 81 - random.of_bits(8);
    let mut record = pair.left.record();
    record.taken += by;
    record.queued += by;
    let mut cells = pair.left.cells().to_vec();
    let pixels = record.width as usize * record.height as usize;
    for cell in cells[..pixels].iter_mut().filter(|cell| **cell < 1 << 32) {
        *cell += by;
    }
    Pair::resume(left, right, &record, pair.left.ring(), &cells)
}

/// A turn of the player; false if there is no block left, or no step that could be made.
pub fn turn<A: Engine, B: Engine>(
    pair: &mut Pair<A, B>,
    player: &mut Player,
    random: &mut Random,
) -> Result<bool, Difference> {
    let children = match pair.children()? {
        Ok(children) => children,
        Err(_) => {
            pair.step(&[], &[])?.unwrap_err();
            return Ok(false);
        }
    };
    if random.once_in(12) {
        pair.step(&children, &player.spoiled(&children))?.unwrap_err();
    }
    if random.once_in(20) {
        let (tape, budget) = (player.tape(24), random.below(9) as u32);
        pair.run(&tape, budget)?.unwrap();
        return Ok(true);
    }
    let verdicts = player.verdicts(&children);
    if pair.step(&children, &verdicts)?.is_err() {
        // No room, or no number left: only false for all gets on from here.
        return Ok(pair.step(&children, &vec![0; children.len()])?.is_ok());
    }
    Ok(true)
}

/// Every picture with sides from 1 to `most_side`, every variable set, each row of fixed parameters, and every tape
/// of so many steps: all legal bytes or one of each effect for one step, three to a child for more.
pub fn exhaustive<M: Maker, N: Maker>(left: &M, right: &N, most_side: u32, depth: u32) -> Series {
    let mut series = Series::default();
    let rows = fixed_parameters();
    for (width, height, set) in small_pictures(most_side) {
        // Where no parameter is used, one row does.
        let rows = if set & 15 == 0 { &rows[..1] } else { &rows[..] };
        for &parameters in rows {
            series.take(all_tapes(left, right, &Setup::new(width, height, set, parameters), depth));
            if series.is_over() {
                return series;
            }
        }
    }
    series
}

/// All pairs of sides up to a limit with all variable sets, small pictures first.
pub fn small_pictures(most_side: u32) -> impl Iterator<Item = (u32, u32, u8)> {
    let sides = (1..=most_side).flat_map(move |w| (1..=most_side).map(move |h| (w, h)));
    sides.flat_map(|(width, height)| (0..64).map(move |set| (width, height, set)))
}

fn all_tapes<M: Maker, N: Maker>(left: &M, right: &N, setup: &Setup, depth: u32) -> Result<Reached, Difference> {
    let room = Room { ring: 6000, cells: cells_for(setup, 1) };
    let pair = Pair::setup(left, right, setup, room)?.expect("room for every first cut");
    let mut reached = Reached::default();
    every_step(&pair, depth, depth == 1, &mut reached)?;
    Ok(reached)
}

/// Every next step of a pair, and every one after it; with a wide or a narrow choice of bytes.
fn every_step<A: Engine, B: Engine>(
    pair: &Pair<A, B>,
    depth: u32,
    wide: bool,
    reached: &mut Reached,
) -> Result<(), Difference> {
    let children = match pair.children()? {
        Ok(children) if depth > 0 => children,
        _ => return Ok(()),
    };
    for verdicts in all_verdicts(&children, wide) {
        let mut next = pair.clone();
        next.reached = Reached::default();
        next.step(&children, &verdicts)?.expect("legal verdicts and room");
        reached.add(&next.close());
        every_step(&next, depth - 1, wide, reached)?;
    }
    Ok(())
}

/// Every combination of the bytes to choose from, the first child's changing fastest.
pub fn all_verdicts(children: &[Child], wide: bool) -> impl Iterator<Item = Vec<u8>> {
    let choices: Vec<_> = children.iter().map(|c| choice(c.level, children.len(), wide)).collect();
    let ways: usize = choices.iter().map(Vec::len).product();
    (0..ways).map(move |way| {
        let mut rest = way;
        let choose = |from: &Vec<u8>| {
            let verdict = from[rest % from.len()];
            rest /= from.len();
            verdict
        };
        choices.iter().map(choose).collect()
    })
}

/// The bytes to choose from: all legal ones, or one of each effect where several children share a step below level 0;
/// where narrow, false, undecided and True.
fn choice(level: i8, children: usize, wide: bool) -> Vec<u8> {
    match (level < 0, wide) {
        (true, true) if children > 1 => vec![0x00, 0x40, 0x60, 0x61, 0x70, 0x80, 0xa0],
        (true, false) => vec![0x00, 0x40, 0xa0],
        _ => legal_verdicts(level),
    }
}
