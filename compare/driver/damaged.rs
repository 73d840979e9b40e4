//! What must be refused: setups with anything wrong, and pictures that were damaged on the way. The original has no
//! refusals, so here the first engine is document 01's, and it is our reading that is compared.

use crate::{engine::*, lockstep::*, odd, play::*, player::*, random::Random, setups::*};

/// Half setups, half pictures handed in.
pub fn cases<M: Maker, N: Maker>(left: &M, right: &N, seed: u64, cases: u64) -> Series {
    let mut series = Series::default();
    for case in 0..cases {
        let mut random = Random::new(case_seed(seed, case));
        let seen = if case % 2 == 0 { setup(left, right, &mut random) } else { picture(left, right, &mut random) };
        series.take(seen);
        if series.is_over() {
            break;
        }
    }
    series
}

const INF: f64 = f64::INFINITY;

/// Bounds of no interval, or of none for an integer parameter.
const ILLEGAL: [Bounds; 7] = [(1.0, 0.0), (INF, INF), (-INF, -INF), (INF, -INF), (0.5, 1.0), (0.0, 0.5), (5e-324, 1.0)];

fn setup<M: Maker, N: Maker>(left: &M, right: &N, random: &mut Random) -> Result<Reached, Difference> {
    let mut setup = random_setup(random);
    (setup.width, setup.height) = (1 + setup.width % 9, 1 + setup.height % 9);
    let mut room = Room { ring: random.of_bits(12) as usize, cells: cells_for(&setup, 1) };
    for _ in 0..random.below(3) {
        match random.below(6) {
            0 => setup.width = random.pick(&[0, 1, 32768, 32769, u32::MAX]),
            1 => setup.height = random.pick(&[0, 1, 32768, 32769, u32::MAX]),
            2 => setup.set = random.next() as u8,
            3 => setup.parameters[random.below(4) as usize] = random.pick(&ILLEGAL),
            4 => room.cells = random.below(room.cells as u64 + 1) as usize,
            _ => room.ring = random.below(6) as usize,
        }
    }
    match Pair::setup(left, right, &setup, room)? {
        Ok(mut pair) => Ok(pair.close()),
        Err(number) => Ok(Reached::refused(number)),
    }
}

fn picture<M: Maker, N: Maker>(left: &M, right: &N, random: &mut Random) -> Result<Reached, Difference> {
    let (mut record, mut ring, mut cells) = odd::picture(random);
    for _ in 0..1 + random.below(2) {
        match random.below(4) {
            0 => damage_record(random, &mut record),
            1 => {
                let at = record.head.wrapping_add(random.below(record.used.max(1) as u64) as usize) % ring.len();
                let any = random.next() as u8;
                ring[at] = random.pick(&[any, 0, 0xff, ring[at] ^ 1]);
            }
            2 => {
                let at = random.below(cells.len() as u64) as usize;
                cells[at] = random.pick(&[(1 << 32) + 1, (1 << 32) + 2, 1 << 33, u64::MAX]);
            }
            _ => cells.truncate(1 + random.below(cells.len() as u64) as usize),
        }
    }
    let mut pair = Pair::resume(left, right, &record, &ring, &cells)?;
    let mut player = Player { style: Style::Even, random: random.clone() };
    for _ in 0..3 {
        let children = pair.children()?.unwrap_or_default();
        let verdicts = match random.below(4) {
            _ if children.is_empty() => player.tape(5),
            0 => player.spoiled(&children),
            _ => player.verdicts(&children),
        };
        pair.step(&children, &verdicts)?.ok();
        pair.draw(random.below(cells.len() as u64) as usize)?;
        let (tape, budget) = (player.tape(9), random.below(4) as u32);
        pair.run(&tape, budget)?.ok();
    }
    Ok(pair.close())
}

fn damage_record(random: &mut Random, r: &mut Record) {
    let off = random.pick(&[0, 1, 2, 31, usize::MAX]);
    let last = if random.once_in(2) { &mut r.front } else { &mut r.back };
    match random.below(10) {
        0 => r.width = random.pick(&[0, 1, 3, 32768, 32769]),
        1 => r.height = random.pick(&[0, 1, 3, 32768, 32769]),
        2 => r.set = random.next() as u8,
        3 => r.taken = random.pick(&[0, r.queued, r.queued.wrapping_add(1), r.taken.wrapping_add(1), u64::MAX]),
        4 => r.queued = random.pick(&[r.taken, r.queued.wrapping_add(1), (1 << 32) + 1, 1 << 32, u64::MAX]),
        5 => r.len = r.len.wrapping_add(off),
        6 => r.head = r.head.wrapping_add(off),
        7 => r.used = random.pick(&[0, r.used.wrapping_sub(1), r.used.wrapping_add(off), r.len]),
        8 => last.x = random.pick(&[(1 << 47) - 1, 1 << 47, u64::MAX]),
        _ => last.parameters[random.below(4) as usize] = random.pick(&ILLEGAL),
    }
}
