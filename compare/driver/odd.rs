//! Pictures handed in: sound ones that no setup leads to. Blocks lie anywhere on any level, codes may be longer than
//! needed, a repeated parameter may be written out, and cells hold anything legal, the reserved bytes anything.

use crate::{blocks::*, engine::*, exact::put, lockstep::*, play::*, player::*, random::Random, setups::*};
use oracle::leaf;

/// Plays cases that start from handed-in pictures.
pub fn cases<M: Maker, N: Maker>(left: &M, right: &N, seed: u64, cases: u64, most_steps: u64) -> Series {
    let mut series = Series::default();
    for case in 0..cases {
        let mut random = Random::new(case_seed(seed, case));
        series.take(play(left, right, &mut random, most_steps));
        if series.is_over() {
            break;
        }
    }
    series
}

fn play<M: Maker, N: Maker>(left: &M, right: &N, random: &mut Random, most: u64) -> Result<Reached, Difference> {
    let (record, ring, cells) = picture(random);
    let mut pair = Pair::resume(left, right, &record, &ring, &cells)?;
    let mut player = Player { style: random.pick(&STYLES), random: random.clone() };
    while pair.reached.steps < most && turn(&mut pair, &mut player, random)? {}
    Ok(pair.close())
}

/// A record, a ring and cells.
pub fn picture(random: &mut Random) -> (Record, Vec<u8>, Vec<u64>) {
    let (width, height) = (1 + random.below(9) as u32, 1 + random.below(9) as u32);
    let set = random.below(64) as u8;
    let count = 1 + random.below(5);
    let front = last(&block(random, width, height, set));
    let (mut back, mut bytes) = (front, vec![]);
    for _ in 0..count {
        let next = block(random, width, height, set);
        code(random, &mut bytes, set, &next, &back);
        back = last(&next);
    }
    let len = bytes.len() + random.of_bits(9) as usize;
    let head = random.below(len as u64) as usize;
    let mut ring: Vec<u8> = (0..len).map(|_| random.next() as u8).collect();
    for (i, &byte) in bytes.iter().enumerate() {
        ring[(head + i) % len] = byte;
    }
    let taken = if random.once_in(4) { (1 << 32) - count - random.below(20) } else { random.of_bits(31) };
    let used = bytes.len();
    let (reserved, queued) = (reserved(random), taken + count);
    let record = Record { width, height, set, reserved, taken, queued, len, head, used, front, back };
    let cells = (0..width * height + 1).map(|_| cell(random, &record)).collect();
    (record, ring, cells)
}

/// True, given up, or a number: around those of the queue, or any.
fn cell(random: &mut Random, record: &Record) -> u64 {
    match random.below(6) {
        0 => 1 << 32,
        1 => (1 << 32) + 1,
        2 => random.of_bits(32),
        _ => (record.taken + random.below(8)).saturating_sub(3).min(u32::MAX as u64),
    }
}

/// A block that begins inside the picture, on any level, with a direction that can be gone.
fn block(random: &mut Random, width: u32, height: u32, set: u8) -> Block {
    let all = directions(set);
    let direction = random.below(all.len().max(1) as u64) as u8;
    let is_xy = all.get(direction as usize) == Some(&Direction::Xy);
    let level = random.below(48 - is_xy as u64) as i8 - 32 + is_xy as i8;
    let mut place = |side: u32| {
        let places = if level >= 0 { (side as u64 + (1 << level) - 1) >> level } else { (side as u64) << -level };
        random.below(places)
    };
    let (x, y) = (place(width), place(height));
    let mut parameters = [WHOLE_LINE; 4];
    for i in (0..4).filter(|&i| is_used(set, i)) {
        parameters[i] = parameter(random, i < 3);
    }
    Block { x, y, level, parameters, direction }
}

fn last(block: &Block) -> Last {
    Last { x: block.x, y: block.y, parameters: block.parameters.map(put) }
}

/// A block's code after the one remembered: now and then with longer numbers, or with a repeat written out.
fn code(random: &mut Random, bytes: &mut Vec<u8>, set: u8, block: &Block, back: &Last) {
    for index in [block.x ^ back.x, block.y ^ back.y] {
        let least = leaf::write_small(index, 0).len() - 1;
        let tail = if random.once_in(3) { least + random.below(8 - least as u64) as usize } else { least };
        bytes.extend(&((2 * index as u128 + 1) << tail).to_le_bytes()[..=tail]);
        bytes.push(block.level as u8);
    }
    for i in (0..4).filter(|&i| is_used(set, i)) {
        let x = block.parameters[i];
        if x == back.parameters[i] && !random.once_in(3) {
            bytes.extend([0xff, 0xff]);
        } else {
            bytes.extend(x.0.to_be_bytes());
            bytes.extend(x.1.to_be_bytes());
        }
    }
    bytes.push(block.direction);
}
