//! Blocks as document 01 has them: their code, their children, their directions and the pixels that they cover.

use crate::{
    engine::*,
    exact::{is_legal, put, Paper},
    leaves::Leaves,
};
use std::ops::Range;

#[derive(Clone, Debug)]
pub struct Block {
    pub x: u64,
    pub y: u64,
    pub level: i8,
    pub parameters: [Bounds; 4],
    pub direction: u8,
}

#[derive(Clone, Copy, Debug, Eq, PartialEq)]
pub enum Direction {
    Xy,
    Parameter(usize),
}

pub const WHOLE_LINE: Bounds = (f64::NEG_INFINITY, f64::INFINITY);

impl Block {
    /// The block with another interval in one parameter.
    pub fn with(&self, parameter: usize, interval: Bounds) -> Block {
        let mut block = self.clone();
        block.parameters[parameter] = interval;
        block
    }
}

/// Whether the set has the parameter; m, n, n_theta, t are 0 to 3.
pub fn is_used(set: u8, parameter: usize) -> bool {
    set >> (3 - parameter) & 1 == 1
}

/// xy if x or y is used, then the parameters in use.
pub fn directions(set: u8) -> Vec<Direction> {
    let xy = (set & 48 != 0).then_some(Direction::Xy);
    xy.into_iter().chain((0..4).filter(|&i| is_used(set, i)).map(Direction::Parameter)).collect()
}

/// Whether a coordinate begins inside a side.
pub fn is_inside(index: u64, level: i8, side: u32) -> bool {
    (index as u128) < (((side as u128) << 32) + (1u128 << (level as i32 + 32)) - 1) >> (level as i32 + 32)
}

/// The pixels that a coordinate covers, clipped to the side.
pub fn pixels_of(index: u64, level: i8, side: u32) -> Range<u64> {
    let start = Paper.pixel_index(index, level);
    start..(start + (1 << level.max(0))).min(side as u64)
}

/// The children of a block, in order.
pub fn children(record: &Record, b: &Block) -> Vec<Block> {
    match directions(record.set).get(b.direction as usize) {
        None => vec![b.clone()],
        Some(&Direction::Parameter(i)) => {
            Paper.later_cut(b.parameters[i], i < 3).into_iter().map(|piece| b.with(i, piece)).collect()
        }
        Some(Direction::Xy) => {
            let level = b.level - 1;
            let halves = [(0, 0), (1, 0), (0, 1), (1, 1)];
            let mut listed: Vec<Block> =
                halves.map(|(i, j)| Block { x: 2 * b.x + i, y: 2 * b.y + j, level, ..b.clone() }).into();
            if b.level > 0 {
                listed.retain(|c| is_inside(c.x, level, record.width) && is_inside(c.y, level, record.height));
            }
            listed
        }
    }
}

/// Each open child with the direction that it is queued with, or nothing where none can be gone.
pub fn found_directions(set: u8, present: u8, open: &[Block]) -> Vec<Option<Block>> {
    let all = directions(set);
    let same = match all.get(present as usize) {
        Some(Direction::Xy) => open.len() <= 1,
        _ => open.len() <= 2,
    };
    let start = present as usize + !same as usize;
    let can_go = |b: &Block, d: Direction| match d {
        Direction::Xy => b.level > -32,
        Direction::Parameter(i) => Paper.is_subdivisible(b.parameters[i], i < 3),
    };
    let find = |b: &Block| {
        let place = (start..start + all.len()).map(|i| i % all.len()).find(|&i| can_go(b, all[i]))?;
        Some(Block { direction: place as u8, ..b.clone() })
    };
    open.iter().map(find).collect()
}

/// The codes of blocks one after another, and what is remembered after them.
pub fn codes(set: u8, blocks: &[Block], back: &Last) -> (Vec<u8>, Last) {
    let (mut bytes, mut back) = (vec![], *back);
    for b in blocks {
        for index in [b.x ^ back.x, b.y ^ back.y] {
            bytes.extend(Paper.write_small(index));
            bytes.push(b.level as u8);
        }
        for i in (0..4).filter(|&i| is_used(set, i)) {
            if b.parameters[i] == back.parameters[i] {
                bytes.extend([0xff, 0xff]);
            } else {
                bytes.extend(b.parameters[i].0.to_be_bytes());
                bytes.extend(b.parameters[i].1.to_be_bytes());
            }
        }
        bytes.push(b.direction);
        back = Last { x: b.x, y: b.y, parameters: b.parameters };
    }
    (bytes, back)
}

/// The block that the bytes start with, and its code's length; nothing where they don't decode or levels differ.
pub fn decoded(set: u8, bytes: &[u8], front: &Last) -> Option<(Block, usize)> {
    let mut rest = bytes;
    let x = small(&mut rest)? ^ front.x;
    let level = some(&mut rest, 1)?[0];
    let y = small(&mut rest)? ^ front.y;
    if some(&mut rest, 1)?[0] != level {
        return None;
    }
    let mut parameters = [WHOLE_LINE; 4];
    for i in (0..4).filter(|&i| is_used(set, i)) {
        parameters[i] = interval(&mut rest, front.parameters[i])?;
        if !is_legal(parameters[i], i < 3) {
            return None;
        }
    }
    let direction = some(&mut rest, 1)?[0];
    Some((Block { x, y, level: level as i8, parameters, direction }, bytes.len() - rest.len()))
}

/// The next bytes, if there are so many.
fn some<'a>(rest: &mut &'a [u8], count: usize) -> Option<&'a [u8]> {
    let taken = rest.get(..count)?;
    *rest = &rest[count..];
    Some(taken)
}

fn small(rest: &mut &[u8]) -> Option<u64> {
    let head = *rest.first()?;
    let code = some(rest, 1 + head.trailing_zeros() as usize).filter(|_| head != 0)?;
    Some(Paper.read_small(code).0)
}

fn interval(rest: &mut &[u8], front: Bounds) -> Option<Bounds> {
    if rest.get(..2)? == [0xff, 0xff] {
        some(rest, 2)?;
        return Some(front);
    }
    let bytes = some(rest, 16)?;
    let number = |at: usize| f64::from_be_bytes(bytes[at..at + 8].try_into().unwrap());
    Some(put((number(0), number(8))))
}
