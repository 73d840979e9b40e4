//! The pictures and the verdicts that both engines are given.

use crate::port::{abi, Port};
use oracle::oracle::Setup;

pub const LINE: (f64, f64) = (f64::NEG_INFINITY, f64::INFINITY);
pub const XY: u8 = 48;
pub const UNDECIDED: u8 = 0x40;

/// A setup, and a tape for so many steps.
pub struct Work {
    pub name: String,
    pub setup: Setup,
    pub ring: usize,
    pub tape: Vec<u8>,
    pub steps: u64,
}

/// Numbers that only look like chance (xorshift64*).
pub struct Chance(u64);

impl Chance {
    pub fn new(seed: u64) -> Chance {
        Chance(seed.wrapping_mul(0x9e3779b97f4a7c15) | 1)
    }

    pub fn below(&mut self, n: u64) -> u64 {
        self.0 ^= self.0 >> 12;
        self.0 ^= self.0 << 25;
        self.0 ^= self.0 >> 27;
        (self.0.wrapping_mul(0x2545f4914f6cdd1d) >> 33) % n
    }

    /// One verdict in three is false or true, the others are undecided.
    fn third(&mut self) -> u8 {
        [UNDECIDED, UNDECIDED, UNDECIDED, UNDECIDED, 0x00, 0x80][self.below(6) as usize]
    }
}

pub fn square(side: u32) -> Setup {
    Setup::new(side, side, XY, [LINE; 4])
}

/// Every block undecided, until the pixels are queued. The side is a power of two.
pub fn to_the_pixels(side: u32) -> Work {
    let steps = (side as u64 * side as u64 - 1) / 3;
    let ring = 16 * side as usize * side as usize;
    Work {
        name: format!("{side} by {side}, undecided down to the pixels"),
        setup: square(side),
        ring,
        tape: vec![UNDECIDED; 4 * steps as usize],
        steps,
    }
}

/// A tape of at most so many steps, made by playing: `verdict` is asked with each child and its place, until it says that it
/// is over.
pub fn played(
    name: String,
    setup: Setup,
    ring: usize,
    most: u64,
    mut verdict: impl FnMut(&abi::Child, usize) -> Option<u8>,
) -> Work {
    let mut port = Port::made(&setup, ring);
    let (mut tape, mut steps) = (vec![], 0);
    while port.state.taken < port.state.queued && steps < most {
        let listed = port.children();
        let children = listed.at[..listed.count].iter().enumerate();
        let verdicts: Option<Vec<u8>> = children.map(|(place, child)| verdict(child, place)).collect();
        let verdicts = match verdicts {
            Some(verdicts) => verdicts,
            None => break,
        };
        let answer = port.step(&verdicts);
        assert!(answer.refusal == 0, "{name}: step refused by {}", answer.refusal);
        tape.extend(verdicts);
        steps += 1;
    }
    Work { name, setup, ring, tape, steps }
}

/// The same with a third of the blocks answered.
pub fn third_answered(side: u32) -> Work {
    let mut chance = Chance::new(1);
    let name = format!("{side} by {side}, a third of the blocks answered");
    let ring = 16 * side as usize * side as usize;
    played(name, square(side), ring, u64::MAX, |child, _| (child.x.level >= 0).then(|| chance.third()))
}

/// Down to the lowest level: from the pixels on one quarter of each block stays undecided.
pub fn to_the_floor(side: u32) -> Work {
    let name = format!("{side} by {side} down to the floor");
    let ring = 64 * side as usize * side as usize;
    let open = |child: &abi::Child, place| child.x.level >= 0 || place == 0;
    let verdict = |child: &abi::Child, place| Some(if open(child, place) { UNDECIDED } else { 0 });
    played(name, square(side), ring, u64::MAX, verdict)
}

/// x, y, an integer and a real parameter, a third of the blocks false. What is true of a block is true of all its
/// pixels, whatever the parameters, so only small blocks are, and few.
pub fn with_parameters(side: u32, steps: u64) -> Work {
    let mut chance = Chance::new(2);
    let mut left = 4 * steps;
    let setup = Setup::new(side, side, XY | 8 | 1, [(0.0, 7.0), LINE, LINE, (-1.0, 1.0)]);
    let name = format!("{side} by {side} with m in [0,7] and t in [-1,1]");
    played(name, setup, 64 << 20, u64::MAX, |child, _| {
        left = left.checked_sub(1)?;
        Some(match chance.below(99) {
            0 if child.x.level < 3 => 0x80,
            0..=32 => 0x00,
            _ => UNDECIDED,
        })
    })
}
