//! Records, rings and cells that are made by hand, so that the block taken next is of any kind; and the ways to damage them.

use crate::port::{abi, Port};
use oracle::leaf;

pub const WHOLE: abi::Interval = abi::Interval::WHOLE;
const BITS: [u8; 4] = [8, 4, 2, 1];
const TAKEN: u64 = 7;
pub const TRUE: u64 = 1 << 32;

/// The variable sets that are looked at: none, the plane in part and whole, with each parameter, parameters alone, all.
pub const SETS: [u8; 13] = [0, 32, 16, 48, 48 | 8, 48 | 4, 48 | 2, 48 | 1, 8, 1, 15, 32 | 15, 63];

/// Above, at and below a pixel, and the lowest level.
pub const LEVELS: [i32; 6] = [3, 1, 0, -1, -31, -32];

/// Ranges of every kind of cut. All are legal for integers too.
pub const RANGES: [(f64, f64); 7] = [
    (0.0, 9.0),
    (5.0, 5.0),
    (0.0, 1.0),
    (0.0, 3.0),
    (0.0, f64::INFINITY),
    (f64::NEG_INFINITY, -1.0),
    (f64::NEG_INFINITY, f64::INFINITY),
];

/// A block that is taken next, in a picture of 5 by 3.
#[derive(Clone, Copy)]
pub struct Front {
    pub set: u8,
    pub direction: usize,
    pub level: i32,
    pub range: abi::Interval,
}

/// Where a queue lies in its ring: bytes free behind it, and how far round the ring it begins.
#[derive(Clone, Copy)]
pub struct Ring {
    pub free: usize,
    pub wraps: bool,
}

/// More than four blocks take, so that nothing is measured.
pub const ROOMY: Ring = Ring { free: 4096, wraps: false };

fn is_used(set: u8, parameter: usize) -> bool {
    set & BITS[parameter] != 0
}

/// The names of the directions of a set: the plane if x or y is used, then the parameters used.
fn directions(set: u8) -> Vec<&'static str> {
    let plane = (set & 48 != 0).then_some("xy");
    let parameters = ["m", "n", "n_theta", "t"].into_iter().enumerate().filter(|&(i, _)| is_used(set, i));
    plane.into_iter().chain(parameters.map(|(_, name)| name)).collect()
}

impl Front {
    /// Every block of the kinds above.
    pub fn all() -> Vec<Front> {
        let mut all = vec![];
        for set in SETS {
            for direction in 0..directions(set).len().max(1) {
                for level in LEVELS {
                    // Where no parameter is used, one range does.
                    for &(lower, upper) in if set & 15 == 0 { &RANGES[..1] } else { &RANGES[..] } {
                        let front = Front { set, direction, level, range: abi::Interval { lower, upper } };
                        if front.is_legal() {
                            all.push(front);
                        }
                    }
                }
            }
        }
        all
    }

    fn is_legal(&self) -> bool {
        self.level > -32 || self.cut() != "xy"
    }

    /// The direction's name.
    pub fn cut(&self) -> &'static str {
        directions(self.set).get(self.direction).copied().unwrap_or("no direction")
    }

    pub fn name(&self) -> String {
        format!("set {}, {} at level {}", self.set, self.cut(), self.level)
    }

    fn parameters(&self) -> [abi::Interval; 4] {
        std::array::from_fn(|i| if is_used(self.set, i) { self.range } else { WHOLE })
    }

    /// Its code, the first in a queue.
    pub fn code(&self, x: u64, y: u64) -> Vec<u8> {
        let mut bytes = vec![];
        for index in [x, y] {
            bytes.extend(leaf::write_small(index, 0));
            bytes.push(self.level as u8);
        }
        for (_, x) in self.parameters().iter().enumerate().filter(|&(i, _)| is_used(self.set, i)) {
            bytes.extend(x.lower.to_be_bytes());
            bytes.extend(x.upper.to_be_bytes());
        }
        bytes.push(self.direction as u8);
        bytes
    }

    /// A picture in which it is the one block queued.
    pub fn world(&self, ring: Ring) -> Port {
        self.world_of(&self.code(0, 0), ring)
    }

    /// The same with other bytes for the block.
    pub fn world_of(&self, code: &[u8], ring: Ring) -> Port {
        let len = code.len() + ring.free;
        let head = if ring.wraps { len - code.len() / 2 } else { 0 };
        let mut bytes = vec![0x77; len];
        for (i, &byte) in code.iter().enumerate() {
            bytes[(head + i) % len] = byte;
        }
        let start = abi::Last { x: 0, y: 0, m: WHOLE, n: WHOLE, theta: WHOLE, t: WHOLE };
        let [m, n, theta, t] = self.parameters();
        let state = abi::State {
            chosen: abi::Chosen { width: 5, height: 3, set: self.set, ..Default::default() },
            taken: TAKEN,
            queued: TAKEN + 1,
            len,
            head,
            used: code.len(),
            front: start,
            back: abi::Last { m, n, theta, t, ..start },
        };
        Port { state, ring: bytes, cells: vec![TAKEN; 15] }
    }
}

type Damage = fn(&mut abi::State, abi::Interval);

/// A record damaged in each way that document 01 lists.
pub fn damaged_records(world: &Port) -> Vec<(&'static str, Port)> {
    let illegal = abi::Interval { lower: 1.0, upper: 0.0 };
    let ways: [(&str, Damage); 14] = [
        ("width", |s, _| s.chosen.width = 0),
        ("height", |s, _| s.chosen.height = 32769),
        ("set", |s, _| s.chosen.set = 64),
        ("taken", |s, _| s.taken = s.queued + 1),
        ("queued", |s, _| s.queued = (1 << 32) + 1),
        ("length", |s, _| s.len += 1),
        ("head", |s, _| s.head = s.len),
        ("used too many", |s, _| s.used = s.len + 1),
        ("used none", |s, _| s.used = 0),
        ("index of the last taken", |s, _| s.front.x = 1 << 47),
        ("index of the last queued", |s, _| s.back.y = 1 << 47),
        ("m of the last taken", |s, x| s.front.m = x),
        ("t of the last taken", |s, x| s.front.t = x),
        ("t of the last queued", |s, x| s.back.t = x),
    ];
    let spoil = |(name, way): (&'static str, Damage)| {
        let mut port = world.clone();
        way(&mut port.state, illegal);
        (name, port)
    };
    ways.into_iter().map(spoil).collect()
}

/// A front block damaged in each way that document 01 lists, its cells apart.
pub fn damaged_blocks(front: &Front, ring: Ring) -> Vec<(&'static str, Port)> {
    let code = front.code(0, 0);
    let with = |at: usize, byte: u8| {
        let mut bytes = code.clone();
        bytes[at] = byte;
        front.world_of(&bytes, ring)
    };
    let last = code.len() - 1;
    let mut all = vec![
        ("the bytes end", front.world_of(&code[..last], Ring { free: ring.free + 1, ..ring })),
        ("no small number", with(0, 0)),
        ("levels differ", with(1, (front.level as u8).wrapping_add(1))),
        ("no such level", front_with_levels(&code, front, ring, 16)),
        ("outside", front.world_of(&front.code(1 << 45, 0), ring)),
        ("unused direction", with(last, 9)),
    ];
    if front.cut() == "xy" {
        all.push(("xy at the lowest level", Front { level: -32, ..*front }.world(ring)));
    }
    if front.set & 15 != 0 {
        let range = abi::Interval { lower: 1.0, upper: 0.0 };
        let mut world = Front { range, ..*front }.world(ring);
        world.state.back = abi::Last { m: WHOLE, n: WHOLE, theta: WHOLE, t: WHOLE, ..world.state.back };
        all.push(("a parameter", world));
    }
    all
}

fn front_with_levels(code: &[u8], front: &Front, ring: Ring, level: u8) -> Port {
    let mut bytes = code.to_vec();
    (bytes[1], bytes[3]) = (level, level);
    front.world_of(&bytes, ring)
}

/// Verdicts for so many children of a level: all alike, and the first or the last unlike the others.
pub fn verdicts(count: usize, level: i32) -> Vec<Vec<u8>> {
    let (bytes, yes): (&[u8], u8) =
        if level < 0 { (&[0x00, 0x40, 0x80, 0xa0, 0x60, 0x61, 0x70], 0xa0) } else { (&[0x00, 0x40, 0x80], 0x80) };
    let mut all: Vec<Vec<u8>> = bytes.iter().map(|&byte| vec![byte; count]).collect();
    for (one, others) in [(0x40, 0x00), (0x40, yes), (yes, 0x40), (0x00, 0x40)] {
        all.push((0..count).map(|place| if place == 0 { one } else { others }).collect());
        all.push((0..count).map(|place| if place + 1 == count { one } else { others }).collect());
    }
    all
}
