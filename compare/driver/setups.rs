//! Pictures to play: sides, variable sets and parameters of every kind that the cuts tell apart.

use crate::{engine::*, random::Random};

const INF: f64 = f64::INFINITY;
const TWO_52: f64 = 4503599627370496.0;
const TWO_53: f64 = 2.0 * TWO_52;

/// Whole numbers at which something changes, or might.
const WHOLE: [f64; 22] = [
    0.0,
    1.0,
    2.0,
    3.0,
    4.0,
    5.0,
    7.0,
    8.0,
    100.0,
    2147483648.0,
    TWO_52 - 1.0,
    TWO_52,
    TWO_52 + 1.0,
    TWO_53 - 1.0,
    TWO_53,
    TWO_53 + 2.0,
    TWO_53 + 4.0,
    2.0 * TWO_53,
    4611686018427387904.0,
    1e300,
    f64::MAX / 2.0,
    f64::MAX,
];

/// Other numbers at which something changes, or might.
const BROKEN: [f64; 14] = [
    5e-324,
    1e-323,
    1.5e-323,
    1e-310,
    f64::MIN_POSITIVE,
    0.1,
    0.3,
    0.375,
    0.4,
    0.5,
    1.5,
    2.5,
    std::f64::consts::PI,
    TWO_52 - 0.5,
];

/// The next number above a finite one.
pub fn above(x: f64) -> f64 {
    if x == 0.0 {
        f64::from_bits(1)
    } else if x > 0.0 {
        f64::from_bits(x.to_bits() + 1)
    } else {
        f64::from_bits(x.to_bits() - 1)
    }
}

/// A finite bound.
fn bound(random: &mut Random, integer: bool) -> f64 {
    let size = match random.below(if integer { 3 } else { 5 }) {
        0 | 1 => random.pick(&WHOLE),
        2 => random.of_bits(60) as f64,
        3 => random.pick(&BROKEN),
        _ => f64::from_bits(random.below(f64::MAX.to_bits() + 1)),
    };
    if random.once_in(2) {
        -size
    } else {
        size
    }
}

/// A legal interval of one of the kinds: unbounded, a point, narrow, neighbours, wide, round zero.
pub fn parameter(random: &mut Random, integer: bool) -> Bounds {
    let a = bound(random, integer);
    let b = match random.below(10) {
        0 => return (-INF, INF),
        1 => return (a, INF),
        2 => return (-INF, a),
        3 => a,
        4 | 5 => a + random.below(4) as f64,
        6 if !integer || a.abs() >= 2.0 * TWO_53 => above(a),
        6 => a + 3.0,
        7 => -a,
        _ => bound(random, integer),
    };
    (a.min(b), a.max(b))
}

/// Four parameters.
pub fn parameters(random: &mut Random) -> [Bounds; 4] {
    std::array::from_fn(|i| parameter(random, i < 3))
}

/// Bytes that nobody looks at: nought, or anything.
pub fn reserved(random: &mut Random) -> [u8; 3] {
    let any = random.next().to_le_bytes();
    random.pick(&[[0; 3], [any[0], any[1], any[2]], [any[0], 0, 0], [0, any[1], 0], [0, 0, any[2]]])
}

/// A random picture; most are small, a few have a side at the limit.
pub fn random_setup(random: &mut Random) -> Setup {
    let mut side = |most: u64| 1 + random.below(most) as u32;
    let (width, height) = match side(40) {
        1 => (32768, side(2)),
        2 => (side(2), 32768),
        3 => (side(300), side(100)),
        4..=8 => (side(40), side(40)),
        _ => (side(9), side(9)),
    };
    let (set, parameters) = (random.below(64) as u8, parameters(random));
    Setup { width, height, set, reserved: reserved(random), parameters }
}

/// Parameters for the exhaustive pictures: every kind of cut, each of them at each place in some row.
pub fn fixed_parameters() -> Vec<[Bounds; 4]> {
    let kinds: [Bounds; 8] = [
        (5.0, 5.0),
        (0.0, 1.0),
        (0.0, 3.0),
        (-1.0, 1.0),
        (0.0, INF),
        (-INF, -1.0),
        (-INF, INF),
        (TWO_53, TWO_53 + 2.0),
    ];
    (0..kinds.len()).map(|row| std::array::from_fn(|i| kinds[(row + 3 * i) % kinds.len()])).collect()
}
