//! Writes a table of the stand-in's interval arithmetic, to be held against fractions elsewhere.

use crate::{
    engine::*,
    random::Random,
    setups::{above, parameter},
};
use oracle::leaf;
use std::fmt::Write;

/// A bounded interval: of the kinds of parameters, of any bits, or near a power of two.
fn bounded(random: &mut Random) -> Bounds {
    let any = |random: &mut Random| f64::from_bits(random.next());
    let (a, b) = match random.below(4) {
        0 => (any(random), any(random)),
        1 => {
            let a = any(random);
            (a, f64::from_bits(a.to_bits() ^ random.of_bits(54)))
        }
        2 => {
            let a = 2f64.powi(random.below(200) as i32 - 100) * random.pick(&[1.0, -1.0]);
            (a, (0..random.below(4)).fold(a, |x, _| above(x)))
        }
        _ => parameter(random, false),
    };
    if a.is_finite() && b.is_finite() {
        (a.min(b), a.max(b))
    } else {
        bounded(random)
    }
}

/// A line an operation: its name, the bounds of its operands, and those of its result.
pub fn table(seed: u64, count: u64) -> String {
    let mut random = Random::new(seed);
    let mut text = String::new();
    for i in 0..count {
        let (x, y, mut z) = (bounded(&mut random), bounded(&mut random), bounded(&mut random));
        let product = x.1 * y.1;
        if random.once_in(4) && product.is_finite() {
            // so that little is left
            z = (-product, -product);
        }
        let (name, operands, result) = match i % 3 {
            0 => ("minus", vec![x, y], leaf::minus(x, y)),
            1 if y.0 > 0.0 || y.1 < 0.0 => ("over", vec![x, y], leaf::over(x, y)),
            _ => ("fused", vec![x, y, z], leaf::fused(x, y, z)),
        };
        text.push_str(name);
        for (lower, upper) in operands.into_iter().chain([result]) {
            write!(text, " {:x}:{:x}", lower.to_bits(), upper.to_bits()).expect("a text in memory");
        }
        text.push('\n');
    }
    text
}
