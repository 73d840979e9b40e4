//! Three relations of arrivals a (trailers an hour) and crew c (people at the dock), each with an evaluator and, for the check, in exact fractions.

use crate::exact::Fraction;
use crate::interval::Bounds;
use smyrilox::{Interval, Setup, Variables};

/// Pixels of the chart, and how many of them are one trailer or one person.
pub const WIDTH: u32 = 256;
pub const HEIGHT: u32 = 160;
pub const PER_UNIT: u32 = 4;

/// What is asked of the value of a relation's expression.
#[derive(Clone, Copy, PartialEq)]
pub enum Asked {
    /// It is at least 0.
    AtLeastZero,
    /// It is 0; the expression is continuous.
    Zero,
}

/// How a block's edges become trailers and people.
#[derive(Clone, Copy, PartialEq)]
pub enum Edged {
    /// By the library's boxes, rounded outward.
    ByBoxes,
    /// Without any rounding: the relation's thresholds lie on the edges of pixels, which no box settles.
    Exactly,
}

pub struct Relation {
    pub name: &'static str,
    pub title: &'static str,
    pub asked: Asked,
    pub edged: Edged,
    /// The integer parameter's range, where there is one.
    pub doors: Option<(i32, i32)>,
    /// The expression over a box of a, c and the parameter.
    pub value: fn(Bounds, Bounds, Bounds) -> Bounds,
    /// The same at a point, exactly.
    pub exact: fn(Fraction, Fraction, i128) -> Fraction,
}

impl Relation {
    pub fn setup(&self) -> Setup {
        let plane = Variables::X | Variables::Y;
        match self.doors {
            None => Setup::new(WIDTH, HEIGHT, plane),
            Some((low, high)) => Setup {
                m: Interval::new(low as f64, high as f64),
                ..Setup::new(WIDTH, HEIGHT, plane | Variables::M)
            },
        }
    }

    /// The expression's value is one that is asked for.
    pub fn holds(&self, value: Fraction) -> bool {
        match self.asked {
            Asked::AtLeastZero => value.sign() >= 0,
            Asked::Zero => value.sign() == 0,
        }
    }
}

pub const RELATIONS: [Relation; 3] = [
    // a crew clears 5/2 trailers a head, less 1/40 for each pair that gets in each other's way; yard moves cost a*a/200
    Relation {
        name: "throughput",
        title: "the crew clears what arrives",
        asked: Asked::AtLeastZero,
        edged: Edged::ByBoxes,
        doors: None,
        value: |a, c, _| {
            let clears = c * (Bounds::ratio(5, 2) - c * Bounds::ratio(1, 40));
            clears - a * (Bounds::point(1.0) + a * Bounds::ratio(1, 200))
        },
        exact: |a, c, _| {
            let clears = c * (Fraction::new(5, 2) - c * Fraction::new(1, 40));
            clears - a * (Fraction::new(1, 1) + a * Fraction::new(1, 200))
        },
    },
    // with m doors open, 4 to 7 people stand at each; a door takes 8 trailers, and one more for each two people over four
    Relation {
        name: "doors",
        title: "some number of doors, 1 to 6, serves the hour",
        asked: Asked::AtLeastZero,
        edged: Edged::Exactly,
        doors: Some((1, 6)),
        value: |a, c, m| {
            let spare = c - m * Bounds::point(4.0);
            let fits = m * Bounds::point(8.0) + spare * Bounds::ratio(1, 2) - a;
            let busy = a - m * Bounds::point(8.0) + Bounds::point(6.0);
            spare.min(m * Bounds::point(7.0) - c).min(fits).min(busy)
        },
        exact: |a, c, m| {
            let m = Fraction::new(m, 1);
            let spare = c - m * Fraction::new(4, 1);
            let fits = m * Fraction::new(8, 1) + spare * Fraction::new(1, 2) - a;
            let busy = a - m * Fraction::new(8, 1) + Fraction::new(6, 1);
            spare.min(m * Fraction::new(7, 1) - c).min(fits).min(busy)
        },
    },
    // the hour's 480 handling units are used up to the last
    Relation {
        name: "balance",
        title: "arrivals times (crew + 8) is 480 exactly",
        asked: Asked::Zero,
        edged: Edged::Exactly,
        doors: None,
        value: |a, c, _| a * (c + Bounds::point(8.0)) - Bounds::point(480.0),
        exact: |a, c, _| a * (c + Fraction::new(8, 1)) - Fraction::new(480, 1),
    },
];
