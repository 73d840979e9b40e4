//! The customer's charts: arrivals to the right, crew upward; with the number of open doors m, 1 to 6, and the share t of
//! the hour in which the yard is blocked. A small evaluator answers them; its bounds are not rounded outward, since nothing
//! is drawn here for anyone.

use crate::{
    port::abi,
    work::{self, Work},
};
use oracle::oracle::Setup;

pub const WIDTH: u32 = 256;
pub const HEIGHT: u32 = 160;
pub const STEPS: u64 = 700;
/// More than the steps can fill.
pub const RING: usize = 1 << 16;
const PIXELS_PER_UNIT: f64 = 4.0;

/// Which parameters a chart has.
#[derive(Clone, Copy, PartialEq)]
pub enum Kind {
    Plane,
    Doors,
    DoorsAndShare,
}

pub const KINDS: [Kind; 3] = [Kind::Plane, Kind::Doors, Kind::DoorsAndShare];

impl Kind {
    pub fn name(self) -> &'static str {
        match self {
            Kind::Plane => "x and y",
            Kind::Doors => "x, y and m",
            Kind::DoorsAndShare => "x, y, m and t",
        }
    }

    pub fn setup(self) -> Setup {
        let (m, t) = ((1.0, 6.0), (0.0, 1.0));
        match self {
            Kind::Plane => Setup::new(WIDTH, HEIGHT, work::XY, [work::LINE; 4]),
            Kind::Doors => Setup::new(WIDTH, HEIGHT, work::XY | 8, [m, work::LINE, work::LINE, work::LINE]),
            Kind::DoorsAndShare => Setup::new(WIDTH, HEIGHT, work::XY | 9, [m, work::LINE, work::LINE, t]),
        }
    }
}

#[derive(Clone, Copy)]
struct Span(f64, f64);

impl Span {
    fn minus(self, y: Span) -> Span {
        Span(self.0 - y.1, self.1 - y.0)
    }

    /// Of numbers from 0 up.
    fn times(self, y: Span) -> Span {
        Span(self.0 * y.0, self.1 * y.1)
    }

    fn scaled(self, by: f64) -> Span {
        Span(self.0 * by, self.1 * by)
    }

    fn least(self, y: Span) -> Span {
        Span(self.0.min(y.0), self.1.min(y.1))
    }
}

fn units(c: abi::Coordinate) -> Span {
    let size = (c.level as f64).exp2() / PIXELS_PER_UNIT;
    Span(c.index as f64 * size, (c.index + 1) as f64 * size)
}

/// The relation of an hour holds where this is at least 0.
fn value(kind: Kind, hour: u64, child: &abi::Child) -> Span {
    let load = 1.0 + (hour % 24) as f64 / 48.0;
    let (arrivals, crew) = (units(child.x).scaled(load), units(child.y));
    if kind == Kind::Plane {
        let hindered = Span(2.5 - crew.1 / 40.0, 2.5 - crew.0 / 40.0);
        return crew.times(Span(hindered.0.max(0.0), hindered.1.max(0.0))).minus(arrivals);
    }
    let m = Span(child.m.lower, child.m.upper);
    let open =
        if kind == Kind::Doors { Span(1.0, 1.0) } else { Span(1.0 - child.t.upper / 2.0, 1.0 - child.t.lower / 2.0) };
    let spare = crew.minus(m.scaled(4.0));
    let doors = m.scaled(8.0).times(open);
    let fits = Span(doors.0 + spare.0 / 2.0, doors.1 + spare.1 / 2.0).minus(arrivals);
    spare.least(m.scaled(7.0).minus(crew)).least(fits)
}

/// The verdict for a child.
pub fn verdict(kind: Kind, hour: u64, child: &abi::Child) -> u8 {
    let Span(low, high) = value(kind, hour, child);
    match (child.x.level < 0, low >= 0.0, high < 0.0) {
        (_, _, true) => 0x00,
        (false, true, _) => 0x80,
        (true, true, _) => 0xa0,
        (false, ..) => 0x40,
        (true, ..) => 0x60,
    }
}

/// The tape of an hour's chart.
pub fn hour(kind: Kind, hour: u64) -> Work {
    let name = format!("{WIDTH} by {HEIGHT}, {}", kind.name());
    work::played(name, kind.setup(), RING, STEPS, |child, _| Some(verdict(kind, hour, child)))
}
