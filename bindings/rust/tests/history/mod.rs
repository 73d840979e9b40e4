//! What happened in the steps of a chart, kept beside it by the words of documents 01 and 02, and the reason for a pixel by going through it.

use smyrilox::{leaves, Block, Chart, Grey, Interval, Reading, Reason, SamplePoint, Setup, Variables};

#[derive(Clone, Copy, PartialEq)]
enum Outcome {
    Skipped,
    False,
    Marked(Option<SamplePoint>),
    Incomplete,
}

/// A finished step: its children with what became of them, and the first one that found no direction, if there is one.
struct Past {
    children: Vec<(Block, Outcome)>,
    stuck: Option<u64>,
}

pub struct History {
    setup: Setup,
    past: Vec<Past>,
    /// All blocks ever queued, by number, each with the direction in which it is cut.
    queued: Vec<(Block, u64)>,
}

const PARAMETERS: [Variables; 4] = [Variables::M, Variables::N, Variables::THETA, Variables::T];
const POINTS: [SamplePoint; 5] =
    [SamplePoint::SimpleFraction, SamplePoint::BottomLeft, SamplePoint::BottomRight, SamplePoint::TopLeft, SamplePoint::TopRight];

fn parameter(b: &mut Block, i: usize) -> &mut Interval {
    [&mut b.m, &mut b.n, &mut b.theta, &mut b.t].into_iter().nth(i).unwrap()
}

fn uses(setup: &Setup, v: Variables) -> bool {
    setup.uses.0 & v.0 != 0
}

/// The block covers the pixel in this column and this row from the top.
fn covers(setup: &Setup, b: &Block, column: u32, row: u32) -> bool {
    let inside = |(low, high): (f64, f64), pixel: u32| low.floor() <= pixel as f64 && (pixel as f64) < high.ceil();
    inside(b.x.span(), column) && inside(b.y.span(), setup.height - 1 - row)
}

/// The pixels of a setup, rows from the top.
pub fn pixels(setup: &Setup) -> Vec<(u32, u32)> {
    (0..setup.height).flat_map(|row| (0..setup.width).map(move |column| (column, row))).collect()
}

impl History {
    pub fn new(setup: &Setup) -> History {
        let longer = setup.width.max(setup.height);
        let at = smyrilox::Coordinate { index: 0, level: (0..).find(|k| 1u32 << k >= longer).unwrap() };
        let whole = Interval::WHOLE;
        let mut blocks = vec![Block { x: at, y: at, m: whole, n: whole, theta: whole, t: whole }];
        for (i, range) in [setup.m, setup.n, setup.theta, setup.t].into_iter().enumerate().filter(|(i, _)| uses(setup, PARAMETERS[*i])) {
            let pieces = leaves::first_cut(range, i != 3).unwrap();
            let cut = |b: Block| pieces.iter().map(move |piece| (b, *piece)).collect::<Vec<_>>();
            blocks = blocks.into_iter().flat_map(cut).collect::<Vec<_>>().into_iter().map(|(mut b, piece)| {
                *parameter(&mut b, i) = piece;
                b
            }).collect();
        }
        History { setup: *setup, past: Vec::new(), queued: blocks.into_iter().map(|b| (b, 0)).collect() }
    }

    /// To be told before the step with these verdicts is taken.
    pub fn note(&mut self, chart: &Chart, verdicts: &[u8]) {
        let picture = chart.picture().unwrap();
        let places = pixels(&self.setup);
        let mut yes: Vec<bool> = places.iter().map(|&(x, y)| picture.reading(x as usize, y as usize) == Reading::True).collect();
        let mut children = Vec::new();
        for (child, byte) in chart.children().unwrap().iter().zip(verdicts) {
            let under: Vec<usize> = (0..places.len()).filter(|&i| covers(&self.setup, child, places[i].0, places[i].1)).collect();
            let outcome = if under.iter().all(|&i| yes[i]) { Outcome::Skipped } else { judged(child, *byte) };
            if let Outcome::Marked(_) = outcome {
                under.iter().for_each(|&i| yes[i] = true);
            }
            children.push((*child, outcome));
        }
        let stuck = self.queue(&children);
        self.past.push(Past { children, stuck });
    }

    /// Queues the incomplete children that find a direction; the first that finds none, by its place from 1.
    fn queue(&mut self, children: &[(Block, Outcome)]) -> Option<u64> {
        let incomplete = children.iter().filter(|c| c.1 == Outcome::Incomplete).count();
        let (dir, mut stuck) = (self.queued[self.past.len()].1, None);
        let few = if self.directions()[dir as usize] == 4 { 1 } else { 2 };
        let from = if incomplete <= few { dir } else { dir + 1 };
        for (place, (child, _)) in children.iter().enumerate().filter(|(_, c)| c.1 == Outcome::Incomplete) {
            match self.direction(*child, from) {
                Some(direction) => self.queued.push((*child, direction)),
                None => stuck = stuck.or(Some(place as u64 + 1)),
            }
        }
        stuck
    }

    /// The directions in use: 4 is x and y, else the parameter at this place.
    fn directions(&self) -> Vec<usize> {
        let xy = uses(&self.setup, Variables::X | Variables::Y).then_some(4);
        xy.into_iter().chain((0..4).filter(|&i| uses(&self.setup, PARAMETERS[i]))).collect()
    }

    fn direction(&self, mut b: Block, from: u64) -> Option<u64> {
        let all = self.directions();
        let places = (from..from + all.len() as u64).map(|at| at % all.len() as u64);
        places.into_iter().find(|&at| match all[at as usize] {
            4 => b.level() > -32,
            i => is_subdivisible(*parameter(&mut b, i), i != 3),
        })
    }

    /// Why the pixel reads what it reads.
    pub fn reason(&self, chart: &Chart, column: u32, row: u32) -> Reason {
        let here = |b: &Block| covers(&self.setup, b, column, row);
        let steps = || self.past.iter().enumerate().rev().map(|(at, past)| (past, at as u64 + 1));
        let place = row as usize * self.setup.width as usize + column as usize;
        match (chart.picture().unwrap().reading(column as usize, row as usize), chart.greys().unwrap()[place]) {
            (Reading::True, _) => steps().find_map(|(past, step)| {
                let mut marked = past.children.iter().enumerate().rev().filter(|(_, c)| here(&c.0));
                marked.find_map(|(at, c)| match c.1 {
                    Outcome::Marked(point) => Some(Reason::True { step, child: at as u64 + 1, point }),
                    _ => None,
                })
            }),
            (Reading::False, _) => steps().find(|(past, _)| past.children.iter().any(|c| here(&c.0))).map(|(past, step)| {
                let child = past.children.iter().position(|c| here(&c.0) && c.1 == Outcome::False).map_or(0, |at| at as u64 + 1);
                assert!(past.children.iter().all(|c| !here(&c.0) || c.1 == Outcome::False), "every covering child is answered false");
                Reason::False { step, child }
            }),
            (_, Some(Grey::GivenUp)) => steps().find_map(|(past, step)| {
                let child = past.stuck.filter(|_| past.children.iter().any(|c| here(&c.0)))?;
                Some(Reason::GivenUp { step, child })
            }),
            _ => (self.past.len()..self.queued.len()).rev().find(|&n| here(&self.queued[n].0)).map(|number| {
                let (block, direction) = self.queued[number];
                Reason::Waiting { number: number as u64, before: (number - self.past.len()) as u64, block, direction }
            }),
        }
        .expect("every pixel has a reason")
    }
}

/// The midpoint, rounded to whole for an integer parameter, equals neither bound.
fn is_subdivisible(x: Interval, integer: bool) -> bool {
    let middle = leaves::midpoint(x).unwrap();
    let middle = if integer { middle.round() } else { middle };
    middle != x.lower && middle != x.upper
}

/// What a verdict makes of a child that is not skipped.
fn judged(child: &Block, byte: u8) -> Outcome {
    match byte >> 6 {
        0 => Outcome::False,
        2 if child.level() >= 0 || byte & 0x20 != 0 => Outcome::Marked(None),
        1 => (0..5).find(|place| byte & 0x10 >> place != 0).map_or(Outcome::Incomplete, |place| Outcome::Marked(Some(POINTS[place]))),
        _ => Outcome::Incomplete,
    }
}
