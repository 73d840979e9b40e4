//! Coordinate boxes side by side. The second maker's must be document 02's, bit for bit. The original's, which rounds each
//! bound once and outward, must lie inside them; how far inside is counted.

use crate::{
    engine::*,
    paper_boxes::{axes, block_box, Axis, Boxed, Question},
    plots::{block, plot, spoiled, Family},
    random::Random,
};
use oracle::boxes::{is_ordered, Picture};
use std::{collections::BTreeMap, fmt, panic};

/// A refusal or 0, and what stands in the answer; the whole line six times where it is refused.
pub type Answer = (Refusal, Boxed);

const LINE: Bounds = (f64::NEG_INFINITY, f64::INFINITY);
const REFUSED: Boxed = Boxed { edges: [LINE; 4], ends: [LINE; 2] };

/// Document 02's own answer.
pub fn paper(q: &Question) -> Answer {
    block_box(q).map_or_else(|refusal| (refusal, REFUSED), |made| (0, made))
}

/// How far bounds lie apart.
#[derive(Clone, Copy, Default)]
pub struct Spread {
    bounds: u64,
    /// How many are so many doubles apart: 0, 1, 2, up to 4, 8, 16, 32, 64, or more.
    by_doubles: [u64; 9],
    /// The most, in units in the last place of the largest number that enters.
    most: f64,
}

impl Spread {
    fn add(&mut self, ours: f64, theirs: f64, size: f64) {
        let doubles = place(ours).abs_diff(place(theirs));
        let class = (0..8).find(|&i| doubles <= [0, 1, 2, 4, 8, 16, 32, 64][i]).unwrap_or(8);
        self.bounds += 1;
        self.by_doubles[class] += 1;
        let apart = (ours - theirs).abs() / unit(size);
        if apart.is_finite() {
            self.most = self.most.max(apart);
        }
    }
}

impl fmt::Display for Spread {
    fn fmt(&self, f: &mut fmt::Formatter) -> fmt::Result {
        let names = ["equal", "1", "2", "to 4", "to 8", "to 16", "to 32", "to 64", "more"];
        write!(f, "{} bounds, doubles apart", self.bounds)?;
        for (name, &count) in names.iter().zip(&self.by_doubles) {
            write!(f, " {name}: {:.2} %", 100.0 * count as f64 / self.bounds.max(1) as f64)?;
        }
        write!(f, ", at most {:.2} units in the last place", self.most)
    }
}

/// A double's place among all of them; both zeros are at 0.
fn place(x: f64) -> i64 {
    let bits = x.to_bits() as i64;
    if bits < 0 {
        i64::MIN - bits
    } else {
        bits
    }
}

/// The unit in the last place of a size.
fn unit(size: f64) -> f64 {
    f64::from_bits(size.to_bits() + 1) - size
}

/// The largest number that enters the image of a block's edge, clipped to the side: an edge of the plot, or the slope times
/// the pixels from 0 to there or to the anchor. A slope counts for no less than the least normal number, since below it doubles
/// get no finer.
fn largest(axis: &Axis, index: u64, level: i32) -> f64 {
    let a01 = (axis.pixels - axis.after - axis.before) as f64;
    let x01 = (axis.last.1 - axis.first.0).abs().max((axis.last.0 - axis.first.1).abs());
    let p = (index as f64 * 2f64.powi(level)).min(axis.pixels as f64);
    let far = p.max(axis.before as f64) * (x01 / a01).max(f64::MIN_POSITIVE);
    [axis.first.0, axis.first.1, axis.last.0, axis.last.1].iter().fold(far, |most, x| most.max(x.abs()))
}

/// By kind of map and by family of plots.
type Spreads = [[Spread; 2]; 2];

fn of(spreads: &mut Spreads, precise: bool, family: Family) -> &mut Spread {
    &mut spreads[precise as usize][family as usize]
}

/// What was asked and found.
#[derive(Default)]
pub struct Figures {
    pub questions: u64,
    pub compared: u64,
    pub refusals: BTreeMap<Refusal, u64>,
    /// Boxes here where the original stops: at the plot's edges, or since its tighter ends cross.
    pub stops_at_edges: u64,
    pub stops_at_ends: u64,
    /// Refused by 15 here, where the original has an infinite bound, or stops since ends cross.
    pub unbounded: u64,
    pub crossing: u64,
    /// Refused by 15 here, where the original has a box: a bound here passes the largest number, or narrowed ends cross.
    pub overflows: u64,
    pub narrowed: u64,
    /// Of the edges' bounds, and of the ends inside a pixel.
    pub edges: Spreads,
    pub middles: Spreads,
    pub differences: Vec<String>,
}

impl Figures {
    fn differ(&mut self, what: &str, q: &Question, ours: &dyn fmt::Debug, theirs: &dyn fmt::Debug) {
        self.differences.push(format!("{what}: {ours:?} and {theirs:?}, asked {q:?}"));
    }

    /// The second maker's answer against document 02's own.
    fn same(&mut self, q: &Question, got: Answer) {
        let due = paper(q);
        self.questions += 1;
        *self.refusals.entry(due.0).or_default() += 1;
        let all = |(refusal, made): Answer| (refusal, made.edges.map(bits), made.ends.map(bits));
        if all(got) != all(due) {
            self.differ("not document 02's", q, &got, &due);
        }
    }

    /// A box against the original's.
    fn inside(&mut self, q: &Question, family: Family, picture: &Picture, ours: &Boxed) {
        let level = q.x.1 as i8;
        let theirs = picture.edges(q.x.0, q.y.0, level);
        self.compared += 1;
        for (i, axis) in axes(&q.plot).iter().enumerate() {
            let index = [q.x.0, q.y.0][i];
            for (side, at) in [(2 * i, index), (2 * i + 1, index + 1)] {
                self.edge(q, family, ours.edges[side], theirs[side], largest(axis, at, q.x.1));
            }
        }
        self.stops_at_edges += !is_ordered(&q.plot) as u64;
        match picture.evaluated(q.x.0, q.y.0, level) {
            None => self.stops_at_ends += 1,
            Some(ends) => self.ends(q, family, ours.ends, ends),
        }
    }

    fn edge(&mut self, q: &Question, family: Family, ours: Bounds, theirs: Bounds, size: f64) {
        let finite = theirs.0.is_finite() && theirs.1.is_finite();
        if !(finite && ours.0 <= theirs.0 && theirs.1 <= ours.1) {
            self.differ("the original's edge is not inside", q, &ours, &theirs);
        }
        let spread = of(&mut self.edges, q.precise, family);
        spread.add(ours.0, theirs.0, size);
        spread.add(ours.1, theirs.1, size);
    }

    /// Ends at a pixel's edge must lie outside the original's; the others are only measured.
    fn ends(&mut self, q: &Question, family: Family, ours: [Bounds; 2], theirs: [Bounds; 2]) {
        let parts = 1 << (-q.x.1).max(0);
        for (i, axis) in axes(&q.plot).iter().enumerate() {
            let index = [q.x.0, q.y.0][i];
            let (low, high) = ((ours[i].0, theirs[i].0), (ours[i].1, theirs[i].1));
            for (at, (here, there), outside) in [(index, low, low.0 <= low.1), (index + 1, high, high.1 <= high.0)] {
                if at % parts != 0 {
                    of(&mut self.middles, q.precise, family).add(here, there, largest(axis, at, q.x.1));
                } else if !outside {
                    self.differ("the original's end is not inside", q, &ours, &theirs);
                }
            }
        }
    }

    /// Refused by 15: so does the original fail, or a bound here is out of reach, or inner ends cross.
    fn refused(&mut self, q: &Question, picture: &Picture) {
        let level = q.x.1 as i8;
        let edges = picture.edges(q.x.0, q.y.0, level);
        let all = |bounds: &[Bounds], test: fn(f64) -> bool| bounds.iter().all(|x| test(x.0) && test(x.1));
        if !all(&edges, f64::is_finite) {
            self.unbounded += 1;
        } else if picture.evaluated(q.x.0, q.y.0, level).is_none() {
            self.crossing += 1;
        } else if !all(&q.plot.edges, |x| x.abs() < 2f64.powi(1006)) {
            self.overflows += 1;
        } else if level < 0 {
            self.narrowed += 1;
        } else {
            self.differ("refused by 15, and the original has a box", q, &15, &edges);
        }
    }
}

fn ask_plot(
    second: impl Fn(&Question) -> Answer,
    random: &mut Random,
    family: Family,
    precise: bool,
    figures: &mut Figures,
) {
    let plot = plot(random, family);
    let picture = Picture::new(&plot, precise);
    for _ in 0..6 {
        let (x, y, level) = block(random, &plot);
        let q = Question { plot, precise, x: (x, level), y: (y, level) };
        let got = second(&q);
        figures.same(&q, got);
        match got.0 {
            0 => figures.inside(&q, family, &picture, &got.1),
            15 => figures.refused(&q, &picture),
            _ => figures.differ("refused", &q, &got.0, &0),
        }
        let q = spoiled(random, q);
        figures.same(&q, second(&q));
    }
}

/// As many plots of each family, each with both kinds of map and six blocks, and with as many questions that are spoiled.
pub fn ask(second: impl Fn(&Question) -> Answer, seed: u64, count: u64) -> Figures {
    let mut random = Random::new(seed);
    let mut figures = Figures::default();
    // where the original stops it says so on standard error
    let hook = panic::take_hook();
    panic::set_hook(Box::new(|_| ()));
    for _ in 0..count {
        for family in [Family::Plain, Family::Any] {
            for precise in [false, true] {
                ask_plot(&second, &mut random, family, precise, &mut figures);
            }
        }
        if figures.differences.len() >= 20 {
            break;
        }
    }
    panic::set_hook(hook);
    figures
}

/// Faults in an answer, and the words by which the series must notice each.
pub const FAULTS: [(&str, fn(Answer) -> Answer); 4] = [
    ("not document 02's", |(refusal, mut made)| {
        made.edges[3].0 = f64::from_bits(made.edges[3].0.to_bits() ^ 1);
        (refusal, made)
    }),
    ("the original's edge is not inside", |(refusal, made)| {
        (refusal, Boxed { edges: made.edges.map(|(_, upper)| (upper, upper)), ..made })
    }),
    ("the original's end is not inside", |(refusal, made)| {
        (refusal, Boxed { ends: made.ends.map(|(_, upper)| (upper, upper)), ..made })
    }),
    ("refused by 15, and the original has a box", |_| (15, REFUSED)),
];
