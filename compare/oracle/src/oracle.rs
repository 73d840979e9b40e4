//! A picture refined by the original: set up, stepped with verdict bytes, and read after every step.
//! It refuses nothing: verdicts must be legal and as many as the children, and an empty queue must not be stepped.

use crate::{
    block::{peek, Block, BlockQueue},
    clock,
    geom::Box2D,
    graph::{implicit::Implicit, Graph, GraphingErrorKind, Padding},
    image::Image,
    leaf::{bounds, is_legal, Bounds},
    relation::{Manner, Relation},
    vars::VarSet,
    Ternary,
};
use inari::Interval;

/// What a picture starts from. Parameters are in the order m, n, n_theta, t. The reserved bytes are those that another
/// engine's caller hands in beside them; the original has none.
#[derive(Clone, Debug)]
pub struct Setup {
    pub width: u32,
    pub height: u32,
    pub set: u8,
    pub reserved: [u8; 3],
    pub parameters: [Bounds; 4],
}

impl Setup {
    /// With the reserved bytes 0.
    pub fn new(width: u32, height: u32, set: u8, parameters: [Bounds; 4]) -> Setup {
        Setup { width, height, set, reserved: [0; 3], parameters }
    }
}

/// A block as a step lists it.
#[derive(Clone, Debug)]
pub struct Child {
    pub x: u64,
    pub y: u64,
    pub level: i8,
    pub parameters: [Bounds; 4],
}

/// What is remembered at one end of the queue: the last block taken, or the last one queued.
#[derive(Clone, Copy, Debug)]
pub struct Last {
    pub x: u64,
    pub y: u64,
    pub parameters: [Bounds; 4],
}

/// Where a picture stands: the blocks' numbers and what its queue remembers.
#[derive(Clone, Copy, Debug)]
pub struct Standing {
    pub taken: u64,
    pub queued: u64,
    pub front: Last,
    pub back: Last,
}

/// How refinement stands: nothing left to do, nothing left but pixels that were given up, or more to do.
#[derive(Clone, Copy, Debug, Eq, PartialEq)]
pub enum Ending {
    Done,
    Limit,
    More,
}

/// What a step did to the counts and to the queue's bytes.
#[derive(Clone, Copy, Debug)]
pub struct Stepped {
    pub evaluations: u64,
    pub bytes_taken: usize,
    pub bytes_queued: usize,
}

/// A block's number left 32 bits. The step was left half done, so the picture is of no further use.
#[derive(Clone, Copy, Debug)]
pub struct Overflow;

#[derive(Clone)]
pub struct Oracle {
    graph: Implicit,
    ending: Ending,
}

impl Oracle {
    /// Sides are from 1 to 32768 and used parameters legal. An unused parameter that is not legal is replaced by the
    /// whole line, because the original looks at all four.
    pub fn setup(setup: &Setup, manner: Manner) -> Self {
        let vars = VarSet::from_bits(setup.set);
        let used = [VarSet::M, VarSet::N, VarSet::N_THETA, VarSet::T].map(|v| vars.contains(v));
        let ranges = std::array::from_fn(|i| {
            let (a, b) = setup.parameters[i];
            if used[i] || is_legal((a, b), i < 3) {
                Interval::from_bounds(a, b).expect("a legal parameter")
            } else {
                Interval::ENTIRE
            }
        });
        let point = |side: u32| Interval::from_bounds(side as f64, side as f64).unwrap();
        let graph = Implicit::new(
            Relation::new(vars, ranges, manner),
            Box2D::new(point(0), point(setup.width), point(0), point(setup.height)),
            setup.width,
            setup.height,
            Padding { bottom: 0, left: 0, right: 0, top: 0 },
            usize::MAX,
        );
        Self { graph, ending: Ending::More }
    }

    /// A picture in the middle of its refinement, from the bytes of its queue and its cells. What they hold must be
    /// what the original could hold. Of the setup the sides and the set are used.
    pub fn resume(setup: &Setup, standing: &Standing, bytes: &[u8], cells: &[u64], manner: Manner) -> Self {
        let parameters = [(f64::NEG_INFINITY, f64::INFINITY); 4];
        let mut made = Self::setup(&Setup { parameters, ..*setup }, manner);
        let vars = VarSet::from_bits(setup.set);
        let numbers = [standing.taken as usize, standing.queued as usize];
        let queue =
            BlockQueue::resume(vars, bytes, numbers, interval_last(standing.front), interval_last(standing.back));
        made.graph.resume(queue, cells);
        if made.is_empty() {
            // On an empty queue the original makes no step and tells how it stands.
            made.refine(&[], 1).expect("no step");
        }
        made
    }

    /// From here on no step's listing is kept: for whole runs that are timed.
    pub fn unwatched(mut self) -> Self {
        self.graph.relation_mut().watch(false);
        self
    }

    /// The children of the front block, none if the queue is empty.
    pub fn children(&self) -> Vec<Child> {
        self.graph.front_children().unwrap_or_default().iter().map(child).collect()
    }

    /// One step, with a verdict for each child.
    pub fn step(&mut self, verdicts: &[u8]) -> Result<Stepped, Overflow> {
        let children = self.graph.front_children().expect("a queued block");
        let before = self.graph.queue().byte_count();
        let evaluations = self.refine(verdicts, 1)?;
        let relation = self.graph.relation();
        assert!(children == relation.listed(), "the listing asked for ahead is the step's own");
        assert!(relation.given() == verdicts.len(), "a verdict for each child");
        let left = relation.bytes_left();
        let bytes_queued = self.graph.queue().byte_count() - left;
        Ok(Stepped { evaluations, bytes_taken: before - left, bytes_queued })
    }

    /// As many steps in one call of the original, on a tape with a verdict for each child of each step.
    /// Answers the evaluations and how much of the tape they took.
    pub fn run(&mut self, tape: &[u8], steps: u64) -> Result<(u64, usize), Overflow> {
        let evaluations = self.refine(tape, steps)?;
        Ok((evaluations, self.graph.relation().given()))
    }

    fn refine(&mut self, tape: &[u8], steps: u64) -> Result<u64, Overflow> {
        let before = self.graph.relation().eval_count();
        self.graph.relation_mut().load(tape);
        self.ending = match self.graph.refine(clock::steps(steps)) {
            Ok(true) => Ending::Done,
            Ok(false) => Ending::More,
            Err(error) => match error.kind {
                GraphingErrorKind::ReachedSubdivisionLimit => Ending::Limit,
                GraphingErrorKind::BlockIndexOverflow => return Err(Overflow),
                GraphingErrorKind::ReachedMemLimit => unreachable!(),
            },
        };
        Ok((self.graph.relation().eval_count() - before) as u64)
    }

    /// What the last step answered.
    pub fn ending(&self) -> Ending {
        self.ending
    }

    pub fn is_empty(&self) -> bool {
        self.graph.queue().is_empty()
    }

    /// All evaluations since setup, and the pixels that are settled, by the original's own statistics.
    pub fn statistics(&self) -> (u64, u64) {
        let statistics = self.graph.get_statistics();
        (statistics.eval_count as u64, statistics.pixels_complete as u64)
    }

    pub fn standing(&self) -> Standing {
        let queue = self.graph.queue();
        Standing {
            taken: queue.begin_index() as u64,
            queued: queue.end_index() as u64,
            front: bounds_last(queue.last_taken()),
            back: bounds_last(queue.last_queued()),
        }
    }

    pub fn queue_bytes(&self) -> impl Iterator<Item = u8> + '_ {
        self.graph.queue().bytes()
    }

    pub fn byte_count(&self) -> usize {
        self.graph.queue().byte_count()
    }

    pub fn cells(&self) -> impl Iterator<Item = u64> + '_ {
        self.graph.cells()
    }

    /// Draws into an image of the picture's sides.
    pub fn draw(&self, image: &mut Image<Ternary>) {
        self.graph.get_image(image);
    }

    /// A byte a pixel, rows from the top: False 0, Uncertain 1, True 2.
    pub fn picture(&self, width: u32, height: u32) -> Vec<u8> {
        let mut image = Image::new(width, height);
        self.draw(&mut image);
        let code = |reading: &Ternary| match reading {
            Ternary::False => 0,
            Ternary::Uncertain => 1,
            Ternary::True => 2,
        };
        image.pixels().map(code).collect()
    }
}

fn bounds_last(last: peek::Last) -> Last {
    Last { x: last.x, y: last.y, parameters: last.parameters.map(bounds) }
}

fn interval_last(last: Last) -> peek::Last {
    let interval = |(a, b)| Interval::from_bounds(a, b).expect("a legal remembered interval");
    peek::Last { x: last.x, y: last.y, parameters: last.parameters.map(interval) }
}

fn child(b: &Block) -> Child {
    assert!(b.x.level() == b.y.level());
    let parameters = [b.m.interval(), b.n.interval(), b.n_theta.interval(), b.t.interval()];
    Child { x: b.x.index(), y: b.y.index(), level: b.x.level(), parameters: parameters.map(bounds) }
}
