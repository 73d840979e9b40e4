//! Stand-in for the relation and its evaluator: verdict bytes, one for each child of a step in the order in which the
//! refinement lists them, also for a child that it then skips. A byte is 2 bits result, 1 bit sample area, 5 bits
//! sample points, the most significant first. The first evaluation of a child answers its result, the following ones
//! its points. Evaluations are counted as the original counts them, one a call.

use crate::{
    block::{Block, BlockQueue},
    eval_cache::EvalImplicitCache,
    eval_result::{EvalArgs, EvalResult},
    interval_set::{DecSignSet, SignSet},
    ops::{StaticForm, StaticFormKind},
    region::Region,
    vars::{VarIndex, VarSet},
};
use inari::{Decoration, Interval};
use smallvec::SmallVec;

#[derive(Clone, Copy, Debug, Eq, PartialEq)]
pub enum RelationType {
    Implicit,
}

#[derive(Clone, Debug)]
pub struct VarIndices {
    pub m: Option<VarIndex>,
    pub n: Option<VarIndex>,
    pub n_theta: Option<VarIndex>,
    pub t: Option<VarIndex>,
    pub x: Option<VarIndex>,
    pub y: Option<VarIndex>,
}

/// In which of the ways that the original knows a sample point succeeds or fails; the outcome is the verdict's.
#[derive(Clone, Copy, Debug, Eq, PartialEq)]
pub enum Manner {
    /// The relation holds at the point; elsewhere it is positive.
    Zero,
    /// A continuous function changes its sign between an earlier point and this one.
    Signs,
    /// Signs change as well, but over a function that need not be continuous: only a zero counts.
    Torn,
}

#[derive(Clone, Debug)]
pub struct Relation {
    vars: VarSet,
    ranges: [Interval; 4],
    var_indices: VarIndices,
    forms: Vec<StaticForm>,
    eval_count: usize,
    manner: Manner,
    verdicts: Vec<u8>,
    given: usize,
    verdict: u8,
    asked: u32,
    watched: bool,
    listed: Vec<Block>,
    bytes_left: usize,
}

// What the tape's driver does.
impl Relation {
    /// A relation of the given variables, with the ranges of m, n, n_theta and t.
    pub fn new(vars: VarSet, ranges: [Interval; 4], manner: Manner) -> Self {
        let order = [VarSet::M, VarSet::N, VarSet::N_THETA, VarSet::T, VarSet::X, VarSet::Y];
        let mut count = 0;
        let [m, n, n_theta, t, x, y] = order.map(|v| {
            vars.contains(v).then(|| {
                count += 1;
                count - 1
            })
        });
        Self {
            vars,
            ranges,
            var_indices: VarIndices { m, n, n_theta, t, x, y },
            forms: vec![StaticForm { kind: StaticFormKind::Atomic(0, 0) }],
            eval_count: 0,
            manner,
            verdicts: vec![],
            given: 0,
            verdict: 0,
            asked: 0,
            watched: true,
            listed: vec![],
            bytes_left: 0,
        }
    }

    /// Lays down the verdicts of the coming steps.
    pub fn load(&mut self, verdicts: &[u8]) {
        self.verdicts = verdicts.to_vec();
        self.given = 0;
    }

    /// Whether the listing of each step is kept, which takes time.
    pub fn watch(&mut self, watched: bool) {
        self.watched = watched;
    }

    /// How many of the verdicts laid down have been given out.
    pub fn given(&self) -> usize {
        self.given
    }

    /// The children of the last step.
    pub fn listed(&self) -> &[Block] {
        &self.listed
    }

    /// The queue's bytes in the last step, after its block was taken and before anything was queued.
    pub fn bytes_left(&self) -> usize {
        self.bytes_left
    }
}

// What the edited lines of the refinement call.
impl Relation {
    /// A step lists its children.
    pub fn list_children(&mut self, children: &[Block], queue: &BlockQueue) {
        if self.watched {
            self.listed = children.to_vec();
            self.bytes_left = queue.byte_count();
        }
    }

    /// The next child's turn.
    pub fn next_child(&mut self) {
        self.verdict = self.verdicts[self.given];
        self.given += 1;
        self.asked = 0;
    }

    /// The area in which points are sampled, empty where the verdict has no area bit.
    pub fn sample_area(&self, area: Region) -> Region {
        assert!(!area.is_empty(), "a picture that is mapped to itself has an area in every subpixel");
        if self.verdict & 0x20 != 0 {
            area
        } else {
            Region::EMPTY
        }
    }
}

// What the original asks of a relation.
impl Relation {
    pub fn create_args(&self) -> Vec<Interval> {
        vec![Interval::ENTIRE; self.vars.bits().count_ones() as usize]
    }

    pub fn eval_count(&self) -> usize {
        self.eval_count
    }

    pub fn eval_implicit<'a>(&mut self, _: &EvalArgs, cache: &'a mut EvalImplicitCache) -> &'a EvalResult {
        self.eval_count += 1;
        let answer = if self.asked == 0 { self.answer_on_area() } else { self.answer_on_point(self.asked) };
        self.asked += 1;
        cache.last = EvalResult(SmallVec::from_iter([answer]));
        &cache.last
    }

    pub fn forms(&self) -> &Vec<StaticForm> {
        &self.forms
    }

    pub fn m_range(&self) -> Interval {
        self.ranges[0]
    }

    pub fn n_range(&self) -> Interval {
        self.ranges[1]
    }

    pub fn n_theta_range(&self) -> Interval {
        self.ranges[2]
    }

    pub fn t_range(&self) -> Interval {
        self.ranges[3]
    }

    pub fn relation_type(&self) -> RelationType {
        RelationType::Implicit
    }

    pub fn vars(&self) -> VarSet {
        self.vars
    }

    pub fn var_indices(&self) -> &VarIndices {
        &self.var_indices
    }

    fn answer_on_area(&self) -> DecSignSet {
        let any = SignSet::NEG | SignSet::ZERO | SignSet::POS;
        match self.verdict >> 6 {
            0 => DecSignSet(SignSet::POS, Decoration::Com),
            1 if self.manner == Manner::Torn => DecSignSet(any, Decoration::Trv),
            1 => DecSignSet(any, Decoration::Dac),
            2 => DecSignSet(SignSet::ZERO, Decoration::Com),
            _ => panic!("no verdict has result 3"),
        }
    }

    fn answer_on_point(&self, place: u32) -> DecSignSet {
        let success = self.verdict >> (5 - place) & 1 == 1;
        let sign = match (success, self.manner) {
            (true, Manner::Signs) if place > 1 => SignSet::NEG,
            (true, _) => SignSet::ZERO,
            (false, Manner::Torn) if place % 2 == 0 => SignSet::NEG,
            (false, _) => SignSet::POS,
        };
        DecSignSet(sign, Decoration::Com)
    }
}
