//! Two engines side by side: the same calls, and after every call all that they answer and leave is compared.

use crate::engine::*;
use std::{collections::BTreeMap, fmt::Debug};

/// What is compared. `Ring` is the whole lent buffer, so also the bytes that must keep their values.
#[derive(Clone, Copy, Debug, Eq, Hash, Ord, PartialEq, PartialOrd)]
pub enum Aspect {
    Children,
    Answer,
    Record,
    Queue,
    Ring,
    Cells,
    Picture,
    Counts,
    Ending,
}

/// Where two engines part, with all calls that led there.
#[derive(Clone)]
pub struct Difference {
    pub aspect: Aspect,
    pub left: String,
    pub right: String,
    pub calls: Vec<String>,
}

impl Debug for Difference {
    fn fmt(&self, f: &mut std::fmt::Formatter) -> std::fmt::Result {
        let Difference { aspect, left, right, calls } = self;
        write!(f, "in {aspect:?}\n  left  {left}\n  right {right}\n  {}", calls.join("\n  "))
    }
}

/// How far the calls reached, to show what a comparison has seen.
#[derive(Clone, Debug, Default)]
pub struct Reached {
    pub steps: u64,
    pub children: u64,
    pub evaluations: u64,
    pub refusals: BTreeMap<Refusal, u64>,
    pub done: u64,
    pub limit: u64,
    pub given_up: u64,
    pub lowest_level: i8,
    pub most_queued: u64,
}

impl Reached {
    /// Of a case that ended with its setup.
    pub fn refused(number: Refusal) -> Self {
        let mut reached = Self::default();
        reached.refuse(number, 1);
        reached
    }

    /// So many more refusals by that number.
    fn refuse(&mut self, number: Refusal, times: u64) {
        *self.refusals.entry(number).or_default() += times;
    }

    pub fn add(&mut self, other: &Reached) {
        self.steps += other.steps;
        self.children += other.children;
        self.evaluations += other.evaluations;
        for (&number, &times) in &other.refusals {
            self.refuse(number, times);
        }
        self.done += other.done;
        self.limit += other.limit;
        self.given_up += other.given_up;
        self.lowest_level = self.lowest_level.min(other.lowest_level);
        self.most_queued = self.most_queued.max(other.most_queued);
    }
}

/// Two engines and what has been asked of them.
#[derive(Clone)]
pub struct Pair<A, B> {
    pub left: A,
    pub right: B,
    pub calls: Vec<String>,
    pub reached: Reached,
}

impl<A: Engine, B: Engine> Pair<A, B> {
    /// Sets both up on a ring and cells of the same sizes and first values, or tells how both refuse.
    pub fn setup<M, N>(left: &M, right: &N, setup: &Setup, room: Room) -> Result<Result<Self, Refusal>, Difference>
    where
        M: Maker<Engine = A>,
        N: Maker<Engine = B>,
    {
        let call = crate::list::setup_call(setup);
        let reserved = crate::list::hex(&setup.reserved);
        let calls = vec![format!("{call} reserved {reserved} ring {} cells {}", room.ring, room.cells)];
        let made = (
            left.setup(setup, vec![FILLER; room.ring], vec![SPARE; room.cells]),
            right.setup(setup, vec![FILLER; room.ring], vec![SPARE; room.cells]),
        );
        match made {
            (Ok(left), Ok(right)) => {
                let mut pair = Pair { left, right, calls, reached: Reached::default() };
                pair.compare()?;
                Ok(Ok(pair))
            }
            (Err(left), Err(right)) if left == right => Ok(Err(left)),
            (left, right) => Err(differ(Aspect::Answer, &calls, left.map(|_| ()), right.map(|_| ()))),
        }
    }

    /// Hands both the same picture, in the middle of its refinement.
    pub fn resume<M, N>(left: &M, right: &N, record: &Record, ring: &[u8], cells: &[u64]) -> Result<Self, Difference>
    where
        M: Maker<Engine = A>,
        N: Maker<Engine = B>,
    {
        let (got, reserved) = (crate::list::record(record), crate::list::hex(&record.reserved));
        let calls = vec![format!("resume {got} reserved {reserved} ring {} cells {cells:?}", crate::list::hex(ring))];
        let mut pair = Pair {
            left: left.resume(record, ring.to_vec(), cells.to_vec()),
            right: right.resume(record, ring.to_vec(), cells.to_vec()),
            calls,
            reached: Reached::default(),
        };
        pair.compare()?;
        Ok(pair)
    }

    /// The children that both list.
    pub fn children(&self) -> Result<Result<Vec<Child>, Refusal>, Difference> {
        let (left, right) = (self.left.children(), self.right.children());
        self.same(Aspect::Children, &show_children(&left), &show_children(&right))?;
        Ok(left)
    }

    /// One step of both.
    pub fn step(&mut self, children: &[Child], verdicts: &[u8]) -> Result<Result<Stepped, Refusal>, Difference> {
        self.calls.push(format!("step {}", crate::list::hex(verdicts)));
        let (left, right) = (self.left.step(verdicts), self.right.step(verdicts));
        if left != right {
            return Err(differ(Aspect::Answer, &self.calls, left, right));
        }
        self.compare()?;
        self.note(children, &left);
        Ok(left)
    }

    /// One run of both.
    pub fn run(&mut self, tape: &[u8], budget: u32) -> Result<Result<Ran, Refusal>, Difference> {
        self.calls.push(format!("run {} budget {budget}", crate::list::hex(tape)));
        let (left, right) = (self.left.run(tape, budget), self.right.run(tape, budget));
        if left != right {
            return Err(differ(Aspect::Answer, &self.calls, left, right));
        }
        self.compare()?;
        if let Ok(ran) = left {
            self.reached.steps += ran.steps;
            self.reached.evaluations += ran.evaluations;
            if let RunEnd::Stop(number) = ran.end {
                self.reached.refuse(number, 1);
            }
        }
        Ok(left)
    }

    fn note(&mut self, children: &[Child], answer: &Result<Stepped, Refusal>) {
        let reached = &mut self.reached;
        match answer {
            Err(number) => reached.refuse(*number, 1),
            Ok(done) => {
                let record = self.left.record();
                reached.steps += 1;
                reached.children += children.len() as u64;
                reached.evaluations += done.evaluations;
                reached.lowest_level = children.iter().map(|c| c.level).fold(reached.lowest_level, i8::min);
                reached.most_queued = reached.most_queued.max(record.queued - record.taken);
            }
        }
    }

    /// Notes how the picture stands at the end of a case.
    pub fn close(&mut self) -> Reached {
        match self.left.run(&[], 0).map(|ran| ran.end) {
            Ok(RunEnd::Done) => self.reached.done += 1,
            Ok(RunEnd::Limit) => self.reached.limit += 1,
            _ => (),
        }
        self.reached.given_up = self.left.counts().map_or(0, |counts| counts.given_up);
        self.reached.clone()
    }

    /// Compares all that both hold. A run without a budget makes no step and tells how the picture stands.
    pub fn compare(&mut self) -> Result<(), Difference> {
        let (left, right) = (self.left.run(&[], 0), self.right.run(&[], 0));
        self.same(Aspect::Ending, &left, &right)?;
        let (left, right) = (self.left.record(), self.right.record());
        let got = |r: &Record| (crate::list::record(r), r.reserved);
        self.same(Aspect::Record, &got(&left), &got(&right))?;
        let queues = (queue_bytes(&left, self.left.ring()), queue_bytes(&right, self.right.ring()));
        self.same_items(Aspect::Queue, &queues.0, &queues.1)?;
        self.same_items(Aspect::Ring, self.left.ring(), self.right.ring())?;
        self.same_items(Aspect::Cells, self.left.cells(), self.right.cells())?;
        // A damaged record may name any size.
        self.draw((left.width as usize * left.height as usize).min(MOST_PIXELS) + 1)?;
        self.same(Aspect::Counts, &self.left.counts(), &self.right.counts())
    }

    /// Has both draw the picture into so many bytes.
    pub fn draw(&self, room: usize) -> Result<(), Difference> {
        let (mut left, mut right) = (vec![FILLER; room], vec![FILLER; room]);
        let got = (self.left.picture(&mut left), self.right.picture(&mut right));
        self.same(Aspect::Picture, &got.0, &got.1)?;
        self.same_items(Aspect::Picture, &left, &right)
    }

    fn same<T: Debug + PartialEq>(&self, aspect: Aspect, left: &T, right: &T) -> Result<(), Difference> {
        if left == right {
            Ok(())
        } else {
            Err(differ(aspect, &self.calls, left, right))
        }
    }

    /// Of two lists that differ, names the first place where they do.
    fn same_items<T: Debug + PartialEq>(&self, aspect: Aspect, left: &[T], right: &[T]) -> Result<(), Difference> {
        if left == right {
            return Ok(());
        }
        let at = left.iter().zip(right).take_while(|(l, r)| l == r).count();
        let place = |list: &[T]| format!("{:?} at {at} of {}", list.get(at), list.len());
        Err(differ(aspect, &self.calls, place(left), place(right)))
    }
}

/// How much is lent: the ring's bytes, and the cells.
#[derive(Clone, Copy, Debug)]
pub struct Room {
    pub ring: usize,
    pub cells: usize,
}

/// As many cells as a picture has pixels, and some to spare.
pub fn cells_for(setup: &Setup, spare: usize) -> usize {
    setup.width as usize * setup.height as usize + spare
}

/// No picture played here has more.
const MOST_PIXELS: usize = 1 << 16;

/// What lent memory holds before.
pub const FILLER: u8 = 0xa5;
pub const SPARE: u64 = 9;

fn differ(aspect: Aspect, calls: &[String], left: impl Debug, right: impl Debug) -> Difference {
    Difference { aspect, left: format!("{left:?}"), right: format!("{right:?}"), calls: calls.to_vec() }
}

type Shown = (u64, u64, i8, [(u64, u64); 4]);

/// Children with their intervals as bits.
fn show_children(children: &Result<Vec<Child>, Refusal>) -> Result<Vec<Shown>, Refusal> {
    let show = |c: &Child| (c.x, c.y, c.level, c.parameters.map(bits));
    children.as_ref().map(|c| c.iter().map(show).collect()).map_err(|&number| number)
}
