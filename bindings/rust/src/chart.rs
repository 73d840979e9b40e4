//! A picture being refined.

use crate::{ffi, Block, Buffers, Children, Lent, Owned, Refusal, Setup, Table, Verdict};

/// The record, the ring and the cells of a picture, which belong together.
#[derive(Clone)]
pub struct Chart<B: Buffers = Owned> {
    pub(crate) state: ffi::State,
    pub(crate) buffers: B,
    /// The setup's ranges; a chart that was saved in layout 1 does not say them.
    pub(crate) ranges: Option<ffi::Ranges>,
    /// The caller's words for what the chart is of: they are saved with it, and a load must name them.
    pub(crate) tag: Vec<u8>,
    /// Whether a step that finds no room gets a longer ring.
    pub(crate) grows: bool,
    /// The tile counts, where they were asked for: every step brings them up to date.
    pub(crate) table: Option<Table>,
    /// The verdicts of all steps, where they are kept: by them a pixel is explained.
    pub(crate) verdicts: Option<Vec<u8>>,
}

/// The number of `Refusal::Room`.
pub(crate) const ROOM: u64 = 6;

/// What a step did: the evaluations that it cost and the verdicts that it took.
#[derive(Clone, Copy, Debug, PartialEq, Eq)]
pub struct Step {
    pub evaluations: u64,
    pub verdicts: usize,
}

/// How a run ended.
#[derive(Clone, Copy, Debug, PartialEq, Eq)]
pub enum Ending {
    /// Nothing is queued, and no pixel was given up: every pixel is decided.
    Done,
    /// Nothing is queued, and some pixel was given up.
    Limit,
    /// The budget is spent.
    More,
    /// A step was refused; those before it are kept.
    Stop(Refusal),
}

/// What a run did.
#[derive(Clone, Copy, Debug, PartialEq, Eq)]
pub struct Run {
    pub ending: Ending,
    pub steps: u64,
    pub evaluations: u64,
    /// The bytes of the tape that its steps took.
    pub tape: usize,
}

impl Chart<Owned> {
    /// Begins a picture, with a ring of so many bytes. A fuller queue needs a longer ring: `Setup::least_ring` is the least to begin with,
    /// `Chart::for_steps` takes one that is enough for some steps, and `growing` makes a chart that sees to it.
    pub fn new(setup: &Setup, ring: usize) -> Result<Chart<Owned>, Refusal> {
        begin(setup, Owned::new(ring, setup.cells()?)?)
    }
}

impl<'a> Chart<Lent<'a>> {
    /// Begins a picture in lent memory. Refused, it has changed nothing there.
    pub fn lent(setup: &Setup, ring: &'a mut [u8], cells: &'a mut [u64]) -> Result<Chart<Lent<'a>>, Refusal> {
        begin(setup, Lent { ring, cells })
    }
}

fn begin<B: Buffers>(s: &Setup, mut buffers: B) -> Result<Chart<B>, Refusal> {
    let (ring, cells) = buffers.both();
    let started = unsafe {
        ffi::smyrilox_setup(
            s.chosen(), s.ranges(),
            ring.as_mut_ptr(), ring.len(), cells.as_mut_ptr(), cells.len(),
        )
    };
    Refusal::check(started.refusal)?;
    let ranges = Some(s.used_ranges());
    Ok(Chart { state: started.state, buffers, ranges, tag: Vec::new(), grows: false, table: None, verdicts: None })
}

impl<B: Buffers> Chart<B> {
    /// The sides in pixels.
    pub fn size(&self) -> (u32, u32) {
        (self.state.chosen.width, self.state.chosen.height)
    }

    /// What it was begun with; nothing where it was loaded from layout 1, which does not say the ranges.
    pub fn setup(&self) -> Option<Setup> {
        self.ranges.map(|ranges| Setup::of(self.state.chosen, ranges))
    }

    /// How many blocks are queued.
    pub fn queued(&self) -> u64 {
        self.state.queued - self.state.taken
    }

    /// How many steps are finished: each takes one block.
    pub fn steps(&self) -> u64 {
        self.state.taken
    }

    /// Nothing is queued any more.
    pub fn is_finished(&self) -> bool {
        self.queued() == 0
    }

    /// The bytes that the queue takes, of those that the ring has.
    pub fn ring_use(&self) -> (usize, usize) {
        (self.state.used, self.state.len)
    }

    /// The children of the front block, about which the next step wants verdicts.
    pub fn children(&self) -> Result<Children, Refusal> {
        let ring = self.buffers.ring();
        let listed = unsafe { ffi::smyrilox_children(self.state, ring.as_ptr(), ring.len()) };
        Refusal::check(listed.refusal)?;
        Ok(Children::from_library(&listed))
    }

    /// One step, with a verdict byte for each child.
    pub fn step(&mut self, verdicts: &[u8]) -> Result<Step, Refusal> {
        self.make_room_for(verdicts.len())?;
        loop {
            let stepped = self.call_step(verdicts);
            match stepped.refusal {
                0 => {
                    self.state = stepped.state;
                    self.keep(verdicts);
                    return Ok(Step { evaluations: stepped.evaluations, verdicts: stepped.tape });
                }
                ROOM if self.grows => self.state = self.buffers.double(self.state)?,
                number => return Err(self.refusal(number, verdicts)),
            }
        }
    }

    fn call_step(&mut self, verdicts: &[u8]) -> ffi::Stepped {
        let (ring, cells) = self.buffers.both();
        match &mut self.table {
            None => unsafe {
                ffi::smyrilox_step(
                    self.state,
                    ring.as_mut_ptr(), ring.len(), cells.as_mut_ptr(), cells.len(),
                    verdicts.as_ptr(), verdicts.len(),
                )
            },
            Some(Table { numbers, .. }) => unsafe {
                ffi::smyrilox_step_with_table(
                    self.state,
                    ring.as_mut_ptr(), ring.len(), cells.as_mut_ptr(), cells.len(), numbers.as_mut_ptr(), numbers.len(),
                    verdicts.as_ptr(), verdicts.len(),
                )
            },
        }
    }

    /// One step: the evaluator is asked about each child.
    pub fn step_with(&mut self, mut evaluator: impl FnMut(&Block) -> Verdict) -> Result<Step, Refusal> {
        let children = self.children()?;
        let mut verdicts = [0; 4];
        for (verdict, child) in verdicts.iter_mut().zip(children.iter()) {
            *verdict = evaluator(child).0;
        }
        self.step(&verdicts[..children.len()])
    }

    /// Steps with verdicts from a tape, at most `budget` of them.
    pub fn run(&mut self, tape: &[u8], budget: u32) -> Result<Run, Refusal> {
        self.make_room_for(tape.len().min(4 * budget as usize))?;
        let mut all = Run { ending: Ending::More, steps: 0, evaluations: 0, tape: 0 };
        loop {
            let rest = &tape[all.tape..];
            let ran = self.call_run(rest, budget - all.steps as u32);
            Refusal::check(ran.refusal)?;
            self.state = ran.state;
            self.keep(&rest[..ran.tape]);
            all.steps += ran.steps;
            all.evaluations += ran.evaluations;
            all.tape += ran.tape;
            all.ending = ending(ran.ending, || self.refusal(ran.stop, &rest[ran.tape..]));
            match all.ending {
                Ending::Stop(Refusal::Room) if self.grows => match self.buffers.double(self.state) {
                    Ok(state) => self.state = state,
                    Err(why) => return Ok(Run { ending: Ending::Stop(why), ..all }),
                },
                _ => return Ok(all),
            }
        }
    }

    fn call_run(&mut self, tape: &[u8], budget: u32) -> ffi::Ran {
        let (ring, cells) = self.buffers.both();
        match &mut self.table {
            None => unsafe {
                ffi::smyrilox_run(
                    self.state,
                    ring.as_mut_ptr(), ring.len(), cells.as_mut_ptr(), cells.len(),
                    tape.as_ptr(), tape.len(), budget,
                )
            },
            Some(Table { numbers, .. }) => unsafe {
                ffi::smyrilox_run_with_table(
                    self.state,
                    ring.as_mut_ptr(), ring.len(), cells.as_mut_ptr(), cells.len(), numbers.as_mut_ptr(), numbers.len(),
                    tape.as_ptr(), tape.len(), budget,
                )
            },
        }
    }

    fn refusal(&self, number: u64, verdicts: &[u8]) -> Refusal {
        step_refused(number, verdicts, || self.children())
    }
}

/// The ending with a number, of a run that may have been stopped by this refusal.
pub(crate) fn ending(number: u64, stop: impl FnOnce() -> Refusal) -> Ending {
    match number {
        1 => Ending::Done,
        2 => Ending::Limit,
        3 => Ending::More,
        4 => Ending::Stop(stop()),
        other => panic!("the library says that a run ended by {other}, which is none of its endings: it is not the one of this crate"),
    }
}

/// Why a step was refused, with these verdicts: of 4 and 5, what is wrong with them, by the children that it asked about.
pub(crate) fn step_refused(number: u64, verdicts: &[u8], children: impl FnOnce() -> Result<Children, Refusal>) -> Refusal {
    match (number, if let 4 | 5 = number { children().ok() } else { None }) {
        (4, Some(children)) => Refusal::Verdicts { given: verdicts.len(), children: children.len() },
        (5, Some(children)) => first_illegal(&children, verdicts).unwrap_or(Refusal::Other(5)),
        _ => Refusal::of(number),
    }
}

/// The first child that cannot have its verdict.
fn first_illegal(children: &[Block], verdicts: &[u8]) -> Option<Refusal> {
    let child = children.iter().zip(verdicts).position(|(child, byte)| !Verdict(*byte).is_legal_for(child))?;
    Some(Refusal::Verdict { child, level: children[child].level(), byte: verdicts[child] })
}
