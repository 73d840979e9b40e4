//! Why a pixel reads what it reads: the steps of a setup are repeated on their tape, and what happened to the pixel is named.

use crate::chart::{ending, step_refused, ROOM};
use crate::room::{queue, zeros};
use crate::{ffi, Block, Buffers, Chart, Children, Ending, Refusal, Setup};
use std::{error, fmt};

/// Why a pixel reads what it reads. Steps count from 1 from the setup on, and a child's place counts from 1 over all children of its step,
/// skipped ones too (`Refusal::Verdict` counts it from 0). Written out it is a sentence.
#[derive(Clone, Copy, Debug, PartialEq)]
pub enum Reason {
    /// It is True: this child marked it last, at a sample point or, where none is named, by its area verdict.
    True { step: u64, child: u64, point: Option<SamplePoint> },
    /// It is False: the step took the last block that covers it, and the child is the first covering one that was answered false. Every
    /// covering child of the step was.
    False { step: u64, child: u64 },
    /// It is given up: the last step that gave it up, and the first child there that found no direction to be cut in.
    GivenUp { step: u64, child: u64 },
    /// It waits: the last queued block that covers it with its number, from 0 as blocks are queued, how many stand before it, and the
    /// place, from 0, of the direction in which it is cut next: x and y together where either is used, then the used parameters in order.
    Waiting { number: u64, before: u64, block: Block, direction: u64 },
}

/// A point of a child at which a solution was found.
#[derive(Clone, Copy, Debug, PartialEq, Eq)]
pub enum SamplePoint {
    SimpleFraction = 1,
    BottomLeft,
    BottomRight,
    TopLeft,
    TopRight,
}

/// A reason, and what a run of the same steps answers. If the queue emptied sooner, `steps` says for which end the reason is.
#[derive(Clone, Copy, Debug, PartialEq)]
pub struct Explanation {
    pub reason: Reason,
    pub ending: Ending,
    /// How many steps are finished.
    pub steps: u64,
    pub evaluations: u64,
    /// The bytes of the tape that the steps took.
    pub tape: usize,
}

/// Why a pixel was not explained.
#[derive(Clone, Copy, Debug, PartialEq, Eq)]
#[non_exhaustive]
pub enum NotExplained {
    /// The chart keeps no verdicts, and its tape was not handed in.
    NoVerdicts,
    /// The chart was loaded from layout 1, which does not say the ranges that it was begun with.
    NoRanges,
    /// The steps of this tape lead to another chart.
    OtherTape,
    /// This step, from 1, is refused with the verdicts of the tape; those before it are finished.
    Step { step: u64, refusal: Refusal },
    /// The setup is refused, the pixel lies outside the picture, or there is no memory to repeat the steps in.
    Refused(Refusal),
}

/// Why the pixel in this column, and in this row from the top, reads what it reads after so many steps of a picture that is begun with this
/// setup, with the verdicts of the tape, one for each child of each step. If the queue empties sooner, that is the end it answers for.
/// Steps and children count from 1; only a refused verdict's child (`Refusal::Verdict`) counts from 0.
///
/// ```
/// use smyrilox::{explain, Reason, Setup, Variables};
///
/// let setup = Setup::new(5, 3, Variables::X | Variables::Y);
/// let explanation = explain(&setup, &[0x40, 0x00], 1, 4, 2)?;
/// assert_eq!((explanation.reason, explanation.steps), (Reason::False { step: 1, child: 2 }, 1));
/// # Ok::<(), smyrilox::NotExplained>(())
/// ```
pub fn explain(setup: &Setup, tape: &[u8], steps: u32, column: u32, row: u32) -> Result<Explanation, NotExplained> {
    // each step takes a byte of the tape at least
    let enough = setup.enough_ring(steps.min(u32::try_from(tape.len()).unwrap_or(u32::MAX)));
    let ring = enough.map_err(NotExplained::Refused)?;
    Repeated::new(setup, ring, tape, steps, column, row)?.explanation(tape)
}

/// The steps repeated, in memory of their own.
struct Repeated {
    explained: ffi::Explained,
    ring: Vec<u8>,
    cells: Vec<u64>,
}

impl Repeated {
    fn new(setup: &Setup, ring: usize, tape: &[u8], steps: u32, column: u32, row: u32) -> Result<Repeated, NotExplained> {
        let memory = || Ok((zeros(ring)?, zeros(setup.cells()?)?));
        let (mut ring, mut cells) = memory().map_err(NotExplained::Refused)?;
        let explained = unsafe {
            ffi::smyrilox_explain(
                setup.chosen(), setup.ranges(),
                ring.as_mut_ptr(), ring.len(), cells.as_mut_ptr(), cells.len(),
                tape.as_ptr(), tape.len(), steps, column, row,
            )
        };
        Ok(Repeated { explained, ring, cells })
    }

    /// In a ring of so many bytes, or in a longer one where the chart has been moved from a longer ring to this one.
    fn with_room(setup: &Setup, ring: usize, tape: &[u8], steps: u32, column: u32, row: u32) -> Result<Repeated, NotExplained> {
        let enough = setup.enough_ring(steps).map_err(NotExplained::Refused)?;
        let mut ring = ring;
        loop {
            let repeated = Repeated::new(setup, ring, tape, steps, column, row)?;
            if repeated.explained.refusal != ROOM || ring >= enough {
                return Ok(repeated);
            }
            ring = enough.min(2 * ring.max(1));
        }
    }

    fn explanation(&self, tape: &[u8]) -> Result<Explanation, NotExplained> {
        let e = &self.explained;
        let refusal = || step_refused(e.refusal, &tape[e.tape..], || self.children());
        match (e.refusal, e.ending) {
            (0, _) => Ok(Explanation {
                reason: Reason::of(e),
                ending: ending(e.ending, refusal),
                steps: e.steps,
                evaluations: e.evaluations,
                tape: e.tape,
            }),
            // nothing was begun
            (number, 0) => Err(NotExplained::Refused(Refusal::of(number))),
            _ => Err(NotExplained::Step { step: e.steps + 1, refusal: refusal() }),
        }
    }

    /// The children that the step behind the finished ones asks about.
    fn children(&self) -> Result<Children, Refusal> {
        let listed = unsafe { ffi::smyrilox_children(self.explained.state, self.ring.as_ptr(), self.ring.len()) };
        Refusal::check(listed.refusal)?;
        Ok(Children::from_library(&listed))
    }

    /// The steps left this chart: the same sums, blocks in the queue and cells. Where the queue begins in its ring is not looked at.
    fn leads_to<B: Buffers>(&self, chart: &Chart<B>) -> bool {
        let (there, here) = (&self.explained.state, &chart.state);
        let sums = |s: &ffi::State| (s.taken, s.queued, s.used, s.front, s.back);
        sums(there) == sums(here)
            && queue(there, &self.ring).into_iter().flatten().eq(queue(here, chart.buffers.ring()).into_iter().flatten())
            && self.cells[..] == chart.buffers.cells()[..self.cells.len()]
    }
}

impl<B: Buffers> Chart<B> {
    /// The same chart, which from now on keeps the verdicts of its steps, so that `why` needs no tape: some bytes more a step. They are not
    /// saved with it. A chart that has steps behind it, as one that was loaded, takes theirs along: `with_verdicts`; here it panics.
    ///
    /// ```
    /// use smyrilox::{Chart, Setup, Variables};
    ///
    /// let mut chart = Chart::for_steps(&Setup::new(5, 3, Variables::X | Variables::Y), 10)?.keeping_verdicts();
    /// chart.step(&[0x40, 0x80])?;
    /// assert_eq!(chart.why(4, 0).unwrap().to_string(), "True: step 1 marked it last; child 2 of that step showed it, by its area verdict.");
    /// # Ok::<(), smyrilox::Refusal>(())
    /// ```
    pub fn keeping_verdicts(self) -> Chart<B> {
        assert!(self.steps() == 0, "finished steps of this chart: {}; hand in their verdicts, by `with_verdicts`", self.steps());
        self.with_verdicts([])
    }

    /// The same chart, with the verdicts of the steps that it has behind it; it keeps those of its further steps too. That they are the
    /// chart's is seen when a pixel is explained.
    pub fn with_verdicts(mut self, verdicts: impl Into<Vec<u8>>) -> Chart<B> {
        self.verdicts = Some(verdicts.into());
        self
    }

    /// The verdicts of all steps, if they are kept: the chart's tape.
    pub fn verdicts(&self) -> Option<&[u8]> {
        self.verdicts.as_deref()
    }

    /// Why the pixel in this column, and in this row from the top, reads what it reads, by the verdicts that the chart keeps. Its steps are
    /// repeated for it, in memory beside the chart's.
    pub fn why(&self, column: u32, row: u32) -> Result<Reason, NotExplained> {
        self.why_with(self.verdicts().ok_or(NotExplained::NoVerdicts)?, column, row)
    }

    /// The same by a tape with the verdicts of all steps of the chart from its setup on; what follows them is not looked at. That the tape
    /// leads to this very chart is; of two tapes that do, each gets the answer of its own verdicts.
    pub fn why_with(&self, tape: &[u8], column: u32, row: u32) -> Result<Reason, NotExplained> {
        let setup = self.setup().ok_or(NotExplained::NoRanges)?;
        let steps = u32::try_from(self.steps()).unwrap_or(u32::MAX);
        let repeated = Repeated::with_room(&setup, self.state.len, tape, steps, column, row)?;
        let explanation = repeated.explanation(tape)?;
        if !repeated.leads_to(self) {
            return Err(NotExplained::OtherTape);
        }
        Ok(explanation.reason)
    }

    /// Room for the verdicts of a call, if they are kept, so that nothing can go wrong behind it.
    pub(crate) fn make_room_for(&mut self, verdicts: usize) -> Result<(), Refusal> {
        let kept = self.verdicts.as_mut().map_or(Ok(()), |kept| kept.try_reserve(verdicts));
        kept.map_err(|_| Refusal::NoMemory { bytes: verdicts as u64 })
    }

    pub(crate) fn keep(&mut self, verdicts: &[u8]) {
        if let Some(kept) = &mut self.verdicts {
            kept.extend_from_slice(verdicts);
        }
    }
}

impl Reason {
    fn of(e: &ffi::Explained) -> Reason {
        let ffi::Explained { step, child, number, before, direction, .. } = *e;
        match e.reason {
            1 => Reason::True { step, child, point: SamplePoint::at(e.point) },
            2 => Reason::False { step, child },
            3 => Reason::GivenUp { step, child },
            4 => Reason::Waiting { number, before, block: Block::from_library(&e.block), direction },
            other => panic!("the library gives the reason {other}, which is none of its reasons: it is not the one of this crate"),
        }
    }
}

impl SamplePoint {
    /// All of them with their words, by their place from 1.
    const ALL: [(SamplePoint, &'static str); 5] = [
        (SamplePoint::SimpleFraction, "the simple fraction"),
        (SamplePoint::BottomLeft, "bottom left"),
        (SamplePoint::BottomRight, "bottom right"),
        (SamplePoint::TopLeft, "top left"),
        (SamplePoint::TopRight, "top right"),
    ];

    fn at(place: u64) -> Option<SamplePoint> {
        SamplePoint::ALL.iter().find(|(point, _)| *point as u64 == place).map(|row| row.0)
    }
}

impl fmt::Display for SamplePoint {
    fn fmt(&self, f: &mut fmt::Formatter) -> fmt::Result {
        f.write_str(SamplePoint::ALL[*self as usize - 1].1)
    }
}

impl fmt::Display for Reason {
    fn fmt(&self, f: &mut fmt::Formatter) -> fmt::Result {
        match *self {
            Reason::True { step, child, point } => {
                write!(f, "True: step {step} marked it last; child {child} of that step showed it, ")?;
                match point {
                    None => write!(f, "by its area verdict."),
                    Some(point) => write!(f, "at sample point {} ({point}).", point as u64),
                }
            }
            Reason::False { step, child } => write!(
                f,
                "False: step {step} took the last block that covered it; every child of that step that covered it was answered false, \
                 the first is child {child}."
            ),
            Reason::GivenUp { step, child } => {
                write!(f, "Given up: step {step} was the last to give it up; child {child} of that step found no direction to be cut in.")
            }
            Reason::Waiting { number, before, .. } => {
                write!(f, "Waiting: block {number} is the last one queued that covers it; blocks before it in the queue: {before}.")
            }
        }
    }
}

impl fmt::Display for NotExplained {
    fn fmt(&self, f: &mut fmt::Formatter) -> fmt::Result {
        match self {
            NotExplained::NoVerdicts => write!(f, "the chart keeps no verdicts: hand in its tape, or begin it to keep them"),
            NotExplained::NoRanges => write!(f, "the chart was loaded from layout 1, which does not say its ranges"),
            NotExplained::OtherTape => write!(f, "the steps of this tape lead to another chart"),
            NotExplained::Step { step, refusal } => write!(f, "{refusal}, in step {step}"),
            NotExplained::Refused(refusal) => write!(f, "{refusal}"),
        }
    }
}

impl error::Error for NotExplained {}
