//! The original with one fault in what it shows, from some step on: a comparison must name that very aspect.

use crate::{
    engine::*,
    lockstep::Aspect,
    original::{Original, OriginalMaker},
};

const ASPECTS: [Aspect; 9] = [
    Aspect::Children,
    Aspect::Answer,
    Aspect::Record,
    Aspect::Queue,
    Aspect::Ring,
    Aspect::Cells,
    Aspect::Picture,
    Aspect::Counts,
    Aspect::Ending,
];

/// What is wrong: an aspect, from some step on; or the record keeps the reserved bytes that a setup was handed.
#[derive(Clone, Copy, Debug)]
pub enum Fault {
    Shown { aspect: Aspect, good_steps: u64 },
    Reserved,
}

impl Fault {
    /// Every aspect, from the start and later, and the reserved bytes.
    pub fn all() -> Vec<Fault> {
        let shown = |aspect| [0, 1, 7].map(|good_steps| Fault::Shown { aspect, good_steps });
        ASPECTS.into_iter().flat_map(shown).chain([Fault::Reserved]).collect()
    }

    /// Where a comparison must see it.
    pub fn aspect(&self) -> Aspect {
        match *self {
            Fault::Shown { aspect, .. } => aspect,
            Fault::Reserved => Aspect::Record,
        }
    }
}

pub struct FaultyMaker {
    pub maker: OriginalMaker,
    pub fault: Fault,
}

#[derive(Clone)]
pub struct Faulty {
    inner: Original,
    fault: Fault,
    reserved: [u8; 3],
    ring: Vec<u8>,
    cells: Vec<u64>,
}

impl Maker for FaultyMaker {
    type Engine = Faulty;

    fn setup(&self, setup: &Setup, ring: Vec<u8>, cells: Vec<u64>) -> Result<Faulty, Refusal> {
        Ok(self.spoil(self.maker.setup(setup, ring, cells)?, setup.reserved))
    }

    fn resume(&self, record: &Record, ring: Vec<u8>, cells: Vec<u64>) -> Faulty {
        self.spoil(self.maker.resume(record, ring, cells), record.reserved)
    }
}

impl FaultyMaker {
    fn spoil(&self, inner: Original, reserved: [u8; 3]) -> Faulty {
        let mut made = Faulty { inner, fault: self.fault, reserved, ring: vec![], cells: vec![] };
        made.show();
        made
    }
}

impl Faulty {
    fn has_fault(&self, of: Aspect) -> bool {
        matches!(self.fault, Fault::Shown { aspect, good_steps } if aspect == of && self.inner.record().taken >= good_steps)
    }

    /// Copies the memory to be shown, and spoils a byte or a cell of it.
    fn show(&mut self) {
        self.ring = self.inner.ring().to_vec();
        self.cells = self.inner.cells().to_vec();
        let record = self.inner.record();
        let after = (record.head + record.used) % record.len;
        if self.has_fault(Aspect::Queue) && record.used > 0 {
            self.ring[record.head] ^= 2;
        }
        if self.has_fault(Aspect::Ring) && record.used < record.len {
            self.ring[after] ^= 1;
        }
        if self.has_fault(Aspect::Cells) {
            *self.cells.last_mut().unwrap() ^= 1;
        }
    }
}

impl Engine for Faulty {
    fn record(&self) -> Record {
        let mut record = self.inner.record();
        record.back.y ^= self.has_fault(Aspect::Record) as u64;
        if let Fault::Reserved = self.fault {
            record.reserved = self.reserved;
        }
        record
    }

    fn ring(&self) -> &[u8] {
        &self.ring
    }

    fn cells(&self) -> &[u64] {
        &self.cells
    }

    fn children(&self) -> Result<Vec<Child>, Refusal> {
        let mut children = self.inner.children()?;
        if self.has_fault(Aspect::Children) {
            children.reverse();
            children[0].y ^= 1;
        }
        Ok(children)
    }

    fn step(&mut self, verdicts: &[u8]) -> Result<Stepped, Refusal> {
        let mut answer = self.inner.step(verdicts);
        if self.has_fault(Aspect::Answer) {
            answer = answer.map(|done| Stepped { evaluations: done.evaluations + 1, ..done });
        }
        self.show();
        answer
    }

    fn run(&mut self, tape: &[u8], budget: u32) -> Result<Ran, Refusal> {
        let mut ran = self.inner.run(tape, budget)?;
        if budget == 0 && self.has_fault(Aspect::Ending) {
            ran.end = if ran.end == RunEnd::More { RunEnd::Done } else { RunEnd::More };
        }
        self.show();
        Ok(ran)
    }

    fn picture(&self, bytes: &mut [u8]) -> Result<(), Refusal> {
        self.inner.picture(bytes)?;
        bytes[0] ^= self.has_fault(Aspect::Picture) as u8;
        Ok(())
    }

    fn counts(&self) -> Result<Counts, Refusal> {
        let mut counts = self.inner.counts()?;
        counts.share ^= self.has_fault(Aspect::Counts) as u64;
        Ok(counts)
    }
}
