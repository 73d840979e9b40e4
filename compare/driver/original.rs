//! The original as an engine. What it refines is the original's; what document 01 adds to it is done here by rules of
//! our own: the ring's places, and the refusals 4, 5, 6, 7 and 13, after which the picture is as it was before.

use crate::engine::*;
use oracle::{
    oracle::{Oracle, Overflow},
    relation::Manner,
};

/// Pictures of the original, with sample points that succeed or fail in one of its manners.
pub struct OriginalMaker(pub Manner);

#[derive(Clone)]
pub struct Original {
    /// Its reserved bytes are those of the record.
    setup: Setup,
    oracle: Oracle,
    ring: Vec<u8>,
    head: usize,
    used: usize,
    cells: Vec<u64>,
}

impl Maker for OriginalMaker {
    type Engine = Original;

    fn setup(&self, setup: &Setup, ring: Vec<u8>, cells: Vec<u64>) -> Result<Original, Refusal> {
        let oracle = Oracle::setup(setup, self.0);
        if oracle.byte_count() > ring.len() {
            return Err(6);
        }
        let kept = Setup { reserved: [0; 3], ..setup.clone() };
        let mut made = Original { setup: kept, oracle, ring, head: 0, used: 0, cells };
        made.follow(0);
        Ok(made)
    }

    fn resume(&self, record: &Record, ring: Vec<u8>, cells: Vec<u64>) -> Original {
        let Record { width, height, set, reserved, taken, queued, head, used, front, back, .. } = *record;
        let setup = Setup { width, height, set, reserved, parameters: [(f64::NEG_INFINITY, f64::INFINITY); 4] };
        let standing = Standing { taken, queued, front, back };
        let oracle = Oracle::resume(&setup, &standing, &queue_bytes(record, &ring), &cells, self.0);
        Original { setup, oracle, ring, head, used, cells }
    }
}

impl Original {
    /// Brings ring and cells up to what the original holds, after so many bytes were taken off its queue.
    fn follow(&mut self, taken: usize) {
        let len = self.ring.len();
        self.head = (self.head + taken) % len;
        self.used -= taken;
        for byte in self.oracle.queue_bytes().skip(self.used) {
            self.ring[(self.head + self.used) % len] = byte;
            self.used += 1;
        }
        assert!(self.used == self.oracle.byte_count());
        for (cell, got) in self.cells.iter_mut().zip(self.oracle.cells()) {
            *cell = got;
        }
    }

    /// Whether a step might be refused after the original has made it, for room or for numbers.
    fn is_tight(&self) -> bool {
        const MOST_BYTES: usize = 4 * 83;
        self.used + MOST_BYTES > self.ring.len() || self.oracle.standing().queued + 4 > 1 << 32
    }

    /// The step, or the refusal with a picture of no further use.
    fn step_anyhow(&mut self, verdicts: &[u8]) -> Result<Stepped, Refusal> {
        match self.oracle.step(verdicts) {
            Err(Overflow) => Err(7),
            Ok(_) if self.oracle.byte_count() > self.ring.len() => Err(6),
            Ok(done) => {
                self.follow(done.bytes_taken);
                Ok(Stepped { evaluations: done.evaluations, tape: verdicts.len() as u64 })
            }
        }
    }

    fn pixels(&self) -> usize {
        self.setup.width as usize * self.setup.height as usize
    }

    /// How the original would say it stands.
    fn end(&self) -> Option<RunEnd> {
        if !self.oracle.is_empty() {
            return None;
        }
        match self.oracle.ending() {
            Ending::Done => Some(RunEnd::Done),
            Ending::Limit => Some(RunEnd::Limit),
            Ending::More => panic!("an empty queue is an end"),
        }
    }

    /// The same steps in one call of the original must leave the same picture.
    fn assert_whole_run(&self, mut whole: Oracle, tape: &[u8], ran: &Ran) {
        let (evaluations, used) = whole.run(tape, ran.steps).expect("no overflow in a finished run");
        assert!(evaluations == ran.evaluations && used == tape.len());
        assert!(whole.ending() == self.oracle.ending());
        assert!(whole.queue_bytes().eq(self.oracle.queue_bytes()));
        assert!(whole.cells().eq(self.oracle.cells()));
    }
}

impl Engine for Original {
    fn record(&self) -> Record {
        let Standing { taken, queued, front, back } = self.oracle.standing();
        let Setup { width, height, set, reserved, .. } = self.setup;
        Record {
            width,
            height,
            set,
            reserved,
            taken,
            queued,
            len: self.ring.len(),
            head: self.head,
            used: self.used,
            front,
            back,
        }
    }

    fn ring(&self) -> &[u8] {
        &self.ring
    }

    fn cells(&self) -> &[u64] {
        &self.cells
    }

    fn children(&self) -> Result<Vec<Child>, Refusal> {
        let children = self.oracle.children();
        if children.is_empty() {
            Err(13)
        } else {
            Ok(children)
        }
    }

    fn step(&mut self, verdicts: &[u8]) -> Result<Stepped, Refusal> {
        let children = self.children()?;
        if children.len() != verdicts.len() {
            return Err(4);
        }
        if children.iter().zip(verdicts).any(|(c, &v)| !is_legal_verdict(v, c.level)) {
            return Err(5);
        }
        if !self.is_tight() {
            return self.step_anyhow(verdicts);
        }
        let before = self.clone();
        let answer = self.step_anyhow(verdicts);
        if answer.is_err() {
            *self = before;
        }
        answer
    }

    fn run(&mut self, tape: &[u8], budget: u32) -> Result<Ran, Refusal> {
        let before = (budget > 0).then(|| self.oracle.clone());
        let mut ran = Ran { end: RunEnd::More, steps: 0, evaluations: 0, tape: 0 };
        loop {
            if let Some(end) = self.end() {
                ran.end = end;
                break;
            }
            if ran.steps == budget as u64 {
                break;
            }
            let rest = &tape[ran.tape as usize..];
            let count = self.children()?.len();
            let answer = if rest.len() < count { Err(4) } else { self.step(&rest[..count]) };
            match answer {
                Err(number) => {
                    ran.end = RunEnd::Stop(number);
                    break;
                }
                Ok(done) => {
                    ran.steps += 1;
                    ran.evaluations += done.evaluations;
                    ran.tape += done.tape;
                }
            }
        }
        if let (Some(before), 1..) = (before, ran.steps) {
            self.assert_whole_run(before, &tape[..ran.tape as usize], &ran);
        }
        Ok(ran)
    }

    fn picture(&self, bytes: &mut [u8]) -> Result<(), Refusal> {
        bytes[..self.pixels()].copy_from_slice(&self.oracle.picture(self.setup.width, self.setup.height));
        Ok(())
    }

    /// True, False and Uncertain by the original's picture; settled must be its own figure.
    fn counts(&self) -> Result<Counts, Refusal> {
        let picture = self.oracle.picture(self.setup.width, self.setup.height);
        let of = |reading: u8| picture.iter().filter(|&&r| r == reading).count() as u64;
        let (yes, no, uncertain) = (of(2), of(0), of(1));
        let (_, settled) = self.oracle.statistics();
        assert!(settled == yes + no, "the picture's settled pixels are the statistics'");
        let given_up = self.oracle.cells().filter(|&cell| cell == (1 << 32) + 1).count() as u64;
        let standing = self.oracle.standing();
        let queued = standing.queued - standing.taken;
        Ok(Counts { yes, no, uncertain, given_up, queued, share: share(settled, picture.len() as u64) })
    }
}
