//! Document 01's engine, written from its words and as plainly as they are: the second engine where no other is linked.
//! It shares nothing with the original; its leaves are those of `exact.rs`. It refuses by the whole table.

use crate::{
    blocks::*,
    engine::*,
    exact::{is_legal, put, Paper},
    leaves::Leaves,
};

pub struct DocumentMaker;

#[derive(Clone)]
pub struct Document {
    record: Record,
    ring: Vec<u8>,
    cells: Vec<u64>,
}

const TRUE: u64 = 1 << 32;
const GIVEN_UP: u64 = TRUE + 1;

impl Maker for DocumentMaker {
    type Engine = Document;

    fn setup(&self, setup: &Setup, ring: Vec<u8>, cells: Vec<u64>) -> Result<Document, Refusal> {
        let Setup { width, height, set, parameters, .. } = *setup;
        if [width, height].iter().any(|side| !(1..=32768).contains(side)) {
            return Err(1);
        }
        if cells.len() < width as usize * height as usize {
            return Err(2);
        }
        if set > 63 || (0..4).any(|i| is_used(set, i) && !is_legal(parameters[i], i < 3)) {
            return Err(3);
        }
        let (blocks, start) = (first_blocks(setup), Last { x: 0, y: 0, parameters: [WHOLE_LINE; 4] });
        let (bytes, back) = codes(set, &blocks, &start);
        if bytes.len() > ring.len() {
            return Err(6);
        }
        let (queued, len) = (blocks.len() as u64, ring.len());
        let (reserved, front) = ([0; 3], start);
        let record = Record { width, height, set, reserved, taken: 0, queued, len, head: 0, used: 0, front, back };
        let mut made = Document { record, ring, cells };
        made.append(&bytes);
        let pixels = made.pixels();
        made.cells[..pixels].fill(queued - 1);
        Ok(made)
    }

    fn resume(&self, record: &Record, ring: Vec<u8>, cells: Vec<u64>) -> Document {
        Document { record: *record, ring, cells }
    }
}

/// What a record remembers, with its zeros put.
fn put_last(last: &Last) -> Last {
    Last { parameters: last.parameters.map(put), ..*last }
}

/// The product of the first cuts, m outermost.
fn first_blocks(setup: &Setup) -> Vec<Block> {
    let level = (0..).find(|&k| 1u32 << k >= setup.width.max(setup.height)).unwrap();
    let mut blocks = vec![Block { x: 0, y: 0, level, parameters: [WHOLE_LINE; 4], direction: 0 }];
    for i in (0..4).filter(|&i| is_used(setup.set, i)) {
        let pieces = Paper.first_cut(setup.parameters[i], i < 3);
        blocks = blocks.iter().flat_map(|b| pieces.iter().map(move |&p| b.with(i, p))).collect();
    }
    blocks
}

/// What becomes of a child, and how many evaluations it costs.
struct Outcome {
    marks: bool,
    open: bool,
    cost: u64,
}

fn outcome(verdict: u8, level: i8, all_true: bool) -> Outcome {
    let (result, area, points) = (verdict >> 6, verdict >> 5 & 1 == 1, verdict & 31);
    let first = (1..=5).find(|place| points >> (5 - place) & 1 == 1);
    match (result, first) {
        _ if all_true => Outcome { marks: false, open: false, cost: 0 },
        (0, _) => Outcome { marks: false, open: false, cost: 1 },
        (2, _) if level >= 0 || area => Outcome { marks: true, open: false, cost: 1 },
        (1, Some(place)) => Outcome { marks: true, open: false, cost: 1 + place },
        (1, None) if area => Outcome { marks: false, open: true, cost: 6 },
        _ => Outcome { marks: false, open: true, cost: 1 },
    }
}

impl Document {
    fn pixels(&self) -> usize {
        self.record.width as usize * self.record.height as usize
    }

    fn is_damaged(&self) -> bool {
        self.record.len != self.ring.len() || self.is_damaged_alone()
    }

    /// Without a ring: the record's own length of one is taken as right.
    fn is_damaged_alone(&self) -> bool {
        let r = &self.record;
        let bad_last = |l: &Last| l.x >> 47 > 0 || l.y >> 47 > 0 || (0..4).any(|i| !is_legal(l.parameters[i], i < 3));
        [r.width, r.height].iter().any(|side| !(1..=32768).contains(side))
            || r.set > 63
            || r.taken > r.queued
            || r.queued > 1 << 32
            || r.head >= r.len
            || r.used > r.len
            || (r.used == 0) != (r.taken == r.queued)
            || bad_last(&r.front)
            || bad_last(&r.back)
    }

    /// The front block and the length of its code.
    fn front(&self) -> Result<(Block, usize), Refusal> {
        let r = &self.record;
        let (block, length) = decoded(r.set, &queue_bytes(r, &self.ring), &put_last(&r.front)).ok_or(8u32)?;
        let directions = directions(r.set);
        let is_going = match directions.get(block.direction as usize) {
            Some(Direction::Xy) => block.level > -32,
            Some(_) => true,
            None => directions.is_empty() && block.direction == 0,
        };
        let is_inside = (-32..=15).contains(&block.level)
            && is_inside(block.x, block.level, r.width)
            && is_inside(block.y, block.level, r.height);
        let is_sound = (0..4).all(|i| !is_used(r.set, i) || is_legal(block.parameters[i], i < 3));
        if is_going && is_inside && is_sound {
            Ok((block, length))
        } else {
            Err(8)
        }
    }

    /// The places of the cells that a block covers.
    fn covered(&self, b: &Block) -> Vec<usize> {
        let Record { width, height, .. } = self.record;
        let (columns, rows) = (pixels_of(b.x, b.level, width), pixels_of(b.y, b.level, height));
        let place = |x: u64, y: u64| ((height as u64 - 1 - y) * width as u64 + x) as usize;
        rows.flat_map(|y| columns.clone().map(move |x| place(x, y))).collect()
    }

    /// Writes after the queue's last byte, round the ring's end.
    fn append(&mut self, bytes: &[u8]) {
        for &byte in bytes {
            let at = (self.record.head + self.record.used) % self.record.len;
            self.ring[at] = byte;
            self.record.used += 1;
        }
    }

    /// The record's, the cells' and the front block's refusals, before verdicts are looked at.
    fn taken_block(&self) -> Result<(Block, usize), Refusal> {
        if self.is_damaged() {
            return Err(8);
        }
        if self.cells.len() < self.pixels() {
            return Err(2);
        }
        if self.record.taken == self.record.queued {
            return Err(13);
        }
        let (block, length) = self.front()?;
        if self.covered(&block).iter().any(|&at| self.cells[at] > GIVEN_UP) {
            return Err(8);
        }
        Ok((block, length))
    }

    /// Reads True 2, Uncertain 1 or False 0.
    fn reading(&self, cell: u64) -> u8 {
        match cell {
            TRUE => 2,
            GIVEN_UP => 1,
            number => (number >= self.record.taken) as u8,
        }
    }

    fn picture_refusal(&self, room: usize) -> Option<Refusal> {
        let pixels = self.pixels();
        if self.is_damaged_alone() {
            Some(8)
        } else if self.cells.len() < pixels {
            Some(2)
        } else if room < pixels {
            Some(12)
        } else {
            self.cells[..pixels].iter().any(|&cell| cell > GIVEN_UP).then_some(8)
        }
    }
}

impl Engine for Document {
    fn record(&self) -> Record {
        self.record
    }

    fn ring(&self) -> &[u8] {
        &self.ring
    }

    fn cells(&self) -> &[u64] {
        &self.cells
    }

    fn children(&self) -> Result<Vec<Child>, Refusal> {
        if self.is_damaged() {
            return Err(8);
        }
        if self.record.taken == self.record.queued {
            return Err(13);
        }
        let listed = children(&self.record, &self.front()?.0);
        Ok(listed.iter().map(|b| Child { x: b.x, y: b.y, level: b.level, parameters: b.parameters }).collect())
    }

    fn step(&mut self, verdicts: &[u8]) -> Result<Stepped, Refusal> {
        let (parent, length) = self.taken_block()?;
        let children = children(&self.record, &parent);
        if children.len() != verdicts.len() {
            return Err(4);
        }
        if children.iter().zip(verdicts).any(|(c, &v)| !is_legal_verdict(v, c.level)) {
            return Err(5);
        }
        let mut next = self.clone();
        let (mut open, mut evaluations) = (vec![], 0);
        for (child, &verdict) in children.into_iter().zip(verdicts) {
            let covered = next.covered(&child);
            let all_true = covered.iter().all(|&at| next.cells[at] == TRUE);
            let what = outcome(verdict, child.level, all_true);
            evaluations += what.cost;
            if what.marks {
                covered.iter().for_each(|&at| next.cells[at] = TRUE);
            }
            if what.open {
                open.push(child);
            }
        }
        next.queue_open(&parent, length, open)?;
        *self = next;
        Ok(Stepped { evaluations, tape: verdicts.len() as u64 })
    }

    fn run(&mut self, tape: &[u8], budget: u32) -> Result<Ran, Refusal> {
        if self.is_damaged() {
            return Err(8);
        }
        if self.cells.len() < self.pixels() {
            return Err(2);
        }
        let mut ran = Ran { end: RunEnd::More, steps: 0, evaluations: 0, tape: 0 };
        loop {
            if self.record.taken == self.record.queued && self.record.used == 0 {
                let is_given_up = self.cells[..self.pixels()].contains(&GIVEN_UP);
                ran.end = if is_given_up { RunEnd::Limit } else { RunEnd::Done };
                return Ok(ran);
            }
            if ran.steps == budget as u64 {
                return Ok(ran);
            }
            let rest = &tape[ran.tape as usize..];
            let due = self.children().map_or(0, |children| children.len());
            match self.step(&rest[..due.min(rest.len())]) {
                Err(number) => return Ok(Ran { end: RunEnd::Stop(number), ..ran }),
                Ok(done) => {
                    ran.steps += 1;
                    ran.evaluations += done.evaluations;
                    ran.tape += done.tape;
                }
            }
        }
    }

    fn picture(&self, bytes: &mut [u8]) -> Result<(), Refusal> {
        if let Some(number) = self.picture_refusal(bytes.len()) {
            return Err(number);
        }
        for (byte, &cell) in bytes.iter_mut().zip(&self.cells[..self.pixels()]) {
            *byte = self.reading(cell);
        }
        Ok(())
    }

    fn counts(&self) -> Result<Counts, Refusal> {
        let pixels = self.pixels();
        if let Some(number) = self.picture_refusal(pixels) {
            return Err(number);
        }
        let of = |reading: u8| self.cells[..pixels].iter().filter(|&&c| self.reading(c) == reading).count() as u64;
        let (yes, no, uncertain) = (of(2), of(0), of(1));
        let given_up = self.cells[..pixels].iter().filter(|&&c| c == GIVEN_UP).count() as u64;
        let queued = self.record.queued - self.record.taken;
        Ok(Counts { yes, no, uncertain, given_up, queued, share: share(yes + no, pixels as u64) })
    }
}

impl Document {
    /// What a step does after its children were judged: the open ones are queued, or their parent's cells given up.
    fn queue_open(&mut self, parent: &Block, length: usize, open: Vec<Block>) -> Result<(), Refusal> {
        let number = self.record.taken;
        let found = found_directions(self.record.set, parent.direction, &open);
        let new: Vec<Block> = found.iter().flatten().cloned().collect();
        if !new.is_empty() && self.record.queued + new.len() as u64 > 1 << 32 {
            return Err(7);
        }
        let (bytes, back) = codes(self.record.set, &new, &put_last(&self.record.back));
        if self.record.used - length + bytes.len() > self.record.len {
            return Err(6);
        }
        for child in found {
            match child {
                None => self.covered(parent).iter().for_each(|&at| self.cells[at] = GIVEN_UP),
                Some(block) => {
                    for at in self.covered(&block) {
                        if (number..TRUE).contains(&self.cells[at]) {
                            self.cells[at] = self.record.queued;
                        }
                    }
                    self.record.queued += 1;
                }
            }
        }
        self.record.taken += 1;
        self.record.head = (self.record.head + length) % self.record.len;
        self.record.used -= length;
        self.record.front = Last { x: parent.x, y: parent.y, parameters: parent.parameters };
        self.record.back = back;
        self.append(&bytes);
        Ok(())
    }
}
