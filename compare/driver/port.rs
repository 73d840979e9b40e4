//! Another engine behind the C interface of `abi.rs`, with the memory that it is lent.

use crate::{abi, boxes::Answer, calls::*, engine::*, leaves::Leaves, paper_boxes::*};

fn interval((lower, upper): Bounds) -> abi::Interval {
    abi::Interval { lower, upper }
}

fn bounds(x: abi::Interval) -> Bounds {
    (x.lower, x.upper)
}

fn chosen(width: u32, height: u32, set: u8, reserved: [u8; 3]) -> abi::Chosen {
    let [reserved1, reserved2, reserved3] = reserved;
    abi::Chosen { width, height, set, reserved1, reserved2, reserved3 }
}

pub fn state(r: &Record) -> abi::State {
    let last = |l: &Last| {
        let [m, n, theta, t] = l.parameters.map(interval);
        abi::Last { x: l.x, y: l.y, m, n, theta, t }
    };
    abi::State {
        chosen: chosen(r.width, r.height, r.set, r.reserved),
        taken: r.taken,
        queued: r.queued,
        len: r.len,
        head: r.head,
        used: r.used,
        front: last(&r.front),
        back: last(&r.back),
    }
}

/// What setup and least ring are handed.
pub fn asked(setup: &Setup) -> (abi::Chosen, abi::Ranges) {
    let [m, n, theta, t] = setup.parameters.map(interval);
    (chosen(setup.width, setup.height, setup.set, setup.reserved), abi::Ranges { m, n, theta, t })
}

pub fn record(s: &abi::State) -> Record {
    let last = |l: &abi::Last| Last { x: l.x, y: l.y, parameters: [l.m, l.n, l.theta, l.t].map(bounds) };
    let abi::Chosen { width, height, set, reserved1, reserved2, reserved3 } = s.chosen;
    Record {
        width,
        height,
        set,
        reserved: [reserved1, reserved2, reserved3],
        taken: s.taken,
        queued: s.queued,
        len: s.len,
        head: s.head,
        used: s.used,
        front: last(&s.front),
        back: last(&s.back),
    }
}

/// The answer, or its refusal.
pub fn unless_refused<T>(refusal: u64, answer: T) -> Result<T, Refusal> {
    if refusal == 0 {
        Ok(answer)
    } else {
        Err(refusal as Refusal)
    }
}

/// What a run says of itself.
pub fn ended(ran: &abi::Ran) -> Result<Ran, Refusal> {
    if ran.refusal != 0 {
        return Err(ran.refusal as Refusal);
    }
    let end = match ran.ending {
        1 => RunEnd::Done,
        2 => RunEnd::Limit,
        3 => RunEnd::More,
        4 => RunEnd::Stop(ran.stop as Refusal),
        other => panic!("no ending has the number {other}"),
    };
    Ok(Ran { end, steps: ran.steps, evaluations: ran.evaluations, tape: ran.tape as u64 })
}

pub struct PortMaker;

#[derive(Clone)]
pub struct Port {
    pub state: abi::State,
    pub ring: Vec<u8>,
    pub cells: Vec<u64>,
}

impl Maker for PortMaker {
    type Engine = Port;

    fn setup(&self, setup: &Setup, mut ring: Vec<u8>, mut cells: Vec<u64>) -> Result<Port, Refusal> {
        let (chosen, ranges) = asked(setup);
        let (ring_at, ring_len, cells_at, cells_len) = (ring.as_mut_ptr(), ring.len(), cells.as_mut_ptr(), cells.len());
        let made = unsafe { smyrilox_setup(chosen, ranges, ring_at, ring_len, cells_at, cells_len) };
        unless_refused(made.refusal, Port { state: made.state, ring, cells })
    }

    fn resume(&self, record: &Record, ring: Vec<u8>, cells: Vec<u64>) -> Port {
        Port { state: state(record), ring, cells }
    }
}

impl Engine for Port {
    fn record(&self) -> Record {
        record(&self.state)
    }

    fn ring(&self) -> &[u8] {
        &self.ring
    }

    fn cells(&self) -> &[u64] {
        &self.cells
    }

    fn children(&self) -> Result<Vec<Child>, Refusal> {
        let listed = unsafe { smyrilox_children(self.state, self.ring.as_ptr(), self.ring.len()) };
        let child = |b: &abi::Child| {
            assert!(b.x.level == b.y.level);
            let parameters = [b.m, b.n, b.theta, b.t].map(bounds);
            Child { x: b.x.index, y: b.y.index, level: b.x.level as i8, parameters }
        };
        unless_refused(listed.refusal, listed.at[..listed.count].iter().map(child).collect())
    }

    fn step(&mut self, verdicts: &[u8]) -> Result<Stepped, Refusal> {
        let (ring, ring_len) = (self.ring.as_mut_ptr(), self.ring.len());
        let (cells, cells_len) = (self.cells.as_mut_ptr(), self.cells.len());
        let done =
            unsafe { smyrilox_step(self.state, ring, ring_len, cells, cells_len, verdicts.as_ptr(), verdicts.len()) };
        self.state = done.state;
        unless_refused(done.refusal, Stepped { evaluations: done.evaluations, tape: done.tape as u64 })
    }

    fn run(&mut self, tape: &[u8], budget: u32) -> Result<Ran, Refusal> {
        let (ring, ring_len) = (self.ring.as_mut_ptr(), self.ring.len());
        let (cells, cells_len) = (self.cells.as_mut_ptr(), self.cells.len());
        let ran =
            unsafe { smyrilox_run(self.state, ring, ring_len, cells, cells_len, tape.as_ptr(), tape.len(), budget) };
        self.state = ran.state;
        ended(&ran)
    }

    fn picture(&self, bytes: &mut [u8]) -> Result<(), Refusal> {
        let (cells, cells_len) = (self.cells.as_ptr(), self.cells.len());
        let refusal = unsafe { smyrilox_picture(self.state, cells, cells_len, bytes.as_mut_ptr(), bytes.len()) };
        unless_refused(refusal, ())
    }

    fn counts(&self) -> Result<Counts, Refusal> {
        let c = unsafe { smyrilox_counts(self.state, self.cells.as_ptr(), self.cells.len()) };
        let abi::Tally { trues, falses, uncertain, givenup, queued, share } = c.counts;
        unless_refused(c.refusal, Counts { yes: trues, no: falses, uncertain, given_up: givenup, queued, share })
    }
}

/// The leaves of the same engine. It is asked nothing that it may refuse.
pub struct PortLeaves;

fn answered<T>(refusal: u64, answer: T) -> T {
    unless_refused(refusal, answer).unwrap_or_else(|number| panic!("a leaf refused a legal question by {number}"))
}

fn pieces(p: abi::Pieces) -> Vec<Bounds> {
    answered(p.refusal, p.at[..p.count].iter().map(|&x| bounds(x)).collect())
}

fn coordinate(index: u64, level: i8) -> abi::Coordinate {
    abi::Coordinate { index, level: level as i32 }
}

impl Leaves for PortLeaves {
    fn midpoint(&self, x: Bounds) -> f64 {
        let answer = unsafe { smyrilox_midpoint(interval(x)) };
        answered(answer.refusal, answer.value)
    }

    fn simple_fraction(&self, x: Bounds) -> f64 {
        let answer = unsafe { smyrilox_simple_fraction(interval(x)) };
        answered(answer.refusal, answer.value)
    }

    fn subdivision_point(&self, x: Bounds, integer: bool) -> f64 {
        let answer = unsafe { smyrilox_subdivision_point(interval(x), integer) };
        answered(answer.refusal, answer.value)
    }

    fn is_subdivisible(&self, x: Bounds, integer: bool) -> bool {
        let answer = unsafe { smyrilox_is_subdivisible(interval(x), integer) };
        answered(answer.refusal, answer.value == 1)
    }

    fn first_cut(&self, x: Bounds, integer: bool) -> Vec<Bounds> {
        pieces(unsafe { smyrilox_first_cut(interval(x), integer) })
    }

    fn later_cut(&self, x: Bounds, integer: bool) -> Vec<Bounds> {
        pieces(unsafe { smyrilox_later_cut(interval(x), integer) })
    }

    fn write_small(&self, x: u64) -> Vec<u8> {
        let answer = unsafe { smyrilox_write_small(x) };
        let mut code = vec![answer.head];
        code.extend(&answer.tail.to_le_bytes()[..answer.count]);
        answered(answer.refusal, code)
    }

    fn read_small(&self, bytes: &[u8]) -> (u64, usize) {
        let answer = unsafe { smyrilox_read_small(bytes.as_ptr(), bytes.len()) };
        answered(answer.refusal, (answer.value, answer.count))
    }

    fn pixel_index(&self, index: u64, level: i8) -> u64 {
        let answer = unsafe { smyrilox_pixel_index(coordinate(index, level)) };
        answered(answer.refusal, answer.value)
    }

    fn halves(&self, index: u64, level: i8) -> ([u64; 2], i8) {
        let answer = unsafe { smyrilox_halves(coordinate(index, level)) };
        assert!(answer.low.level == answer.high.level);
        answered(answer.refusal, ([answer.low.index, answer.high.index], answer.low.level as i8))
    }

    fn is_halvable(&self, level: i8) -> bool {
        let answer = unsafe { smyrilox_is_halvable(coordinate(0, level)) };
        answered(answer.refusal, answer.value == 1)
    }
}

/// A block's box. Any byte but 0 asks for the precise map.
pub fn block_box(q: &Question) -> Answer {
    let place = |(index, level): (u64, i32)| abi::Coordinate { index, level };
    let [left, right, bottom, top] = q.plot.padding;
    let padding = abi::Padding { left, right, bottom, top };
    let [left, right, bottom, top] = q.plot.edges.map(interval);
    let edges = abi::Edges { left, right, bottom, top };
    let plot = abi::Plot { width: q.plot.width, height: q.plot.height, padding, edges };
    let kind = if q.precise { 1 + (q.x.0 % 255) as u8 } else { 0 };
    let made = unsafe { smyrilox_block_box(plot, kind, place(q.x), place(q.y)) };
    let abi::Edges { left, right, bottom, top } = made.edges;
    let edges = [left, right, bottom, top].map(bounds);
    (made.refusal as Refusal, Boxed { edges, ends: [bounds(made.x), bounds(made.y)] })
}
