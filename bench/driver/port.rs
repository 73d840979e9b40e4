//! The port behind its C interface, with the memory that it is lent.

#[path = "../../compare/driver/abi.rs"]
#[allow(dead_code)]
pub mod abi;
#[path = "../../compare/driver/calls.rs"]
#[allow(dead_code)]
pub mod calls;

use calls::*;
use oracle::oracle::Setup;

/// What setup and least ring are handed.
pub fn asked(setup: &Setup) -> (abi::Chosen, abi::Ranges) {
    let Setup { width, height, set, reserved: [reserved1, reserved2, reserved3], parameters } = *setup;
    let [m, n, theta, t] = parameters.map(|(lower, upper)| abi::Interval { lower, upper });
    (abi::Chosen { width, height, set, reserved1, reserved2, reserved3 }, abi::Ranges { m, n, theta, t })
}

/// The lent buffers and the record.
#[derive(Clone)]
pub struct Port {
    pub state: abi::State,
    pub ring: Vec<u8>,
    pub cells: Vec<u64>,
}

impl Port {
    /// Buffers of zeros that no one has touched yet, as the original's are when it is set up.
    pub fn lent(setup: &Setup, ring: usize) -> Port {
        let pixels = setup.width as usize * setup.height as usize;
        Port { state: abi::State::default(), ring: vec![0; ring], cells: vec![0; pixels] }
    }

    pub fn setup(&mut self, setup: &Setup) {
        let (chosen, ranges) = asked(setup);
        let (ring, ring_len, cells, cells_len) = self.memory();
        let answer = unsafe { smyrilox_setup(chosen, ranges, ring, ring_len, cells, cells_len) };
        assert!(answer.refusal == 0, "setup refused by {}", answer.refusal);
        self.state = answer.state;
    }

    pub fn made(setup: &Setup, ring: usize) -> Port {
        let mut made = Port::lent(setup, ring);
        made.setup(setup);
        made
    }

    pub fn memory(&mut self) -> (*mut u8, usize, *mut u64, usize) {
        (self.ring.as_mut_ptr(), self.ring.len(), self.cells.as_mut_ptr(), self.cells.len())
    }

    pub fn children(&self) -> abi::Listed {
        unsafe { smyrilox_children(self.state, self.ring.as_ptr(), self.ring.len()) }
    }

    pub fn step(&mut self, verdicts: &[u8]) -> abi::Stepped {
        let (ring, ring_len, cells, cells_len) = self.memory();
        let (at, count) = (verdicts.as_ptr(), verdicts.len());
        let answer = unsafe { smyrilox_step(self.state, ring, ring_len, cells, cells_len, at, count) };
        self.state = answer.state;
        answer
    }

    pub fn run(&mut self, tape: &[u8], steps: u64) -> abi::Ran {
        let (ring, ring_len, cells, cells_len) = self.memory();
        let (at, count) = (tape.as_ptr(), tape.len());
        let answer = unsafe { smyrilox_run(self.state, ring, ring_len, cells, cells_len, at, count, steps as u32) };
        self.state = answer.state;
        answer
    }

    pub fn picture(&self, bytes: &mut [u8]) -> u64 {
        let (cells, count) = (self.cells.as_ptr(), self.cells.len());
        unsafe { smyrilox_picture(self.state, cells, count, bytes.as_mut_ptr(), bytes.len()) }
    }

    /// The queue's bytes in order.
    pub fn queue_bytes(&self) -> impl Iterator<Item = u8> + '_ {
        (0..self.state.used).map(|i| self.ring[(self.state.head + i) % self.ring.len()])
    }
}
