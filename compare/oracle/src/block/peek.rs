//! Views into the original's queue and calls of its private functions, from a module below it so that none of them
//! has to be made public. Nothing here decides anything.

use super::*;

/// The indices and intervals that a queue remembers at one of its ends.
#[derive(Clone, Copy, Debug)]
pub struct Last {
    pub x: u64,
    pub y: u64,
    pub parameters: [Interval; 4],
}

impl BlockQueue {
    pub fn byte_count(&self) -> usize {
        self.seq.len()
    }

    /// The queue's bytes, the oldest first.
    pub fn bytes(&self) -> impl Iterator<Item = u8> + '_ {
        self.seq.iter().copied()
    }

    pub fn last_taken(&self) -> Last {
        let parameters = [self.m_front, self.n_front, self.n_theta_front, self.t_front];
        Last { x: self.x_front, y: self.y_front, parameters }
    }

    pub fn last_queued(&self) -> Last {
        let parameters = [self.m_back, self.n_back, self.n_theta_back, self.t_back];
        Last { x: self.x_back, y: self.y_back, parameters }
    }

    /// The front block as `pop_front` gives it, off a copy of the queue's first bytes.
    pub fn front_block(&self) -> Option<Block> {
        const LONGEST: usize = 2 * (8 + 1) + 4 * 16 + 1;
        let seq = self.seq.iter().copied().take(LONGEST).collect();
        BlockQueue { seq, ..*self }.pop_front()
    }

    /// A queue that stands as described.
    pub fn resume(vars: VarSet, bytes: &[u8], numbers: [usize; 2], taken: Last, queued: Last) -> Self {
        let [m_front, n_front, n_theta_front, t_front] = taken.parameters;
        let [m_back, n_back, n_theta_back, t_back] = queued.parameters;
        BlockQueue {
            seq: bytes.iter().copied().collect(),
            store_vars: VarSet::X | VarSet::Y | vars,
            begin_index: numbers[0],
            end_index: numbers[1],
            x_front: taken.x,
            x_back: queued.x,
            y_front: taken.y,
            y_back: queued.y,
            m_front,
            m_back,
            n_front,
            n_back,
            n_theta_front,
            n_theta_back,
            t_front,
            t_back,
        }
    }
}

impl Clone for BlockQueue {
    fn clone(&self) -> Self {
        BlockQueue { seq: self.seq.clone(), ..*self }
    }
}

/// An empty queue of x and y whose storage starts in its middle, so that a code of some bytes goes round its end.
fn turned(turn: usize) -> BlockQueue {
    let mut queue = BlockQueue::new(VarSet::X | VarSet::Y);
    queue.seq.reserve(16);
    for _ in 0..turn {
        queue.seq.push_back(0);
        queue.seq.pop_front();
    }
    queue
}

/// The code of a small number.
pub fn write_small(x: u64, turn: usize) -> Vec<u8> {
    let mut queue = turned(turn);
    queue.push_small_u64(x);
    queue.bytes().collect()
}

/// The number at the start of bytes that hold a whole code, and the code's length.
pub fn read_small(bytes: &[u8], turn: usize) -> Option<(u64, usize)> {
    let mut queue = turned(turn);
    queue.seq.extend(bytes);
    let x = queue.pop_small_u64()?;
    Some((x, bytes.len() - queue.byte_count()))
}

pub fn cut_point(x: Interval, integer: bool) -> f64 {
    subdivision_point(x, integer)
}

/// A coordinate of any level, also below the least.
pub fn coordinate(i: u64, k: i8) -> Coordinate {
    Coordinate { i, k }
}
