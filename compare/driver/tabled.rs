//! The port with a table of tile counts beside the picture: the same engine, of which every call that can takes the table. After each
//! call the table must be a recount of the cells, a refused one must have left it, and a table that is too short must be refused by 17.

use crate::{
    abi,
    calls::*,
    engine::*,
    port::{asked, ended, record, state, unless_refused, Port},
};

pub struct TabledMaker;

#[derive(Clone)]
pub struct Tabled {
    port: Port,
    table: Vec<u32>,
}

/// What the numbers beyond four a tile hold, and how many of them are lent.
const BEYOND: u32 = 9;
const SPARE: usize = 2;

fn tile_count(width: u32, height: u32) -> usize {
    let tiles = unsafe { smyrilox_tile_count(width, height) };
    let is_picture = [width, height].iter().all(|side| (1..=32768).contains(side));
    assert!(tiles.refusal == !is_picture as u64, "tiles of {width} by {height}: {}", tiles.refusal);
    tiles.value as usize
}

fn fill(port: &Port, table: &mut [u32]) -> u64 {
    unsafe { smyrilox_fill_table(port.state, port.cells.as_ptr(), port.cells.len(), table.as_mut_ptr(), table.len()) }
}

impl Tabled {
    /// The table by the cells: a recount, pixel by pixel.
    fn recount(&self) -> Vec<u32> {
        const TRUE: u64 = 1 << 32;
        let (abi::Chosen { width, height, .. }, taken) = (self.port.state.chosen, self.port.state.taken);
        let (width, pixels) = (width as usize, width as usize * height as usize);
        let (columns, beyond) = ((width + 15) / 16, self.table.len() - SPARE);
        let mut due = vec![0; self.table.len()];
        due[beyond..].fill(BEYOND);
        for (i, &cell) in self.port.cells[..pixels].iter().enumerate() {
            let tile = 4 * (i / width / 16 * columns + i % width / 16);
            let place = if cell == TRUE { 0 } else { 2 - (cell < taken) as usize };
            due[tile + place] += 1;
            due[tile + 3] += (cell == TRUE + 1) as u32;
        }
        due
    }

    fn assert_recounts(&self, call: &str) {
        assert!(self.table == self.recount(), "{call}: the table is no recount of the picture");
        let mut filled = vec![BEYOND; self.table.len()];
        assert!(fill(&self.port, &mut filled) == 0 && filled == self.table, "{call}: nor is a filled one the table");
    }

    /// A step or a run with a table one number short: 17, and nothing has changed.
    fn assert_short(&self, call: impl FnOnce(&mut Port, &mut [u32]) -> u64) {
        let mut short = self.clone();
        let room = short.table.len() - SPARE - 1;
        assert!(call(&mut short.port, &mut short.table[..room]) == 17, "a table that is too short");
        assert!(fill(&short.port, &mut short.table[..room]) == 17, "or to be filled");
        let same = |a: &Port, b: &Port| a.ring == b.ring && a.cells == b.cells;
        assert!(short.table == self.table && same(&short.port, &self.port), "has changed something");
    }
}

fn set_up(setup: &Setup, ring: &mut [u8], cells: &mut [u64], table: &mut [u32]) -> abi::Started {
    let (chosen, ranges) = asked(setup);
    let (r, c, t) = (ring.as_mut_ptr(), cells.as_mut_ptr(), table.as_mut_ptr());
    unsafe { smyrilox_setup_with_table(chosen, ranges, r, ring.len(), c, cells.len(), t, table.len()) }
}

fn step(port: &mut Port, table: &mut [u32], verdicts: &[u8]) -> abi::Stepped {
    let Port { state, ring, cells } = port;
    let (r, c, t) = (ring.as_mut_ptr(), cells.as_mut_ptr(), table.as_mut_ptr());
    let (at, count) = (verdicts.as_ptr(), verdicts.len());
    unsafe { smyrilox_step_with_table(*state, r, ring.len(), c, cells.len(), t, table.len(), at, count) }
}

fn run(port: &mut Port, table: &mut [u32], tape: &[u8], budget: u32) -> abi::Ran {
    let Port { state, ring, cells } = port;
    let (r, c, t) = (ring.as_mut_ptr(), cells.as_mut_ptr(), table.as_mut_ptr());
    let (at, count) = (tape.as_ptr(), tape.len());
    unsafe { smyrilox_run_with_table(*state, r, ring.len(), c, cells.len(), t, table.len(), at, count, budget) }
}

impl Maker for TabledMaker {
    type Engine = Tabled;

    fn setup(&self, setup: &Setup, mut ring: Vec<u8>, mut cells: Vec<u64>) -> Result<Tabled, Refusal> {
        let tiles = tile_count(setup.width, setup.height);
        let mut table = vec![BEYOND; 4 * tiles + SPARE];
        let pixels = setup.width as usize * setup.height as usize;
        if tiles > 0 && pixels <= cells.len() {
            let refusal = set_up(setup, &mut ring, &mut cells, &mut table[..4 * tiles - 1]).refusal;
            assert!(refusal == 17, "a setup with a table that is too short: {refusal}");
        }
        let made = set_up(setup, &mut ring, &mut cells, &mut table);
        if made.refusal != 0 {
            assert!(table.iter().all(|&n| n == BEYOND), "a refused setup leaves the table");
            return Err(made.refusal as Refusal);
        }
        let tabled = Tabled { port: Port { state: made.state, ring, cells }, table };
        tabled.assert_recounts("setup");
        Ok(tabled)
    }

    fn resume(&self, record: &Record, ring: Vec<u8>, cells: Vec<u64>) -> Tabled {
        let port = Port { state: state(record), ring, cells };
        let mut table = vec![BEYOND; 4 * tile_count(record.width, record.height) + SPARE];
        assert!(fill(&port, &mut table) == 0, "a sound picture");
        let tabled = Tabled { port, table };
        tabled.assert_recounts("resume");
        tabled
    }
}

impl Engine for Tabled {
    fn record(&self) -> Record {
        record(&self.port.state)
    }

    fn ring(&self) -> &[u8] {
        &self.port.ring
    }

    fn cells(&self) -> &[u64] {
        &self.port.cells
    }

    fn children(&self) -> Result<Vec<Child>, Refusal> {
        self.port.children()
    }

    fn step(&mut self, verdicts: &[u8]) -> Result<Stepped, Refusal> {
        self.assert_short(|port, table| step(port, table, verdicts).refusal);
        let done = step(&mut self.port, &mut self.table, verdicts);
        self.port.state = done.state;
        self.assert_recounts("step");
        unless_refused(done.refusal, Stepped { evaluations: done.evaluations, tape: done.tape as u64 })
    }

    fn run(&mut self, tape: &[u8], budget: u32) -> Result<Ran, Refusal> {
        self.assert_short(|port, table| run(port, table, tape, budget).refusal);
        let ran = run(&mut self.port, &mut self.table, tape, budget);
        self.port.state = ran.state;
        self.assert_recounts("run");
        ended(&ran)
    }

    fn picture(&self, bytes: &mut [u8]) -> Result<(), Refusal> {
        self.port.picture(bytes)
    }

    fn counts(&self) -> Result<Counts, Refusal> {
        self.port.counts()
    }
}
