//! How many pixels of each tile read what: a table beside the picture, and a thumbnail of it.

use crate::{ffi, room::zeros, Buffers, Chart, Refusal};

/// How many numbers a tile has: True, False, Uncertain, given up.
const NUMBERS: usize = 4;
/// The side of a tile in pixels.
const SIDE: usize = 16;

/// The counts of a chart's tiles. A tile has 16 by 16 pixels; those at the right and the lower edge may be smaller.
#[derive(Clone, Debug, PartialEq, Eq)]
pub struct Table {
    columns: usize,
    rows: usize,
    pub(crate) numbers: Vec<u32>,
}

/// The pixels of a tile by reading, and the given-up ones, which are uncertain too.
#[derive(Clone, Copy, Debug, Default, PartialEq, Eq)]
pub struct Tile {
    pub yes: u32,
    pub no: u32,
    pub uncertain: u32,
    pub given_up: u32,
}

impl<B: Buffers> Chart<B> {
    /// The same chart with a table of its tiles' counts, filled now and from now on brought up to date by every step. It is not saved: ask
    /// for it again of a chart that was loaded.
    ///
    /// ```
    /// use smyrilox::{Chart, Setup, Tile, Variables};
    ///
    /// let mut chart = Chart::for_steps(&Setup::new(20, 18, Variables::X | Variables::Y), 10)?.with_table()?;
    /// chart.step(&[0x40, 0x80, 0x00, 0x40])?;
    /// let table = chart.table().unwrap();
    /// assert_eq!((table.columns(), table.rows()), (2, 2));
    /// assert_eq!(table.tile(1, 0), Tile { yes: 56, no: 0, uncertain: 8, given_up: 0 });
    /// assert_eq!(table.thumbnail(), [150, 70, 140, 0]);
    /// # Ok::<(), smyrilox::Refusal>(())
    /// ```
    pub fn with_table(mut self) -> Result<Chart<B>, Refusal> {
        let (width, height) = self.size();
        let along = |side: u32| (side as usize + SIDE - 1) / SIDE;
        let tiles = unsafe { ffi::smyrilox_tile_count(width, height) };
        Refusal::check(tiles.refusal)?;
        let numbers = zeros(NUMBERS * tiles.value as usize)?;
        let mut table = Table { columns: along(width), rows: along(height), numbers };
        self.fill_table(&mut table.numbers)?;
        self.table = Some(table);
        Ok(self)
    }

    /// The table, if one was asked for.
    pub fn table(&self) -> Option<&Table> {
        self.table.as_ref()
    }

    /// The counts of all tiles as they stand into lent numbers, four a tile: True, False, Uncertain, given up. Tiles go row by row from the
    /// top left, and numbers beyond them stay. Refused by 17 where there are too few; then none has changed.
    pub fn fill_table(&self, numbers: &mut [u32]) -> Result<(), Refusal> {
        let cells = self.buffers.cells();
        let answer = unsafe {
            ffi::smyrilox_fill_table(self.state, cells.as_ptr(), cells.len(), numbers.as_mut_ptr(), numbers.len())
        };
        Refusal::check(answer)
    }
}

impl Table {
    /// How many tiles lie side by side.
    pub fn columns(&self) -> usize {
        self.columns
    }

    /// How many tiles lie above each other.
    pub fn rows(&self) -> usize {
        self.rows
    }

    /// The numbers, four a tile: True, False, Uncertain, given up; row by row from the top left.
    pub fn numbers(&self) -> &[u32] {
        &self.numbers
    }

    /// The tile in a column and a row from the top.
    pub fn tile(&self, column: usize, row: usize) -> Tile {
        assert!(column < self.columns, "tile column {column} of {}", self.columns);
        assert!(row < self.rows, "tile row {row} of {}", self.rows);
        let at = NUMBERS * (row * self.columns + column);
        Tile::of(&self.numbers[at..at + NUMBERS])
    }

    /// The tiles, row by row from the top left.
    pub fn tiles(&self) -> impl Iterator<Item = Tile> + '_ {
        self.numbers.chunks_exact(NUMBERS).map(Tile::of)
    }

    /// The picture made small: the shade of each tile, row by row from the top left.
    pub fn thumbnail(&self) -> Vec<u8> {
        self.tiles().map(Tile::shade).collect()
    }
}

impl Tile {
    fn of(numbers: &[u32]) -> Tile {
        Tile { yes: numbers[0], no: numbers[1], uncertain: numbers[2], given_up: numbers[3] }
    }

    /// All of its pixels.
    pub fn pixels(self) -> u32 {
        self.yes + self.no + self.uncertain
    }

    /// Its grey in a thumbnail, 0 black to 255 white. White means no: a tile is white only if every pixel of it reads False, and black only
    /// if every pixel reads True. Any other is a grey from 220 to 60, the darker the more of it is True; an uncertain pixel counts half, so
    /// that a tile of which nothing is known has the picture's own grey, 140.
    pub fn shade(self) -> u8 {
        let pixels = self.pixels();
        match self {
            Tile { no, .. } if 0 < no && no == pixels => 255,
            Tile { yes, .. } if 0 < yes && yes == pixels => 0,
            Tile { yes, uncertain, .. } => (220 - 80 * (2 * yes + uncertain) / pixels.max(1)) as u8,
        }
    }
}
