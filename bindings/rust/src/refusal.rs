//! Why a call was refused.

use std::{error, fmt};

/// The numbers of refusal. A refused call has changed nothing.
#[derive(Clone, Copy, Debug, PartialEq, Eq, Hash)]
#[non_exhaustive]
pub enum Refusal {
    Side,
    Cells,
    Parameter,
    /// Not one verdict for each child; in a run, what is left of the tape is less.
    Verdicts { given: usize, children: usize },
    /// A verdict that its child, by its place in the listing from 0 (a `Reason` counts from 1), cannot have on its level.
    Verdict { child: usize, level: i32, byte: u8 },
    Room,
    /// As `Room`, where a chart should get a longer ring: there is no memory for so many bytes.
    NoMemory { bytes: u64 },
    Numbers,
    Damaged,
    TooLarge,
    EndsEarly,
    HeadZero,
    Picture,
    Empty,
    Sheet,
    /// A bound of a block's box is not finite, or ends of the box cross.
    Bounds,
    /// The padding of a plot leaves no width or no height.
    Padding,
    /// A lent table has under four numbers a tile.
    Table,
    /// A pixel outside the picture.
    Pixel,
    /// A number that this crate has no name for: the library is a later one.
    Other(u64),
}

use Refusal::*;

/// The refusals that say no more than their number, with their words.
const WORDS: [(u64, Refusal, &str); 16] = [
    (1, Side, "a side is 0 or over 32768"),
    (2, Cells, "there are fewer cells than pixels"),
    (3, Parameter, "the set of variables, the range of a parameter or the interval of a plot's edge is not legal"),
    (6, Room, "the new blocks do not fit the ring"),
    (7, Numbers, "the numbers of blocks are used up"),
    (8, Damaged, "the record, the front block or a cell is damaged, or a block is none of the plot's"),
    (9, TooLarge, "the number has no code"),
    (10, EndsEarly, "the bytes of a code end early"),
    (11, HeadZero, "a code begins with the byte 0"),
    (12, Picture, "the picture buffer is shorter than the pixels"),
    (13, Empty, "the queue is empty"),
    (14, Sheet, "the sheet is not one that the program takes"),
    (15, Bounds, "a bound of the box is not finite, or its ends cross"),
    (16, Padding, "the padding leaves no width or no height"),
    (17, Table, "the table has fewer than four numbers a tile"),
    (18, Pixel, "the pixel lies outside the picture"),
];

impl Refusal {
    /// Its number in the table of refusals.
    pub fn number(self) -> u64 {
        match self {
            Verdicts { .. } => 4,
            Verdict { .. } => 5,
            NoMemory { .. } => 6,
            Other(number) => number,
            named => WORDS.iter().find(|row| row.1 == named).map_or(0, |row| row.0),
        }
    }

    /// The refusal with a number. Only a step or a run refuses verdicts, and says itself which.
    pub(crate) fn of(number: u64) -> Refusal {
        WORDS.iter().find(|row| row.0 == number).map_or(Other(number), |row| row.1)
    }

    /// Refused unless the number is 0.
    pub(crate) fn check(number: u64) -> Result<(), Refusal> {
        match number {
            0 => Ok(()),
            _ => Err(Refusal::of(number)),
        }
    }
}

impl fmt::Display for Refusal {
    fn fmt(&self, f: &mut fmt::Formatter) -> fmt::Result {
        write!(f, "refused {}: ", self.number())?;
        match self {
            Verdicts { given, children } => write!(f, "{given} verdicts for {children} children"),
            Verdict { child, level, byte } => write!(f, "child {child} (the first is 0), on level {level}, cannot have the verdict {byte:#04x}"),
            NoMemory { bytes } => write!(f, "there is no memory for {bytes} bytes"),
            Other(_) => write!(f, "this crate has no words for it"),
            named => write!(f, "{}", WORDS.iter().find(|row| row.1 == *named).map_or("", |row| row.2)),
        }
    }
}

impl error::Error for Refusal {}
