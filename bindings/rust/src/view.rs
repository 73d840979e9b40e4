//! What is known of a chart so far.

use crate::{ffi, Buffers, Chart, Picture, Refusal};

/// Pixels by reading, given-up pixels (these are uncertain too), queued blocks, and the settled pixels (yes and no) in thousandths of
/// all, rounded down: `share` is 1000 exactly if no pixel is uncertain.
#[derive(Clone, Copy, Debug, PartialEq, Eq)]
pub struct Counts {
    pub yes: u64,
    pub no: u64,
    pub uncertain: u64,
    pub given_up: u64,
    pub queued: u64,
    pub share: u64,
}

/// The two kinds of uncertain pixels.
#[derive(Clone, Copy, Debug, PartialEq, Eq)]
pub enum Grey {
    /// A block that covers it is queued: further steps may decide it.
    Waits,
    /// A part of it can no longer be divided. It is not found False any more, and True only where a queued block still covers it.
    GivenUp,
}

/// The cell of a pixel that is given up.
const GIVEN_UP: u64 = (1 << 32) + 1;

impl<B: Buffers> Chart<B> {
    /// The picture as it stands.
    pub fn picture(&self) -> Result<Picture, Refusal> {
        let (width, height) = self.size();
        let mut bytes = vec![UNCERTAIN; width as usize * height as usize];
        self.draw(&mut bytes)?;
        Ok(Picture { width: width as usize, bytes })
    }

    /// The picture into lent bytes, rows from the top: False 0, Uncertain 1, True 2. Bytes beyond the pixels stay.
    /// Refused, it has drawn nothing, and bytes that were 0 before still look like an all white picture.
    pub fn draw(&self, bytes: &mut [u8]) -> Result<(), Refusal> {
        let cells = self.buffers.cells();
        let answer =
            unsafe { ffi::smyrilox_picture(self.state, cells.as_ptr(), cells.len(), bytes.as_mut_ptr(), bytes.len()) };
        Refusal::check(answer)
    }

    /// The greys of the picture told apart: for each pixel, rows from the top, which grey it is, or nothing where it is decided.
    pub fn greys(&self) -> Result<Vec<Option<Grey>>, Refusal> {
        let picture = self.picture()?;
        let grey = |(reading, cell): (&u8, &u64)| match (*reading, *cell) {
            (UNCERTAIN, GIVEN_UP) => Some(Grey::GivenUp),
            (UNCERTAIN, _) => Some(Grey::Waits),
            _ => None,
        };
        Ok(picture.bytes().iter().zip(self.buffers.cells()).map(grey).collect())
    }

    /// The counts as they stand.
    pub fn counts(&self) -> Result<Counts, Refusal> {
        let cells = self.buffers.cells();
        let counted = unsafe { ffi::smyrilox_counts(self.state, cells.as_ptr(), cells.len()) };
        Refusal::check(counted.refusal)?;
        let c = counted.counts;
        Ok(Counts { yes: c.trues, no: c.falses, uncertain: c.uncertain, given_up: c.givenup, queued: c.queued, share: c.share })
    }
}

/// The byte of an uncertain pixel.
const UNCERTAIN: u8 = 1;
