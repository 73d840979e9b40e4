//! What a chart shows.

/// What a pixel reads. False is white: no mix of the pixel is a solution, if the evaluator was right.
#[derive(Clone, Copy, Debug, PartialEq, Eq)]
pub enum Reading {
    False,
    Uncertain,
    True,
}

/// A reading for each pixel, rows from the top.
#[derive(Clone, Debug, PartialEq, Eq)]
pub struct Picture {
    pub(crate) width: usize,
    pub(crate) bytes: Vec<u8>,
}

impl Picture {
    pub fn width(&self) -> usize {
        self.width
    }

    pub fn height(&self) -> usize {
        self.bytes.len() / self.width
    }

    /// The pixels as bytes: False 0, Uncertain 1, True 2.
    pub fn bytes(&self) -> &[u8] {
        &self.bytes
    }

    /// The rows from the top.
    pub fn rows(&self) -> impl Iterator<Item = &[u8]> {
        self.bytes.chunks(self.width)
    }

    /// The pixel in a column and a row from the top.
    pub fn reading(&self, column: usize, row: usize) -> Reading {
        assert!(column < self.width, "column {column} of a picture {} wide", self.width);
        match self.bytes[row * self.width + column] {
            0 => Reading::False,
            1 => Reading::Uncertain,
            _ => Reading::True,
        }
    }
}
