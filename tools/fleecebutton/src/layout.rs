//! How large a picture is and how it is cut.

use crate::pages;
use std::fmt;

/// Samples in a row of a macroblock, and in a column.
pub const SIDE: usize = 16;

/// The most macroblocks in a row of a picture, and in a column.
pub const MOST: usize = 128;

/// Bytes of the longest luma record, and of a chroma record.
const LUMA_RECORD: usize = 527;
const CHROMA_RECORD: usize = 265;

/// Width and height of a picture in macroblocks of 16x16 samples, and the rows of macroblocks of a slice. Any numbers are a layout: the
/// functions refuse one that no picture has.
#[derive(Clone, Copy, Debug, PartialEq, Eq)]
pub struct Layout {
    /// In macroblocks, 1 to [`MOST`].
    pub width: usize,
    /// In macroblocks, 1 to [`MOST`].
    pub height: usize,
    /// Of a slice, 1 to the height; the last slice may have fewer.
    pub rows: usize,
}

impl Layout {
    /// A picture that is not cut.
    pub const fn one_slice(width: usize, height: usize) -> Layout {
        Layout { width, height, rows: height }
    }

    /// Samples of the luma plane. (The lengths stop at the greatest number for what is no picture.)
    pub const fn samples(self) -> usize {
        (SIDE * SIDE).saturating_mul(self.macroblocks())
    }

    /// Samples of each chroma plane.
    pub const fn chroma_samples(self) -> usize {
        (SIDE * SIDE / 4).saturating_mul(self.macroblocks())
    }

    /// How many macroblocks there are.
    pub const fn macroblocks(self) -> usize {
        self.width.saturating_mul(self.height)
    }

    /// Bytes of the area that is lent for the file of a plane.
    pub const fn file_area(self) -> usize {
        self.head().saturating_add(LUMA_RECORD.saturating_mul(self.macroblocks()))
    }

    /// Bytes of the area that is lent for the file of a colour picture.
    pub const fn colour_file_area(self) -> usize {
        self.file_area().saturating_add(CHROMA_RECORD.saturating_mul(self.macroblocks()))
    }

    /// Bytes of the head that the coder writes.
    const fn head(self) -> usize {
        if self.rows == self.height {
            8
        } else {
            10
        }
    }

    /// So many bytes, to be lent; none where no picture is so large, since SIZE is then told before any length is looked at.
    pub(crate) fn area(self, bytes: usize) -> Vec<u8> {
        if self.width <= MOST && self.height <= MOST {
            pages::zeros(bytes)
        } else {
            Vec::new()
        }
    }

    /// A macroblock by its number.
    pub fn macroblock(self, number: u64) -> Macroblock {
        let width = self.width.max(1) as u64;
        Macroblock { number, column: number % width, row: number / width }
    }
}

/// A macroblock of a picture. They are numbered by rows, from 0.
#[derive(Clone, Copy, Debug, PartialEq, Eq)]
pub struct Macroblock {
    /// From 0.
    pub number: u64,
    /// In macroblocks, from 0.
    pub column: u64,
    /// In macroblocks, from 0.
    pub row: u64,
}

impl fmt::Display for Macroblock {
    fn fmt(&self, out: &mut fmt::Formatter) -> fmt::Result {
        write!(out, "macroblock {} (column {}, row {})", self.number, self.column, self.row)
    }
}
