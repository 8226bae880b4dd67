//! Sizes of pictures in macroblocks.

use crate::netpbm::Picture;
use fleecebutton::{Layout, MOST, SIDE};
use std::borrow::Cow;

/// How often the last column and the last row have to be repeated.
#[derive(Clone, Copy, Debug, PartialEq, Eq)]
pub struct Missing {
    pub columns: usize,
    pub rows: usize,
}

impl Missing {
    pub fn of(picture: &Picture) -> Missing {
        let missing = |side: usize| side.next_multiple_of(SIDE) - side;
        Missing { columns: missing(picture.width), rows: missing(picture.height) }
    }

    pub fn nothing(self) -> bool {
        self == Missing { columns: 0, rows: 0 }
    }
}

/// A picture's size in macroblocks, the last of which may not be whole.
pub fn layout(picture: &Picture) -> Layout {
    Layout::one_slice(picture.width.div_ceil(SIDE), picture.height.div_ceil(SIDE))
}

/// The picture with its last column and its last row repeated. One that is too large for any file, or has no column or no row, stays as it
/// is: it will be refused for that.
pub fn padded(picture: Picture<'_>) -> Picture<'_> {
    let Picture { kind, width, height, samples } = &picture;
    let Missing { columns, rows } = Missing::of(&picture);
    let largest = SIDE * MOST;
    let depth = kind.depth();
    if samples.is_empty() || *width > largest || *height > largest {
        return picture;
    }
    let mut wider = Vec::with_capacity((width + columns) * (height + rows) * depth);
    let (row_length, last_sample) = (width * depth, width * depth - depth);
    for row in samples.chunks_exact(row_length) {
        wider.extend_from_slice(row);
        wider.extend(row[last_sample..].iter().cycle().take(columns * depth));
    }
    let last_row = wider.len() - (width + columns) * depth;
    for _ in 0..rows {
        wider.extend_from_within(last_row..last_row + (width + columns) * depth);
    }
    Picture { kind: *kind, width: width + columns, height: height + rows, samples: Cow::Owned(wider) }
}
