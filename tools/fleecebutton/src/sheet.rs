//! The quality sheet.

use crate::calls;
use crate::layout::Layout;
use crate::refusal::number::{FLAGS, LENGTH, SIZE};
use crate::refusal::Refusal;
use crate::words::{self, Lent};

/// How far a rebuilt plane is from its original: three means, each the exact sum divided once.
#[derive(Clone, Copy, Debug, PartialEq)]
pub struct Sheet {
    /// Of the absolute differences.
    pub mean_absolute_error: f64,
    /// Of the squared differences.
    pub mean_squared_error: f64,
    /// Of rebuilt less original.
    pub mean_signed_error: f64,
}

/// The sheet over the macroblocks that the map calls present (1 present, 0 absent), a byte for each of them by rows; none where nothing
/// is present. SIZE, LENGTH, FLAGS.
pub fn quality_sheet(width: usize, height: usize, original: &[u8], rebuilt: &[u8], map: &[u8]) -> Result<Option<Sheet>, Refusal> {
    let layout = Layout::one_slice(width, height);
    let mut means = [0.0; 3];
    let word = calls::quality_sheet(width, height, original, rebuilt, map, &mut means);
    let value = word.value(|number, place| match number {
        SIZE => words::size("planes are given as of", layout),
        LENGTH => words::length(
            layout,
            &[
                Lent::samples("the original", original.len(), layout.samples()),
                Lent::samples("the rebuilt plane", rebuilt.len(), layout.samples()),
                Lent::bytes("the map", map.len(), layout.macroblocks()),
            ],
        ),
        FLAGS => words::map(layout, map, place),
        _ => words::unknown(place),
    })?;
    let [mean_absolute_error, mean_squared_error, mean_signed_error] = means;
    Ok((value == 1).then_some(Sheet { mean_absolute_error, mean_squared_error, mean_signed_error }))
}
