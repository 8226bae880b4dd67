//! Incoming inspection of a supplier's file (request 11 of document 02).

use crate::record::read_head;
use crate::{decode_plane, Refusal};

/// Accepts a delivery exactly if the decoder accepts the file and its luma plane
/// equals theirs. Refusals: the decoder's, then DIFFERS.
pub fn inspect(file: &[u8], theirs: &[u8]) -> Result<(), Refusal> {
    let mut ours = vec![0; theirs.len()];
    decode_plane(file, &mut ours)?;
    let width = read_head(file)?.width;

    // macroblocks are in raster order, and so are the samples of each: the first place is the least
    let place = |at: usize| {
        let (x, y) = (at % (16 * width), at / (16 * width));
        let (number, sample) = (y / 16 * width + x / 16, y % 16 * 16 + x % 16);
        256 * number + sample
    };
    let differing = (0..ours.len()).filter(|&at| ours[at] != theirs[at]);
    match differing.map(place).min() {
        Some(place) => Err(Refusal::differs(place)),
        None => Ok(()),
    }
}
