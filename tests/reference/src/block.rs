//! The residual path of one 4x4 block, and the coding of a whole block.

use crate::neighbours::Neighbours;
use crate::predict::{best_mode, Choice};
use crate::quantizer::{Quantizer, CLASS};
use crate::refusal::{in_16_bits, lent, lent_mut, test_residual, Refusal};
use crate::transform::{self, from_zigzag, to_zigzag, ZIGZAG};

/// The forward transform. Refusals: LENGTH, RESIDUAL.
pub fn forward(residual: &[i32], coefficients: &mut [i32]) -> Result<(), Refusal> {
    let residual = lent::<_, 16>(residual)?;
    let coefficients = lent_mut::<_, 16>(coefficients)?;
    test_residual(residual, -255..=255)?;
    *coefficients = transform::forward(residual);
    Ok(())
}

/// The levels of a residual in zigzag order.
/// Refusals: LENGTH, QUANTIZER, RESIDUAL.
pub fn levels(qp: u8, residual: &[i32], levels: &mut [i32]) -> Result<(), Refusal> {
    let residual = lent::<_, 16>(residual)?;
    let levels = lent_mut::<_, 16>(levels)?;
    let quantizer = Quantizer::new(qp)?;
    test_residual(residual, -255..=255)?;
    *levels = quantized(quantizer, residual);
    Ok(())
}

/// The samples made of a prediction and levels in zigzag order.
/// Refusals: LENGTH, QUANTIZER, LEVEL, RANGE.
pub fn rebuild(qp: u8, prediction: &[u8], levels: &[i32], out: &mut [u8]) -> Result<(), Refusal> {
    let prediction = lent::<_, 16>(prediction)?;
    let levels = lent::<_, 16>(levels)?;
    let out = lent_mut::<_, 16>(out)?;
    *out = clipped(unclipped(qp, prediction, levels)?);
    Ok(())
}

/// What `rebuild` clips. Refusals: QUANTIZER, LEVEL, RANGE.
pub fn unclipped(qp: u8, prediction: &[u8; 16], levels: &[i32; 16]) -> Result<[i32; 16], Refusal> {
    let quantizer = Quantizer::new(qp)?;
    let levels = in_16_bits(levels, Refusal::level)?;
    let rescaled = in_16_bits(&rescaled(quantizer, &levels), Refusal::range)?;
    Ok(added(prediction, &rescaled))
}

/// The samples made of a prediction, a DC value that is already rescaled, and
/// the 15 other levels in zigzag order.
/// Refusals: LENGTH, QUANTIZER, LEVEL, RANGE.
pub fn rebuild_with_dc(
    qp: u8,
    prediction: &[u8],
    dc: i32,
    ac: &[i32],
    out: &mut [u8],
) -> Result<(), Refusal> {
    let prediction = lent::<_, 16>(prediction)?;
    let ac = lent::<_, 15>(ac)?;
    let out = lent_mut::<_, 16>(out)?;
    let quantizer = Quantizer::new(qp)?;
    let ac = in_16_bits(ac, |index| Refusal::level(index + 1))?;

    let mut levels = [0; 16];
    levels[1..].copy_from_slice(&ac);
    let mut rescaled = rescaled(quantizer, &levels);
    rescaled[0] = i64::from(dc);
    let rescaled = in_16_bits(&rescaled, Refusal::range)?;
    *out = clipped(added(prediction, &rescaled));
    Ok(())
}

/// Codes a block: chooses the mode, and writes the levels in zigzag order and
/// the samples a decoder will make of them.
/// Refusals: LENGTH, FLAGS, QUANTIZER.
pub fn code_block(
    qp: u8,
    flags: u8,
    neighbours: &[u8],
    samples: &[u8],
    levels: &mut [i32],
    rebuilt: &mut [u8],
) -> Result<Choice, Refusal> {
    let neighbours = lent::<_, 13>(neighbours)?;
    let samples = lent::<_, 16>(samples)?;
    let levels = lent_mut::<_, 16>(levels)?;
    let rebuilt = lent_mut::<_, 16>(rebuilt)?;
    let neighbours = Neighbours::new(neighbours, flags)?;
    let quantizer = Quantizer::new(qp)?;

    let (choice, prediction) = best_mode(&neighbours, samples);
    let residual: [i32; 16] =
        std::array::from_fn(|place| i32::from(samples[place]) - i32::from(prediction[place]));
    *levels = quantized(quantizer, &residual);
    // The coder goes back by the decoder's own way.
    self::rebuild(qp, &prediction, levels, rebuilt)
        .expect("a residual's own levels rescale into 16 bits");
    Ok(choice)
}

/// Transforms and quantizes; the levels come out in zigzag order.
fn quantized(quantizer: Quantizer, residual: &[i32; 16]) -> [i32; 16] {
    let mut block = transform::forward(residual);
    for (value, class) in block.iter_mut().zip(CLASS) {
        *value = quantizer.quantize(*value, class, 0);
    }
    to_zigzag(&block)
}

/// Rescales levels. They stay in zigzag order, because a refusal names the
/// first offence in that order.
fn rescaled(quantizer: Quantizer, levels: &[i16; 16]) -> [i64; 16] {
    std::array::from_fn(|index| quantizer.rescale(levels[index], CLASS[ZIGZAG[index]]))
}

/// Inverse transform of rescaled values in zigzag order, added to the
/// prediction.
fn added(prediction: &[u8; 16], rescaled: &[i16; 16]) -> [i32; 16] {
    let residual = transform::inverse(&from_zigzag(rescaled));
    std::array::from_fn(|place| i32::from(prediction[place]) + residual[place])
}

fn clipped(samples: [i32; 16]) -> [u8; 16] {
    samples.map(|sample| sample.clamp(0, 255) as u8)
}

#[cfg(test)]
mod tests {
    use super::*;

    /// The worked block of Richardson's white paper on transform and
    /// quantization, at QP 10, in raster order.
    #[test]
    fn richardsons_block() {
        let x = [5, 11, 8, 10, 9, 8, 4, 12, 1, 10, 11, 4, 19, 6, 15, 7];
        let y = [
            140, -1, -6, 7, -19, -39, 7, -92, 22, 17, 8, 31, -27, -32, -59, -21,
        ];
        let z = [17, 0, -1, 0, -1, -2, 0, -5, 3, 1, 1, 2, -2, -1, -5, -1];
        let d = [
            544, 0, -32, 0, -40, -100, 0, -250, 96, 40, 32, 80, -80, -50, -200, -50,
        ];
        let back = [4, 13, 8, 10, 8, 8, 4, 12, 1, 10, 10, 3, 18, 5, 14, 7];

        let quantizer = Quantizer::new(10).unwrap();
        assert_eq!(transform::forward(&x), y);
        assert_eq!(from_zigzag(&quantized(quantizer, &x)), z);
        let rescaled = rescaled(quantizer, &to_zigzag(&z.map(|level| level as i16)));
        assert_eq!(from_zigzag(&rescaled), d.map(i64::from));
        assert_eq!(transform::inverse(&d.map(|value| value as i16)), back);

        // The same through the entry points.
        let mut coefficients = [0; 16];
        assert_eq!(super::forward(&x, &mut coefficients), Ok(()));
        assert_eq!(coefficients, y);
        let mut zigzag = [0; 16];
        assert_eq!(super::levels(10, &x, &mut zigzag), Ok(()));
        assert_eq!(zigzag, to_zigzag(&z));
        let mut out = [0; 16];
        assert_eq!(rebuild(10, &[100; 16], &zigzag, &mut out), Ok(()));
        assert_eq!(out.map(i32::from), back.map(|residual| 100 + residual));
    }
}
