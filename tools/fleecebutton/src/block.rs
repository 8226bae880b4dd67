//! The functions of blocks. Their arrays have their lengths in their types, so that LENGTH is never sent.
//!
//! Samples round a 4x4 block come in the order M, A to H, I to L; flags say which are present: 1 A-D, 2 I-L, 4 M, 8 E-H. Blocks go by rows,
//! levels in zigzag order, those of chroma DC by rows.

use crate::calls;
use crate::refusal::number::{FLAGS, LEVEL, MODE, QUANTIZER, RANGE};
use crate::refusal::Refusal;
use crate::words;

/// The mode that was chosen for a block.
#[derive(Clone, Copy, Debug, PartialEq, Eq)]
pub struct Choice {
    /// 0 to 8.
    pub mode: u8,
    /// The sum of the absolute differences between samples and prediction.
    pub sad: u32,
    /// The predicted samples.
    pub prediction: [u8; 16],
}

/// A block that was coded.
#[derive(Clone, Copy, Debug, PartialEq, Eq)]
pub struct CodedBlock {
    /// 0 to 8.
    pub mode: u8,
    /// Of that mode.
    pub sad: u32,
    /// In zigzag order.
    pub levels: [i32; 16],
    /// The samples that a decoder rebuilds.
    pub rebuilt: [u8; 16],
}

/// A mode's samples. FLAGS, MODE.
pub fn predict(neighbours: &[u8; 13], flags: u8, mode: u8) -> Result<[u8; 16], Refusal> {
    let mut out = [0; 16];
    calls::predict(neighbours, flags, mode, &mut out).value(|number, place| match number {
        FLAGS => words::flags(flags),
        MODE => words::mode(mode, flags),
        _ => words::unknown(place),
    })?;
    Ok(out)
}

/// The permitted mode with the least SAD, the lower number on a tie. FLAGS.
pub fn choose(neighbours: &[u8; 13], flags: u8, samples: &[u8; 16]) -> Result<Choice, Refusal> {
    let mut prediction = [0; 16];
    let value = calls::choose(neighbours, flags, samples, &mut prediction).value(|number, place| match number {
        FLAGS => words::flags(flags),
        _ => words::unknown(place),
    })?;
    let (mode, sad) = mode_and_sad(value);
    Ok(Choice { mode, sad, prediction })
}

/// Of a word's value, mode + 16 * SAD.
fn mode_and_sad(value: u64) -> (u8, u32) {
    ((value % 16) as u8, (value / 16) as u32)
}

/// Residuals to coefficients. RESIDUAL.
pub fn forward(residual: &[i32; 16]) -> Result<[i32; 16], Refusal> {
    let mut coefficients = [0; 16];
    calls::forward(residual, &mut coefficients)
        .value(|number, place| words::qp_or(number, 0, place, || words::residual(residual, place)))?;
    Ok(coefficients)
}

/// Residuals to levels. QUANTIZER, RESIDUAL.
pub fn levels(qp: u8, residual: &[i32; 16]) -> Result<[i32; 16], Refusal> {
    let mut levels = [0; 16];
    calls::levels(qp, residual, &mut levels).value(|number, place| words::qp_or(number, qp, place, || words::residual(residual, place)))?;
    Ok(levels)
}

/// Predicted samples and levels to samples. QUANTIZER, LEVEL, RANGE.
pub fn rebuild(qp: u8, prediction: &[u8; 16], levels: &[i32; 16]) -> Result<[u8; 16], Refusal> {
    let mut out = [0; 16];
    calls::rebuild(qp, prediction, levels, &mut out).value(|number, place| match number {
        QUANTIZER => words::qp(qp),
        LEVEL => words::level(levels, 0, place),
        RANGE => words::range(&named("the level", words::element(levels, place)), qp, place),
        _ => words::unknown(place),
    })?;
    Ok(out)
}

/// What it is, with its value if that is known.
fn named(what: &str, value: Option<i32>) -> String {
    value.map_or_else(|| String::from(what), |value| format!("{what} {value}"))
}

/// The same where the DC comes rescaled. QUANTIZER, LEVEL, RANGE; AC levels count from 1, and the DC is 0.
pub fn rebuild_with_dc(qp: u8, prediction: &[u8; 16], dc: i32, ac: &[i32; 15]) -> Result<[u8; 16], Refusal> {
    let mut out = [0; 16];
    calls::rebuild_with_dc(qp, prediction, dc, ac, &mut out).value(|number, place| match (number, place) {
        (QUANTIZER, _) => words::qp(qp),
        (LEVEL, _) => words::level(ac, 1, place),
        (RANGE, 0) => words::outside("a given DC", &[dc], 0, 0, "-32768 to 32767"),
        (RANGE, _) => words::range(&named("the level", words::element(ac, place - 1)), qp, place),
        _ => words::unknown(place),
    })?;
    Ok(out)
}

/// A macroblock's luma DC values, by rows of its blocks, to levels. QUANTIZER, RESIDUAL.
pub fn luma_dc_levels(qp: u8, dc: &[i32; 16]) -> Result<[i32; 16], Refusal> {
    let mut levels = [0; 16];
    calls::luma_dc_levels(qp, dc, &mut levels)
        .value(|number, place| words::qp_or(number, qp, place, || words::dc_coefficient(dc, place)))?;
    Ok(levels)
}

/// Levels to a macroblock's luma DC values, by rows of its blocks. QUANTIZER, LEVEL, RANGE.
pub fn luma_dc_values(qp: u8, levels: &[i32; 16]) -> Result<[i32; 16], Refusal> {
    let mut dc = [0; 16];
    calls::luma_dc_values(qp, levels, &mut dc).value(|number, place| dc_value(number, place, qp, levels))?;
    Ok(dc)
}

/// Of a DC path back: QUANTIZER, LEVEL, or RANGE of a DC value.
fn dc_value(number: u8, place: u64, qp: u8, levels: &[i32]) -> crate::refusal::Words {
    match number {
        QUANTIZER => words::qp(qp),
        LEVEL => words::level(levels, 0, place),
        RANGE => words::range("the DC value in the place of this level", qp, place),
        _ => words::unknown(place),
    }
}

/// Chroma DC values to levels. QUANTIZER, RESIDUAL.
pub fn chroma_dc_levels(qp: u8, dc: &[i32; 4]) -> Result<[i32; 4], Refusal> {
    let mut levels = [0; 4];
    calls::chroma_dc_levels(qp, dc, &mut levels)
        .value(|number, place| words::qp_or(number, qp, place, || words::dc_coefficient(dc, place)))?;
    Ok(levels)
}

/// Levels to chroma DC values. QUANTIZER, LEVEL, RANGE.
pub fn chroma_dc_values(qp: u8, levels: &[i32; 4]) -> Result<[i32; 4], Refusal> {
    let mut dc = [0; 4];
    calls::chroma_dc_values(qp, levels, &mut dc).value(|number, place| dc_value(number, place, qp, levels))?;
    Ok(dc)
}

/// The chroma quantizer of a QP and an offset. QUANTIZER.
pub fn chroma_quantizer(qp: u8, offset: i32) -> Result<u8, Refusal> {
    let value = calls::chroma_quantizer(qp, offset).value(|number, place| match number {
        QUANTIZER => words::quantizer(qp, &[("", offset)]),
        _ => words::unknown(place),
    })?;
    Ok(value as u8)
}

/// A block to the chosen mode's levels and the samples that a decoder rebuilds. FLAGS, QUANTIZER.
pub fn code_block(qp: u8, flags: u8, neighbours: &[u8; 13], samples: &[u8; 16]) -> Result<CodedBlock, Refusal> {
    let (mut levels, mut rebuilt) = ([0; 16], [0; 16]);
    let word = calls::code_block(qp, flags, neighbours, samples, &mut levels, &mut rebuilt);
    let value = word.value(|number, place| match number {
        FLAGS => words::flags(flags),
        QUANTIZER => words::qp(qp),
        _ => words::unknown(place),
    })?;
    let (mode, sad) = mode_and_sad(value);
    Ok(CodedBlock { mode, sad, levels, rebuilt })
}

/// A promise: no sample that [`code_block`] rebuilds at this QP is farther off its original. It speaks of 4x4 blocks, not of macroblocks
/// that are predicted as a whole, and not of chroma. QUANTIZER.
pub fn promised_distance(qp: u8) -> Result<u32, Refusal> {
    let value = calls::promised_distance(qp).value(|number, place| match number {
        QUANTIZER => words::qp(qp),
        _ => words::unknown(place),
    })?;
    Ok(value as u32)
}
