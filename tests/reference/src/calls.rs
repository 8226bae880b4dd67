//! The exported functions with their arguments as data, for the programs that hold the library to this reference.
//!
//! Arguments stand in the order of `include/fleecebutton.h`, the outputs last. A call leaves in the outputs what the function leaves
//! there, and answers the function's value, 0 where it has none.

use crate::{Choice, Refusal};
use Argument::{Bytes, Doubles, Number, Numbers};

#[derive(Clone, Debug, PartialEq, Eq, Hash)]
pub enum Argument {
    Number(i64),
    Bytes(Vec<u8>),
    Numbers(Vec<i32>),
    /// By their bits, so that nothing that a double can hold is taken for another.
    Doubles(Vec<u64>),
}

/// What the reference answers, and leaves in the arguments.
pub type Call = fn(&mut [Argument]) -> Result<u64, Refusal>;

/// The word that an answer is: a refusal's number and place, or a success and its value.
pub fn word(answer: Result<u64, Refusal>) -> u64 {
    match answer {
        Ok(value) => 256 * value,
        Err(refusal) => u64::from(refusal.number) + 256 * (refusal.place % (1 << 56)),
    }
}

pub fn predict(arguments: &mut [Argument]) -> Result<u64, Refusal> {
    let [Bytes(neighbours), Number(flags), Number(mode), Bytes(out)] = arguments else {
        unreachable!()
    };
    crate::predict(neighbours, *flags as u8, *mode as u8, out).map(|()| 0)
}

pub fn choose(arguments: &mut [Argument]) -> Result<u64, Refusal> {
    let [Bytes(neighbours), Number(flags), Bytes(samples), Bytes(prediction)] = arguments else {
        unreachable!()
    };
    crate::choose(neighbours, *flags as u8, samples, prediction).map(value)
}

pub fn forward(arguments: &mut [Argument]) -> Result<u64, Refusal> {
    let [Numbers(residual), Numbers(coefficients)] = arguments else {
        unreachable!()
    };
    crate::forward(residual, coefficients).map(|()| 0)
}

pub fn levels(arguments: &mut [Argument]) -> Result<u64, Refusal> {
    let [Number(qp), Numbers(residual), Numbers(levels)] = arguments else {
        unreachable!()
    };
    crate::levels(*qp as u8, residual, levels).map(|()| 0)
}

pub fn rebuild(arguments: &mut [Argument]) -> Result<u64, Refusal> {
    let [Number(qp), Bytes(prediction), Numbers(levels), Bytes(out)] = arguments else {
        unreachable!()
    };
    crate::rebuild(*qp as u8, prediction, levels, out).map(|()| 0)
}

pub fn rebuild_with_dc(arguments: &mut [Argument]) -> Result<u64, Refusal> {
    let [Number(qp), Bytes(prediction), Number(dc), Numbers(ac), Bytes(out)] = arguments else {
        unreachable!()
    };
    crate::rebuild_with_dc(*qp as u8, prediction, *dc as i32, ac, out).map(|()| 0)
}

pub fn luma_dc_levels(arguments: &mut [Argument]) -> Result<u64, Refusal> {
    dc(arguments, crate::luma_dc_levels)
}

pub fn luma_dc_values(arguments: &mut [Argument]) -> Result<u64, Refusal> {
    dc(arguments, crate::luma_dc_values)
}

pub fn chroma_dc_levels(arguments: &mut [Argument]) -> Result<u64, Refusal> {
    dc(arguments, crate::chroma_dc_levels)
}

pub fn chroma_dc_values(arguments: &mut [Argument]) -> Result<u64, Refusal> {
    dc(arguments, crate::chroma_dc_values)
}

pub fn chroma_quantizer(arguments: &mut [Argument]) -> Result<u64, Refusal> {
    let [Number(qp), Number(offset)] = arguments else {
        unreachable!()
    };
    crate::chroma_quantizer(*qp as u8, *offset as i32).map(u64::from)
}

pub fn code_block(arguments: &mut [Argument]) -> Result<u64, Refusal> {
    let [Number(qp), Number(flags), Bytes(neighbours), Bytes(samples), Numbers(levels), Bytes(rebuilt)] =
        arguments
    else {
        unreachable!()
    };
    crate::code_block(
        *qp as u8,
        *flags as u8,
        neighbours,
        samples,
        levels,
        rebuilt,
    )
    .map(value)
}

pub fn promised_distance(arguments: &mut [Argument]) -> Result<u64, Refusal> {
    let [Number(qp)] = arguments else {
        unreachable!()
    };
    crate::promised_distance(*qp as u8)
}

pub fn code_plane(arguments: &mut [Argument]) -> Result<u64, Refusal> {
    let [Number(width), Number(height), Number(rows), Number(qp), Bytes(plane), Bytes(file), Bytes(rebuilt)] =
        arguments
    else {
        unreachable!()
    };
    let [width, height, rows] = [width, height, rows].map(|number| *number as usize);
    crate::code_plane(width, height, rows, *qp as u8, plane, file, rebuilt).map(|used| used as u64)
}

pub fn read_head(arguments: &mut [Argument]) -> Result<u64, Refusal> {
    let [Bytes(file)] = arguments else {
        unreachable!()
    };
    let layout = crate::record::read_head(file)?;
    Ok((layout.width + 256 * layout.height + 65536 * layout.rows) as u64)
}

pub fn decode_plane(arguments: &mut [Argument]) -> Result<u64, Refusal> {
    let [Bytes(file), Bytes(plane)] = arguments else {
        unreachable!()
    };
    crate::decode_plane(file, plane).map(|()| 0)
}

pub fn code_picture(arguments: &mut [Argument]) -> Result<u64, Refusal> {
    let [Number(width), Number(height), Number(rows), Number(qp), Number(cb_offset), Number(cr_offset), Bytes(luma), Bytes(cb), Bytes(cr), Bytes(file), Bytes(luma_out), Bytes(cb_out), Bytes(cr_out)] =
        arguments
    else {
        unreachable!()
    };
    let [width, height, rows] = [width, height, rows].map(|number| *number as usize);
    let [cb_offset, cr_offset] = [cb_offset, cr_offset].map(|number| *number as i32);
    crate::code_picture(
        width, height, rows, *qp as u8, cb_offset, cr_offset, luma, cb, cr, file, luma_out, cb_out,
        cr_out,
    )
    .map(|used| used as u64)
}

pub fn decode_picture(arguments: &mut [Argument]) -> Result<u64, Refusal> {
    let [Bytes(file), Bytes(luma), Bytes(cb), Bytes(cr)] = arguments else {
        unreachable!()
    };
    crate::decode_picture(file, luma, cb, cr).map(u64::from)
}

pub fn inspect(arguments: &mut [Argument]) -> Result<u64, Refusal> {
    let [Bytes(file), Bytes(theirs)] = arguments else {
        unreachable!()
    };
    crate::inspect(file, theirs).map(|()| 0)
}

pub fn quality_sheet(arguments: &mut [Argument]) -> Result<u64, Refusal> {
    let [Number(width), Number(height), Bytes(original), Bytes(rebuilt), Bytes(map), Doubles(out)] =
        arguments
    else {
        unreachable!()
    };
    let (width, height) = (*width as usize, *height as usize);
    let mut means: Vec<f64> = out.iter().map(|&bits| f64::from_bits(bits)).collect();
    let sheet = crate::quality_sheet(width, height, original, rebuilt, map, &mut means)?;
    if sheet {
        *out = means.iter().map(|mean| mean.to_bits()).collect();
    }
    Ok(sheet.into())
}

fn value(choice: Choice) -> u64 {
    choice.mode as u64 + 16 * u64::from(choice.sad)
}

type Dc = fn(u8, &[i32], &mut [i32]) -> Result<(), Refusal>;

fn dc(arguments: &mut [Argument], function: Dc) -> Result<u64, Refusal> {
    let [Number(qp), Numbers(given), Numbers(out)] = arguments else {
        unreachable!()
    };
    function(*qp as u8, given, out).map(|()| 0)
}
