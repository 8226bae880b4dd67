//! The functions that take no samples: lists of numbers, and quantizers.

use crate::request::{alone, everywhere, held_numbers, with, with_each, wrong_lengths};
use reference::calls::Argument::{self, Number, Numbers};
use reference::{Quantizer, Refusal};

const ENDS: [i32; 2] = [i32::MIN, i32::MAX];

/// Around the last legal QP.
pub const QPS: [i64; 3] = [51, 52, 255];

/// The worked block of Richardson's white paper on transform and quantization.
const RICHARDSON: [i32; 16] = [5, 11, 8, 10, 9, 8, 4, 12, 1, 10, 11, 4, 19, 6, 15, 7];

pub fn forward() -> Vec<Vec<Argument>> {
    let good = [Numbers(vec![1; 16]), held_numbers(16)];
    let residuals = [ENDS.as_slice(), &[-256, 256, -255, 255]].concat();
    [
        vec![good.to_vec()],
        wrong_lengths(&good),
        everywhere(&good, 0, 16, &residuals),
        vec![with(&good, 0, Numbers(RICHARDSON.to_vec()))],
    ]
    .concat()
}

pub fn levels() -> Vec<Vec<Argument>> {
    let good = [Number(10), Numbers(vec![1; 16]), held_numbers(16)];
    let residuals = [ENDS.as_slice(), &[-256, 256, -255, 255]].concat();
    [
        wrong_lengths(&good),
        with_each(&good, 0, &QPS),
        everywhere(&good, 1, 16, &residuals),
        vec![with(&good, 1, Numbers(RICHARDSON.to_vec()))],
    ]
    .concat()
}

/// Wrong lengths and QPs; at QP 0 the ends of 32 bits in every place, and these numbers in place 1; and a list at QP 28.
fn dc(count: usize, numbers: [i32; 4], list: Vec<i32>) -> Vec<Vec<Argument>> {
    let good = [Number(10), Numbers(vec![1; count]), held_numbers(count)];
    let lowest = with(&good, 0, Number(0));
    let in_place_1 = numbers.map(|number| with(&lowest, 1, alone(count, 1, number)));
    [
        wrong_lengths(&good),
        with_each(&good, 0, &QPS),
        everywhere(&lowest, 1, count, &ENDS),
        in_place_1.to_vec(),
        vec![vec![Number(28), Numbers(list), held_numbers(count)]],
    ]
    .concat()
}

pub fn luma_dc_levels() -> Vec<Vec<Argument>> {
    dc(16, [4080, 4081, -4080, -4081], vec![160; 16])
}

/// 160 sixteen times is 10 alone at QP 28.
pub fn luma_dc_values() -> Vec<Vec<Argument>> {
    let list = [[10].as_slice(), &[0; 15]].concat();
    dc(16, [13106, 13107, 32767, 32768], list)
}

pub fn chroma_dc_levels() -> Vec<Vec<Argument>> {
    dc(4, [4080, 4081, -4080, -4081], vec![160; 4])
}

/// 160 four times is 5 alone at QP 28.
pub fn chroma_dc_values() -> Vec<Vec<Argument>> {
    dc(4, [6553, 6554, 32767, 32768], vec![5, 0, 0, 0])
}

/// QP 0 to 52 and 255, with offsets in range, at its ends, just behind them, and at those of 32 bits.
pub fn chroma_quantizer() -> Vec<Vec<Argument>> {
    let offsets = [0, -12, 12, -13, 13, i32::MIN.into(), i32::MAX.into()];
    let of = |qp| offsets.map(|offset| vec![Number(qp), Number(offset)]);
    (0..=52).chain([255]).flat_map(of).collect()
}

/// Each number that a QP can have.
pub fn every_byte() -> Vec<Vec<Argument>> {
    (0..=255).map(|qp| vec![Number(qp)]).collect()
}

/// `Quantizer::new`, which is not exported: the quantizer's own number.
pub fn quantizer(arguments: &mut [Argument]) -> Result<u64, Refusal> {
    let [Number(qp)] = arguments else {
        unreachable!()
    };
    Quantizer::new(*qp as u8).map(|_| *qp as u64)
}
